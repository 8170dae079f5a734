-- `:checkhealth affedit`.
local dictionaries = require('affedit.dictionaries')
local service = require('affedit.service')
local M = {}

-- What reports are called differs between versions of Neovim.
local function reports()
    local health = vim.health or require('health')
    return {
        start = health.start or health.report_start,
        ok = health.ok or health.report_ok,
        warn = health.warn or health.report_warn,
        fault = health.error or health.report_error,
        info = health.info or health.report_info,
    }
end

-- Whether the program reads a dictionary.
local function check_reading(report, pair)
    local words = { 'env', 'AFFEDIT_NO_BUILD=1', service.options.program, 'edit', pair.aff, pair.dic }
    local output = vim.fn.system(words, 'quit\n')
    if vim.v.shell_error == 0 then
        report.ok('the program reads it')
        return
    end
    report.fault(('the program does not read it: status %d, %s'):format(vim.v.shell_error, vim.trim(output)), {
        'status 125: run the launcher `affedit` once in a shell, which builds the program',
        'affedit-prepare-dictionary (in a checkout tools/prepare-dictionary) makes a dictionary that is read; DICTIONARIES.md has the causes',
    })
end

-- The dictionary of the buffer that was current before the report.
local function check_dictionary(report, has_program)
    local last = vim.fn.bufnr('#')
    local pair, missing = service.pair_of(last > 0 and last or 0)
    if not pair then
        report.fault(missing, { 'names that are found: ' .. table.concat(dictionaries.names(), ', ') })
        return
    end
    report.ok('the dictionary: ' .. pair.stem)
    if has_program then
        check_reading(report, pair)
    end
    local own = service.own_of(pair)
    local reason = dictionaries.ensure_own(own, not service.options.own)
    if reason then
        report.fault('the personal list cannot be written: ' .. reason)
    else
        report.ok('the personal list: ' .. own)
    end
end

local function check_processes(report)
    local all = service.all()
    for _, one in ipairs(all) do
        if one.failed then
            report.fault(one.failed, { ':Affedit restart' })
        elseif one.process then
            report.ok(('a process runs with %s: %d'):format(one.pair.stem, one.process.pid))
        end
    end
    if #all == 0 then
        report.info('no process runs: no buffer is marked')
    end
end

function M.check()
    local report = reports()
    report.start('affedit')
    if not service.options.program then
        require('affedit').setup()
    end
    local path = service.options.program
    local has_program = vim.fn.executable(path) == 1
    if has_program then
        report.ok('the program: ' .. vim.fn.exepath(path))
    else
        report.fault('no program ' .. path, { 'give `program` to setup(), or put `affedit` on the PATH' })
    end
    check_dictionary(report, has_program)
    check_processes(report)
    if vim.fn.executable('hunspell') == 1 then
        report.ok('hunspell, for `:Affedit suggest`: ' .. vim.fn.exepath('hunspell'))
    else
        report.warn('no hunspell: `:Affedit suggest` suggests nothing')
    end
end

return M
