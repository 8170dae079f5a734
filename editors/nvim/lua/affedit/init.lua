-- Marks of misspelled words as they are typed, by Affedit. README.md tells how it is set up and what it does.
local buffers = require('affedit.buffers')
local diagnostics = require('affedit.diagnostics')
local dictionaries = require('affedit.dictionaries')
local jumps = require('affedit.jumps')
local marks = require('affedit.marks')
local service = require('affedit.service')
local turns = require('affedit.turns')
local words = require('affedit.words')
local M = {}

-- The launcher of the checkout or of the installation that this file belongs to; without one, what is found by the name `affedit`.
local function default_program()
    local here = vim.fn.resolve(vim.fn.fnamemodify(debug.getinfo(1, 'S').source:sub(2), ':p'))
    local folder = vim.fn.fnamemodify(here, ':h:h:h')
    -- TOP/editors/nvim, or PREFIX/share/nvim/site.
    local checkout, prefix = vim.fn.fnamemodify(folder, ':h:h'), vim.fn.fnamemodify(folder, ':h:h:h')
    for _, launcher in ipairs({ checkout .. '/affedit', prefix .. '/bin/affedit' }) do
        if vim.fn.executable(launcher) == 1 then
            return launcher
        end
    end
    return 'affedit'
end

local is_set = false

-- options: `program`, the path of the launcher; `dictionary`, a name, or a function that gets a buffer and returns one; `own`, the file of
-- one personal list for all dictionaries; `filetypes`, a list of those that are checked without a command; `scope`, `prose` without marks
-- in addresses, or `all`.
function M.setup(options)
    options = options or {}
    service.options = {
        program = options.program or default_program(),
        own = options.own,
        dictionary = options.dictionary or 'en_US',
        scope = options.scope or 'prose',
    }
    if not vim.tbl_contains({ 'prose', 'all' }, service.options.scope) then
        service.tell(('no scope %s: it is prose or all'):format(vim.inspect(service.options.scope)))
        service.options.scope = 'prose'
    end
    if not is_set then
        marks.setup()
        is_set = true
    end
    local group = vim.api.nvim_create_augroup('affedit', {})
    -- What else is set for a filetype, as `b:affedit_dictionary`, is set before a buffer is marked.
    local function on_filetype(pattern, is_wanted)
        vim.api.nvim_create_autocmd('FileType', {
            group = group,
            pattern = pattern,
            callback = vim.schedule_wrap(function(event)
                if is_wanted(event.buf) then
                    marks.on(event.buf)
                end
            end),
        })
    end
    on_filetype('*', marks.is_on)
    for _, filetype in ipairs(options.filetypes or {}) do
        on_filetype(filetype, function()
            return true
        end)
    end
end

local function ensure_set()
    if not is_set then
        M.setup()
    end
end

local function current()
    return vim.api.nvim_get_current_buf()
end

local function tell_status(buf, count)
    local state = buffers.state(buf)
    local used = state and state.service
    local pair, reason = used and used.pair, nil
    if not used then
        pair, reason = service.pair_of(buf)
    end
    local process = used and used.process and 'process ' .. used.process.pid or 'no process'
    local lines = {
        ('dictionary %s, %s'):format(pair and pair.stem or 'none', process),
        ('%d marks in %d lines; %d lines wait, %d are not checked'):format(count.marks, count.lines, count.waiting, count.refused),
        used and used.failed or reason,
    }
    service.tell(table.concat(lines, '\n'), vim.log.levels.INFO)
end

local function status()
    local buf = current()
    turns.start(buf, function(pause)
        return marks.count(buf, pause)
    end, function(count)
        if count then
            tell_status(buf, count)
        else
            service.tell('the text has changed while its marks were counted', vim.log.levels.INFO)
        end
    end)
end

-- Calls `call` with the service of the current buffer, checked or not.
local function with_service(call)
    local chosen, reason = marks.service_of(current())
    if chosen then
        call(chosen)
    else
        service.tell(reason)
    end
end

M.commands = {
    on = function()
        marks.on(current())
    end,
    off = function()
        marks.off(current())
    end,
    toggle = function()
        if marks.is_on(current()) then
            marks.off(current())
        else
            marks.on(current())
        end
    end,
    all = function()
        marks.set_scope(current(), 'all')
    end,
    prose = function()
        marks.set_scope(current(), 'prose')
    end,
    next = function()
        jumps.jump(true)
    end,
    previous = function()
        jumps.jump(false)
    end,
    add = function(line)
        with_service(function(chosen)
            chosen:add(line ~= '' and line or words.here())
        end)
    end,
    forget = function(line)
        with_service(function(chosen)
            chosen:forget(line ~= '' and words.named(line) or words.listed_here)
        end)
    end,
    dictionary = function(name)
        marks.set_dictionary(current(), name)
    end,
    diagnostics = function()
        diagnostics.show(current())
    end,
    nodiagnostics = function()
        diagnostics.reset(current())
    end,
    suggest = function()
        require('affedit.suggest').choose()
    end,
    restart = service.restart,
    status = status,
}

-- `:Affedit NAME REST`; without words, `toggle`.
function M.run(call)
    ensure_set()
    local name, rest = call:match('^%s*(%S*)%s*(.-)%s*$')
    local command = M.commands[name == '' and 'toggle' or name]
    if command then
        command(rest)
    else
        service.tell('no command ' .. name)
    end
end

function M.complete(lead, line)
    local names = line:match('^%s*%S+%s+dictionary%s') and dictionaries.names() or vim.tbl_keys(M.commands)
    table.sort(names)
    return vim.tbl_filter(function(name)
        return vim.startswith(name, lead)
    end, names)
end

return M
