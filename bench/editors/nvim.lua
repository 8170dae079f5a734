-- Types KEYS keys at the end of a line in the middle of the file TEXT, and prints the median time from a key to the end of the redraw that
-- has its marks, and when all lines were known. KIND is `affedit`, `marks`, `spell` (Neovim's own), or `plain`. For `marks` there are
-- extmarks where the plugin has marks on the screen, and no plugin: nothing touches them, so that all the time is Neovim's own.
local api, kind = vim.api, vim.env.KIND
vim.o.swapfile, vim.o.shortmess = false, 'atI'
vim.env.XDG_DATA_HOME = vim.env.WORK
vim.opt.runtimepath:prepend(vim.env.TOP .. '/editors/nvim')
vim.cmd('runtime plugin/affedit.lua')
local marks, memo
if kind == 'affedit' or kind == 'marks' then
    require('affedit').setup({ program = vim.env.PROGRAM, dictionary = vim.env.DICTIONARY })
    marks, memo = require('affedit.marks'), require('affedit.memo')
end
vim.cmd('edit ' .. vim.env.TEXT)
vim.o.spell, vim.o.spelllang = kind == 'spell', 'en_us'
local began, all = vim.loop.hrtime(), nil
if marks then
    vim.cmd('Affedit on')
    assert(vim.wait(240000, marks.is_idle, 1), 'not all lines are known')
    all = (vim.loop.hrtime() - began) / 1e6
end
api.nvim_win_set_cursor(0, { math.floor(api.nvim_buf_line_count(0) / 2), 0 })
vim.cmd('normal! zz')
local alone
if kind == 'marks' then
    vim.cmd('redraw')
    local window = vim.fn.getwininfo(api.nvim_get_current_win())[1]
    local found = {}
    for row = window.topline - 1, window.botline - 1 do
        local answer = memo.get(api.nvim_buf_get_lines(0, row, row + 1, true)[1])
        for mark = 1, #answer, 2 do
            found[#found + 1] = { row, answer[mark], answer[mark + 1] }
        end
    end
    vim.cmd('Affedit off')
    require('affedit.service').process():quit()
    memo = nil
    local space = api.nvim_create_namespace('bench_marks')
    for _, mark in ipairs(found) do
        api.nvim_buf_set_extmark(0, space, mark[1], mark[2], { end_col = mark[3], hl_group = 'AffeditMark' })
    end
    alone = ('; %d extmarks'):format(#found)
end
local times, at, sent, drawn = {}, 0, nil, false
local typed = (' people qzpeople houses wrqld'):rep(100)
local function key()
    at = at + 1
    drawn = false
    sent = vim.loop.hrtime()
    api.nvim_input(typed:sub(at, at))
end
api.nvim_set_decoration_provider(api.nvim_create_namespace('bench'), {
    on_win = function() return true end,
    on_line = function(_, _, buf, row)
        local cursor = api.nvim_win_get_cursor(0)
        if row == cursor[1] - 1 and (not memo or memo.get(api.nvim_buf_get_lines(buf, row, row + 1, true)[1])) then
            drawn = true
        end
    end,
    on_end = function()
        if not (sent and drawn) then
            return
        end
        times[#times + 1] = (vim.loop.hrtime() - sent) / 1e6
        sent, drawn = nil, false
        if #times == tonumber(vim.env.KEYS) then
            vim.schedule(function()
                table.sort(times)
                local function part(share)
                    return times[math.max(math.floor(#times * share), 1)]
                end
                local version = vim.fn.execute('version'):match('NVIM v[^\n]*')
                local report = ('%s, %s: median %.2f ms, one in ten below %.2f ms, nine below %.2f ms, of %d keys%s'):format(
                    version, vim.env.NAME, part(0.5), part(0.1), part(0.9), #times,
                    alone or all and ('; all lines known in %.0f ms, %d marks'):format(all, #marks.list(0)) or '')
                vim.fn.writefile({ report }, vim.env.REPORT)
                vim.cmd('qall!')
            end)
        else
            vim.defer_fn(key, 15)
        end
    end,
})
vim.defer_fn(function() api.nvim_input('A') end, 200)
vim.defer_fn(key, 400)
