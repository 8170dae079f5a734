-- The buffers that are checked, and which of their lines are on the screen. Rows count from 0, and the end of a range of rows is exclusive.
local api = vim.api
local M = {}

-- By number, of each buffer: `service`, that of its dictionary; `trial`, the one that is to take its place; `before`, what the last one knew;
-- `dirty`, the rows changed in this tick; `todo`, the rows that are to be looked at in batches; `told`, whether the user was told of a line
-- that is not checked; `scope`, what a command chose in place of the option; `source`, what knows the buffer's code, nil where all is prose;
-- `seen`, of rows that were on the screen the answer, its marks that are not in code, and the change of the buffer after which the editor was
-- asked; `guesses`, such marks by answer alone; `unseen`, rows of which the editor is to be asked, with the marks that were drawn.
M.states = {}

-- The number of a buffer; the current one is 0 too.
function M.number(buf)
    return buf == 0 and api.nvim_get_current_buf() or buf
end

-- The state of a buffer, nil where it is not checked.
function M.state(buf)
    return M.states[M.number(buf)]
end

-- Calls `visit(first row, texts, window)` for the visible lines of each window of a buffer.
function M.each_window(buf, visit)
    for _, win in ipairs(vim.fn.win_findbuf(buf)) do
        local info = vim.fn.getwininfo(win)[1]
        if info and info.botline >= info.topline then
            visit(info.topline - 1, api.nvim_buf_get_lines(buf, info.topline - 1, info.botline, false), win)
        end
    end
end

-- Calls `visit(buf, first row, texts)` for the visible lines of each window of the checked buffers, of one service if it is given.
function M.each_visible(service, visit)
    for buf, state in pairs(M.states) do
        if state.service == service or not service then
            M.each_window(buf, function(first, texts)
                visit(buf, first, texts)
            end)
        end
    end
end

function M.redraw(buf, first, last)
    if api.nvim__redraw then
        api.nvim__redraw({ buf = buf, range = { first, last } })
    elseif api.nvim__buf_redraw_range then
        api.nvim__buf_redraw_range(buf, first, last)
    else
        vim.cmd('redraw!')
    end
end

function M.redraw_visible(buf)
    M.each_window(buf, function(row, lines)
        M.redraw(buf, row, row + #lines)
    end)
end

-- Calls `visit(row, text)` for all lines of a buffer.
function M.each_line(buf, visit)
    local row, total = 0, api.nvim_buf_line_count(buf)
    while row < total do
        local lines = api.nvim_buf_get_lines(buf, row, math.min(row + 1000, total), false)
        for index, text in ipairs(lines) do
            visit(row + index - 1, text)
        end
        row = row + #lines
    end
end

return M
