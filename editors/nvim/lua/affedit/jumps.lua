-- From mark to mark.
local buffers = require('affedit.buffers')
local marks = require('affedit.marks')
local reading = require('affedit.reading')
local services = require('affedit.service')
local turns = require('affedit.turns')
local api = vim.api
local M = {}

-- The first mark of a line that starts behind `column`, or the last one that starts before it.
local function in_line(found, column, forward)
    local last
    for at = 1, #found, 2 do
        if forward and found[at] > column then
            return found[at]
        elseif not forward and found[at] < column then
            last = found[at]
        end
    end
    return last
end

-- Asks about the lines of `row` and those that are looked at next, and calls `done` when they are known.
local function ask_around(buf, row, forward, done)
    local service, first = buffers.states[buf].service, forward and row or math.max(row - 99, 0)
    local lines = vim.tbl_filter(function(text)
        return service.memo:get(text) == nil
    end, api.nvim_buf_get_lines(buf, first, first + 100, false))
    service:ask(lines, function(answers)
        reading.receive(service, lines, answers)
        if answers then
            done()
        else
            services.tell('no mark is found, since there is no program')
        end
    end)
end

-- Looks at the lines from a place on, until a mark, an unknown line or the end of the search. Returns the line and the byte of the mark.
local function find(buf, place, forward, pause)
    local total, is_slow = api.nvim_buf_line_count(buf), marks.has_code(buf)
    while place.left > 0 do
        local answer, shown = marks.known(buf, place.row, api.nvim_buf_get_lines(buf, place.row, place.row + 1, false)[1])
        if answer == nil then
            return nil
        end
        local found = in_line(shown, place.column, forward)
        if found then
            return { place.row + 1, found }
        end
        place.left = place.left - 1
        place.row = (place.row + (forward and 1 or -1)) % total
        place.column = forward and -1 or math.huge
        if is_slow and type(answer) == 'table' and #answer > 0 then
            pause()
        end
    end
end

-- Moves the cursor to the next mark, or the one before, around the end of the buffer. Lines that wait are asked about on the way. A buffer
-- that is not marked is marked first. Where the text or the cursor has changed meanwhile, nothing is done.
function M.jump(forward)
    local buf, win = api.nvim_get_current_buf(), api.nvim_get_current_win()
    if not marks.is_on(buf) then
        marks.on(buf)
    end
    local cursor, tick = api.nvim_win_get_cursor(win), api.nvim_buf_get_changedtick(buf)
    -- The cursor's line is looked at twice: its one side first, and the other last.
    local place = { row = cursor[1] - 1, column = cursor[2], left = api.nvim_buf_line_count(buf) + 1 }
    local function is_current()
        return api.nvim_get_current_win() == win and api.nvim_get_current_buf() == buf and marks.is_on(buf)
            and api.nvim_buf_get_changedtick(buf) == tick and vim.deep_equal(cursor, api.nvim_win_get_cursor(win))
    end
    local go_on
    go_on = function()
        if not is_current() then
            return
        end
        turns.start(buf, function(pause)
            return find(buf, place, forward, pause) or {}
        end, function(found)
            if not found or not is_current() then
                return
            elseif found[1] then
                vim.cmd("normal! m'")
                api.nvim_win_set_cursor(win, found)
            elseif place.left == 0 then
                services.tell('no marks', vim.log.levels.INFO)
            else
                ask_around(buf, place.row, forward, go_on)
            end
        end)
    end
    go_on()
end

return M
