-- The marks of a buffer as diagnostics of the editor.
local marks = require('affedit.marks')
local reading = require('affedit.reading')
local services = require('affedit.service')
local turns = require('affedit.turns')
local api = vim.api
local M = {}

local listed = api.nvim_create_namespace('affedit_diagnostics')
-- At most so many marks are diagnostics. The editor's time for diagnostics grows with the square of their number.
local most_listed = 5000

-- The rows on the screen: those of the current window if it shows the buffer, else of another window of it. Without one, the first row.
local function rows_on_screen(buf)
    local win = api.nvim_get_current_buf() == buf and api.nvim_get_current_win() or vim.fn.win_findbuf(buf)[1]
    local info = win and vim.fn.getwininfo(win)[1]
    if not info then
        return 0, 1
    end
    return info.topline - 1, math.max(info.botline, info.topline)
end

-- The `most_listed` marks nearest to rows `first` to `last`: those of these rows, then outward by rows. `all` and the result are in
-- the order of the text.
local function nearest(all, first, last)
    if #all <= most_listed then
        return all
    end
    -- The marks from `low` on and before `high` are taken.
    local low = 1
    while low <= #all and all[low][1] < first do
        low = low + 1
    end
    local high = low
    while high <= #all and high < low + most_listed and all[high][1] < last do
        high = high + 1
    end
    while high - low < most_listed do
        local above, below = all[low - 1], all[high]
        if not below or (above and first - above[1] <= below[1] - last + 1) then
            low = low - 1
        else
            high = high + 1
        end
    end
    return vim.list_slice(all, low, high - 1)
end

local function diagnostic(buf, row, start, stop)
    return {
        lnum = row,
        col = start,
        end_lnum = row,
        end_col = stop,
        severity = vim.diagnostic.severity.INFO,
        source = 'affedit',
        message = 'not in the dictionary: ' .. api.nvim_buf_get_text(buf, row, start, row, stop, {})[1],
    }
end

-- A whole number with commas between groups of three digits.
local function grouped(number)
    return (tostring(number):reverse():gsub('%d%d%d', '%0,'):reverse():gsub('^,', ''))
end

local function set(buf, all)
    local shown = nearest(all, rows_on_screen(buf))
    vim.diagnostic.set(listed, buf, vim.tbl_map(function(mark)
        return diagnostic(buf, unpack(mark))
    end, shown))
    if #shown < #all then
        local text = '%s of %s marks are diagnostics: those nearest to the screen'
        services.tell(text:format(grouped(#shown), grouped(#all)), vim.log.levels.INFO)
    end
end

-- Lists the marks of a buffer, from the start again if it changes meanwhile.
local list
list = function(buf)
    if not marks.is_on(buf) then
        return
    end
    turns.start(buf, function(pause)
        return marks.list(buf, pause)
    end, function(all)
        if all then
            set(buf, all)
        else
            reading.when_settled(buf, function()
                list(buf)
            end)
        end
    end)
end

-- Shows the marks of a buffer as diagnostics, when nothing of it waits. If there are too many, it tells how many are shown. A buffer that is
-- not marked is marked first.
function M.show(buf)
    if not marks.is_on(buf) then
        marks.on(buf)
    end
    local service = marks.service_of(buf)
    if not marks.is_on(buf) or service.failed then
        services.tell(service and service.failed or 'there are no marks')
        return
    end
    marks.look_at_all(buf)
    reading.when_settled(buf, function()
        list(buf)
    end)
end

function M.reset(buf)
    vim.diagnostic.reset(listed, buf)
end

return M
