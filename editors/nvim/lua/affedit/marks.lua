-- The marks of the buffers that are checked, and how they are drawn. Rows count from 0 here, and the end of a range of rows is exclusive.
local addresses = require('affedit.addresses')
local buffers = require('affedit.buffers')
local code = require('affedit.code')
local dictionaries = require('affedit.dictionaries')
local reading = require('affedit.reading')
local services = require('affedit.service')
local api = vim.api
local states = buffers.states
local M = {}

local drawn = api.nvim_create_namespace('affedit')
local pins = api.nvim_create_namespace('affedit_pins')
-- A change of at most so many lines is asked about at once; what is longer is read in batches behind the visible lines.
local most_direct = 200

-- A range of rows after lines `first` to `last_old` became `first` to `last_new`.
local function moved(range, first, last_old, last_new)
    local function place(row, inside)
        if row >= last_old then
            return row + last_new - last_old
        end
        return row > first and inside or row
    end
    return { place(range[1], first), place(range[2], last_new) }
end

local function union(range, first, last)
    if not range or range[1] >= range[2] then
        return { first, last }
    end
    return { math.min(range[1], first), math.max(range[2], last) }
end

local function takes_all(state)
    return (state.scope or services.options.scope) == 'all'
end

-- The marks of an answer to a row that are shown: without those in addresses and in code, unless all are wanted.
local function shown(buf, state, row, text, answer)
    if type(answer) ~= 'table' then
        return {}
    end
    return takes_all(state) and answer or code.without(buf, row, addresses.without(text, answer))
end

-- What is known of a row of a buffer, nil where that is nothing: its answer, and the marks of that which are shown.
function M.known(buf, row, text)
    buf = buffers.number(buf)
    local state = states[buf]
    local answer = state and state.service.memo:get(text)
    if answer ~= nil then
        return answer, shown(buf, state, row, text, answer)
    end
end

-- The first row of a buffer that its program refused, and why.
local function first_refused(buf, service)
    local first, why
    buffers.each_line(buf, function(row, text)
        local answer = service.memo:get(text)
        if type(answer) == 'string' and not first then
            first, why = row, answer
        end
    end)
    return first, why
end

-- Tells once of each buffer of a service that it has a line that is not checked.
local function tell_of_refused(service)
    for buf, state in pairs(states) do
        local row, answer = nil, nil
        if state.service == service and not state.told then
            row, answer = first_refused(buf, service)
        end
        if row then
            state.told = true
            local why = answer == 'Command' and 'it is not UTF-8' or 'it has no space in 65,536 bytes'
            services.tell(('line %d of buffer %d is not checked: %s'):format(row + 1, buf, why))
        end
    end
end

-- Keeps the marks of the cursor's line as marks of the editor, which moves them while a change of that line waits.
local pinned = {}
local function pin()
    local buf = api.nvim_get_current_buf()
    local state = states[buf]
    if not state then
        return
    end
    local row = api.nvim_win_get_cursor(0)[1] - 1
    local text = api.nvim_buf_get_lines(buf, row, row + 1, false)[1]
    local answer = text and state.service.memo:get(text)
    if type(answer) ~= 'table' or #answer > 400 or (pinned.buf == buf and pinned.row == row and pinned.text == text) then
        return
    end
    if pinned.buf and api.nvim_buf_is_loaded(pinned.buf) then
        api.nvim_buf_clear_namespace(pinned.buf, pins, 0, -1)
    end
    pinned = { buf = buf, row = row, text = text }
    local found = shown(buf, state, row, text, answer)
    for at = 1, #found, 2 do
        api.nvim_buf_set_extmark(buf, pins, row, found[at], { end_col = found[at + 1] })
    end
end

-- Asks the editor what of the rows that were drawn is code, and draws those anew that were drawn otherwise.
local function look_for_code(buf)
    local state = states[buf]
    if not (state and api.nvim_buf_is_loaded(buf)) then
        return
    end
    local rows, tick = state.unseen, api.nvim_buf_get_changedtick(buf)
    state.unseen = {}
    for row, drawn_marks in pairs(rows) do
        local text = api.nvim_buf_get_lines(buf, row, row + 1, false)[1]
        local answer = text and state.service.memo:get(text)
        if type(answer) == 'table' then
            local found = shown(buf, state, row, text, answer)
            state.seen[row] = { answer = answer, marks = found, tick = tick }
            state.guesses[answer] = found
            if not vim.deep_equal(found, drawn_marks) then
                buffers.redraw(buf, row, row + 1)
            end
        end
    end
end

-- The marks of a row of which some may be in code, as far as the editor was asked. It is asked behind the redraw, where the text has changed.
-- Nil where nothing is known of the answer.
local function seen_marks(buf, state, row, answer)
    local seen = state.seen[row]
    local is_known = seen and seen.answer == answer
    local found = is_known and seen.marks or state.guesses[answer]
    if not (is_known and seen.tick == api.nvim_buf_get_changedtick(buf)) then
        if not next(state.unseen) then
            vim.schedule(function()
                look_for_code(buf)
            end)
        end
        state.unseen[row] = found or {}
    end
    return found
end

-- Draws the lines anew that a service has answered.
reading.on_answers = function(service, answered, refused)
    buffers.each_visible(service, function(buf, first, lines)
        for index, text in ipairs(lines) do
            if answered[text] then
                buffers.redraw(buf, first + index - 1, first + index)
            end
        end
    end)
    pin()
    if refused then
        tell_of_refused(service)
    end
end

-- Asks about the visible lines of a buffer that are not known.
local function want_visible(buf, state)
    buffers.each_window(buf, function(_, lines)
        reading.want_texts(state.service, lines)
    end)
end

-- Asks about what changed in this tick: at once where it is little, and else behind what is visible.
local function flush(buf)
    local state = states[buf]
    if not (state and state.dirty and api.nvim_buf_is_loaded(buf)) then
        return
    end
    local first, last = state.dirty[1], state.dirty[2]
    state.dirty = nil
    if last - first <= most_direct then
        reading.want_texts(state.service, api.nvim_buf_get_lines(buf, first, last, false))
    else
        state.todo = union(state.todo, first, last)
        state.service.memo:reserve(api.nvim_buf_line_count(buf))
        want_visible(buf, state)
    end
    reading.send(state.service)
    reading.scan(state.service)
end

local function change(buf, state, first, last_old, last_new)
    if state.todo then
        state.todo = moved(state.todo, first, last_old, last_new)
    end
    if state.dirty then
        state.dirty = union(moved(state.dirty, first, last_old, last_new), first, last_new)
    else
        state.dirty = { first, last_new }
        -- The program works while the editor still handles the key. What else changes in this tick is asked behind it.
        if last_new - first == 1 and state.service:is_ready() then
            reading.want_texts(state.service, api.nvim_buf_get_lines(buf, first, last_new, false))
            reading.send(state.service)
        end
        vim.schedule(function()
            flush(buf)
        end)
    end
end

local function look_at_all(buf)
    local state = states[buf]
    state.dirty = nil
    state.todo = { 0, api.nvim_buf_line_count(buf) }
    state.service.memo:reserve(api.nvim_buf_line_count(buf))
end

-- All lines of a buffer are looked at, those on the screen first.
local function read_anew(buf)
    look_at_all(buf)
    want_visible(buf, states[buf])
    buffers.redraw_visible(buf)
    reading.send(states[buf].service)
    reading.scan(states[buf].service)
end

function M.look_at_all(buf)
    if states[buf] then
        look_at_all(buf)
        reading.scan(states[buf].service)
    end
end

-- The marks of a line that the editor moved.
local function pinned_marks(buf, row)
    local found = {}
    for _, mark in ipairs(api.nvim_buf_get_extmarks(buf, pins, { row, 0 }, { row, -1 }, { details = true })) do
        found[#found + 1], found[#found + 2] = mark[3], mark[4].end_col or mark[3]
    end
    return found
end

-- The marks of a line as they are drawn. What waits is drawn as it was: by the last dictionary, or by the marks that the editor moved.
local function marks_to_draw(buf, state, row, text)
    local answer = state.service.memo:get(text)
    if answer == nil then
        reading.want(state.service, text)
        reading.send_soon(state.service)
        answer = state.service.memo:stale(text)
        if answer == nil and state.before then
            answer = state.before:get(text)
        end
    end
    if type(answer) == 'string' then
        return {}
    elseif takes_all(state) then
        return answer or pinned_marks(buf, row)
    elseif answer and state.source and #answer > 0 then
        answer = seen_marks(buf, state, row, answer)
    end
    return addresses.without(text, answer or pinned_marks(buf, row))
end

-- Draws one line of the screen.
local function draw(buf, row)
    local text = api.nvim_buf_get_lines(buf, row, row + 1, false)[1]
    local found = text and marks_to_draw(buf, states[buf], row, text) or {}
    for at = 1, #found, 2 do
        if found[at] < found[at + 1] and found[at + 1] <= #text then
            api.nvim_buf_set_extmark(buf, drawn, row, found[at], {
                end_col = found[at + 1],
                hl_group = 'AffeditMark',
                ephemeral = true,
            })
        end
    end
end

-- Before a window is drawn: what was asked of code is void if the buffer has another syntax now.
local function prepare(buf)
    local state, source = states[buf], code.source(buf)
    if state.source ~= source then
        state.source, state.seen, state.guesses = source, {}, setmetatable({}, { __mode = 'k' })
    end
end

function M.setup()
    api.nvim_set_decoration_provider(drawn, {
        on_win = function(_, _, buf)
            if not states[buf] then
                return false
            end
            prepare(buf)
        end,
        on_line = function(_, _, buf, row)
            draw(buf, row)
        end,
    })
    local group = api.nvim_create_augroup('affedit_pins', {})
    api.nvim_create_autocmd({ 'CursorMoved', 'CursorMovedI' }, { group = group, callback = pin })
end

-- All that a service knew is void: another word, another process.
services.on_change = function(service)
    reading.forget(service)
    for buf, state in pairs(states) do
        if state.service == service then
            read_anew(buf)
        end
    end
    reading.scan(service)
end

function M.is_on(buf)
    return states[buf] ~= nil
end

-- A buffer is not checked any more.
local function leave(buf)
    local state = states[buf]
    states[buf] = nil
    state.service:release(buf)
    if state.trial then
        state.trial:release(buf)
    end
end

local function attach(buf, state)
    api.nvim_buf_attach(buf, false, {
        on_lines = function(_, _, _, first, last_old, last_new)
            if states[buf] ~= state then
                return true
            end
            change(buf, state, first, last_old, last_new)
        end,
        on_reload = function()
            if states[buf] == state then
                look_at_all(buf)
                vim.schedule(function()
                    reading.scan(state.service)
                end)
            end
        end,
        on_detach = function()
            if states[buf] == state then
                leave(buf)
            end
        end,
    })
end

-- Marks a buffer. One that is marked gets the dictionary that is chosen for it now.
function M.on(buf)
    if not api.nvim_buf_is_loaded(buf) then
        return
    end
    local pair, reason = services.pair_of(buf)
    if not pair then
        services.tell(reason, vim.log.levels.ERROR)
    elseif states[buf] then
        M.exchange(buf, pair)
    else
        local state = { service = services.of(pair), seen = {}, unseen = {}, guesses = {} }
        states[buf] = state
        state.service.users[buf] = true
        attach(buf, state)
        read_anew(buf)
    end
end

-- Another dictionary takes its place in a buffer, when the program has read it.
local function try(buf, state, service, done)
    state.trial = service
    service.users[buf] = true
    service:try(function(reason)
        if states[buf] ~= state or state.trial ~= service then
            return
        end
        state.trial = nil
        if reason then
            services.tell(('%s is not read: %s; %s stays'):format(service.pair.name, reason, state.service.pair.name))
            service:release(buf)
            return
        end
        state.before = state.service.memo
        state.service:release(buf)
        state.service = service
        done()
        read_anew(buf)
    end)
end

-- Gives a buffer that is marked the dictionary `pair`, and calls `done` when it has it.
function M.exchange(buf, pair, done)
    local state, service = states[buf], services.of(pair)
    done = done or function() end
    if state.trial == service then
        return
    elseif state.trial then
        state.trial:release(buf)
        state.trial = nil
    end
    if service == state.service then
        done()
    else
        try(buf, state, service, done)
    end
end

-- Marks a buffer by the dictionary of a name, which is kept as its `b:affedit_dictionary`.
function M.set_dictionary(buf, name)
    local pair, reason = dictionaries.find(name)
    if not pair then
        services.tell(reason)
        return
    end
    local function keep()
        vim.b[buf].affedit_dictionary = pair.stem
    end
    if states[buf] then
        M.exchange(buf, pair, keep)
    else
        keep()
        M.on(buf)
    end
end

-- The service of a buffer, checked or not. Nil and a reason where it has no dictionary.
function M.service_of(buf)
    local state = buffers.state(buf)
    if state then
        return state.service
    end
    local pair, reason = services.pair_of(buf)
    return pair and services.of(pair), reason
end

-- Marks a buffer with the scope `prose` or `all`, until it is switched off.
function M.set_scope(buf, scope)
    if not states[buf] then
        M.on(buf)
    end
    if states[buf] then
        states[buf].scope = scope
        buffers.redraw_visible(buf)
    end
end

-- The buffer's marks are gone; its changes are not heard any more at the next of them.
function M.off(buf)
    if states[buf] then
        buffers.redraw_visible(buf)
        leave(buf)
        api.nvim_buf_clear_namespace(buf, pins, 0, -1)
        pinned = {}
        require('affedit.diagnostics').reset(buf)
    end
end

M.is_idle = reading.is_idle

-- Whether the editor has to be asked of each line with marks what of it is code, which takes it some tenths of a millisecond a mark.
function M.has_code(buf)
    buf = buffers.number(buf)
    return states[buf] ~= nil and not takes_all(states[buf]) and code.source(buf) ~= nil
end

-- Calls `visit(row, answer, marks)` for all lines of a buffer, and `pause` behind each of which the editor was asked what is code.
local function each_known(buf, pause, visit)
    local is_slow = pause and M.has_code(buf)
    buffers.each_line(buf, function(row, text)
        local answer, found = M.known(buf, row, text)
        visit(row, answer, found)
        if is_slow and type(answer) == 'table' and #answer > 0 then
            pause()
        end
    end)
end

-- The marks that are shown of a buffer, as far as they are known, `{ row, start, stop }` each, in the order of the text.
function M.list(buf, pause)
    local marks = {}
    each_known(buf, pause, function(row, _, found)
        for at = 1, found and #found or 0, 2 do
            marks[#marks + 1] = { row, found[at], found[at + 1] }
        end
    end)
    return marks
end

-- How many marks and lines a buffer has, how many lines wait, and how many are not checked.
function M.count(buf, pause)
    local count = { marks = 0, lines = 0, waiting = 0, refused = 0 }
    each_known(buf, pause, function(_, answer, found)
        count.lines = count.lines + 1
        if answer == nil then
            count.waiting = count.waiting + 1
        elseif type(answer) == 'string' then
            count.refused = count.refused + 1
        else
            count.marks = count.marks + #found / 2
        end
    end)
    return count
end

-- The mark at a byte of a line, as `{ start, stop }`. At a dot behind a mark it is that mark.
function M.at(buf, row, column)
    local text = api.nvim_buf_get_lines(buf, row, row + 1, false)[1] or ''
    while text:sub(column + 1, column + 1) == '.' do
        column = column - 1
    end
    local _, found = M.known(buf, row, text)
    for at = 1, found and #found or 0, 2 do
        if found[at] <= column and column < found[at + 1] then
            return { found[at], found[at + 1] }
        end
    end
end

return M
