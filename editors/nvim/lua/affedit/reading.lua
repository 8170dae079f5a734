-- What is asked of a service: the lines that are wanted now, at once, and behind them the other lines of its buffers in batches.
local buffers = require('affedit.buffers')
local services = require('affedit.service')
local api = vim.api
local M = {}

-- A request has at most so many lines, far fewer than the paragraphs that the program takes.
local most_asked = 1000
-- A batch has at most so many bytes and lines to ask about, and looks at so many lines to find them.
local batch_bytes, batch_lines, batch_rows = 16384, 400, 4000

-- Called with the answers that a service has given to texts, by text, and whether it has refused one.
M.on_answers = function() end
-- What waits until a buffer is settled, `buf` and `call` of each.
local when_done = {}

-- The answers to `texts` are in, or the program ended where there are none.
function M.receive(service, texts, answers)
    local refused, answered = false, {}
    for index, text in ipairs(texts) do
        service.asked[text] = nil
        if answers then
            service.memo:put(text, answers[index])
            answered[text] = answers[index]
            refused = refused or type(answers[index]) == 'string'
        end
    end
    if answers then
        M.on_answers(service, answered, refused)
    end
end

-- Asks about the texts that are wanted, when the last such request is answered.
function M.send(service)
    service.is_sending = false
    if service.is_asking or #service.wanted == 0 or service.failed then
        return
    end
    local texts = vim.list_slice(service.wanted, 1, most_asked)
    service.wanted, service.is_asking = vim.list_slice(service.wanted, most_asked + 1), true
    service:ask(texts, function(answers)
        service.is_asking = false
        M.receive(service, texts, answers)
        M.send(service)
        M.scan(service)
    end, function(answers)
        -- What is read before the line is drawn is drawn with it.
        for index, text in ipairs(texts) do
            service.memo:put(text, answers[index])
        end
    end)
end

function M.want(service, text)
    if not service.asked[text] and not service.failed then
        service.asked[text] = true
        service.wanted[#service.wanted + 1] = text
    end
end

function M.send_soon(service)
    if #service.wanted > 0 and not service.is_sending then
        service.is_sending = true
        vim.schedule(function()
            M.send(service)
        end)
    end
end

function M.want_texts(service, texts)
    for _, text in ipairs(texts) do
        if service.memo:get(text) == nil then
            M.want(service, text)
        end
    end
end

-- All texts that were asked are void.
function M.forget(service)
    service.asked, service.wanted = {}, {}
end

-- A buffer of a service with lines to look at: the current one if it has some. Nil where there is none.
local function buffer_to_scan(service)
    local current, found = api.nvim_get_current_buf(), nil
    for buf, state in pairs(buffers.states) do
        if state.todo and state.service == service then
            if buf == current then
                return buf
            end
            found = buf
        end
    end
    return found
end

-- Of a buffer with lines to look at, those that are not known, as far as a batch goes. Nil where there is no such buffer.
local function batch(service)
    local buf = buffer_to_scan(service)
    if not buf then
        return nil
    end
    local state, texts, bytes, looked = buffers.states[buf], {}, 0, 0
    while looked < batch_rows and bytes < batch_bytes and #texts < batch_lines do
        local first = state.todo[1]
        local last = math.min(first + 100, state.todo[2])
        local lines = api.nvim_buf_get_lines(buf, first, last, false)
        for _, text in ipairs(lines) do
            if service.memo:get(text) == nil and not service.asked[text] then
                service.asked[text] = true
                texts[#texts + 1] = text
                bytes = bytes + #text
            end
        end
        looked = looked + #lines
        state.todo[1] = last
        if #lines == 0 or last >= state.todo[2] then
            state.todo = nil
            break
        end
    end
    return texts
end

-- Whether nothing waits of a service.
local function is_quiet(service)
    return not (service.is_asking or service.is_scanning or #service.wanted > 0 or service:is_busy())
end

-- Whether nothing waits, so that all marks are those of the text as it is.
function M.is_idle()
    for _, service in ipairs(services.all()) do
        if not is_quiet(service) then
            return false
        end
    end
    for _, state in pairs(buffers.states) do
        if state.dirty or state.todo then
            return false
        end
    end
    return true
end

local function is_settled(buf)
    local state = buffers.states[buf]
    return not state or (is_quiet(state.service) and not state.dirty and not state.todo)
end

-- A service has nothing to look at any more.
local function rest(service)
    if not is_quiet(service) then
        return
    end
    service.memo:forget_stale()
    for _, state in pairs(buffers.states) do
        if state.service == service then
            state.before = nil
        end
    end
    local waiting = when_done
    when_done = {}
    for _, one in ipairs(waiting) do
        M.when_settled(one.buf, one.call)
    end
end

-- Looks at the lines that wait, a batch at a time; between batches the editor and the lines on the screen have their turn.
function M.scan(service)
    if service.is_scanning or service.failed then
        return
    end
    local texts = batch(service)
    if not texts then
        rest(service)
        return
    end
    service.is_scanning = true
    local function go_on()
        service.is_scanning = false
        M.scan(service)
    end
    if #texts == 0 then
        vim.schedule(go_on)
        return
    end
    service:ask(texts, function(answers)
        M.receive(service, texts, answers)
        go_on()
    end)
end

-- Calls `call` when nothing waits of a buffer.
function M.when_settled(buf, call)
    if is_settled(buf) then
        call()
    else
        when_done[#when_done + 1] = { buf = buf, call = call }
    end
end

return M
