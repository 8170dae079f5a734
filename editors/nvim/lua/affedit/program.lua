-- One process `affedit edit AFF DIC --own OWN`, and the dialogue with it (docs/CONSOLE.md). Between requests its text has no
-- paragraphs: a request inserts its lines, has them checked and shown, and deletes them. Answers come in the order of requests.
local uv = vim.loop
local M = {}
local Program = {}
Program.__index = Program

-- A paragraph has at most so many bytes.
M.paragraph_bytes = 65536

-- A process that owes an answer and writes nothing for so many milliseconds is killed.
M.silence = 60000

-- So many milliseconds behind the end of the launcher its output is not waited for any more: without setpriv the program may outlive it.
local output_patience = 5000

-- The places at which a text is cut into paragraphs: behind spaces and tabs, which are of no word. Nil where it cannot be cut.
local function cuts(text)
    local starts, from = { 0 }, 0
    while #text - from > M.paragraph_bytes do
        local at = from + M.paragraph_bytes
        while at > from do
            local byte = text:byte(at)
            if byte == 32 or byte == 9 then
                break
            end
            at = at - 1
        end
        if at == from then
            return nil
        end
        from = at
        starts[#starts + 1] = from
    end
    return starts
end

-- Starts the process. `ended(code, signal, last)` is called once, on the main loop, when it is gone, and has to call `fail`: `last` is
-- the line that it ended with. Returns nil and a reason where there is nothing to start.
function M.start(words, ended)
    local self = setmetatable({ requests = {}, first = 1, last = 0, tail = '', sent = 0, answered = 0 }, Program)
    local environment, variables = {}, vim.fn.environ()
    variables.AFFEDIT_NO_BUILD, variables.AFFEDIT_QUIET = '1', '1'
    for name, value in pairs(variables) do
        environment[#environment + 1] = name .. '=' .. value
    end
    self.input, self.output = uv.new_pipe(false), uv.new_pipe(false)
    self.watch = uv.new_timer()
    local left = 2
    local function finish()
        left = left - 1
        if left == 0 then
            self.watch:close()
            vim.schedule(function()
                ended(self.code, self.signal, self.told)
            end)
        end
    end
    local arguments = vim.list_slice(words, 2)
    local options = { args = arguments, stdio = { self.input, self.output, nil }, env = environment, hide = true }
    local function close_output()
        if not self.output:is_closing() then
            self.output:close()
            finish()
        end
    end
    local handle, pid = uv.spawn(words[1], options, function(code, signal)
        self.code, self.signal = code, signal
        self.input:close()
        self.handle:close()
        self.watch:start(output_patience, 0, close_output)
        finish()
    end)
    if not handle then
        self.input:close()
        self.output:close()
        self.watch:close()
        return nil, ('no program %s: %s'):format(words[1], pid)
    end
    self.handle, self.pid = handle, pid
    self.output:read_start(function(_, data)
        if data then
            self:take(data)
        else
            close_output()
        end
    end)
    return self
end

-- Whether the process has not ended, as far as is known.
function Program:is_running()
    return not self.handle:is_closing()
end

-- Kills the process, and what it started: where there is no setpriv the end of the launcher does not end the program.
function Program:kill()
    vim.schedule(function()
        if self:is_running() then
            local found, children = pcall(vim.api.nvim_get_proc_children, self.pid)
            self.handle:kill(9)
            for _, child in ipairs(found and children or {}) do
                uv.kill(child, 9)
            end
        end
    end)
end

-- From here on an answer is owed. Time in which the editor itself stood still is no silence of the process.
function Program:start_watch()
    uv.update_time()
    local silence, looked = M.silence, uv.now()
    self.heard = looked
    self.watch:start(silence / 4, silence / 4, function()
        local now = uv.now()
        if now - looked > silence / 2 then
            self.heard = now
        end
        looked = now
        if now - self.heard > silence then
            self.told = 'no answer for ' .. silence / 1000 .. ' seconds'
            self.watch:stop()
            self:kill()
        end
    end)
end

-- Every request that waits is told that no answer comes, and none is taken any more.
function Program:fail()
    local requests, first, last = self.requests, self.first, self.last
    self.requests, self.first, self.last = {}, 1, 0
    if self:is_running() then
        self.watch:stop()
    end
    for at = first, last do
        if not requests[at].complete then
            requests[at].complete = true
            requests[at].done(nil)
        end
    end
end

function Program:push(request, lines)
    if not self:is_waiting() and self:is_running() then
        self:start_watch()
    end
    self.last = self.last + 1
    self.requests[self.last] = request
    local message = table.concat(lines, '\n') .. '\n'
    self.sent = self.sent + #message
    if not self.input:is_closing() then
        self.input:write(message)
    end
end

function Program:is_waiting()
    return self.first <= self.last
end

-- One command with one line of answer, which `done` gets.
function Program:command(line, done)
    self:push({ done = done, left = 0, skip = 0 }, { line })
end

-- Checks texts: `done` gets a list with the answer to each, as `memo` has them, or nil where the process ended. `early` gets the list as
-- soon as it is read, where little of the editor can be called.
function Program:ask(texts, done, early)
    local request = { done = done, early = early, answers = {}, owners = {}, offsets = {}, stands = {}, at = 0 }
    local lines, paragraphs = {}, 0
    for index, text in ipairs(texts) do
        local starts = #text <= M.paragraph_bytes and { 0 } or cuts(text)
        request.answers[index] = starts and {} or 'TooLong'
        for number, from in ipairs(starts or {}) do
            local piece = text
            if #starts > 1 then
                piece = text:sub(from + 1, starts[number + 1] or #text)
            end
            paragraphs = paragraphs + 1
            lines[paragraphs] = 'ins 1 ' .. piece:gsub('\n', '\0')
            request.owners[paragraphs], request.offsets[paragraphs] = index, from
        end
    end
    request.left, request.skip = paragraphs, paragraphs
    lines[paragraphs + 1], lines[paragraphs + 2] = 'settle', 'show'
    for number = 1, paragraphs do
        lines[paragraphs + 2 + number] = 'del 1'
    end
    self:push(request, lines)
end

-- The answer to one `ins`: a line that is refused stands nowhere, so those that stand are counted.
local function inserted(request, line)
    request.at = request.at + 1
    request.left = request.left - 1
    if line:sub(1, 3) == 'ok ' then
        request.stands[#request.stands + 1] = request.at
    else
        request.answers[request.owners[request.at]] = line:match('^no (%a+)') or line
    end
end

-- How many dots a line ends with.
local function dots_at_end(line)
    local at = #line
    while line:sub(at, at) == '.' do
        at = at - 1
    end
    return #line - at
end

-- One mark `P S E WORD`. Each line was inserted before those that stood, so paragraph P is the P-th of them from the last.
-- The dots at the end of WORD are left out of the mark: a word with them is known if it is known without them. It is never all dots.
local function marked(request, line)
    local paragraph, start, stop = line:match('^(%d+) (%d+) (%d+) ')
    local at = paragraph and request.stands[#request.stands + 1 - tonumber(paragraph)]
    if not at then
        return
    end
    local answer, offset = request.answers[request.owners[at]], request.offsets[at]
    if type(answer) == 'table' then
        answer[#answer + 1], answer[#answer + 2] = start + offset, stop + offset - dots_at_end(line)
    end
end

-- Paragraphs are shown in the reverse order, so a line that was cut has its pieces the wrong way round.
local function in_order(request)
    for index, answer in ipairs(request.answers) do
        local ordered = true
        for at = 3, type(answer) == 'table' and #answer or 0, 2 do
            ordered = ordered and answer[at] > answer[at - 2]
        end
        if not ordered then
            local starts, stops, sorted = {}, {}, {}
            for at = 1, #answer, 2 do
                starts[#starts + 1] = answer[at]
                stops[answer[at]] = answer[at + 1]
            end
            table.sort(starts)
            for _, start in ipairs(starts) do
                sorted[#sorted + 1], sorted[#sorted + 2] = start, stops[start]
            end
            request.answers[index] = sorted
        end
    end
end

function Program:complete(request, result)
    self.answered = self.answered + 1
    request.complete = true
    if request.early and not self.is_void then
        request.early(result)
    end
    vim.schedule(function()
        -- By now another process may have taken the place of this one, and another dictionary.
        request.done(not self.is_void and result or nil)
    end)
    if request.skip == 0 then
        self:drop()
    end
end

function Program:drop()
    self.requests[self.first] = nil
    self.first = self.first + 1
    if not self:is_waiting() and self:is_running() then
        self.watch:stop()
    end
end

-- One line of what the process writes.
function Program:line(line)
    local request = self.requests[self.first]
    local kind = line:match('^%d') and 'mark' or line:match('^(%l*) ') or line
    if not (kind == 'mark' or kind == 'ok' or kind == 'no' or kind == 'dict' or kind == 'text' or kind == '.') or not request then
        self.told = line
    elseif request.complete then
        request.skip = request.skip - 1
        if request.skip == 0 then
            self:drop()
        end
    elseif not request.answers then
        self:complete(request, line)
    elseif request.left > 0 then
        inserted(request, line)
    elseif kind == 'mark' then
        marked(request, line)
    elseif line == '.' then
        in_order(request)
        self:complete(request, request.answers)
    end
end

function Program:take(data)
    self.heard = uv.now()
    data = self.tail .. data
    local from = 1
    while true do
        local stop = data:find('\n', from, true)
        if not stop then
            break
        end
        self:line(data:sub(from, stop - 1))
        from = stop + 1
    end
    self.tail = data:sub(from)
end

-- What it has answered, and is not taken yet, does not count either. It may hang, so it is not asked to quit.
function Program:void()
    self.is_void = true
    self:kill()
    self:fail()
end

-- The process ends when it has answered what it was asked.
function Program:quit()
    if not self.input:is_closing() then
        self.input:write('quit\n')
    end
end

return M
