-- A service for each dictionary that is in use: its personal list, what it said of lines, and its one process, which is started when it is
-- first asked, started again when it ends, and ended when no buffer uses it.
local dictionaries = require('affedit.dictionaries')
local memo = require('affedit.memo')
local program = require('affedit.program')
local M = {}
local Service = {}
Service.__index = Service

-- The program reads at most 4,294,967,295 bytes in a run; before that another process takes its place.
M.most_sent = 4000000000
-- A process that ends so often within so many seconds is not started again.
local most_ends = 3
M.ends_seconds = 10

M.options = {}
-- Called when all that a service knew is void.
M.on_change = function() end

-- Those in use, by the path of the dictionary without `.aff`.
local services = {}

function M.tell(text, level)
    vim.notify('affedit: ' .. text, level or vim.log.levels.WARN)
end

-- The dictionary of a buffer: that of `b:affedit_dictionary`, or else that of the option. Nil and a reason where there is none.
function M.pair_of(buf)
    local name = vim.b[buf].affedit_dictionary
    if name == nil then
        name = M.options.dictionary
        if type(name) == 'function' then
            local found
            found, name = pcall(name, buf)
            if not found then
                return nil, 'the function `dictionary` fails: ' .. tostring(name)
            end
        end
    end
    if type(name) ~= 'string' then
        return nil, ('no dictionary is chosen for buffer %d, but %s'):format(buf, vim.inspect(name))
    end
    return dictionaries.find(name)
end

-- The file of the personal list of a dictionary.
function M.own_of(pair)
    return M.options.own or dictionaries.own_file(pair.name)
end

-- The service of a dictionary. `users` has the buffers that use it, and `pending` the personal words that the program has not answered yet;
-- `trials` wait for its first answer, and `forgets` for all pending words. `asked`, `wanted`, `is_asking`, `is_sending` and `is_scanning`
-- are of `reading`.
function M.of(pair)
    local service = services[pair.stem]
    if not service then
        service = setmetatable({
            pair = pair, own = M.own_of(pair), memo = memo.new(), users = {}, ends = {}, pending = {}, trials = {}, forgets = {},
            asked = {}, wanted = {},
        }, Service)
        services[pair.stem] = service
    end
    return service
end

-- All services in use.
function M.all()
    return vim.tbl_values(services)
end

local function causes(service, last)
    local files = { aff = service.pair.aff, dic = service.pair.dic, own = service.own }
    local file, line, why = (last or ''):match('^(%l+) (%d+) (%a+)$')
    if files[file] then
        local hint = why == 'OtherEncoding' and '; affedit-prepare-dictionary (in a checkout tools/prepare-dictionary) makes one that is read' or ''
        return ('%s:%s: %s%s'):format(files[file], line, why, hint)
    end
    return last
end

-- Tells of the end of the process, and says whether it is started again.
local function tell_of_end(service, process, code, signal, last)
    local how = signal ~= 0 and ('by signal ' .. signal) or ('with status ' .. code)
    local cause = causes(service, last)
    local ends = service.ends
    how = 'the program ended ' .. how .. (cause and ': ' .. cause or '')
    ends[#ends + 1] = vim.loop.now() / 1000
    local often = #ends >= most_ends and ends[#ends] - ends[#ends - most_ends + 1] < M.ends_seconds
    if often or (process.answered == 0 and signal == 0) then
        how = how .. (code == 125 and '; run the launcher `affedit` once in a shell, which builds it' or '')
        service:fail(how, '; there are no marks until :Affedit restart')
    else
        M.tell(how .. '; it is started again')
    end
end

-- From here on there are no marks by this dictionary, for a reason that has to be mended first. Who tries it tells that himself.
function Service:fail(reason, hint)
    self.failed = reason
    if #self.trials == 0 then
        M.tell(reason .. (hint or ''), vim.log.levels.ERROR)
    end
    self:end_trials()
end

function Service:end_trials()
    local trials = self.trials
    self.trials = {}
    for _, done in ipairs(trials) do
        done(self.failed)
    end
end

function Service:ended(process, code, signal, last)
    local is_current = process == self.process
    if is_current then
        self.process = nil
        tell_of_end(self, process, code, signal, last)
        -- The personal list may have been changed beside it.
        self.memo:clear()
    end
    process:fail()
    if is_current then
        M.on_change(self)
        self:go_on()
    end
end

-- Starts the process if a word or a trial waits for it.
function Service:go_on()
    if next(self.pending) then
        self:running()
    end
    if #self.trials > 0 then
        self:ask_for_trials()
    end
end

-- Appends a word that the program has taken to the list, and gives it to the other programs that have the same list.
function Service:keep(line)
    local reason = dictionaries.append(self.own, line)
    if reason then
        M.tell('the word is known until the editor ends, but not kept: ' .. reason, vim.log.levels.ERROR)
    end
    for _, other in pairs(services) do
        if other ~= self and other.own == self.own and other.process then
            other:take({ line = line, is_kept = true })
        end
    end
end

-- Asks the program to take a personal word, and keeps the word in the file when it is taken.
function Service:send_own(item)
    self.process:command('own ' .. item.line, function(answer)
        if not answer then
            return
        end
        self.pending[item] = nil
        if answer:match('^dict ') then
            if not item.is_kept then
                self:keep(item.line)
            end
            self.memo:clear()
            M.on_change(self)
        else
            M.tell(('`%s` is not taken: %s'):format(item.line, answer))
        end
        self:after_words()
    end)
end

-- No word may wait any more: what is to be taken back is taken back, and a service that nobody uses ends.
function Service:after_words()
    if next(self.pending) then
        return
    end
    local forgets = self.forgets
    self.forgets = {}
    for _, forget in ipairs(forgets) do
        forget()
    end
    self:end_if_unused()
end

function Service:take(item)
    self.pending[item] = true
    self:send_own(item)
end

function Service:start()
    local reason = dictionaries.ensure_own(self.own, not M.options.own)
    if not reason then
        local words = { M.options.program, 'edit', self.pair.aff, self.pair.dic, '--own', self.own }
        local process
        process, reason = program.start(words, function(code, signal, last)
            self:ended(process, code, signal, last)
        end)
        self.process = process
    end
    if not self.process then
        self:fail(reason)
        return
    end
    for item in pairs(self.pending) do
        if item.is_kept then
            -- It is in the list that the program reads.
            self.pending[item] = nil
        else
            self:send_own(item)
        end
    end
end

-- The process, or nil where there is none and none is to be started.
function Service:running()
    local process = self.process
    if process and process.sent > M.most_sent and not process:is_waiting() then
        process:quit()
        self.process = nil
    end
    if not self.process and not self.failed then
        self:start()
    end
    return self.process
end

-- Whether a process runs that can be asked, so that none is started or ended for it.
function Service:is_ready()
    return self.process ~= nil and self.process.sent <= M.most_sent
end

function Service:ask(texts, done, early)
    if self:running() then
        self.process:ask(texts, done, early)
    else
        done(nil)
    end
end

-- Calls `done()` when the program has read the dictionary, and `done(reason)` where it does not.
function Service:try(done)
    self.trials[#self.trials + 1] = done
    self:ask_for_trials()
end

function Service:ask_for_trials()
    if self.failed or (self.process and self.process.answered > 0) then
        self:end_trials()
    elseif self:running() then
        self.process:command('settle', function(answer)
            if answer then
                self:end_trials()
            end
        end)
    end
end

-- Ends the process and forgets what failed.
function Service:restart()
    local old = self.process
    self.process, self.failed, self.ends = nil, nil, {}
    self.memo:clear()
    if old then
        old:void()
    end
    M.on_change(self)
    self:go_on()
end

function M.restart()
    for _, service in ipairs(M.all()) do
        service:restart()
    end
end

-- One more line of the personal list.
function Service:add(line)
    line = line:gsub('[\r\n]', ' ')
    if not self:running() then
        M.tell('the word is not taken, since there is no program: ' .. (self.failed or ''))
        self:end_if_unused()
    else
        self:take({ line = line })
    end
end

-- Takes what `choose` names of the list's words out of the list, and starts the programs anew that have read it. `choose` gets
-- the words and returns one of them, or nil and what is told.
function Service:forget(choose)
    if next(self.pending) then
        self.forgets[#self.forgets + 1] = function()
            self:forget(choose)
        end
        return
    end
    local reason = dictionaries.forget(self.own, choose)
    if reason then
        M.tell(reason)
    else
        for _, service in ipairs(M.all()) do
            if service.own == self.own then
                service:restart()
            end
        end
    end
    self:end_if_unused()
end

-- Whether a personal word or a dictionary waits for its answer.
function Service:is_busy()
    return next(self.pending) ~= nil or #self.trials > 0
end

-- A buffer does not use this dictionary any more. If it is read again at once, its process stays.
function Service:release(buf)
    self.users[buf] = nil
    vim.schedule(function()
        self:end_if_unused()
    end)
end

-- Without users the process ends. Words that it has not taken, and never will, are told.
function Service:end_if_unused()
    if next(self.users) or services[self.pair.stem] ~= self or (self:is_busy() and not self.failed) then
        return
    end
    for item in pairs(self.pending) do
        M.tell(('`%s` is not taken: %s'):format(item.line, self.failed), vim.log.levels.ERROR)
    end
    services[self.pair.stem] = nil
    local old = self.process
    self.process = nil
    if old then
        old:void()
    end
end

return M
