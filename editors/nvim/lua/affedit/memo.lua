-- What the program said of a line, by the line's text. A mark depends on nothing but the text of its line and the
-- dictionary, so this stays right whatever is inserted, sorted or undone, and is emptied where the dictionary changes.
-- An answer is a flat list of bytes `{ start, stop, start, stop, .. }`, or a string that says why the line is not checked.
local M = {}
local Memo = {}
Memo.__index = Memo

-- Texts are kept in two halves. Where the young half is full it becomes the old one, and what was in that is forgotten.
-- `before` has the answers before the dictionary changed: they are drawn until the new ones are in.
function M.new()
    return setmetatable({ most = 200000, young = {}, old = {}, count = 0, before = {} }, Memo)
end

function Memo:get(text)
    local answer = self.young[text]
    if answer == nil then
        answer = self.old[text]
        if answer ~= nil then
            self:put(text, answer)
        end
    end
    return answer
end

function Memo:put(text, answer)
    if self.young[text] == nil then
        self.count = self.count + 1
        if self.count > self.most then
            self.young, self.old, self.count = {}, self.young, 1
        end
    end
    self.young[text] = answer
end

-- There are so many lines in a buffer.
function Memo:reserve(lines)
    self.most = math.max(self.most, lines)
end

function Memo:stale(text)
    return self.before[text]
end

-- A new dictionary: nothing is known any more.
function Memo:clear()
    self.before = next(self.young) and self.young or self.before
    self.young, self.old, self.count = {}, {}, 0
end

-- All lines are checked anew, so the answers of the last dictionary are not needed.
function Memo:forget_stale()
    self.before = {}
end

return M
