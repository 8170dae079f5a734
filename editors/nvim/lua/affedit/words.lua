-- Words at the cursor, to be added to a personal list or to be taken back.
local marks = require('affedit.marks')
local api = vim.api
local M = {}

-- The word that is marked at the cursor, or else the one that the editor sees there.
function M.here()
    local buf, cursor = api.nvim_get_current_buf(), api.nvim_win_get_cursor(0)
    local mark = marks.at(buf, cursor[1] - 1, cursor[2])
    if not mark then
        return vim.fn.expand('<cword>')
    end
    return api.nvim_get_current_line():sub(mark[1] + 1, mark[2])
end

-- Whether bytes `start` to `stop` of a text, from 1, have no letter or digit beside them.
local function stands_alone(text, start, stop)
    return vim.fn.match(text:sub(1, start - 1), [[\k$]]) < 0 and vim.fn.match(text:sub(stop + 1), [[^\k]]) < 0
end

-- Whether a word stands in a text so that byte `at`, from 1, is in it.
local function stands_at(text, word, at)
    local start, stop = text:find(word, math.max(at - #word + 1, 1), true)
    while start and start <= at do
        if stands_alone(text, start, stop) then
            return true
        end
        start, stop = text:find(word, start + 1, true)
    end
    return false
end

-- The run without blanks at the cursor, and the byte of it at which the cursor is. Dots at the cursor are those of a word before them.
local function run_here()
    local text, at = api.nvim_get_current_line(), api.nvim_win_get_cursor(0)[2] + 1
    while at > 1 and text:sub(at, at) == '.' do
        at = at - 1
    end
    local start = at - #text:sub(1, at):match('%S*$') + 1
    return text:sub(start):match('^%S*'), at - start + 1
end

-- The longest of the words of a list that stands at the cursor, in any case of letters. Nil and a reason where none does.
function M.listed_here(words)
    local run, at = run_here()
    local lowered, found = vim.fn.tolower(run), nil
    for _, item in ipairs(words) do
        local word = item:gsub('^%*', '')
        local is_here = stands_at(run, word, at) or (#lowered == #run and stands_at(lowered, vim.fn.tolower(word), at))
        if is_here and (not found or #item > #found) then
            found = item
        end
    end
    return found, 'no word of the personal list is at the cursor'
end

-- Chooses the word of a line, as `word_of` of dictionaries has it, if a list has it.
function M.named(line)
    local word = require('affedit.dictionaries').word_of(line)
    return function(words)
        if vim.tbl_contains(words, word) then
            return word
        end
        return nil, ('the personal list does not have `%s`'):format(word)
    end
end

return M
