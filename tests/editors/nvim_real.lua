-- Random edits with the dictionaries of languages, each in a buffer of its own: a test of nvim.lua, which gives its tools. DICTIONARIES, of the
-- environment, has their paths without `.aff`, with colons between them. Words are also added and taken back. After each pause the marks of a
-- buffer are those of `affedit check` with its personal list.
local marks = require('affedit.marks')
local tools = require('nvim_tools')
local api = vim.api
local expect, random = tools.expect, tools.random

local all_edits = 200
-- What is in no dictionary, or is no word, or has an address or a path.
local common = {
    'wrold', 'citys', 'fxo', '11st', '2nd', '', '\t', 'https://wrold.example/citys', 'a/wrold.txt', 'x', '“citys”', 'слово', 'e\204\129t', '.',
}

-- Some words of a dictionary, as its lines have them, and misspellings of these.
local function vocabulary_of(stem)
    local lines = vim.split(tools.read(stem .. '.dic'), '\n')
    local words = vim.deepcopy(common)
    for _ = 1, 60 do
        local word = lines[random(#lines - 1) + 2]:match('^[^/%s]*')
        words[#words + 1] = word
        words[#words + 1] = word .. (word:match('[%z\1-\127]$') or 'x')
        words[#words + 1] = vim.fn.toupper(word) .. '.'
    end
    return words
end

-- Adds the word of one of the buffer's marks, and says whether there was one.
local function add_some()
    local all = marks.list(0)
    local mark = all[random(math.max(#all, 1)) + 1]
    if mark then
        api.nvim_win_set_cursor(0, { mark[1] + 1, mark[2] })
        vim.cmd('Affedit add')
    end
    return mark ~= nil
end

-- Takes one of the list's words back by its name, and says whether there was one.
local function forget_some()
    local items = vim.split(vim.trim((tools.read(tools.own()):gsub('%s*\n%s*', '\n'))), '\n')
    local item = items[random(#items) + 1]
    if item == '' then
        return false
    end
    vim.cmd('Affedit forget ' .. item)
    return true
end

-- Edits a buffer until its pause, adds a word or takes one back, and compares. Returns how many edits these were.
local function turn(buffer, at, done)
    tools.turn_to(buffer.stem, buffer.words)
    api.nvim_win_set_buf(0, buffer.number)
    local count, made = random(8) + 1, {}
    for index = 1, count do
        made[index] = tools.edit_names[random(#tools.edit_names) + 1]
        pcall(tools.edits[made[index]])
    end
    if at % 3 == 0 then
        tools.settle('before a word is added')
        done.added = done.added + (add_some() and 1 or 0)
    elseif at % 3 == 1 then
        tools.settle('before a word is taken back')
        done.forgotten = done.forgotten + (forget_some() and 1 or 0)
    end
    if api.nvim_buf_line_count(0) > 300 then
        api.nvim_buf_set_lines(0, 40, -1, true, {})
    end
    local found = tools.compare(('turn %d, by %s, after %s'):format(at, buffer.stem, table.concat(made, ', ')))
    done.marks = done.marks + #found
    return count
end

local function try_languages()
    local buffers = {}
    for stem in (vim.env.DICTIONARIES or ''):gmatch('[^:]+') do
        local buffer = { stem = stem, words = vocabulary_of(stem) }
        tools.turn_to(stem, buffer.words)
        vim.cmd('silent only | enew!')
        buffer.number = api.nvim_get_current_buf()
        api.nvim_buf_set_lines(0, 0, -1, true, tools.lines_of(40))
        vim.b.affedit_dictionary = stem
        vim.cmd('Affedit all')
        buffers[#buffers + 1] = buffer
    end
    if #buffers == 0 then
        return
    end
    local edits, at, done = 0, 0, { added = 0, forgotten = 0, marks = 0 }
    while edits < all_edits do
        at = at + 1
        edits = edits + turn(buffers[at % #buffers + 1], math.floor(at / #buffers), done)
    end
    expect('words were added and taken back', done.added >= 8 and done.forgotten >= 5, vim.inspect(done))
    expect('there were marks', done.marks > 1000, done.marks)
    expect('nothing is told of languages', #tools.told() == 0, table.concat(tools.told(), '\n'))
    for _, buffer in ipairs(buffers) do
        vim.cmd('bwipeout! ' .. buffer.number)
    end
    tools.turn_to(tools.top .. '/examples/sample')
end

return { try_languages }
