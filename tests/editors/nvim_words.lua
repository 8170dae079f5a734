-- Dictionaries by buffer, and personal lists: tests of nvim.lua, which gives its tools.
local affedit = require('affedit')
local marks = require('affedit.marks')
local service = require('affedit.service')
local tools = require('nvim_tools')
local api = vim.api
local work, top, expect, wait, settle, read, write = tools.work, tools.top, tools.expect, tools.wait, tools.settle, tools.read, tools.write
local shown, open, use, compare, told, own, expect_told = tools.shown, tools.open, tools.use, tools.compare, tools.told, tools.own, tools.expect_told
local lines_of, kill_program = tools.lines_of, tools.kill_program

local function try_dictionaries()
    write(work .. '/other.aff', 'SET UTF-8\n')
    write(work .. '/other.dic', '2\ncitys\nwrold\n')
    write(work .. '/bad.aff', 'SET ISO8859-1\n')
    write(work .. '/bad.dic', '1\ncitys\n')
    vim.fn.mkdir(work .. '/a folder', 'p')
    write(work .. '/a folder/third.aff', 'SET UTF-8\n')
    write(work .. '/a folder/third.dic', '1\nfox\n')
    open(lines_of(400))
    compare('before another dictionary')
    tools.forget_told()
    vim.cmd('Affedit dictionary ' .. work .. '/none')
    expect_told('a dictionary that is not there is told', 'no dictionary')
    vim.cmd('Affedit dictionary ' .. work .. '/bad')
    wait(function() return #told() > 0 end)
    compare('a dictionary that is refused')
    expect_told('it is told', 'bad is not read: .*/bad%.aff:1: OtherEncoding; .*; sample stays')
    use(work .. '/other')
    compare('another dictionary')
    use(work .. '/a folder/third')
    compare('a dictionary with a space in its path')
    use(top .. '/examples/sample')
    compare('the first dictionary again')
    expect('nothing more was told', #told() == 0, table.concat(told(), '\n'))
end

local function try_words()
    open({ 'the citys wrold citys', 'wrold Citys' })
    compare('before a word is added')
    api.nvim_win_set_cursor(0, { 1, 5 })
    vim.cmd('Affedit add')
    settle('a word is added')
    expect('the word is in the file', read(own()):find('citys\n', 1, true), read(own()))
    local left = compare('a word is added')
    expect('its marks are gone', vim.deep_equal(left, { '1 10 15', '2 0 5' }), vim.inspect(left))
    tools.forget_told()
    local before = read(own())
    vim.cmd('Affedit add *')
    expect_told('a word that is refused is told', '`%*` is not taken: no own EmptyWord')
    expect('and is not in the file', read(own()) == before)
    vim.cmd('Affedit add *the')
    compare('a word is prohibited')
    write(own(), 'citys')
    affedit.run('restart')
    compare('a list without a last line feed')
    vim.cmd('Affedit add wrold/fox')
    kill_program()
    compare('a word is added while the program ends')
    expect('the word is in the file once', read(own()) == 'citys\nwrold/fox\n', read(own()))
    write(own(), '')
    affedit.run('restart')
    compare('the list is emptied')
    tools.forget_told()
end

-- A chosen suggestion leaves the dot behind the mark, and doubles none.
local function suggest_with_dots()
    local suggest, select = require('affedit.suggest'), vim.ui.select
    local of, choice = suggest.of, nil
    suggest.of = function() return { choice } end
    vim.ui.select = function(list, _, done) done(list[1]) end
    for _, case in ipairs({ { 'fxo.', 'fox', 'fox.' }, { 'ect.', 'etc.', 'etc.' }, { 'ect', 'etc.', 'etc.' } }) do
        choice = case[2]
        open({ case[1] })
        settle('before a suggestion')
        vim.cmd('Affedit suggest')
        local line = api.nvim_get_current_line()
        expect(('`%s` becomes `%s`'):format(case[1], case[3]), line == case[3], line)
    end
    suggest.of, vim.ui.select = of, select
end

-- With a dot in WORDCHARS a mark is the word without the dots at its end, and so is what is added.
local function try_dots()
    write(work .. '/dots.aff', 'SET UTF-8\nWORDCHARS .\n')
    write(work .. '/dots.dic', '1\nthe\n')
    use(work .. '/dots')
    open({ 'the Hudn. the. Hudn... z.B. z.B', '... Hudn' })
    local function expect_marks(what, wanted)
        local found = compare(what)
        expect(what, vim.deep_equal(found, wanted), vim.inspect(found))
    end
    expect_marks('words with dots', { '1 4 8', '1 15 19', '1 23 26', '1 28 31', '2 4 8' })
    -- At the dot behind the word.
    api.nvim_win_set_cursor(0, { 1, 8 })
    vim.cmd('Affedit add')
    expect_marks('a word is known with dots and without', { '1 23 26', '1 28 31' })
    vim.cmd('Affedit add z.B.')
    expect_marks('an abbreviation is known with its dot', { '1 28 31' })
    expect('the file has the words', read(own()) == 'Hudn\nz.B.\n', read(own()))
    suggest_with_dots()
    write(own(), '')
    use(top .. '/examples/sample')
    affedit.run('restart')
    expect('nothing is told of dots', #told() == 0, table.concat(told(), '\n'))
end


-- The lines of a personal list that are not blank.
local function items(path)
    return vim.tbl_filter(function(line)
        return line:find('%S') ~= nil
    end, vim.split(read(path), '\n'))
end

local function expect_items(what, path, wanted)
    local found = items(path)
    expect(what, vim.deep_equal(found, wanted), vim.inspect(found))
end

-- Opens a window of a new buffer, which is marked by a dictionary, and returns both.
local function open_by(stem, lines)
    vim.cmd('new')
    api.nvim_buf_set_lines(0, 0, -1, true, lines)
    vim.b.affedit_dictionary = stem
    vim.cmd('Affedit on')
    return api.nvim_get_current_win(), api.nvim_get_current_buf()
end

-- Writes a dictionary of words in UTF-8, and returns its path without `.aff`.
local function dictionary(name, words)
    local stem = work .. '/' .. name
    write(stem .. '.aff', 'SET UTF-8\n')
    write(stem .. '.dic', #words .. '\n' .. table.concat(words, '\n') .. '\n')
    return stem
end

-- Whether there is a service of a dictionary.
local function is_used(stem)
    return #vim.tbl_filter(function(one) return one.pair.stem == stem end, service.all()) > 0
end

local function expect_shown(what, buf, wanted)
    settle(what)
    expect(what, vim.deep_equal(shown(buf), wanted), vim.inspect(shown(buf)))
end

-- The process ends with the last buffer of its dictionary, switched off, exchanged or wiped out, and no earlier.
local function end_one_by_one(one, two, first_window, second_window, third_window)
    local first, second = api.nvim_win_get_buf(first_window), api.nvim_win_get_buf(second_window)
    local of_one, of_two = marks.service_of(first).process.pid, marks.service_of(second).process.pid
    vim.cmd('bwipeout! ' .. api.nvim_win_get_buf(third_window))
    settle('one buffer of two is gone')
    vim.wait(50, function() return false end, 1)
    expect('the process stays for the other', not tools.is_gone(of_two) and marks.service_of(second).process.pid == of_two)
    api.nvim_set_current_win(second_window)
    vim.cmd('Affedit off')
    expect('the process ends with its last buffer', wait(function() return tools.is_gone(of_two) end))
    expect_shown('a switched off buffer', second, {})
    expect_shown('the first buffer stays', first, { '1 4 8', '1 9 14' })
    api.nvim_set_current_win(first_window)
    vim.cmd('Affedit dictionary ' .. two)
    expect('the process ends when its dictionary is exchanged', wait(function() return tools.is_gone(of_one) end))
    expect_shown('another dictionary in the first buffer', first, { '1 0 3' })
    expect('the choice is kept', vim.b.affedit_dictionary == two, vim.b.affedit_dictionary)
    vim.cmd('bwipeout! ' .. first)
    expect('no service is left of these', wait(function() return not is_used(one) and not is_used(two) end))
end

-- Each buffer is marked by its own dictionary and by the list of that, with one process for each dictionary that is in use.
local function try_two_dictionaries()
    local one, two = dictionary('one', { 'fox' }), dictionary('two', { 'city' })
    tools.forget_told()
    vim.cmd('silent only | enew!')
    local text = { 'fox city wrold' }
    local first_window, first = open_by(one, text)
    local second_window, second = open_by(two, text)
    local third_window, third = open_by(two, text)
    expect_shown('the first buffer', first, { '1 4 8', '1 9 14' })
    expect_shown('the second buffer', second, { '1 0 3', '1 9 14' })
    expect_shown('the third buffer', third, { '1 0 3', '1 9 14' })
    local of_two = marks.service_of(second).process
    expect('two dictionaries have two processes', marks.service_of(first).process ~= of_two and marks.service_of(third).process == of_two)
    vim.cmd('Affedit add wrold')
    expect_shown('a word of the second dictionary', second, { '1 0 3' })
    expect_shown('a word of the second dictionary, elsewhere', third, { '1 0 3' })
    expect_shown('is none of the first', first, { '1 4 8', '1 9 14' })
    expect_items('the list of the second', tools.own_of(two), { 'wrold' })
    expect_items('the list of the first', tools.own_of(one), {})
    end_one_by_one(one, two, first_window, second_window, third_window)
    expect('nothing is told of two dictionaries', #told() == 0, table.concat(told(), '\n'))
end

-- The option may be a function, and the buffer's variable, whenever it is set for its filetype, counts before it.
local function try_choices()
    local one, two = dictionary('one', { 'fox' }), dictionary('two', { 'city' })
    local kept = service.options
    affedit.setup({
        program = tools.program,
        filetypes = { 'mail', 'text' },
        dictionary = function(buf) return vim.bo[buf].filetype == 'mail' and one or two end,
    })
    local group = api.nvim_create_augroup('affedit_test', {})
    api.nvim_create_autocmd('FileType', { group = group, pattern = 'text', callback = function() vim.b.affedit_dictionary = one end })
    local function expect_dictionary(what, filetype, stem)
        vim.bo.filetype = filetype
        local function current() return marks.is_on(api.nvim_get_current_buf()) and marks.service_of(0).pair.stem end
        expect(what, wait(function() return current() == stem end), current())
    end
    tools.forget_told()
    vim.cmd('silent only | enew!')
    expect_dictionary('the function chooses by filetype', 'mail', one)
    expect_dictionary('another filetype has another dictionary', 'gitcommit', two)
    expect_dictionary('the variable of the buffer counts first', 'text', one)
    vim.b.affedit_dictionary = two
    vim.cmd('Affedit on')
    expect_dictionary('a changed variable counts at `on`', 'text', one)
    vim.cmd('silent only | new')
    vim.bo.filetype = 'lua'
    vim.wait(50, function() return false end, 1)
    expect('no other filetype is marked', not marks.is_on(api.nvim_get_current_buf()))
    expect('nothing is told of choices', #told() == 0, table.concat(told(), '\n'))
    service.options.dictionary = function() error('no choice') end
    vim.cmd('Affedit on')
    expect_told('a function that fails is told', 'the function `dictionary` fails: .*no choice')
    service.options.dictionary = 'none'
    vim.cmd('Affedit on')
    expect_told('a dictionary that is not there is told', 'no dictionary none')
    api.nvim_del_augroup_by_name('affedit_test')
    vim.cmd('silent! bwipeout!')
    affedit.setup({})
    service.options = kept
end

-- Words are taken back: where they stand, by name, and before the program has taken them. All other lines of the list stay.
local function try_forget()
    open({ 'the wrold citys. Wrold-fxo', 'x wr the' })
    local before = tools.compare('before words are taken back')
    local list = { 'wrold', '*the', 'citys', 'fxo/fox', 'wr' }
    for _, line in ipairs(list) do
        vim.cmd('Affedit add ' .. line)
    end
    tools.compare('five words are added')
    expect_items('they are in the list', own(), list)
    local function forget(line, column, words, left)
        local what = ('`forget %s` at %d %d'):format(words, line, column)
        api.nvim_win_set_cursor(0, { line, column })
        vim.cmd('Affedit forget ' .. words)
        tools.compare(what)
        expect_items(what, own(), left)
    end
    forget(1, 15, '', { 'wrold', '*the', 'fxo/fox', 'wr' })
    forget(1, 18, '', { '*the', 'fxo/fox', 'wr' })
    forget(2, 5, '', { 'fxo/fox', 'wr' })
    forget(1, 0, 'fxo', { 'wr' })
    tools.forget_told()
    forget(1, 4, '', { 'wr' })
    expect_told('a word that is not in the list is told', 'no word of the personal list is at the cursor')
    forget(1, 4, 'wrold', { 'wr' })
    expect_told('a name that is not in the list is told', 'the personal list does not have `wrold`')
    vim.cmd('Affedit add wrold')
    vim.cmd('Affedit add citys')
    forget(1, 0, 'wrold', { 'wr', 'citys' })
    forget(1, 0, 'citys', { 'wr' })
    forget(2, 2, '', {})
    vim.cmd('Affedit add rold')
    forget(1, 6, '', { 'rold' })
    expect_told('a part of a word is not the word', 'no word of the personal list is at the cursor')
    forget(1, 6, 'rold', {})
    expect('all marks are back', vim.deep_equal(tools.compare('all are taken back'), before))
    expect('nothing more is told', #told() == 0, table.concat(told(), '\n'))
    write(own(), '')
    affedit.run('restart')
end

-- Which words lines of a list are about.
local function try_lines_of_lists()
    local word_of = require('affedit.dictionaries').word_of
    local cases = {
        { ' wurk ', 'wurk' }, { 'jig/work\r', 'jig' }, { '*no/x', '*no' }, { 'a\\/b/c', 'a/b' }, { '/a', '/a' }, { '', '' }, { '  \r', '' },
        { '\239\187\191wurk', 'wurk' }, { '\239\188\145', '\239\188\145' },
    }
    for _, case in ipairs(cases) do
        expect('the word of `' .. case[1] .. '`', word_of(case[1]) == case[2], word_of(case[1]))
    end
end

-- A single list of earlier versions begins each list, and stays as it is. With the option `own` one list serves all dictionaries.
local function try_single_list()
    local three, four = dictionary('three', { 'fox' }), dictionary('four', { 'city' })
    local common = work .. '/data/affedit/words'
    vim.fn.mkdir(work .. '/data/affedit', 'p')
    write(common, 'wrold\nciys')
    vim.cmd('silent only | enew!')
    local _, first = open_by(three, { 'wrold fox ciys city' })
    settle('a list that begins with the single one')
    expect('its words are known', vim.deep_equal(shown(first), { '1 15 19' }), vim.inspect(shown(first)))
    vim.cmd('Affedit add city')
    vim.cmd('Affedit forget wrold')
    settle('a changed list')
    expect('the changes count', vim.deep_equal(shown(first), { '1 0 5' }), vim.inspect(shown(first)))
    expect_items('the list has them', tools.own_of(three), { 'ciys', 'city' })
    expect('the single list stays', read(common) == 'wrold\nciys', read(common))
    vim.cmd('bwipeout!')
    expect('its process ends', wait(function() return not is_used(three) end))
    service.options.own = common
    local _, second = open_by(three, { 'wrold fox citys city' })
    local _, third = open_by(four, { 'wrold fox citys city' })
    settle('two dictionaries with one list')
    vim.cmd('Affedit add citys')
    settle('a word of one list')
    expect('it is known by the one', vim.deep_equal(shown(third), { '1 6 9' }), vim.inspect(shown(third)))
    expect('and by the other', vim.deep_equal(shown(second), { '1 16 20' }), vim.inspect(shown(second)))
    expect_items('it is in the list once', common, { 'wrold', 'ciys', 'citys' })
    vim.cmd('Affedit forget wrold')
    settle('a word taken back from one list')
    expect('its mark is back in the one', vim.deep_equal(shown(third), { '1 0 5', '1 6 9' }), vim.inspect(shown(third)))
    expect('and in the other', vim.deep_equal(shown(second), { '1 0 5', '1 16 20' }), vim.inspect(shown(second)))
    service.options.own = nil
    vim.cmd('bwipeout! ' .. second)
    vim.cmd('bwipeout! ' .. third)
    os.remove(common)
end

return {
    try_dictionaries, try_words, try_dots, try_two_dictionaries, try_choices, try_forget, try_lines_of_lists, try_single_list,
}
