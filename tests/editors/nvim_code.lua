-- Comments and strings alone are marked in code: tests of nvim.lua, which gives its tools. The dictionary knows no word but `the`.
local buffers = require('affedit.buffers')
local marks = require('affedit.marks')
local tools = require('nvim_tools')
local api = vim.api
local expect, settle, wait, keys = tools.expect, tools.settle, tools.wait, tools.keys

-- By filetype, lines and the places at which marks begin, as `line byte`.
local files = {
    c = {
        { 'int xa = 1; /* the xb TODO xc */', 'char *xd = "the xe %d\\n xf"; // xg', '#define xh "xi"', '/* xj', ' xk */ xl(xm);' },
        '1 19', '1 27', '2 16', '2 24', '2 32', '3 12', '4 3', '5 1',
    },
    lua = {
        { 'local xa = "the xb" -- xc', '--[[ xd', 'xe ]] xf = [[', 'xg', ']]' },
        '1 16', '1 23', '2 5', '3 0', '4 0',
    },
    python = {
        { 'def xa(xb):', '    """The xc', '    xd"""', '    return \'xe\' + xf # xg' },
        '2 11', '3 4', '4 12', '4 23',
    },
    sh = { { 'xa=$xb # xc', 'xd "xe" | xf' }, '1 9', '2 4' },
    xml = { { '<xa xb="xc">xd</xa>' }, '1 8', '1 12' },
    markdown = { { 'xa `xb`', '', '    xc = xd' }, '1 0', '1 4', '3 4', '3 9' },
    gitcommit = { { 'xa xb' }, '1 0', '1 3' },
    nosuchtype = { { 'xa = "xb"' }, '1 0', '1 6' },
    [''] = { { 'xa = "xb"' }, '1 0', '1 6' },
}

local function starts()
    return vim.tbl_map(function(mark)
        return mark[1] + 1 .. ' ' .. mark[2]
    end, marks.list(0))
end

local function open_code(filetype, lines)
    tools.write(tools.work .. '/the.aff', 'SET UTF-8\n')
    tools.write(tools.work .. '/the.dic', '1\nthe\n')
    vim.cmd('syntax on')
    vim.cmd('silent only | enew!')
    api.nvim_buf_set_lines(0, 0, -1, true, lines)
    vim.bo.filetype = filetype
    vim.b.affedit_dictionary = tools.work .. '/the'
    vim.cmd('Affedit on')
end

local function expect_starts(what, wanted)
    settle(what)
    expect(what, vim.deep_equal(starts(), wanted), table.concat(starts(), ', '))
end

-- The colours of the screen as it is, by row and column.
local function screen()
    local found = {}
    for row = 1, vim.o.lines do
        for column = 1, vim.o.columns do
            found[row * 1000 + column] = vim.fn.screenattr(row, column)
        end
    end
    return found
end

-- The colours of the screen, drawn anew. Where Neovim has dropped all attributes they are -1, until it has drawn the screen once more.
local function colours()
    local found
    repeat
        vim.cmd('redraw!')
        found = screen()
    until found[1001] ~= -1
    return found
end

-- Draws until the editor has been asked about all rows that were drawn.
local function draw()
    vim.cmd('redraw')
    wait(function()
        return not next(buffers.state(0).unseen)
    end)
    vim.cmd('redraw')
end

-- The places of the screen at which marks are to be drawn, by row and column.
local function marked_places()
    local win, places = api.nvim_get_current_win(), {}
    for _, mark in ipairs(marks.list(0)) do
        for byte = mark[2] + 1, mark[3] do
            local at = vim.fn.screenpos(win, mark[1] + 1, byte)
            places[at.row * 1000 + at.col] = at.row > 0 or nil
        end
    end
    return places
end

-- The places at which `seen` is not what `plain` is with marks at `places`. Neovim may number its colours anew in between: a number of
-- `plain` stands for one of `seen`, and a mark has a number that no other place has.
local function differences(seen, plain, places)
    local number_of, is_plain, found = {}, {}, {}
    for place, number in pairs(plain) do
        if not places[place] then
            number_of[number] = number_of[number] or seen[place]
            is_plain[seen[place]] = true
            if number_of[number] ~= seen[place] then
                found[#found + 1] = place
            end
        end
    end
    for place in pairs(places) do
        if is_plain[seen[place]] then
            found[#found + 1] = place
        end
    end
    return found
end

-- On the screen nothing but the marks has another colour than without the plugin. Returns how many places have marks.
local function expect_drawn(what)
    settle(what)
    draw()
    local places, seen, scope = marked_places(), screen(), buffers.state(0).scope
    seen = seen[1001] == -1 and colours() or seen
    vim.cmd('Affedit off')
    local wrong = differences(seen, colours(), places)
    vim.cmd('Affedit ' .. (scope or 'on'))
    settle(what)
    draw()
    expect(what .. ' is drawn', #wrong == 0, table.concat(vim.list_slice(wrong, 1, 10), ', '))
    return vim.tbl_count(places)
end

local function try_filetypes()
    for filetype, case in pairs(files) do
        local what, wanted = 'code of filetype ' .. filetype, vim.list_slice(case, 2)
        open_code(filetype, case[1])
        expect_starts(what, wanted)
        expect(what .. ' has marks on the screen', expect_drawn(what) == 2 * #wanted)
        vim.cmd('Affedit all')
        settle(what)
        expect(what .. ' has all marks with `all`', #starts() >= #wanted)
    end
    tools.turn_to(tools.work .. '/the')
    open_code('c', files.c[1])
    vim.cmd('Affedit all')
    tools.settle('all')
    local all = #starts()
    expect('`all` is what check prints', all > 14 and #tools.compare('all of a file in C', nil, true) == all, all)
    vim.cmd('Affedit prose')
    expect_starts('and back to prose', vim.list_slice(files.c, 2))
    tools.expect_jumps(tools.shown(0))
    tools.expect_diagnostics(tools.shown(0))
    vim.cmd('syntax off')
    expect_starts('without a syntax all is prose', vim.tbl_map(function(mark)
        return mark:match('^%d+ %d+')
    end, tools.compare('without a syntax', nil, true)))
    vim.cmd('silent only | enew!')
    tools.turn_to(tools.top .. '/examples/sample')
end

-- Groups of a made-up syntax, of which each has one way to be prose or code.
local function try_groups()
    open_code('made', { '{xa} <xb> "xc" #xd', "(xe) 'xf' xg" })
    for _, command in ipairs({
        [[syntax region madeSpell start=/{/ end=/}/ contains=@Spell]], [[syntax region madeCode start=/</ end=/>/ contains=@NoSpell]],
        [[syntax match madeCluster /"[^"]*"/ contains=@madeGroup]], [[syntax cluster madeGroup contains=madeNone,@Spell]],
        [[syntax match madeLinked /#.*/]], [[syntax region madeOther start=/(/ end=/)/]], [[syntax match madeString /'[^']*'/]],
        [[highlight link madeCode Comment]], [[highlight link madeLinked Comment]], [[highlight link madeString madeLink]],
        [[highlight link madeLink String]],
    }) do
        vim.cmd(command)
    end
    vim.b.current_syntax = 'made'
    expect_starts('groups of a syntax', { '1 1', '1 11', '1 16', '2 6' })
end

-- Where a comment is opened above, what was code is marked, and no mark stays where it is closed; also far below, and while one scrolls.
local function try_changes()
    local lines = {}
    for at = 1, 400 do
        lines[at] = at % 5 == 0 and 'xa("xb the"); /* xc */' or 'xd(xe);'
    end
    open_code('c', lines)
    settle('a file in C')
    expect_drawn('a file in C')
    local before = starts()
    expect('strings and comments are marked', #before == 160, #before)
    keys('ggO/* xf')
    local count = expect_drawn('an open comment')
    expect('it has all words below it, up to its end', #starts() == 1 + 4 * 2 + 2 + 1 + 79 * 2, #starts())
    keys('gg0x')
    expect_drawn('a comment that is none any more')
    expect('the marks are those of before', #starts() == 160, #starts())
    keys('gg0i/')
    local again = expect_drawn('a comment that is one again')
    expect('the comment is drawn as before', again == count, again .. ' and ' .. count)
    keys('Gzb')
    expect_drawn('the end of the file')
    for _, key in ipairs({ 'Oxx /* xg */', '0i"', 'A xh"', 'yyp', 'dd', 'ggdd', 'Oxi', 'G', 'p' }) do
        keys(key)
        expect_drawn('code after ' .. key)
    end
    keys('gg0ixj /* ')
    for _, letter in ipairs(vim.split('xk xl', '')) do
        keys('A' .. letter)
        expect_drawn('a letter more of a comment')
    end
end

-- A highlighter of treesitter that has these captures, `{ name, first row, first byte, last row, last byte }` each. Neovim 0.7.2 comes without
-- a parser.
local function fake_highlighter(list)
    local query = { captures = {} }
    for at, capture in ipairs(list) do
        query.captures[at] = capture[1]
    end
    function query.iter_captures(_, _, _, first, stop)
        local at = 0
        return function()
            repeat
                at = at + 1
            until not list[at] or (list[at][2] < stop and list[at][4] >= first)
            return list[at] and at, list[at] and { range = function() return unpack(list[at], 2) end }
        end
    end
    local tree = { root = function() return {} end }
    return {
        tree = { for_each_tree = function(_, visit) visit(tree, { lang = function() return 'c' end }) end },
        get_query = function() return { query = function() return query end } end,
    }
end

local function try_treesitter()
    local highlighter = require('vim.treesitter.highlighter')
    local buf
    open_code('c', { 'xa xb xc xd', 'xe xf xg', 'xh xi' })
    expect_starts('without treesitter the syntax counts', {})
    buf = api.nvim_get_current_buf()
    highlighter.active[buf] = fake_highlighter({
        { 'variable', 0, 0, 0, 2 }, { 'comment', 0, 3, 1, 2 }, { 'nospell', 0, 6, 0, 8 }, { 'string', 1, 3, 1, 8 },
        { 'string.escape', 1, 6, 1, 8 }, { 'spell', 2, 0, 2, 2 },
    })
    -- Neovim draws the screen anew where a highlighter starts.
    colours()
    expect_starts('captures of comments, strings and spelling', { '1 3', '1 9', '2 0', '2 3', '3 0' })
    expect('they are drawn', expect_drawn('captures') == 10)
    highlighter.active[buf] = nil
    colours()
    expect_starts('the syntax again', {})
    expect('and nothing is drawn', expect_drawn('the syntax again') == 0)
end

-- What asks about much code gives the editor turns, and counts the text as it is.
local function try_turns()
    local lines = {}
    for at = 1, 300 do
        lines[at] = 'xa(xb);'
    end
    lines[300] = 'xa(xb); /* xc */'
    open_code('c', lines)
    settle('much code')
    local function cursor()
        return table.concat(api.nvim_win_get_cursor(0), ' ')
    end
    keys('gg0')
    vim.cmd('Affedit next')
    expect('a long search gives the editor turns', cursor() == '1 0', cursor())
    expect('and ends at the mark', wait(function() return cursor() == '300 11' end), cursor())
    keys('gg0')
    vim.cmd('Affedit next')
    keys('5G')
    vim.wait(300, function() return false end, 1)
    expect('a cursor that was moved meanwhile stays', cursor() == '5 0', cursor())
    tools.forget_told()
    vim.cmd('Affedit status')
    tools.expect_told('the status counts', '1 marks in 300 lines; 0 lines wait')
    vim.cmd('Affedit status')
    keys('Go/* xd */')
    tools.expect_told('the status tells of a change', 'the text has changed while')
    vim.cmd('Affedit diagnostics')
    keys('Go/* xe */')
    expect('diagnostics are those of the changed text', wait(function() return #vim.diagnostic.get(0) == 3 end), #vim.diagnostic.get(0))
    vim.cmd('Affedit nodiagnostics')
    tools.forget_told()
end

return { try_filetypes, try_groups, try_changes, try_treesitter, try_turns }
