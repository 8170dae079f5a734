-- The marks of editors/nvim beside those of `affedit check` on the text of the buffer, after each of many edits, and what the user
-- is told where something is wrong. The environment has TOP, WORK (a folder), PROGRAM, EDITS and SEED. Ends with status 1 where
-- something differs.
local top, work, program = vim.env.TOP, vim.env.WORK, vim.env.PROGRAM
vim.env.XDG_DATA_HOME = work .. '/data'
vim.opt.runtimepath:prepend(top .. '/editors/nvim')
vim.cmd('runtime plugin/affedit.lua')
-- Lines are wrapped: where they are scrolled sideways behind a tab, Neovim 0.7.2 draws all marks wrong at the window's left edge.
vim.o.wrap, vim.o.hidden, vim.o.swapfile, vim.o.hlsearch, vim.o.undolevels = true, true, false, false, 2000
vim.o.lines, vim.o.columns, vim.o.report, vim.o.more = 30, 100, 1000000, false
local affedit = require('affedit')
local marks = require('affedit.marks')
local service = require('affedit.service')
local dialogue = require('affedit.program')
local api = vim.api
local failures, compared, looks, dropped = 0, 0, 0, 0

-- What is waited for comes at once on a quiet machine. Nothing but a fault reaches this limit, in milliseconds, however loaded the machine is.
local limit = 120000
-- No program is too slow here, but for the one that is silent.
local patient = 3600000
dialogue.silence = patient

local told = {}
vim.notify = function(text)
    told[#told + 1] = text
    if text:find('no answer for', 1, true) then
        dialogue.silence = patient
    end
end

local function fail(what, detail)
    failures = failures + 1
    if failures <= 20 then
        io.stdout:write('nvim: ' .. what .. (detail and ': ' .. detail or '') .. '\n')
    end
end

local function expect(what, holds, detail)
    if not holds then
        fail(what, detail)
    end
end

-- Waits until the condition holds, and says whether it does.
local function wait(condition)
    return (vim.wait(limit, condition, 1))
end

-- Waits until something like this is told.
local function expect_told(what, pattern)
    local holds = wait(function()
        return table.concat(told, '\n'):find(pattern) ~= nil
    end)
    expect(what, holds, 'told was: ' .. table.concat(told, '\n'))
    told = {}
end

-- That of the current buffer.
local function the_service()
    return marks.service_of(0)
end

local function settle(what)
    expect(what .. ': the marks are in', wait(marks.is_idle), the_service().failed)
end

local function read(path)
    local file = assert(io.open(path, 'rb'))
    local text = file:read('*a')
    file:close()
    return text
end

local function write(path, text)
    local file = assert(io.open(path, 'wb'))
    file:write(text)
    file:close()
end

local pair = { aff = top .. '/examples/sample.aff', dic = top .. '/examples/sample.dic' }
local function own_of(stem)
    return work .. '/data/affedit/words.' .. vim.fn.fnamemodify(stem, ':t')
end
local own = own_of('sample')

-- The marks that `check` prints of lines, as `line start stop`, without the dots at a word's end. A line that it refuses has none.
local checked
checked = function(lines)
    write(work .. '/text', table.concat(lines, '\n') .. '\n')
    local words = { program, 'check', pair.aff, pair.dic, work .. '/text', '--own', own }
    local printed = vim.fn.systemlist(words)
    local status = vim.v.shell_error
    if status == 4 then
        lines = vim.deepcopy(lines)
        lines[tonumber(printed[#printed]:match('^doc (%d+)$'))] = ''
        return checked(lines)
    end
    assert(status == 0 or status == 1, 'check ended with ' .. status .. ': ' .. table.concat(printed, ' '))
    local found = {}
    for _, line in ipairs(printed) do
        local start, stop, word = line:match('^(%d+ %d+) (%d+) (.+)$')
        if start then
            found[#found + 1] = start .. ' ' .. stop - #word:match('%.*$')
        end
    end
    assert(printed[#printed]:match('^' .. #found .. ' of '), 'check printed ' .. printed[#printed])
    return found
end

local function shown(buf)
    return vim.tbl_map(function(mark)
        return ('%d %d %d'):format(mark[1] + 1, mark[2], mark[3])
    end, marks.list(buf))
end

-- Which bytes of the visible lines of a window are drawn as marks, beside those that are marked.
local function look(what, win, wanted)
    vim.cmd('redraw')
    for row = 1, vim.o.lines do
        if vim.fn.screenattr(row, 1) == -1 then
            -- Neovim has dropped all attributes, and has not drawn the screen anew yet.
            vim.cmd('redraw!')
            dropped = dropped + 1
            break
        end
    end
    local info, buf = vim.fn.getwininfo(win)[1], api.nvim_win_get_buf(win)
    local marked = {}
    for _, mark in ipairs(wanted) do
        local line, start, stop = mark:match('(%d+) (%d+) (%d+)')
        for byte = start, stop - 1 do
            marked[line .. ' ' .. byte] = true
        end
    end
    for line = info.topline, math.min(info.botline, api.nvim_buf_line_count(buf)) do
        local text = api.nvim_buf_get_lines(buf, line - 1, line, false)[1]
        for byte = 0, math.min(#text, 400) - 1 do
            local at = vim.fn.screenpos(win, line, byte + 1)
            if at.row > 0 and at.col > 0 and at.col < info.wincol + info.width and at.row < info.winrow + info.height then
                looks = looks + 1
                local is_drawn = vim.fn.screenattr(at.row, at.col) ~= 0
                if is_drawn ~= (marked[line .. ' ' .. byte] or false) then
                    fail(what, ('byte %d of line %d is drawn %s: %s'):format(byte, line, is_drawn and 'marked' or 'plain', text))
                    return
                end
            end
        end
    end
end

-- Compares all marks of the current buffer, and those on the screen, with `check` of its text.
-- `lines` are what `check` gets instead; `unseen` leaves the screen out.
local function compare(what, lines, unseen)
    settle(what)
    local buf = api.nvim_get_current_buf()
    local wanted = checked(lines or api.nvim_buf_get_lines(buf, 0, -1, true))
    -- While `check` ran the editor took what came, and perhaps the end of the process.
    settle(what)
    local found = shown(buf)
    compared = compared + 1
    if not vim.deep_equal(wanted, found) then
        for at = 1, math.max(#wanted, #found) do
            if wanted[at] ~= found[at] then
                fail(what, ('mark %d is %s, wanted %s'):format(at, found[at] or 'none', wanted[at] or 'none'))
                break
            end
        end
    end
    for _, win in ipairs(unseen and {} or vim.fn.win_findbuf(buf)) do
        look(what, win, wanted)
    end
    return wanted
end

-- Random numbers of our own, the same on each machine.
local seed = tonumber(vim.env.SEED)
local function random(below)
    seed = (seed * 16807) % 2147483647
    return seed % below
end
local sample_words = {
    'the', 'citys', 'city', 'fox', 'foxs', 'rereads', 'wrold', '2nd', '11st', "who's", 'naïve', 'straße', 'слово', '東京', 'In',
    'THE', 'read-order', 'e\204\129t', '', '\t', '“fox”', 'x', 'in', 'was', 'orders.', 'a.b.', "'the'", '\240\159\153\130',
}
local vocabulary = sample_words
local function words(count)
    local list = {}
    for _ = 1, count do
        list[#list + 1] = vocabulary[random(#vocabulary) + 1]
    end
    return table.concat(list, ' ')
end
local function lines_of(count)
    local lines = {}
    for at = 1, count do
        lines[at] = words(random(9))
    end
    return lines
end

local function open(lines)
    vim.cmd('silent only | enew!')
    api.nvim_buf_set_lines(0, 0, -1, true, lines)
    vim.b.affedit_dictionary = pair.aff
    vim.cmd('Affedit on')
end

local function keys(text)
    vim.cmd('silent! normal! ' .. api.nvim_replace_termcodes(text, true, true, true))
end

local function somewhere()
    local row = random(api.nvim_buf_line_count(0)) + 1
    local text = api.nvim_buf_get_lines(0, row - 1, row, true)[1]
    local character = random(vim.fn.strchars(text) + 1)
    api.nvim_win_set_cursor(0, { row, math.max(vim.fn.byteidx(text, character), 0) })
    return row
end

local function range()
    local one, two = random(api.nvim_buf_line_count(0)) + 1, random(api.nvim_buf_line_count(0)) + 1
    return math.min(one, two) .. ',' .. math.max(one, two)
end

local edits = {
    insert = function() somewhere() keys('i' .. words(2)) end,
    append = function() somewhere() keys('A ' .. words(1)) end,
    letter = function() somewhere() keys('ix') end,
    delete = function() somewhere() keys('x') end,
    delete_word = function() somewhere() keys('daw') end,
    delete_lines = function() somewhere() keys((random(3) + 1) .. 'dd') end,
    delete_much = function() if random(4) == 0 then vim.cmd(range() .. 'delete') end end,
    open_line = function() somewhere() keys('o' .. words(4) .. '<CR>' .. words(3)) end,
    split_line = function() somewhere() keys('i<CR>') end,
    join = function() somewhere() keys('J') end,
    put = function() somewhere() keys('yyp') end,
    put_many = function() somewhere() api.nvim_put(lines_of(random(40)), 'l', true, false) end,
    undo = function() keys((random(4) + 1) .. 'u') end,
    redo = function() keys((random(3) + 1) .. '<C-r>') end,
    sort = function() vim.cmd(range() .. 'sort' .. (random(2) == 0 and '!' or '')) end,
    global_delete = function() vim.cmd('silent! ' .. range() .. 'g/wrold/d') end,
    global_normal = function() vim.cmd('silent! ' .. range() .. 'g/fox/normal! Ax') end,
    global_move = function() vim.cmd('silent! ' .. range() .. 'g/the/m0') end,
    substitute = function() vim.cmd('silent! ' .. range() .. 's/city/citx/g') end,
    back = function() vim.cmd('silent! %s/citx/city/g') end,
    move = function() vim.cmd(range() .. 'm0') end,
    copy = function() somewhere() vim.cmd('.t$') end,
    rectangle = function() somewhere() keys('<C-v>3j2ld') end,
    rectangle_insert = function() somewhere() keys('<C-v>2jIwr<Esc>') end,
    rectangle_put = function() somewhere() keys('<C-v>2jly') somewhere() keys('p') end,
    case = function() somewhere() keys('g~w') end,
    set_text = function()
        local row = somewhere() - 1
        local text = api.nvim_buf_get_lines(0, row, row + 1, true)[1]
        api.nvim_buf_set_text(0, row, 0, row, #text, { words(2), words(3) })
    end,
    several = function() somewhere() keys('ixy<Esc>') somewhere() keys('dd') somewhere() keys('Ofoxx') end,
    empty = function() if random(3) == 0 then vim.cmd('%delete') end end,
    fill = function() if api.nvim_buf_line_count(0) < 5 then api.nvim_buf_set_lines(0, 0, -1, true, lines_of(5)) end end,
}
local names = vim.tbl_keys(edits)
table.sort(names)

local function edit_at_random(size)
    open(lines_of(size))
    compare('opened with ' .. size .. ' lines')
    for at = 1, tonumber(vim.env.EDITS) do
        local name = names[random(#names) + 1]
        pcall(edits[name])
        compare(('edit %d of %d lines, %s, seed %s'):format(at, size, name, vim.env.SEED))
        if api.nvim_buf_line_count(0) > 15000 then
            api.nvim_buf_set_lines(0, size, -1, true, {})
        elseif api.nvim_buf_line_count(0) < size / 2 then
            api.nvim_buf_set_lines(0, 0, 0, true, lines_of(size))
        end
    end
end

-- Neovim draws what is no character in a colour of its own, so the screen is not looked at here.
local function try_bytes()
    write(work .. '/bytes', 'the citys\ncaf\233 wrold citys\nfoxs was \237\160\128 wrold\nread wrold\r\nfox\0citys wrold\n')
    told = {}
    vim.cmd('silent only | edit ++enc=utf-8 ++bad=keep ++ff=unix ' .. work .. '/bytes')
    vim.cmd('Affedit on')
    compare('bytes that are not UTF-8', { 'the citys', '', '', 'read wrold\r', 'fox\0citys wrold' }, true)
    expect_told('a line that is not UTF-8 is told', 'line 2 of buffer %d+ is not checked: it is not UTF%-8')
    api.nvim_buf_set_lines(0, 1, 3, true, { 'café wrold citys', 'foxs' })
    compare('bytes that are mended', { 'the citys', 'café wrold citys', 'foxs', 'read wrold\r', 'fox\0citys wrold' }, true)
end

local function try_long_lines()
    -- Pieces of the long line, and where each begins.
    local pieces, from, text = {}, {}, {}
    local at = 0
    for number = 1, 30000 do
        local piece = number % 3 == 0 and 'citys ' or 'naïve\t'
        pieces[number], from[number] = piece, at
        at = at + #piece
    end
    local long = table.concat(pieces)
    told = {}
    open({ 'wrold', long, 'wrold' })
    settle('a long line')
    local wanted = { '1 0 5' }
    for number, piece in ipairs(pieces) do
        wanted[#wanted + 1] = ('2 %d %d'):format(from[number], from[number] + #piece - 1)
    end
    wanted[#wanted + 1] = '3 0 5'
    compared = compared + 1
    expect('the marks of a line of ' .. #long .. ' bytes', vim.deep_equal(wanted, shown(0)), #shown(0) .. ' marks')
    -- What `check` says of a piece is what was taken for granted above.
    text = checked({ 'citys ', 'naïve\t' })
    expect('the pieces of the long line', vim.deep_equal(text, { '1 0 5', '2 0 6' }), vim.inspect(text))
    open({ 'wrold', ('x'):rep(200000), 'wrold' })
    compare('a line that cannot be cut', { 'wrold', '', 'wrold' })
    expect_told('a line that cannot be cut is told', 'line 2 of buffer %d+ is not checked: it has no space')
    open({ ('x'):rep(65536), ('x'):rep(65535) .. 'é' })
    compare('lines as long as they may be', { ('x'):rep(65536), '' })
    told = {}
end

local function try_states()
    open({})
    compare('a new buffer')
    open(lines_of(2000))
    compare('before many lines are deleted')
    vim.cmd('10,1500delete')
    compare('many lines are deleted')
    keys('u')
    compare('the deletion is undone')
    keys('<C-r>')
    compare('and done again')
    keys('u')
    for _ = 1, 1000 do
        vim.cmd('$')
        keys('ofoxx')
    end
    compare('a thousand lines in a thousand steps')
    keys('1000u')
    compare('a thousand steps undone')
    vim.cmd('%delete')
    compare('an emptied buffer')
    keys('u')
    compare('and undone')
    vim.cmd('sort')
    compare('sorted')
    vim.cmd('silent g/^/m0')
    compare('reversed')
    -- Two windows of one buffer, at other places of it.
    vim.cmd('split')
    keys('G')
    compare('two windows')
    keys('ofoxx')
    compare('two windows, and a change in one')
    vim.cmd('wincmd w')
    keys('ggOfoxx')
    compare('two windows, and a change in the other')
    vim.cmd('only')
    vim.cmd('Affedit off')
    vim.cmd('redraw')
    look('switched off', api.nvim_get_current_win(), {})
    vim.cmd('Affedit toggle')
    compare('switched on again')
    write(work .. '/reload', table.concat(lines_of(50), '\n') .. '\n')
    vim.cmd('edit! ' .. work .. '/reload')
    vim.cmd('Affedit on')
    compare('a file')
    write(work .. '/reload', table.concat(lines_of(60), '\n') .. '\n')
    vim.cmd('edit!')
    if not marks.is_on(api.nvim_get_current_buf()) then
        vim.cmd('Affedit on')
    end
    compare('a file that is read again')
    expect('nothing was told', #told == 0, table.concat(told, '\n'))
end

-- Both commands go from mark to mark, in the order of the text, and around its end.
local function expect_jumps(wanted)
    for _, way in ipairs({ 'next', 'previous' }) do
        api.nvim_win_set_cursor(0, { 1, 0 })
        vim.cmd('Affedit previous')
        if way == 'previous' then
            vim.cmd('Affedit next')
        end
        local visited = {}
        for _ = 1, #wanted do
            vim.cmd('Affedit ' .. way)
            local cursor = api.nvim_win_get_cursor(0)
            visited[#visited + 1] = cursor[1] .. ' ' .. cursor[2]
        end
        local starts = vim.tbl_map(function(mark)
            return mark:match('^%d+ %d+')
        end, wanted)
        if way == 'previous' then
            local reversed = {}
            for at = #starts, 1, -1 do
                reversed[#reversed + 1] = starts[at]
            end
            starts = reversed
        end
        expect('all marks in turn, by ' .. way, vim.deep_equal(starts, visited), #starts .. ' and ' .. #visited)
    end
end

local function expect_diagnostics(wanted)
    vim.cmd('Affedit diagnostics')
    local there = wait(function()
        return #vim.diagnostic.get(0) == #wanted
    end)
    expect('the diagnostics are there', there, #vim.diagnostic.get(0) .. ' of ' .. #wanted)
    local listed = vim.tbl_map(function(found)
        return ('%d %d %d'):format(found.lnum + 1, found.col, found.end_col)
    end, vim.diagnostic.get(0))
    local ordered = vim.deepcopy(wanted)
    table.sort(listed)
    table.sort(ordered)
    expect('the diagnostics are the marks', vim.deep_equal(ordered, listed))
    expect('nothing is told of diagnostics that are all marks', #told == 0, table.concat(told, '\n'))
    vim.cmd('Affedit nodiagnostics')
    expect('the diagnostics are gone', #vim.diagnostic.get(0) == 0)
end

local function try_jumps()
    open(lines_of(300))
    local wanted = compare('before the jumps')
    expect_jumps(wanted)
    expect_diagnostics(wanted)
end

-- How many rows a row is away from the window.
local function rows_away(row)
    return math.max(vim.fn.line('w0') - 1 - row, row + 1 - vim.fn.line('w$'), 0)
end

-- Of very many marks the diagnostics are the nearest to the window, wherever that is. The marks are denser behind line 1000.
local function try_many_diagnostics()
    local lines = {}
    for at = 1, 4000 do
        lines[at] = ('citys '):rep(at < 1000 and at % 2 or at % 5)
    end
    open(lines)
    for _, line in ipairs({ 1, 1000, 2500, 4000 }) do
        local what = 'diagnostics around line ' .. line
        api.nvim_win_set_cursor(0, { line, 0 })
        vim.cmd('redraw')
        told = {}
        vim.cmd('Affedit diagnostics')
        expect(what, wait(function() return #vim.diagnostic.get(0) > 0 end))
        local listed, farthest, left, nearest = {}, 0, 0, math.huge
        for _, found in ipairs(vim.diagnostic.get(0)) do
            listed[('%d %d %d'):format(found.lnum, found.col, found.end_col)] = true
            farthest = math.max(farthest, rows_away(found.lnum))
        end
        for _, mark in ipairs(marks.list(0)) do
            if not listed[table.concat(mark, ' ')] then
                left = left + 1
                nearest = math.min(nearest, rows_away(mark[1]))
            end
        end
        expect(what .. ' are 5,000 marks', #vim.diagnostic.get(0) == 5000 and left == 1500, left .. ' are left')
        expect(what .. ' are the nearest', farthest <= nearest, farthest .. ' rows and ' .. nearest)
        expect(what .. ' are told', #told == 1 and told[1]:find('5,000 of 6,500 marks', 1, true), table.concat(told, '\n'))
        vim.cmd('Affedit nodiagnostics')
    end
    told = {}
end

-- Exchanges the dictionary, and waits until that is done.
local function use(stem)
    vim.cmd('Affedit dictionary ' .. stem)
    wait(function() return the_service().pair.stem == stem end)
    pair = { aff = stem .. '.aff', dic = stem .. '.dic' }
    own = own_of(stem)
end

-- Kills the program, and waits until its end is seen; `before` is called in between.
local function kill_program(before)
    local ending = the_service().process
    vim.loop.kill(ending.pid, 9)
    if before then
        before()
    end
    expect('the end of the program is seen', wait(function() return the_service().process ~= ending end))
end

-- The program, which the launcher has started.
local function program_pid()
    local pid = the_service().process.pid
    return api.nvim_get_proc_children(pid)[1] or pid
end

-- Stops the program when it owes nothing, so that it is silent from the next request on.
local function stop_program()
    wait(function() return not the_service().process:is_waiting() end)
    local pid = program_pid()
    vim.loop.kill(pid, 'sigstop')
    return pid
end

-- Whether a process has ended, though nobody may have asked for its status yet.
local function is_gone(pid)
    local file = io.open('/proc/' .. pid .. '/stat')
    local text = file and file:read('*a')
    if file then
        file:close()
    end
    return not text or text:match('%) ([ZX])') ~= nil
end

local function try_ends()
    open(lines_of(3000))
    compare('before the program is killed')
    told = {}
    kill_program(function()
        keys('ofoxx wrold')
    end)
    compare('the program is killed between requests')
    expect_told('its end is told', 'the program ended by signal 9; it is started again')
    affedit.run('restart')
    compare('restarted')
    vim.cmd('%s/$/ x/')
    vim.wait(5, function() return false end, 1)
    kill_program()
    compare('the program is killed while it is asked')
    expect_told('its end is told too', 'it is started again')
    affedit.run('restart')
    -- What the program ends itself for: a personal list with a fault.
    local kept = read(own)
    write(own, kept .. '*\n')
    affedit.run('restart')
    expect('the end is seen', wait(function() return the_service().failed ~= nil end))
    expect_told('a fault of the list is told with its line', 'words%.sample:%d+: EmptyWord; there are no marks until :Affedit restart')
    write(own, kept)
    affedit.run('restart')
    compare('the list is mended')
    told = {}
    local real = service.options.program
    service.options.program = work .. '/none'
    affedit.run('restart')
    expect_told('a program that is not there is told', 'no program ' .. vim.pesc(work .. '/none') .. ': ENOENT')
    keys('ofoxx wrold')
    vim.cmd('Affedit status')
    expect_told('and the status says so', 'ENOENT')
    service.options.program = real
    affedit.run('restart')
    compare('the program is there again')
    -- More lines change than the program takes paragraphs, before it answers.
    local stopped = stop_program()
    for at = 1, 160 do
        local lines = {}
        for number = 1, 150 do
            lines[number] = 'wrold fox' .. at * 1000 + number .. ' citys'
        end
        api.nvim_buf_set_lines(0, at % 2 == 0 and 0 or -1, at % 2 == 0 and 0 or -1, true, lines)
        vim.wait(2, function() return false end, 1)
    end
    expect('nothing is answered by a program that is stopped', marks.count(0).waiting >= 24000, marks.count(0).waiting)
    vim.loop.kill(stopped, 'sigcont')
    settle('many changes at once')
    local count = marks.count(0)
    expect('all of them are checked', count.refused == 0 and count.waiting == 0, vim.inspect(count))
    api.nvim_buf_set_lines(0, 3000, -1, true, {})
    compare('some of many changes')
    -- A program that does not answer is ended by the plugin, and one that is silent for a short while is not.
    expect('nothing is told of a short silence', #told == 0, table.concat(told, '\n'))
    local launcher = the_service().process.pid
    stopped = stop_program()
    dialogue.silence = 2000
    keys('ofoxx wroldx')
    compare('a program that is stopped')
    expect_told('its silence is told', 'by signal 9: no answer for 2 seconds; it is started again')
    expect('it is gone', wait(function() return is_gone(stopped) and is_gone(launcher) end))
    launcher = the_service().process.pid
    stopped = stop_program()
    keys('ofoxx wroldy')
    affedit.run('restart')
    compare('a program that is stopped, and restarted')
    expect('it is gone too', wait(function() return is_gone(stopped) and is_gone(launcher) end))
    -- Before its input is too large another process takes its place.
    local pid, most = the_service().process.pid, service.most_sent
    service.most_sent = the_service().process.sent + 1000
    for at = 1, 40 do
        keys('ofoxx wrold' .. at .. words(30))
        settle('a process is renewed')
        wait(function() return not the_service().process:is_waiting() end)
    end
    compare('a process is renewed')
    expect('another process runs', the_service().process.pid ~= pid)
    service.most_sent = most
    expect('nothing is told of that', #told == 0, table.concat(told, '\n'))
    service.ends_seconds = 1000000
    for _ = 1, 3 do
        kill_program()
        wait(function() return the_service().failed or marks.is_idle() and the_service().process.answered > 0 end)
    end
    service.ends_seconds = 10
    expect('three ends in a row are no reason to start a fourth process', the_service().failed ~= nil)
    affedit.run('restart')
    compare('restarted after three ends')
    told = {}
end

-- Lines and their marks that are in prose, as `start stop`, by a dictionary that knows no word but `the`.
local prose_of = {
    { 'the xx https://xx.example/xx?xx=xx. xx', '4 6', '36 38' },
    { '(https://xx.example/xx_(xx)) xx www.xx.example, xx', '29 31', '48 50' },
    { 'xx.xx@xx.example, xx', '18 20' },
    { '/xx/xx ./xx ../xx ~/.xx $XX/xx xx/xx.md:12:3 xx/ C:\\xx xx', '55 57' },
    { 'xx/xx the/xx xx@ @xx', '0 2', '3 5', '10 12', '13 15', '18 20' },
    { '--xx=xx/xx.xx `/xx/xx`,the', '2 4' },
    { 'xx', '0 2' },
    { '/xx/xx' },
}

-- Compares what is shown of the current buffer with marks that are fewer than those of `check`.
local function expect_marks(what, wanted)
    settle(what)
    compared = compared + 1
    expect(what, vim.deep_equal(wanted, shown(0)), vim.inspect(shown(0)))
    local count = marks.count(0).marks
    expect(what .. ', counted', count == #wanted, count)
    look(what, api.nvim_get_current_win(), wanted)
end

-- By default there are no marks in addresses, wherever marks are shown; `all` takes them in, and `prose` is the way back.
local function try_addresses()
    write(work .. '/the.aff', 'SET UTF-8\n')
    write(work .. '/the.dic', '1\nthe\n')
    use(work .. '/the')
    local lines, wanted = {}, {}
    for line, case in ipairs(prose_of) do
        lines[line] = case[1]
        for at = 2, #case do
            wanted[#wanted + 1] = line .. ' ' .. case[at]
        end
    end
    open(lines)
    expect_marks('marks in prose', wanted)
    expect('no mark at an address', not marks.at(0, 0, 15) and marks.at(0, 0, 37) ~= nil)
    expect_jumps(wanted)
    expect_diagnostics(wanted)
    vim.cmd('Affedit all')
    expect('more is marked with `all`', #compare('all marks') > #wanted)
    vim.cmd('Affedit prose')
    expect_marks('marks in prose again', wanted)
    service.options.scope = 'all'
    expect_marks('a buffer with a scope of its own', wanted)
    vim.cmd('Affedit off')
    vim.cmd('Affedit on')
    compare('all marks by the option')
    -- From its sign on an address that is typed has no marks, and behind it there are some.
    service.options.scope = 'prose'
    open({ '' })
    for _, case in ipairs({ { 'ixx', '1 0 2' }, { 'A/xx', '1 0 2', '1 3 5' }, { 'A.xx' }, { 'A xx', '1 9 11' } }) do
        keys(case[1])
        expect_marks('typed ' .. case[1], vim.list_slice(case, 2))
    end
    keys('0f/r ')
    compare('an address that became prose')
    use(top .. '/examples/sample')
end

-- What setup is told of the scope.
local function try_scopes()
    local kept = vim.deepcopy(service.options)
    told = {}
    for _, scope in ipairs({ 'all', 'prose' }) do
        affedit.setup({ program = program, dictionary = pair.aff, scope = scope })
        expect('the scope of setup is ' .. scope, service.options.scope == scope and #told == 0, service.options.scope)
    end
    affedit.setup({ program = program, dictionary = pair.aff, scope = 'some' })
    expect('a scope that is none is told', told[1] and told[1]:find('no scope "some": it is prose or all', 1, true), told[1])
    expect('and it is prose', service.options.scope == 'prose', service.options.scope)
    told = {}
    service.options = kept
end

-- What the plugin finds in random lines, beside the rule of `affedit-check`.
local function compare_spans()
    if vim.fn.executable('python3') == 0 then
        return
    end
    local pieces = {
        'https', '://', ':', '/', '//', '.', '..', '.py', '.a2', 'a', 'xx', '@', 'www.', '\\', '~', '$HOME', 'C:', '(', ')', '[', ']',
        '{', '}', '|', ',', ';', '`', '"', "'", '*', '_', '=', '--', '<', '>', ' ', '\t', ':12', '?', '!', '%', 'é', '-', '+', '.abcdefghij',
    }
    local lines, found = {}, {}
    for at = 1, 20000 do
        local line = {}
        for number = 1, random(14) do
            line[number] = pieces[random(#pieces) + 1]
        end
        lines[at] = table.concat(line)
        found[at] = table.concat(require('affedit.addresses').spans(lines[at]), ' ')
    end
    write(work .. '/spans', table.concat(lines, '\n') .. '\n')
    local script = 'import sys; from check_command.prose import spans_of\n'
        .. 'for line in open(sys.argv[1], "rb"): print(*(place for span in spans_of(line[:-1]) for place in span))'
    local environment = { 'env', 'PYTHONPATH=' .. top .. '/tools', 'PYTHONDONTWRITEBYTECODE=1' }
    local wanted = vim.fn.systemlist(vim.list_extend(environment, { 'python3', '-c', script, work .. '/spans' }))
    expect('the rule of affedit-check was asked', vim.v.shell_error == 0 and #wanted == #lines, wanted[#wanted])
    for at, line in ipairs(lines) do
        expect('the spans of `' .. line .. '`', found[at] == wanted[at], found[at] .. '; wanted ' .. (wanted[at] or 'none'))
    end
end

-- The screen is marked before the rest of a large buffer is looked at.
local function try_large()
    local lines = {}
    for at = 1, 100000 do
        lines[at] = 'the citys ' .. at .. 'x was wrold'
    end
    vim.cmd('silent only | enew!')
    api.nvim_buf_set_lines(0, 0, -1, true, lines)
    api.nvim_win_set_cursor(0, { 50000, 0 })
    vim.cmd('redraw')
    vim.cmd('Affedit on')
    local first = vim.fn.getwininfo(api.nvim_get_current_win())[1].topline
    expect('the screen is marked first', wait(function()
        return marks.at(0, first - 1, 4) and marks.at(0, first + 10, 4)
    end))
    expect('and the rest waits', marks.count(0).waiting > 50000, marks.count(0).waiting .. ' lines')
    look('the screen of a large buffer', api.nvim_get_current_win(), (function()
        local wanted = {}
        for line = first, first + 40 do
            local number = #tostring(line)
            wanted[#wanted + 1] = line .. ' 4 9'
            wanted[#wanted + 1] = ('%d 10 %d'):format(line, 11 + number)
            wanted[#wanted + 1] = ('%d %d %d'):format(line, 16 + number, 21 + number)
        end
        return wanted
    end)())
    expect('all lines are marked', vim.wait(600000, marks.is_idle, 1))
    local count = marks.count(0)
    expect('three marks a line', count.marks == 300000 and count.waiting == 0, vim.inspect(count))
    compared = compared + 1
    vim.cmd('bwipeout!')
end

local function try_help()
    local listed = vim.fn.execute('checkhealth affedit') and table.concat(api.nvim_buf_get_lines(0, 0, -1, true), '\n')
    expect('checkhealth finds the program and the dictionary', listed:find('the program reads it', 1, true), listed)
    expect('and no fault', not listed:find('ERROR', 1, true), listed)
    expect('names are completed', vim.tbl_contains(affedit.complete('ne', 'Affedit ne'), 'next'))
    if vim.fn.executable('hunspell') == 1 then
        local list = require('affedit.suggest').of('citys', top .. '/examples/sample')
        expect('hunspell suggests', list and vim.tbl_contains(list, 'city'), vim.inspect(list))
    end
end

local function try_edits()
    edit_at_random(5)
    edit_at_random(5000)
end

local tests = {
    try_edits, try_bytes, try_long_lines, try_states, try_jumps, try_many_diagnostics, try_addresses, try_scopes, compare_spans, try_ends,
    try_large, try_help,
}

-- What the tests of other files use.
package.loaded.nvim_tools = {
    work = work, top = top, program = program, told = function() return told end, forget_told = function() told = {} end,
    expect = expect, expect_told = expect_told, wait = wait, settle = settle, read = read, write = write, own_of = own_of, own = function() return own end,
    shown = shown, compare = compare, lines_of = lines_of, open = open, keys = keys, use = use, kill_program = kill_program, is_gone = is_gone,
    expect_jumps = expect_jumps, expect_diagnostics = expect_diagnostics, the_service = the_service, random = random, edits = edits, edit_names = names,
    -- From here on `compare` asks for the current buffer by this dictionary, and random words are these.
    turn_to = function(stem, some_words)
        pair, own, vocabulary = { aff = stem .. '.aff', dic = stem .. '.dic' }, own_of(stem), some_words or sample_words
    end,
}
for _, name in ipairs({ 'nvim_words', 'nvim_real', 'nvim_code' }) do
    vim.list_extend(tests, dofile(top .. '/tests/editors/' .. name .. '.lua'))
end

local function run()
    -- With ONLY, the number of one of the tests.
    local only = vim.env.ONLY
    affedit.setup({ program = program, dictionary = top .. '/examples/sample' })
    for _, test in ipairs(only and { tests[tonumber(only)] } or tests) do
        test()
    end
end

local done, fault = xpcall(run, debug.traceback)
if not done then
    fail('an error', fault)
end
expect('states were compared', compared > 2 * tonumber(vim.env.EDITS))
expect('the screen was looked at', looks > 1000)
local version = vim.fn.execute('version'):match('NVIM v[^\n]*')
local report = '%s: %d states compared, %d places of the screen, drawn anew %d times, %d failures\n'
io.stdout:write(report:format(version, compared, looks, dropped, failures))
vim.cmd(failures == 0 and 'qall!' or 'cquit 1')
