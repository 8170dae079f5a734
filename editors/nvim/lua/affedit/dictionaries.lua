-- Dictionaries by name, and the personal list.
local M = {}

local function data_folder()
    local base = os.getenv('XDG_DATA_HOME')
    return (base and base ~= '' and base or vim.fn.expand('~/.local/share')) .. '/affedit'
end

-- The folders in which a name is looked for, in this order.
function M.folders()
    local found = { data_folder() }
    for folder in (os.getenv('DICPATH') or ''):gmatch('[^:]+') do
        found[#found + 1] = folder
    end
    found[#found + 1] = '/usr/share/hunspell'
    found[#found + 1] = '/usr/share/myspell/dicts'
    return found
end

-- The pair of files of a dictionary: `name` is a name, or a path of either file or without `.aff`. Nil and a reason where it is not.
function M.find(name)
    local stem = name:gsub('%.aff$', ''):gsub('%.dic$', '')
    local stems = {}
    if stem:find('/', 1, true) then
        stems[1] = vim.fn.fnamemodify(vim.fn.expand(stem), ':p')
    else
        for _, folder in ipairs(M.folders()) do
            stems[#stems + 1] = folder .. '/' .. stem
        end
    end
    for _, path in ipairs(stems) do
        if vim.fn.filereadable(path .. '.aff') == 1 and vim.fn.filereadable(path .. '.dic') == 1 then
            return { name = vim.fn.fnamemodify(stem, ':t'), stem = path, aff = path .. '.aff', dic = path .. '.dic' }
        end
    end
    return nil, 'no dictionary ' .. name .. ' in ' .. table.concat(M.folders(), ', ')
end

-- All names that `find` finds, for completion.
function M.names()
    local seen, names = {}, {}
    for _, folder in ipairs(M.folders()) do
        for _, path in ipairs(vim.fn.glob(folder .. '/*.aff', true, true)) do
            local name = vim.fn.fnamemodify(path, ':t:r')
            if not seen[name] and vim.fn.filereadable(folder .. '/' .. name .. '.dic') == 1 then
                seen[name] = true
                names[#names + 1] = name
            end
        end
    end
    table.sort(names)
    return names
end

-- The personal list of a dictionary, by its name.
function M.own_file(name)
    return data_folder() .. '/words.' .. name
end

-- One list for all dictionaries: a list of a dictionary begins as a copy of it.
function M.common_file()
    return data_folder() .. '/words'
end

-- Makes the list as a copy of the common one, all at once, unless another editor has made it meanwhile.
local function copy_common(path)
    local temporary = ('%s.%d'):format(path, vim.loop.getpid())
    local copied, reason = vim.loop.fs_copyfile(M.common_file(), temporary)
    if not copied then
        return reason
    end
    local linked, failure, name = vim.loop.fs_link(temporary, path)
    if not linked and name ~= 'EEXIST' then
        -- There are no links in this file system.
        linked, failure = vim.loop.fs_rename(temporary, path)
    end
    vim.loop.fs_unlink(temporary)
    return not (linked or name == 'EEXIST') and failure or nil
end

-- Makes a list where there is none: an empty one, or with `is_copied` a copy of the common one. Returns a reason where that fails.
function M.ensure_own(path, is_copied)
    vim.fn.mkdir(vim.fn.fnamemodify(path, ':h'), 'p')
    if is_copied and not vim.loop.fs_stat(path) and vim.fn.filereadable(M.common_file()) == 1 then
        return copy_common(path)
    end
    local file, reason = io.open(path, 'ab')
    if not file then
        return reason
    end
    file:close()
end

-- Appends a line to the list. Returns a reason where that fails.
function M.append(path, line)
    local reason = M.ensure_own(path)
    if reason then
        return reason
    end
    local file = io.open(path, 'rb')
    local size = file and file:seek('end') or 0
    local unended = false
    if file and size > 0 then
        file:seek('end', -1)
        unended = file:read(1) ~= '\n'
    end
    if file then
        file:close()
    end
    file, reason = io.open(path, 'ab')
    if not file then
        return reason
    end
    local written, failure = file:write((unended and '\n' or '') .. line .. '\n')
    local closed, refusal = file:close()
    return not (written and closed) and (failure or refusal) or nil
end

-- The word that a line of a list is about, with the star of a prohibition before it. Empty where the line is blank.
function M.word_of(line)
    local star, word = line:gsub('^\239\187\191', ''):match('^ *(%*?)(.-) *\r?$')
    local from = 2
    while true do
        local slash = word:find('/', from, true)
        if not slash then
            break
        elseif word:sub(slash - 1, slash - 1) ~= '\\' then
            word = word:sub(1, slash - 1)
            break
        end
        from = slash + 1
    end
    return star .. word:gsub('\\/', '/')
end

-- The lines of a list: `word`, what the line is about, and the bytes `start` to `stop`, from 0, that it has of the file.
local function items_of(text)
    local items = {}
    for start, line, stop in text:gmatch('()([^\n]+)()') do
        local word = M.word_of(line)
        if word ~= '' then
            items[#items + 1] = { word = word, start = start - 1, stop = stop - 1 }
        end
    end
    return items
end

-- Overwrites bytes of a file with spaces. What another editor appends meanwhile stays.
local function blank(path, items)
    local file, reason = io.open(path, 'r+b')
    if not file then
        return reason
    end
    local written, failure = true, nil
    for _, item in ipairs(items) do
        file:seek('set', item.start)
        if written then
            written, failure = file:write((' '):rep(item.stop - item.start))
        end
    end
    local closed, refusal = file:close()
    return not (written and closed) and (failure or refusal) or nil
end

-- Takes the word that `choose` chooses of the words of a list out of it: its lines become blank. Returns a reason where there is no such
-- word, or where that fails.
function M.forget(path, choose)
    local file = io.open(path, 'rb')
    local items = items_of(file and file:read('*a') or '')
    if file then
        file:close()
    end
    local word, reason = choose(vim.tbl_map(function(item)
        return item.word
    end, items))
    if not word then
        return reason
    end
    return blank(path, vim.tbl_filter(function(item)
        return item.word == word
    end, items))
end

return M
