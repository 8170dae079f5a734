-- What of a buffer is code: where the editor knows comments and strings, all but these. It is asked by captures of treesitter where a
-- parser colours the buffer, else by groups of the syntax. Never while a line is drawn: in Neovim 0.7.2 `synstack` breaks the screen then.
local api = vim.api
local M = {}

-- Filetypes that are prose, with the code in it.
local prose = {}
for name in ([[text markdown mail gitcommit hgcommit svn tex plaintex context latex help man rst asciidoc asciidoctor org norg pandoc rmd
    quarto vimwiki typst texinfo pod nroff html xhtml docbk changelog debchangelog]]):gmatch('%S+') do
    prose[name] = true
end

local function is_prose(filetype)
    for name in filetype:gmatch('[^.]+') do
        if prose[name] then
            return true
        end
    end
    return filetype == ''
end

-- What knows the code of a buffer: the highlighter of treesitter, or the name of the syntax. Nil where all is prose.
function M.source(buf)
    if is_prose(vim.bo[buf].filetype) then
        return nil
    end
    local loaded = package.loaded['vim.treesitter.highlighter']
    return loaded and loaded.active[buf] or vim.b[buf].current_syntax
end

-- Whether what a capture names is prose, nil where it says nothing of that.
local function capture_kind(name)
    if name == 'nospell' or name:find('^string%.%a') and name ~= 'string.documentation' then
        return false
    end
    return (name == 'spell' or name:find('^string') or name:find('^comment')) and true or nil
end

-- The captures that reach into a row, `{ first row, first byte, last row, last byte, is prose }` each. A later one counts before an earlier one.
local function captures(highlighter, buf, row)
    local found = {}
    highlighter.tree:for_each_tree(function(tree, language)
        local query = tree and highlighter:get_query(language:lang()):query()
        if not query then
            return
        end
        for capture, node in query:iter_captures(tree:root(), buf, row, row + 1) do
            local kind = capture_kind(query.captures[capture])
            if kind ~= nil then
                local range = { node:range() }
                range[5] = kind
                found[#found + 1] = range
            end
        end
    end)
    return found
end

-- Whether captures have a place as prose.
local function captured(ranges, row, column)
    for at = #ranges, 1, -1 do
        local first_row, first, last_row, last, kind = unpack(ranges[at])
        local begins = row > first_row or (row == first_row and column >= first)
        if begins and (row < last_row or (row == last_row and column < last)) then
            return kind
        end
    end
    return false
end

-- What `:syntax list` says of a group, or of a cluster by its name with @, in the current buffer.
local function listing(name)
    local found, text = pcall(vim.fn.execute, 'syntax list ' .. name)
    return found and text or ''
end

-- Lists that begin with one of these words name what is left out, or take in code.
local all_but = { ALL = true, ALLBUT = true, TOP = true, CONTAINED = true }

-- Adds the names that the lists of a group or of a cluster have, and those of the clusters in it.
local function add_contained(names, name)
    local text = listing(name)
    for _, option in ipairs({ 'contains=(%S+)', 'cluster=(%S+)' }) do
        for list in text:gmatch(option) do
            for contained in list:gmatch('[^,]+') do
                if all_but[contained] then
                    break
                elseif not names[contained] then
                    names[contained] = true
                    if contained:find('^@') then
                        add_contained(names, contained)
                    end
                end
            end
        end
    end
end

-- Whether a group is a comment or a string by what it links to.
local function links_to_text(name)
    for _ = 1, 10 do
        if name == 'Comment' or name == 'SpecialComment' or name == 'String' then
            return true
        end
        local found, text = pcall(vim.fn.execute, 'highlight ' .. name)
        name = found and text:match('links to (%S+)')
        if not name then
            return false
        end
    end
    return false
end

-- Whether a group of the syntax is prose: a comment, a string, or what the spelling of the editor looks at.
local function group_kind(name)
    local contained = {}
    add_contained(contained, name)
    if contained['@NoSpell'] then
        return false
    end
    return contained['@Spell'] or links_to_text(name)
end

-- By syntax and group, so that each is asked once.
local kinds = {}
local function is_text(syntax, row, column)
    local stack = vim.fn.synstack(row + 1, column + 1)
    local group = stack[#stack]
    local key = syntax .. ' ' .. (group or 'top')
    if kinds[key] == nil then
        if group then
            kinds[key] = group_kind(vim.fn.synIDattr(group, 'name')) or false
        else
            kinds[key] = vim.fn.execute('syntax spell'):find('%f[%a]toplevel') ~= nil
        end
    end
    return kinds[key]
end

-- The marks of a row for which `wanted(column)` holds.
local function filtered(marks, wanted)
    local kept = {}
    for at = 1, #marks, 2 do
        if wanted(marks[at]) then
            kept[#kept + 1], kept[#kept + 2] = marks[at], marks[at + 1]
        end
    end
    return kept
end

-- The marks of a row that are not in code.
function M.without(buf, row, marks)
    local source = #marks > 0 and M.source(buf)
    if not source then
        return marks
    elseif type(source) == 'table' then
        local ranges = captures(source, buf, row)
        return filtered(marks, function(column)
            return captured(ranges, row, column)
        end)
    end
    local kept
    api.nvim_buf_call(buf, function()
        kept = filtered(marks, function(column)
            return is_text(source, row, column)
        end)
    end)
    return kept
end

return M
