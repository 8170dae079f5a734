-- What is no prose in a line: web addresses, paths and e-mail addresses. The rule is that of `affedit-check`, in
-- tools/check_command/prose.py. A list of spans is flat, as the answers of `memo` are: `{ start, stop, start, stop, .. }`.
local M = {}

-- What a line has that has an address, a path or an e-mail address.
local signs = { '/', '@', 'www.', '\\' }
-- Signs around an address that are none of it. A bracket may end one, if the address opens it.
local before, after, after_address = [=[['"*_(%[]]=], [=[[.,:;!?)%]}'"*_`]]=], [=[[.,:;!?%]}'"*_`]]=]
-- How a path begins that needs no extension, and the place behind that.
local roots = { '^/()', '^~[%w_-]*/()', '^%.%.?/()', '^%$[%u_]+/()', '^%a:[/\\]()', '^\\\\()' }

local function has_sign(text)
    for _, sign in ipairs(signs) do
        if text:find(sign, 1, true) then
            return true
        end
    end
    return false
end

-- How long a text is without the bytes of a class at its end.
local function length_without(text, class)
    return #text - #text:reverse():match('^' .. class .. '*')
end

local function has_root(piece)
    for _, root in ipairs(roots) do
        local behind = piece:match(root)
        if behind then
            return behind <= #piece
        end
    end
    return false
end

-- Whether a piece ends as a file's name does, perhaps with the numbers of a line and a column: `a/b.c:12:3`.
local function has_extension(piece)
    local tail, dropped = piece:sub(-24), 1
    while dropped > 0 do
        tail, dropped = tail:gsub(':%d+$', '')
    end
    local extension = tail:match('%.(%a%w*)$')
    return extension ~= nil and #extension <= 10
end

-- Whether a piece is an e-mail address, the name of a host with www, or a path.
local function is_no_prose(piece)
    local name, host = piece:match('^([^@]*)@(.*)$')
    if name then
        return name ~= '' and host ~= ''
    end
    if vim.startswith(piece, 'www.') then
        return true
    end
    if not piece:find('[/\\]') then
        return false
    end
    return has_root(piece) or (#piece > 1 and vim.endswith(piece, '/')) or has_extension(piece)
end

-- Adds the paths, names of hosts and e-mail addresses of a run, which begins at byte `base` of its line.
local function add_pieces(spans, run, base)
    for place, piece in run:gmatch('()([^()%[%]{}|,;`]+)') do
        -- Of `--own=a/b` only the value may be a path.
        local start = piece:match('^' .. before .. '*()', piece:match('^.*=()') or 1)
        local stop = length_without(piece, after)
        if start <= stop and is_no_prose(piece:sub(start, stop)) then
            spans[#spans + 1], spans[#spans + 2] = base + place + start - 2, base + place + stop - 1
        end
    end
end

-- The length of a chunk to the end of its address, whose `://` is at byte `colon`, from 1: a bracket that closes more than the
-- address opens is none of it, nor are signs at its end.
local function end_of_address(chunk, colon)
    for _, brackets in ipairs({ '()([()])', '()([%[%]])' }) do
        local depth = 0
        for place, bracket in chunk:sub(colon):gmatch(brackets) do
            depth = depth + (bracket:find('[(%[]') and 1 or -1)
            if depth < 0 then
                chunk = chunk:sub(1, colon + place - 2)
                break
            end
        end
    end
    return math.max(length_without(chunk, after_address), colon + 2)
end

-- Adds what is no prose in a run without blanks, which begins at byte `base` of its line.
local function add_chunk(spans, chunk, base)
    local colon, rest = chunk:find('://', 1, true), 0
    local start = colon and length_without(chunk:sub(1, colon - 1), '[%w+.-]')
    if colon and start < colon - 1 then
        add_pieces(spans, chunk:sub(1, start), base)
        rest = end_of_address(chunk, colon)
        spans[#spans + 1], spans[#spans + 2] = base + start, base + rest
    end
    add_pieces(spans, chunk:sub(rest + 1), base + rest)
end

-- The spans of a line that are no prose, in the order of the line.
function M.spans(text)
    local spans = {}
    if has_sign(text) then
        for place, chunk in text:gmatch('()([^%s<>"]+)') do
            if has_sign(chunk) then
                add_chunk(spans, chunk, place - 1)
            end
        end
    end
    return spans
end

-- The marks of a line that are in prose, of `marks` in the order of the line.
function M.without(text, marks)
    local spans = #marks > 0 and M.spans(text) or {}
    if #spans == 0 then
        return marks
    end
    local kept, span = {}, 1
    for at = 1, #marks, 2 do
        while spans[span] and spans[span + 1] < marks[at + 1] do
            span = span + 2
        end
        if not (spans[span] and spans[span] <= marks[at]) then
            kept[#kept + 1], kept[#kept + 2] = marks[at], marks[at + 1]
        end
    end
    return kept
end

return M
