-- Suggestions, only when they are asked for: by `hunspell -a`, where it is installed. Affedit itself suggests nothing.
local marks = require('affedit.marks')
local service = require('affedit.service')
local M = {}

-- The suggestions of hunspell for a word by the dictionary of a path, or nil and a reason.
function M.of(word, stem)
    if vim.fn.executable('hunspell') == 0 then
        return nil, 'there is no hunspell, so there are no suggestions'
    end
    local output = vim.fn.systemlist({ 'hunspell', '-a', '-i', 'utf-8', '-d', stem }, '^' .. word .. '\n')
    for _, line in ipairs(output) do
        local list = line:match('^& .- %d+ %d+: (.*)$')
        if list then
            return vim.split(list, ', ', { plain = true })
        end
    end
    return nil, 'hunspell suggests nothing for ' .. word
end

-- Offers suggestions for the mark at the cursor, and puts the chosen one in its place. A suggestion with a dot at its end takes the
-- place of a dot behind the mark too.
function M.choose()
    local buf, cursor = vim.api.nvim_get_current_buf(), vim.api.nvim_win_get_cursor(0)
    local row = cursor[1] - 1
    local mark = marks.at(buf, row, cursor[2])
    if not mark then
        service.tell('there is no mark at the cursor')
        return
    end
    local start, stop = unpack(mark)
    local text = vim.api.nvim_buf_get_lines(buf, row, row + 1, false)[1]
    local word = text:sub(start + 1, stop)
    local list, reason = M.of(word, marks.service_of(buf).pair.stem)
    if not list then
        service.tell(reason)
        return
    end
    vim.ui.select(list, { prompt = 'Instead of ' .. word .. ':' }, function(choice)
        if choice and vim.api.nvim_buf_get_lines(buf, row, row + 1, false)[1] == text then
            local has_both = vim.endswith(choice, '.') and text:sub(stop + 1, stop + 1) == '.'
            vim.api.nvim_buf_set_text(buf, row, start, row, stop + (has_both and 1 or 0), { choice })
        end
    end)
end

return M
