-- The plugin as a user has it who wrote `require('affedit').setup({})` in init.lua: which launcher it found, how many marks the sample has, and
-- what is told of a launcher that is not there. The environment has SAMPLE, the dictionary and the text, without `.aff`, `.dic` and `.txt`.
local marks = require('affedit.marks')
local service = require('affedit.service')
local sample = vim.env.SAMPLE
local function say(text)
    io.stdout:write(text .. '\n')
end
local told
vim.notify = function(text)
    told = told or text
end

say(service.options.program)
vim.cmd('edit ' .. vim.fn.fnameescape(sample .. '.txt'))
vim.cmd('Affedit dictionary ' .. sample)
vim.cmd('Affedit on')
vim.wait(60000, marks.is_idle, 5)
say(('%d marks in %d lines'):format(marks.count(0).marks, marks.count(0).lines))
if told then
    say(told)
    told = nil
end
require('affedit').setup({ program = '/nowhere/affedit', dictionary = sample })
vim.cmd('Affedit restart')
vim.wait(60000, function()
    return told ~= nil
end, 5)
say(told or 'nothing is told')
vim.cmd('qall!')
