-- The command, the highlight and the keys of the plugin. Nothing is started before the first buffer is checked.
if vim.g.loaded_affedit then
    return
end
vim.g.loaded_affedit = true

vim.cmd('highlight default link AffeditMark SpellBad')
vim.api.nvim_create_user_command('Affedit', function(call)
    require('affedit').run(call.args)
end, {
    nargs = '*',
    complete = function(lead, line)
        return require('affedit').complete(lead, line)
    end,
})
for _, name in ipairs({ 'next', 'previous', 'toggle', 'suggest', 'add', 'forget' }) do
    vim.keymap.set('n', '<Plug>(affedit-' .. name .. ')', function()
        require('affedit').run(name)
    end)
end
