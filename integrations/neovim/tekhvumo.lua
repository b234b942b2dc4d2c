-- Neovim, 0.7 and later: checks knitout as you type, by the language server of the command `tekhvumo`.
-- Copy it to ~/.config/nvim/plugin/. K shows what lies on the line's needles, gd goes to the loops that a loop is pulled
-- through, and gra offers cures.
local client

local function keys(_, buffer)
  for key, call in pairs({ K = 'hover', gd = 'definition', gra = 'code_action' }) do
    vim.keymap.set('n', key, vim.lsp.buf[call], { buffer = buffer })
  end
end

-- Takes edits of a shared file. Before 0.10 a text that was opened has version 0, and of that one Neovim takes edits
-- whatever was typed since, at places that they weren't made for: here they are refused, and the server asks again.
local function take(problem, asked, ...)
  for _, change in ipairs(asked.edit.documentChanges or {}) do
    local text = change.textDocument
    if text.version == 0 and vim.lsp.util.buf_versions[vim.uri_to_bufnr(text.uri)] ~= 0 then return { applied = false } end
  end
  return vim.lsp.handlers['workspace/applyEdit'](problem, asked, ...)
end

local function attach(event)
  local folder = vim.fn.fnamemodify(event.match, ':p:h')
  local config = { name = 'tekhvumo', cmd = { 'tekhvumo', 'lsp' }, root_dir = folder, on_attach = keys }
  config.handlers = { ['workspace/applyEdit'] = take }
  vim.bo[event.buf].commentstring = '; %s'
  if vim.lsp.start then
    vim.lsp.start(config, { bufnr = event.buf, reuse_client = function(one) return one.name == config.name end })
  else
    -- (Neovim 0.7)
    client = client and vim.lsp.get_client_by_id(client) and client or vim.lsp.start_client(config)
    vim.lsp.buf_attach_client(event.buf, client)
  end
end

vim.api.nvim_create_autocmd('FileType', { pattern = 'knitout', callback = attach })
vim.api.nvim_create_autocmd({ 'BufNewFile', 'BufRead' }, {
  pattern = { '*.k', '*.knitout' },
  -- (which takes *.k for another language, kwt)
  callback = function(event) vim.bo[event.buf].filetype = 'knitout' end,
})
