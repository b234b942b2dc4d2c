-- Drives Neovim without a screen: waits for what is found, hovers, goes to the parent, applies a cure, types, and tells of each.
local told = {}
local most = 240000

local function found()
  local lines = {}
  for _, it in ipairs(vim.diagnostic.get(0)) do table.insert(lines, (it.lnum + 1) .. ' ' .. it.message) end
  table.sort(lines)
  return lines
end

local function floating()
  for _, window in ipairs(vim.api.nvim_list_wins()) do
    if vim.api.nvim_win_get_config(window).relative ~= '' then
      return vim.api.nvim_buf_get_lines(vim.api.nvim_win_get_buf(window), 0, -1, false)
    end
  end
end

local function press(key) vim.cmd('normal ' .. key) end

vim.ui.select = function(items, _, choose) choose(items[1], 1) end
vim.wait(most, function() return (found()[1] or ''):find('write') ~= nil end, 20)
told.filetype = vim.bo.filetype
told.found = found()

vim.api.nvim_win_set_cursor(0, { 5, 0 })
press('K')
vim.wait(most, function() return floating() ~= nil end, 20)
told.hover = floating()

vim.api.nvim_win_set_cursor(0, { 5, 0 })
press('gd')
vim.wait(most, function() return vim.api.nvim_win_get_cursor(0)[1] ~= 5 end, 20)
told.parent = vim.api.nvim_win_get_cursor(0)[1]

vim.api.nvim_win_set_cursor(0, { 6, 0 })
press('gra')
vim.wait(most, function() return vim.fn.getline(6) ~= 'knit + f1 2' end, 20)
told.cured = vim.fn.getline(1, '$')
vim.wait(most, function() return #found() == 0 end, 20)
told.left = found()

vim.api.nvim_buf_set_lines(0, 3, 3, false, { 'pause ; 🧶', 'in 1 ; 🧶' })
vim.api.nvim_buf_set_text(0, 3, 8, 3, 12, { 'x' })
vim.wait(most, function() return (found()[1] or ''):find('leave') ~= nil end, 20)
told.typed = found()
vim.fn.writefile({ vim.fn.json_encode(told) }, 'told.json')
vim.cmd('qa!')
