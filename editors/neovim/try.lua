-- Tries the server in Neovim without a window, from the top of the repository:
--   RBG_AUTHOR=./rbg_author nvim --headless -u NONE -S editors/neovim/try.lua
-- It prints a line for each part, and ends with status 0 if all is as wanted.
local here = vim.fn.fnamemodify(debug.getinfo(1, "S").source:sub(2), ":p:h")
vim.g.rbg_author = vim.env.RBG_AUTHOR
vim.opt.runtimepath:prepend(vim.fn.fnamemodify(here, ":h") .. "/vim")
vim.cmd("filetype on")
vim.cmd("syntax on")
dofile(here .. "/rbg.lua")

local game = vim.fn.tempname() .. ".rbg"
local lines = vim.fn.readfile("crates/rbg_games/data/breakthrough.rbg")
vim.fn.writefile(lines, game)

local function check(what, is_right)
  io.stdout:write((is_right and "as wanted: " or "wrong: ") .. what .. "\n")
  if not is_right then
    vim.cmd("cquit 1")
  end
end

local function wait(is_there)
  return vim.wait(20000, is_there, 20)
end

-- The answer to a request at a line from 1 and a column from 0.
local function ask(method, line, column, more)
  local params = { textDocument = { uri = vim.uri_from_bufnr(0) }, position = { line = line - 1, character = column } }
  local answers = vim.lsp.buf_request_sync(0, method, vim.tbl_extend("force", params, more or {}), 20000) or {}
  local _, answer = next(answers)
  return answer and answer.result
end

vim.cmd("edit " .. game)
check("the type of the file", vim.bo.filetype == "rbg")
check("the highlighting of a section", vim.fn.synIDattr(vim.fn.synID(9, 2, 1), "name") == "rbgSection")
check("the server runs", wait(function()
  return next(vim.lsp.buf_get_clients(0)) ~= nil and vim.lsp.buf_get_clients(0)[1].initialized
end))

vim.api.nvim_buf_set_lines(0, 23, 24, true, { "    anySquare {mine [e]" })
check("a fault", wait(function()
  return #vim.diagnostic.get(0, { severity = vim.diagnostic.severity.ERROR }) == 1
end))
vim.api.nvim_buf_set_lines(0, 23, 24, true, { "    anySquare {mine} [e]" })
check("no fault", wait(function()
  return #vim.diagnostic.get(0) == 0
end))
check("hover", ask("textDocument/hover", 10, 14).contents.value:find("piece `w`, number 1", 1, true) ~= nil)
check("definition", ask("textDocument/definition", 24, 6)[1].range.start.line == 20)
check("completion", #ask("textDocument/completion", 24, 15) == 10)

vim.api.nvim_buf_set_lines(0, 23, 24, true, { "  anySquare   {mine} [e]  " })
vim.lsp.buf.formatting_sync({}, 20000)
check("layout", vim.api.nvim_buf_get_lines(0, 23, 24, true)[1] == "    anySquare   {mine} [e]")
vim.api.nvim_win_set_cursor(0, { 21, 2 })
vim.lsp.buf.rename("somewhere")
check("another name", wait(function()
  return vim.api.nvim_buf_get_lines(0, 23, 24, true)[1]:find("somewhere", 1, true) ~= nil
end))
check("its declaration", vim.api.nvim_buf_get_lines(0, 20, 21, true)[1]:find("#somewhere", 1, true) == 1)
vim.cmd("qall!")
