-- Starts `rbg_author lsp` for descriptions of games. Put this file into the folder `plugin` of your configuration, and
-- the folders of ../vim beside it.
local M = {}

-- The program; `vim.g.rbg_author` may hold its path.
local function program()
  return vim.g.rbg_author or "rbg_author"
end

local client

-- Starts the server, or uses the one that runs, for a buffer.
function M.attach(buffer)
  if not client or vim.lsp.client_is_stopped(client) then
    client = vim.lsp.start_client({
      name = "rbg",
      cmd = { program(), "lsp" },
      root_dir = vim.fn.getcwd(),
    })
  end
  if client then
    vim.lsp.buf_attach_client(buffer, client)
  end
  return client
end

vim.api.nvim_create_autocmd("FileType", {
  pattern = "rbg",
  callback = function(event)
    M.attach(event.buf)
    vim.bo[event.buf].omnifunc = "v:lua.vim.lsp.omnifunc"
  end,
})

return M
