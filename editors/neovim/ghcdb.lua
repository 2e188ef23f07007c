-- Flat GHC in Neovim: the kind of .ghc files, what is wrong with them (the language server), and ghcdb by nvim-dap. In init.lua: dofile("REPOSITORY/editors/neovim/ghcdb.lua"),
-- and for colours: vim.opt.runtimepath:append("REPOSITORY/editors/vim"). Then :lua require("dap").continue() in a .ghc file whose
-- comment has a line `% Query: ..`.
-- Where ghcdb is installed from its package of Debian, it is require("ghcdb"), and the colours are there.
local here = vim.fn.fnamemodify(debug.getinfo(1, "S").source:sub(2), ":p:h")

-- What starts a part of ghcdb: that of the repository beside this file, else the ghcdb on the path.
local function part(file, word)
  local beside = here .. "/../" .. file
  if vim.fn.filereadable(beside) == 1 then return "node", beside end
  return "ghcdb", word
end

vim.api.nvim_create_autocmd({ "BufRead", "BufNewFile" }, { pattern = "*.ghc", callback = function() vim.bo.filetype = "fghc" end })

-- The language server: diagnostics, :lua vim.lsp.buf.definition(), .hover(), .document_symbol(). One serves all programs.
local server
vim.api.nvim_create_autocmd("FileType", { pattern = "fghc", callback = function(opened)
  local command, word = part("ghcdb-lsp", "--lsp")
  if vim.fn.executable(command) == 0 then return end
  local folder = vim.fn.fnamemodify(opened.file, ":p:h")
  if vim.lsp.start then
    vim.lsp.start({ name = "ghcdb", cmd = { command, word }, root_dir = folder }, { bufnr = opened.buf, reuse_client = function(client) return client.name == "ghcdb" end })
  else
    server = server or vim.lsp.start_client({ name = "ghcdb", cmd = { command, word }, root_dir = folder, on_exit = function() server = nil end })
    if server then vim.lsp.buf_attach_client(opened.buf, server) end
  end
end })

local found, dap = pcall(require, "dap")
if found then
  local command, word = part("ghcdb-adapter", "--dap")
  dap.adapters.ghcdb = { type = "executable", command = command, args = { word } }
  dap.configurations.fghc = { { type = "ghcdb", request = "launch", name = "Flat GHC", program = "${file}" } }
  vim.api.nvim_create_autocmd("FileType", { pattern = "fghc", callback = function(opened)
    local function map(keys, what, words) vim.keymap.set("n", keys, what, { buffer = opened.buf, desc = words }) end
    map("<leader>b", dap.step_back, "Take back the last step of this process")
    map("<leader>r", dap.reverse_continue, "Back to who bound a watched variable, or to a breakpoint")
  end })
end
