-- Tells what Neovim's own client hears of a wrong program, and where a place leads:
--
--     FGHC_PLACE='FILE LINE LETTER' FGHC_TOLD=OUT nvim --headless -u NONE -c "luafile editors/neovim/try-language.lua" -c "quitall!"
local here = vim.fn.fnamemodify(debug.getinfo(1, "S").source:sub(2), ":p:h")
local file, line, letter = unpack(vim.split(vim.env.FGHC_PLACE, " "))
local seconds, told = 120, {}

vim.cmd("luafile " .. here .. "/ghcdb.lua")
vim.cmd("filetype on")
vim.cmd("edit " .. file)
vim.wait(seconds * 1000, function() return #vim.diagnostic.get(0) > 0 end, 50)
for _, one in ipairs(vim.diagnostic.get(0)) do
  table.insert(told, string.format("%d:%d %s", one.lnum + 1, one.col, vim.split(one.message, "\n")[1]))
end
local asked = { textDocument = vim.lsp.util.make_text_document_params(), position = { line = line - 1, character = tonumber(letter) } }
for _, answer in pairs(vim.lsp.buf_request_sync(0, "textDocument/definition", asked, seconds * 1000) or {}) do
  local place = answer.result.range.start
  table.insert(told, string.format("%d:%d", place.line + 1, place.character))
end
vim.fn.writefile(told, vim.env.FGHC_TOLD)
