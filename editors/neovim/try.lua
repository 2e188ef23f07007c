-- A session of the adapter on examples/bill.ghc in Neovim, forwards and back, by Neovim's own jobs: nvim-dap is not needed. The adapter is
-- started as ghcdb.lua tells nvim-dap to start it. From the repository:
--     nvim --headless -u NONE -c 'luafile editors/neovim/try.lua' -c 'quitall!'
-- What it told when it was recorded stands in session.txt. FGHC_TOLD names the file for what it tells; without it standard output is.
local here = vim.fn.fnamemodify(debug.getinfo(1, "S").source:sub(2), ":p:h")
local dap = { adapters = {}, configurations = {}, step_back = function() end, reverse_continue = function() end }
package.preload.dap = function() return dap end
vim.cmd("filetype on")
dofile(here .. "/ghcdb.lua")
vim.cmd("edit " .. here .. "/../../examples/bill.ghc")

local told = {}
local function say(...) table.insert(told, string.format(...)) end

local adapter, configuration = dap.adapters.ghcdb, vim.deepcopy(dap.configurations[vim.bo.filetype][1])
configuration.program = configuration.program:gsub("%${file}", vim.fn.expand("%:p"))
local to, from, heard, events, answers, last = vim.loop.new_pipe(false), vim.loop.new_pipe(false), "", {}, {}, 0
local process = vim.loop.spawn(adapter.command, { args = adapter.args, stdio = { to, from, 2 } }, function() end)
from:read_start(function(_, piece) heard = heard .. (piece or "") end)

-- Takes the messages that have come whole.
local function hear()
  while true do
    local head, length = heard:match("^(Content%-Length: (%d+)\r\n\r\n)")
    if head == nil or #heard < #head + tonumber(length) then return end
    local message = vim.fn.json_decode(heard:sub(#head + 1, #head + tonumber(length)))
    heard = heard:sub(#head + tonumber(length) + 1)
    if message.type == "event" then table.insert(events, message) else answers[message.request_seq] = message end
  end
end

-- Sends a request, and gives the body of its answer.
local function ask(command, given)
  last = last + 1
  local number = last
  local text = vim.fn.json_encode({ seq = number, type = "request", command = command, arguments = given or vim.empty_dict() })
  to:write("Content-Length: " .. #text .. "\r\n\r\n" .. text)
  assert(vim.wait(10000, function() hear() return answers[number] ~= nil end, 5), command .. " is not answered")
  local answer = answers[number]
  assert(answer.success, command .. " is refused: " .. vim.fn.json_encode(answer.body))
  return answer.body
end

-- Waits for an event of a name; those before it are dropped.
local function event(name)
  local found
  assert(vim.wait(10000, function()
    hear()
    while found == nil and #events > 0 do
      local first = table.remove(events, 1)
      if first.event == name then found = first end
    end
    return found ~= nil
  end, 5), "no event " .. name)
  return found.body
end

local thread

-- The next stop, shown in the buffer as nvim-dap shows it.
local function stop(what)
  thread = event("stopped").threadId
  local frame = ask("stackTrace", { threadId = thread }).stackFrames[1]
  if frame.source.path ~= nil then vim.cmd("edit " .. frame.source.path) end
  vim.api.nvim_win_set_cursor(0, { frame.line, frame.column - 1 })
  say("%s: %s, at %s line %d", what, frame.name, vim.fn.expand("%:t"), vim.fn.line("."))
end

local function go(command, what) ask(command, { threadId = thread }) stop(what) end
local function value(name) return ask("evaluate", { expression = name, context = "hover" }).result end

say("kind of bill.ghc: %s", vim.bo.filetype)
ask("initialize", { adapterID = configuration.type, linesStartAt1 = true, columnsStartAt1 = true })
ask("launch", configuration)
event("initialized")
local source = { path = vim.fn.expand("%:p") }
ask("setBreakpoints", { source = source, breakpoints = { { line = vim.fn.search("^price", "w") } } })
ask("configurationDone")
stop("entry")
go("continue", "continue to the breakpoint")
go("stepIn", "step in")
go("next", "next")
ask("setBreakpoints", { source = source, breakpoints = {} })
go("continue", "continue to the end")
say("T = %s", value("T"))
ask("setDataBreakpoints", { breakpoints = { { dataId = "_1_1" } } })
go("reverseContinue", "back to who bound P")
go("stepBack", "step back")
say("T = %s", value("T"))
ask("setDataBreakpoints", { breakpoints = {} })
ask("evaluate", { expression = "step 1.1 3", context = "repl" })
stop("step 1.1 3 in the console")
go("continue", "continue to the end")
say("T = %s", value("T"))
ask("disconnect")
vim.wait(5000, function() return not process:is_active() end, 5)
if vim.env.FGHC_TOLD then vim.fn.writefile(told, vim.env.FGHC_TOLD) else io.stdout:write(table.concat(told, "\n") .. "\n") end
