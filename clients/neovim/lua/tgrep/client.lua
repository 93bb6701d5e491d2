-- The connection to the warm server of a tree (docs/SERVER.md). Nothing here waits: the server is started by a process beside the editor,
-- and what comes is taken in pieces, between which the editor goes on.
local M = {}
local uv = vim.loop
local config = require("tgrep.config")

-- In nanoseconds: for so long messages are taken in one go. In milliseconds: how long the editor then has before the next.
local SLICE, PAUSE = 3e6, 1

local Client = {}
Client.__index = Client
local clients = {}

local DIGITS = "ABCDEFGHIJKLMNOPQRSTUVWXYZabcdefghijklmnopqrstuvwxyz0123456789+/"
local values = {}
for at = 1, #DIGITS do
  values[DIGITS:byte(at)] = at - 1
end

-- The bytes of a text of a message: what is no UTF-8 comes as base64.
function M.bytes(text)
  if type(text) == "string" then
    return text
  end
  local bits, count, parts = 0, 0, {}
  for at = 1, #text.base64 do
    local value = values[text.base64:byte(at)]
    if value then
      bits, count = bits * 64 + value, count + 6
      if count >= 8 then
        count = count - 8
        local byte = math.floor(bits / 2 ^ count)
        bits = bits - byte * 2 ^ count
        parts[#parts + 1] = string.char(byte)
      end
    end
  end
  return table.concat(parts)
end

-- The client for the tree that a folder is in, which connects by itself.
function M.of(folder)
  folder = folder or vim.fn.getcwd()
  if not clients[folder] then
    clients[folder] = setmetatable({
      folder = folder, last = 0, waiting = {}, queue = {}, listeners = {}, overlays = {},
      lines = {}, head = 1, pieces = {}, state = "none", watched = true,
    }, Client)
  end
  return clients[folder]
end

-- All clients, by their folders.
function M.all()
  return clients
end

-- Sends a request, once there is a connection. `ended` is called with the last message, or nil and an error; `part` with each one before.
function Client:ask(does, given, ended, part)
  self.last = self.last + 1
  local number = self.last
  given.id, given["do"] = number, does
  self.waiting[number] = { ended = ended or function() end, part = part or function() end }
  self:send(vim.json.encode(given))
  return number
end

-- Sends a line that is JSON already.
function Client:send(line)
  if self.state == "connected" then
    self.pipe:write(line .. "\n")
  else
    self.queue[#self.queue + 1] = line
    self:connect()
  end
end

-- Gives up a request. Its `ended` is not called any more.
function Client:cancel(number)
  if self.waiting[number] then
    self.waiting[number] = nil
    if self.state == "connected" then
      self:send(vim.json.encode({ ["do"] = "cancel", of = number }))
    end
  end
end

-- Calls a function with each event of a kind that the server tells, or of this client: `connected` and `lost`.
function Client:on(event, listener)
  self.listeners[event] = self.listeners[event] or {}
  table.insert(self.listeners[event], listener)
end

function Client:tell(event, message)
  for _, listener in ipairs(self.listeners[event] or {}) do
    listener(message)
  end
end

-- Starts the server, if it does not run, and connects to it.
function Client:connect()
  if self.state ~= "none" then
    return
  end
  self.state = "starting"
  local words = vim.deepcopy(config.command())
  words[#words + 1] = "--socket"
  local out, err, said = uv.new_pipe(false), uv.new_pipe(false), { "", "" }
  local handle, reason
  handle, reason = uv.spawn(words[1], {
    args = vim.list_slice(words, 2), cwd = self.folder, stdio = { nil, out, err },
  }, function(code)
    handle:close()
    vim.schedule(function()
      -- what is left in the pipes comes before this
      vim.defer_fn(function()
        out:close()
        err:close()
        self:announced(code, said)
      end, 1)
    end)
  end)
  if not handle then
    out:close()
    err:close()
    self:fail(("%s cannot be started: %s"):format(words[1], reason))
    return
  end
  for at, pipe in ipairs({ out, err }) do
    pipe:read_start(function(_, data)
      said[at] = said[at] .. (data or "")
    end)
  end
end

function Client:announced(code, said)
  local fine, told = pcall(vim.json.decode, said[1])
  if code ~= 0 or not fine then
    self:fail(said[2] ~= "" and vim.trim(said[2]) or ("tgrep --socket ended with status %d"):format(code))
    return
  end
  self.root = M.bytes(told.root)
  self.pipe = uv.new_pipe(false)
  self.pipe:connect(told.socket, vim.schedule_wrap(function(fault)
    if fault then
      self:fail("the server does not answer: " .. fault)
      return
    end
    self:connected()
  end))
end

function Client:connected()
  self.state = "connected"
  self.lines, self.head, self.pieces, self.overlays = {}, 1, {}, {}
  self.timer = self.timer or uv.new_timer()
  self:read()
  self:ask("follow", {}, function(last)
    self.watched = last == nil or last.watched
  end)
  self:tell("connected", {})
  local queue = self.queue
  self.queue = {}
  for _, line in ipairs(queue) do
    self:send(line)
  end
end

-- Reads one piece, and takes what it ends before the next one is read.
function Client:read()
  local pipe = self.pipe
  pipe:read_start(function(fault, data)
    pipe:read_stop()
    if data then
      local at = 1
      while true do
        local feed = data:find("\n", at, true)
        if not feed then
          break
        end
        self.pieces[#self.pieces + 1] = data:sub(at, feed - 1)
        self.lines[#self.lines + 1] = table.concat(self.pieces)
        self.pieces, at = {}, feed + 1
      end
      self.pieces[#self.pieces + 1] = data:sub(at)
    end
    vim.schedule(function()
      if self.pipe ~= pipe then
        return
      end
      if data then
        self:pump()
      else
        self:lose(fault or "the server has ended")
      end
    end)
  end)
end

function Client:pump()
  local pipe, began = self.pipe, uv.hrtime()
  while self.lines[self.head] do
    local line = self.lines[self.head]
    self.lines[self.head], self.head = nil, self.head + 1
    self:take(vim.json.decode(line))
    if self.pipe ~= pipe then
      return
    end
    if uv.hrtime() - began > SLICE then
      self.timer:start(PAUSE, 0, vim.schedule_wrap(function()
        if self.pipe == pipe then
          self:pump()
        end
      end))
      return
    end
  end
  self.lines, self.head = {}, 1
  self:read()
end

function Client:take(message)
  if message.event == "ending" then
    self:lose("the server has ended")
  elseif message.event then
    self:tell(message.event, message)
  else
    local asked = self.waiting[message.id]
    if not asked then
      if message.error and type(message.id) ~= "number" then
        -- a part of a buffer is not taken: all of them are sent anew to another connection
        self:lose(message.error.message)
      end
      return
    end
    if message.error then
      self.waiting[message.id] = nil
      asked.ended(nil, message.error)
    elseif message.done then
      self.waiting[message.id] = nil
      asked.ended(message)
    else
      asked.part(message)
    end
  end
end

-- The connection is gone. Who waits is told, and the next request makes another one. Who is dropped may ask at once for what was lost: it
-- waits for the other connection then, and is not told of the end of this one.
function Client:lose(reason)
  local pipe = self.pipe
  self.pipe, self.state = nil, "none"
  if pipe and not pipe:is_closing() then
    pipe:close()
  end
  self.overlays = {}
  self:tell("lost", { kind = "lost", message = reason })
  self:drop({ kind = "lost", message = reason })
end

-- There is no connection, and no request can be made.
function Client:fail(reason)
  self.state, self.queue = "none", {}
  self:tell("lost", { kind = "failed", message = reason })
  self:drop({ kind = "failed", message = reason })
end

function Client:drop(fault)
  local waiting = self.waiting
  self.waiting = {}
  for _, asked in pairs(waiting) do
    asked.ended(nil, fault)
  end
end

return M
