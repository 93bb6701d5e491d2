-- Lays the unsaved buffers over the files of the tree: before a search, what has changed in them since the last one is sent.
--
-- Of each buffer it is known which of its lines are not those that the server has: from `first` on and before `new`, in place of the
-- server's up to `old`. All lines before and behind are the same on both sides.
local M = {}
local api, uv = vim.api, vim.loop

-- In bytes and lines: so much is sent at a time.
local BYTES, LINES = 65536, 2000

-- Notes that the lines from `first` on and before `last` are now those before `new`.
function M.note(overlay, first, last, new)
  local hunk = overlay.hunk
  if not hunk then
    overlay.hunk = { first = first, old = last, new = new }
    return
  end
  hunk.first = math.min(hunk.first, first)
  if last > hunk.new then
    hunk.old, hunk.new = hunk.old + last - hunk.new, last
  end
  hunk.new = hunk.new + new - last
end

-- Where paths of buffers lead to, past symbolic links.
local real = {}

-- Finds out where a path leads to, and then calls `done`. A file that is not there yet is in its folder.
local function resolve(path, done)
  uv.fs_realpath(path, function(_, found)
    if found then
      real[path] = found
      vim.schedule(done)
      return
    end
    local folder, last = path:match("^(.*)/([^/]*)$")
    uv.fs_realpath(folder ~= "" and folder or "/", function(_, above)
      real[path] = above and above .. "/" .. last or path
      vim.schedule(done)
    end)
  end)
end

-- The path of a buffer from the top of the tree; nil if it is not in it.
local function name_of(client, buffer)
  local path, before = api.nvim_buf_get_name(buffer), client.root .. "/"
  path = real[path] or path
  return path:sub(1, #before) == before and path:sub(#before + 1) or nil
end

-- The buffer of a path from the top of the tree, if it is loaded.
function M.loaded(client, name)
  for _, buffer in ipairs(api.nvim_list_bufs()) do
    if api.nvim_buf_is_loaded(buffer) and vim.bo[buffer].buftype == "" and name_of(client, buffer) == name then
      return buffer
    end
  end
end

-- Who is told of edits, by whatever they are known by.
local listeners, heard = {}, {}

local function hear(buffer)
  if heard[buffer] or not api.nvim_buf_is_loaded(buffer) or vim.bo[buffer].buftype ~= "" then
    return
  end
  local function tell()
    for _, listener in pairs(listeners) do
      listener()
    end
  end
  heard[buffer] = api.nvim_buf_attach(buffer, false, {
    on_lines = tell,
    on_reload = tell,
    on_detach = function()
      heard[buffer] = nil
    end,
  })
end

-- Calls a function after each edit of a buffer, and once one is saved, whoever makes it; nil in its place ends that.
function M.on_edit(who, listener)
  listeners[who] = listener
  for _, buffer in ipairs(api.nvim_list_bufs()) do
    hear(buffer)
  end
  local group = api.nvim_create_augroup("tgrep-edits", { clear = true })
  api.nvim_create_autocmd({ "BufReadPost", "BufNewFile", "BufEnter" }, { group = group, callback = function(event) hear(event.buf) end })
  api.nvim_create_autocmd("BufWritePost", { group = group, callback = function()
    for _, each in pairs(listeners) do
      each()
    end
  end })
end

local function attach(client, buffer, name)
  local count = api.nvim_buf_line_count(buffer)
  local overlay = { name = name, count = 0, hunk = { first = 0, old = 0, new = count } }
  client.overlays[buffer] = overlay
  local function is_gone()
    return client.overlays[buffer] ~= overlay
  end
  api.nvim_buf_attach(buffer, false, {
    on_lines = function(_, _, _, first, last, new)
      if is_gone() then
        return true
      end
      M.note(overlay, first, last, new)
    end,
    on_reload = function()
      if not is_gone() then
        overlay.hunk = { first = 0, old = overlay.count, new = api.nvim_buf_line_count(buffer) }
      end
    end,
    on_detach = function()
      if not is_gone() then
        overlay.is_gone = true
      end
    end,
  })
end

-- Sends lines in place of those of the server. An empty list of Lua would be an object in JSON.
local function send(client, overlay, first, old, lines)
  local shown = {}
  for at, line in ipairs(lines) do
    shown[at] = vim.json.encode((line:gsub("\n", "\0")))
  end
  client:send(('{"do":"edit","name":%s,"first":%d,"last":%d,"lines":[%s]}'):format(
    vim.json.encode(overlay.name), first, old, table.concat(shown, ",")))
  overlay.count = overlay.count + #lines - (old - first)
end

-- Sends the next lines of a buffer that the server has not. Whether there are more.
local function send_some(client, buffer, overlay)
  local hunk = overlay.hunk
  if not hunk then
    return false
  end
  local last = math.min(hunk.new, hunk.first + LINES)
  local begin = api.nvim_buf_get_offset(buffer, hunk.first)
  while last > hunk.first + 1 and api.nvim_buf_get_offset(buffer, last) - begin > BYTES do
    last = hunk.first + math.floor((last - hunk.first) / 2)
  end
  local lines = api.nvim_buf_get_lines(buffer, hunk.first, last, false)
  if last == hunk.new then
    send(client, overlay, hunk.first, hunk.old, lines)
    overlay.hunk = nil
    return false
  end
  send(client, overlay, hunk.first, hunk.first, lines)
  hunk.first, hunk.old = last, hunk.old + last - hunk.first
  return true
end

-- Which buffers are to be over the tree: those that are changed, with their names; and a path of which it is not known where it leads.
local function wanted(client)
  local found, unknown = {}, nil
  for _, buffer in ipairs(api.nvim_list_bufs()) do
    if api.nvim_buf_is_loaded(buffer) and vim.bo[buffer].modified and vim.bo[buffer].buftype == "" then
      found[buffer] = name_of(client, buffer)
      local path = api.nvim_buf_get_name(buffer)
      if path:sub(1, 1) == "/" and not real[path] then
        unknown = path
      end
    end
  end
  return found, unknown
end

-- Sends what has changed, and then calls `done`, in the same breath as the last of it. What is much goes in pieces. Without a connection
-- `done` is called with the reason.
function M.sync(client, done)
  if client.state ~= "connected" then
    if not client.syncs then
      client.syncs = {}
      local function call(how)
        return function(fault)
          local syncs = client.syncs
          client.syncs = {}
          for _, again in ipairs(syncs) do
            how(again, fault)
          end
        end
      end
      client:on("connected", call(function(again)
        M.sync(client, again)
      end))
      client:on("lost", call(function(again, fault)
        again(fault)
      end))
    end
    table.insert(client.syncs, done)
    client:connect()
    return
  end
  local found, unknown = wanted(client)
  if unknown then
    resolve(unknown, function()
      M.sync(client, done)
    end)
    return
  end
  for buffer, overlay in pairs(client.overlays) do
    if found[buffer] ~= overlay.name or overlay.is_gone then
      client:ask("release", { name = overlay.name })
      client.overlays[buffer] = nil
      client.is_stale = true
    end
  end
  for buffer, name in pairs(found) do
    if not client.overlays[buffer] then
      attach(client, buffer, name)
    end
    if send_some(client, buffer, client.overlays[buffer]) then
      vim.defer_fn(function()
        M.sync(client, done)
      end, 1)
      return
    end
  end
  done()
end

return M
