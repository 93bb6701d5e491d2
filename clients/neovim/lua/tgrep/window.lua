-- The window that searches as one types: a line for the pattern, one for paths, the lines that are found, and a preview.
local M = {}
local api = vim.api
local buffers = require("tgrep.buffers")
local bytes = require("tgrep.client").bytes
local config = require("tgrep.config")
local search = require("tgrep.search")
local space = api.nvim_create_namespace("tgrep")
local chosen = api.nvim_create_namespace("tgrep-chosen")

-- In bytes: so much of a line is shown. So many lines are asked for at each key, and all of them once nothing is typed.
local CUT, FIRST = 500, 200
-- In milliseconds: how long after a change what is found follows, after a move the preview, and after a key the rest.
local SOON, PREVIEW, REST = 100, 15, 150
local window, heard = nil, {}

local Window = {}
Window.__index = Window

local function scratch()
  local buffer = api.nvim_create_buf(false, true)
  vim.bo[buffer].bufhidden = "wipe"
  vim.bo[buffer].undolevels = -1
  return buffer
end

local function set_lines(buffer, first, last, lines)
  for at, line in ipairs(lines) do
    lines[at] = line:gsub("\n", "\0")
  end
  api.nvim_buf_set_lines(buffer, first, last, false, lines)
end

-- Where the four windows are.
local function places()
  local width, height = math.min(vim.o.columns - 4, 200), vim.o.lines - vim.o.cmdheight - 4
  local column, paths = math.floor((vim.o.columns - width) / 2), math.floor(width / 3)
  local left = width >= 100 and math.floor(width / 2) or width
  local below = math.max(height - 2, 2)
  local has_room = width >= 100 or below >= 12
  local listed = width >= 100 and below or has_room and math.floor(below / 2) or below
  return {
    pattern = { row = 1, col = column, width = width - paths - 1, height = 1 },
    paths = { row = 1, col = column + width - paths, width = paths, height = 1 },
    list = { row = 2, col = column, width = left, height = listed },
    preview = has_room and (width >= 100 and { row = 2, col = column + left + 1, width = width - left - 1, height = below }
      or { row = 3 + listed, col = column, width = width, height = below - listed - 1 }),
  }
end

-- Opens the window. A query has the keys of a find (docs/SERVER.md).
function M.open(query)
  M.close()
  query = query or {}
  local self = setmetatable({
    client = require("tgrep.client").of(), before = api.nvim_get_current_win(), flags = {}, hits = {}, at = 1, windows = {}, buffers = {}, told = "",
  }, Window)
  for _, flag in ipairs({ "whole_words", "ignore_case", "literal" }) do
    self.flags[flag] = query[flag] or false
  end
  window = self
  for name, place in pairs(places()) do
    if place then
      self.buffers[name] = scratch()
      local how = vim.tbl_extend("force", place, { relative = "editor", style = "minimal", zindex = 60 })
      self.windows[name] = api.nvim_open_win(self.buffers[name], false, how)
      vim.wo[self.windows[name]].winhighlight = "NormalFloat:" .. ((name == "pattern" or name == "paths") and "Pmenu" or "Normal")
      vim.wo[self.windows[name]].wrap = false
    end
  end
  set_lines(self.buffers.pattern, 0, -1, { query.pattern or "" })
  set_lines(self.buffers.paths, 0, -1, { table.concat(query.globs or {}, " ") })
  self:listen()
  api.nvim_set_current_win(self.windows.pattern)
  vim.cmd("startinsert!")
  self:head()
  self.client:connect()
  self:search()
  return self
end

-- Closes the window, and gives its search up.
function M.close()
  local self = window
  window = nil
  if not self then
    return
  end
  self:cancel()
  for _, timer in pairs(self.timers or {}) do
    timer:stop()
    timer:close()
  end
  api.nvim_del_augroup_by_id(self.group)
  buffers.on_edit("window", nil)
  for _, id in pairs(self.windows) do
    if api.nvim_win_is_valid(id) then
      api.nvim_win_close(id, true)
    end
  end
  vim.cmd("stopinsert")
  if api.nvim_win_is_valid(self.before) then
    api.nvim_set_current_win(self.before)
  end
end

function M.cancel()
  if window then
    window:cancel()
  end
end

-- The window that is open.
function M.current()
  return window
end

function Window:cancel()
  if self.searching then
    self.searching.cancel()
  end
end

-- Calls a method of the window some time after the last call.
function Window:soon(name, milliseconds)
  self.timers = self.timers or {}
  self.timers[name] = self.timers[name] or vim.loop.new_timer()
  self.timers[name]:start(milliseconds, 0, vim.schedule_wrap(function()
    if window == self then
      self[name](self)
    end
  end))
end

-- What each key does.
function Window:acts()
  local function go(how)
    return function() self:go(how) end
  end
  local function move(by)
    return function() self:move(by) end
  end
  local function toggle(flag)
    return function() self:toggle(flag) end
  end
  return {
    open = go("edit"), split = go("split"), vsplit = go("vsplit"), tab = go("tabedit"), next = move(1), previous = move(-1),
    page_down = function() self:move(self:height()) end, page_up = function() self:move(-self:height()) end,
    paths = function() self:switch() end, words = toggle("whole_words"), case = toggle("ignore_case"), literal = toggle("literal"),
    list = function() self:to_list() end, replace = function() self:replace() end, close = M.close,
  }
end

function Window:listen()
  self.group = api.nvim_create_augroup("tgrep-window", { clear = true })
  local function on(events, buffer, callback)
    api.nvim_create_autocmd(events, { group = self.group, buffer = buffer, callback = callback })
  end
  local acts = self:acts()
  for _, name in ipairs({ "pattern", "paths" }) do
    local buffer = self.buffers[name]
    for act, call in pairs(acts) do
      vim.keymap.set({ "i", "n" }, config.keys[act], call, { buffer = buffer, nowait = true })
    end
    vim.keymap.set("i", "<Down>", acts.next, { buffer = buffer })
    vim.keymap.set("i", "<Up>", acts.previous, { buffer = buffer })
    vim.keymap.set({ "i", "n" }, "<C-c>", M.close, { buffer = buffer })
    on({ "TextChangedI", "TextChanged", "TextChangedP" }, buffer, function() self:search() end)
  end
  on("WinClosed", nil, function(closed)
    if window == self and vim.tbl_contains(vim.tbl_values(self.windows), tonumber(closed.match)) then
      vim.schedule(M.close)
    end
  end)
  on("VimResized", nil, function()
    for name, place in pairs(places()) do
      if place and self.windows[name] then
        api.nvim_win_set_config(self.windows[name], vim.tbl_extend("force", place, { relative = "editor" }))
      end
    end
  end)
  -- what is found follows edits of buffers, and changes of files
  buffers.on_edit("window", function() self:soon("again", SOON) end)
  self:hear()
end

-- Hears what the server says, for whichever window is open then.
function Window:hear()
  local client = self.client
  if heard[client] then
    return
  end
  heard[client] = true
  client:on("changes", function()
    if window and window.client == client then
      window:soon("again", SOON)
    end
  end)
  client:on("loading", function(message)
    -- an answer can come before the last of these, and then it stays told
    if window and window.client == client and not window.is_answered then
      window:tell(("%d of %d files are read"):format(message.done, message.of))
    end
  end)
end

-- What is asked for now.
function Window:query()
  local function text(name)
    return api.nvim_buf_get_lines(self.buffers[name], 0, 1, false)[1] or ""
  end
  local query = vim.tbl_extend("force", {}, self.flags)
  query.pattern = text("pattern")
  local globs = {}
  for glob in text("paths"):gmatch("%S+") do
    globs[#globs + 1] = glob
  end
  table.sort(globs, function(a, b) return a:sub(1, 1) ~= "!" and b:sub(1, 1) == "!" end)
  query.globs = #globs > 0 and globs or nil
  return query
end

-- Searches, if anything else is asked for than before.
function Window:search()
  local query = self:query()
  if not vim.deep_equal(query, self.asked) then
    self.asked = query
    self.at, self.wants_all = 1, false
    self:again()
  end
end

-- Searches for the same once more.
function Window:again()
  self:cancel()
  self.is_answered = false
  local query = self.asked
  if not query or query.pattern == "" then
    self:show_first({})
    self:tell("")
    return
  end
  require("tgrep").latest = { client = self.client, query = query }
  local limit = self.wants_all and config.window_lines or math.min(FIRST, config.window_lines)
  local given = vim.tbl_extend("force", query, { limit = limit, cut = CUT })
  local has_shown = false
  self.searching = search.begin(self.client, given, function(message)
    if has_shown then
      self:show_more(message.documents or {})
    else
      has_shown = true
      self:show_first(message.documents or {})
    end
  end, function(last, fault)
    self.is_answered = true
    if fault then
      self:tell(search.fault(fault))
      return
    end
    self.life, self.version = last.life, last.version
    if not has_shown then
      self:show_first({})
    end
    local missing = last.missing and #last.missing > 0 and (", %s not searched"):format(search.count_of(#last.missing, "buffer")) or ""
    self:tell(search.count_of(last.count, "line", last.more) .. missing)
    self:soon("preview", PREVIEW)
    if last.more and limit < config.window_lines then
      self:soon("rest", REST)
    end
  end)
end

-- Searches for all lines, once nothing has been typed for a while.
function Window:rest()
  if not self.wants_all and not self.searching.is_on then
    self.wants_all = true
    self:again()
  end
end

function Window:show_first(documents)
  local place = self.at > 1 and self.hits[self.at] or nil
  api.nvim_buf_clear_namespace(self.buffers.list, space, 0, -1)
  self.hits = {}
  self:show(documents, 0, -1)
  -- the same line stays chosen if it is found again
  local at = 1
  for number, hit in ipairs(self.hits) do
    if place and hit.name == place.name and hit.line <= place.line then
      at = number
    end
  end
  self:choose(at)
end

function Window:show_more(documents)
  self:show(documents, #self.hits, -1)
end

function Window:show(documents, first, last)
  local lines, marks = {}, {}
  for _, document in ipairs(documents) do
    local name = bytes(document.name)
    for _, line in ipairs(document.lines) do
      local text, before = bytes(line.text), ("%s:%d: "):format(name, line.line)
      local from = line.from or 0
      self.hits[#self.hits + 1] = { name = name, line = line.line, spans = line.spans or {} }
      lines[#lines + 1] = before .. text
      marks[#marks + 1] = { #name, #before, from, #text, line.spans or {} }
    end
  end
  set_lines(self.buffers.list, first, last, lines)
  for at, mark in ipairs(marks) do
    local name, before, from, size, spans = unpack(mark)
    local row = first + at - 1
    api.nvim_buf_set_extmark(self.buffers.list, space, row, 0, { end_col = name, hl_group = "Directory" })
    for _, span in ipairs(spans) do
      local begin, finish = math.max(span[1] - from, 0), math.min(span[2] - from, size)
      if begin < finish then
        api.nvim_buf_set_extmark(self.buffers.list, space, row, before + begin, { end_col = before + finish, hl_group = "Search" })
      end
    end
  end
end

-- Shows the options behind the pattern, and what was found.
function Window:head()
  local shown = vim.trim(search.letters(self.flags) .. "  " .. self.told)
  api.nvim_buf_clear_namespace(self.buffers.pattern, space, 0, -1)
  api.nvim_buf_set_extmark(self.buffers.pattern, space, 0, 0, { virt_text = { { shown, "Comment" } }, virt_text_pos = "right_align" })
  api.nvim_buf_clear_namespace(self.buffers.paths, space, 0, -1)
  api.nvim_buf_set_extmark(self.buffers.paths, space, 0, 0, { virt_text = { { "paths", "Comment" } }, virt_text_pos = "right_align" })
end

function Window:tell(text)
  self.told = text
  self:head()
end

function Window:height()
  return api.nvim_win_get_height(self.windows.list) - 1
end

function Window:move(by)
  self:choose(self.at + by)
end

function Window:choose(at)
  self.at = math.max(1, math.min(at, #self.hits))
  api.nvim_buf_clear_namespace(self.buffers.list, chosen, 0, -1)
  if #self.hits > 0 then
    api.nvim_win_set_cursor(self.windows.list, { self.at, 0 })
    api.nvim_buf_set_extmark(self.buffers.list, chosen, self.at - 1, 0, { end_row = self.at, hl_group = "CursorLine", hl_eol = true, strict = false })
  end
  self:soon("preview", PREVIEW)
end

-- Shows the lines around the one that is chosen: of a buffer as it is, and otherwise as the file was when it was searched.
function Window:preview()
  local hit, id = self.hits[self.at], self.windows.preview
  if not id then
    return
  end
  if not hit then
    set_lines(self.buffers.preview, 0, -1, {})
    return
  end
  local height = api.nvim_win_get_height(id)
  local first = math.max(1, hit.line - math.floor(height / 2))
  local buffer = buffers.loaded(self.client, hit.name)
  if buffer then
    self:show_preview(hit, first, api.nvim_buf_get_lines(buffer, first - 1, first + height - 1, false))
    return
  end
  if not self.version then
    return
  end
  if self.opening then
    self.client:cancel(self.opening)
  end
  self.opening = self.client:ask("open", {
    name = hit.name, life = self.life, version = self.version, first = first, last = first + height - 1,
  }, function(last, fault)
    if window ~= self or hit ~= self.hits[self.at] then
      return
    elseif fault then
      set_lines(self.buffers.preview, 0, -1, { fault.message })
    else
      self:show_preview(hit, first, vim.tbl_map(bytes, last.lines))
    end
  end)
end

function Window:show_preview(hit, first, lines)
  local buffer = self.buffers.preview
  for at, line in ipairs(lines) do
    lines[at] = line:sub(1, 1000)
  end
  api.nvim_buf_clear_namespace(buffer, space, 0, -1)
  set_lines(buffer, 0, -1, lines)
  -- the hits of a file follow one another
  local function mark(at, by)
    local other = self.hits[at]
    while other and other.name == hit.name and other.line >= first and other.line < first + #lines do
      for _, span in ipairs(other.spans) do
        local finish = math.min(span[2], #lines[other.line - first + 1])
        if span[1] < finish then
          api.nvim_buf_set_extmark(buffer, space, other.line - first, span[1], { end_col = finish, hl_group = "Search" })
        end
      end
      at = at + by
      other = self.hits[at]
    end
  end
  mark(self.at, 1)
  mark(self.at - 1, -1)
  if lines[hit.line - first + 1] then
    api.nvim_buf_set_extmark(buffer, space, hit.line - first, 0, { end_row = hit.line - first + 1, hl_group = "CursorLine", hl_eol = true, strict = false })
  end
end

function Window:toggle(flag)
  self.flags[flag] = not self.flags[flag]
  self:head()
  self:search()
end

function Window:switch()
  local other = api.nvim_get_current_win() == self.windows.pattern and "paths" or "pattern"
  api.nvim_set_current_win(self.windows[other])
  vim.cmd("startinsert!")
end

-- Opens the file of the line that is chosen.
function Window:go(how)
  local hit, client = self.hits[self.at], self.client
  if not hit then
    return
  end
  M.close()
  vim.cmd("normal! m'")
  local path = client.root .. "/" .. hit.name
  local buffer = buffers.loaded(client, hit.name)
  if buffer and how == "edit" then
    api.nvim_set_current_buf(buffer)
  else
    vim.cmd(how .. " " .. vim.fn.fnameescape(path))
  end
  local line = math.min(hit.line, api.nvim_buf_line_count(0))
  api.nvim_win_set_cursor(0, { line, hit.spans[1] and hit.spans[1][1] or 0 })
  vim.cmd("normal! zv")
end

-- Puts what is asked for into the quickfix list.
function Window:to_list()
  local query = self:query()
  M.close()
  if query.pattern ~= "" then
    require("tgrep").list(query)
  end
end

function Window:replace()
  local query = self:query()
  M.close()
  if query.pattern ~= "" then
    require("tgrep").latest = { client = self.client, query = query }
    require("tgrep").replace("")
  end
end

return M
