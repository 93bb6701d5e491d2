-- Replaces what a search finds. A buffer shows each line as it is and as it would be; `:w` there changes the buffers of the files to what it
-- shows, and to nothing else. A line that is taken out of it stays as it is, and one that is edited there is taken as it is there.
local M = {}
local api = vim.api
local bytes = require("tgrep.client").bytes
local buffers = require("tgrep.buffers")
local config = require("tgrep.config")
local search = require("tgrep.search")
local count_of = search.count_of
local space = api.nvim_create_namespace("tgrep-replace")

-- The parts of a replacement: texts, and numbers of groups. With `\1` to `\9` there are groups, `\0` is the match, and `\\` a backslash.
function M.parts(text, is_literal)
  if is_literal then
    return { text }, false
  end
  local parts, has_groups, at = {}, false, 1
  while at <= #text do
    local plain = text:match("^[^\\]+", at)
    if plain then
      parts[#parts + 1], at = plain, at + #plain
    else
      local after = text:sub(at + 1, at + 1)
      local number = tonumber(after)
      parts[#parts + 1] = number or (after == "" and "\\" or after == "\\" and "\\" or "\\" .. after)
      has_groups = has_groups or (number ~= nil and number > 0)
      at = at + 2
    end
  end
  return parts, has_groups
end

-- The line as it would be; nil and the reason if it is left as it is.
function M.replaced(text, line, parts, has_groups)
  local spans = line.spans or {}
  if #spans == 0 then
    return nil, "an empty match"
  end
  if has_groups and #spans > 1 then
    return nil, "several matches, and groups"
  end
  if has_groups and type(line.groups) ~= "table" then
    return nil, "a match with too many ways to be taken apart"
  end
  local done, at = {}, 0
  for _, span in ipairs(spans) do
    done[#done + 1] = text:sub(at + 1, span[1])
    for _, part in ipairs(parts) do
      if type(part) == "string" then
        done[#done + 1] = part
      else
        local group = part == 0 and span or line.groups[part + 1]
        if type(group) == "table" then
          done[#done + 1] = text:sub(group[1] + 1, group[2])
        end
      end
    end
    at = span[2]
  end
  done[#done + 1] = text:sub(at + 1)
  return table.concat(done)
end

-- Shows what would change.
function M.open(client, query, text)
  local parts, has_groups = M.parts(text, query.literal)
  local self = { client = client, shown = {}, files = {}, left = {} }
  local lines, count = {}, 0
  local given = vim.tbl_extend("force", query, { limit = config.list_lines, groups = has_groups or nil, beside = true, fresh = true })
  local searching
  searching = search.begin(client, given, function(message)
    for _, document in ipairs(message.documents or {}) do
      local name = bytes(document.name)
      for _, line in ipairs(document.lines) do
        local before = bytes(line.text)
        local after, why = M.replaced(before, line, parts, has_groups)
        if after == nil then
          self.left[#self.left + 1] = ("%s:%d: %s"):format(name, line.line, why)
        elseif after ~= before then
          if not self.shown[name] then
            self.shown[name] = {}
            self.files[#self.files + 1] = name
            lines[#lines + 1] = "== " .. name:gsub("\n", "\0")
          end
          self.shown[name][line.line] = before
          lines[#lines + 1] = ("  %d - %s"):format(line.line, before)
          lines[#lines + 1] = ("  %d + %s"):format(line.line, after)
          count = count + 1
        end
      end
    end
  end, function(last, fault)
    if fault then
      search.say(search.fault(fault), "ErrorMsg")
      return
    end
    self.life, self.version, self.ticks = last.life, last.version, searching.ticks
    local head = { ("# %s in %s. :w changes the buffers to the lines with a +; take out what is to stay."):format(
      count_of(count, "line"), count_of(#self.files, "file")) }
    if last.more then
      head[#head + 1] = "# There are more, which are not shown and not changed."
    end
    for _, left in ipairs(self.left) do
      head[#head + 1] = "# not changed: " .. left
    end
    for _, one in ipairs(last.missing or {}) do
      head[#head + 1] = ("# not searched: %s: %s"):format(bytes(one.name), one.reason)
    end
    M.show(self, vim.list_extend(head, lines))
  end)
  return self
end

function M.show(self, lines)
  vim.cmd("botright new")
  local buffer = api.nvim_get_current_buf()
  self.buffer = buffer
  api.nvim_buf_set_name(buffer, "tgrep://replace/" .. buffer)
  vim.bo[buffer].buftype, vim.bo[buffer].bufhidden, vim.bo[buffer].swapfile = "acwrite", "wipe", false
  -- what is much comes in pieces
  local function put(at)
    if not api.nvim_buf_is_valid(buffer) then
      return
    end
    local some = vim.list_slice(lines, at, at + 499)
    api.nvim_buf_set_lines(buffer, at == 1 and 0 or at - 1, -1, false, some)
    for row, line in ipairs(some) do
      local group = line:match("^  %d+ %+") and "DiffAdd" or line:match("^  %d+ %-") and "DiffDelete" or line:match("^#") and "Comment" or "Directory"
      api.nvim_buf_set_extmark(buffer, space, at + row - 2, 0, { end_col = #line, hl_group = group })
    end
    if at + 500 <= #lines then
      vim.defer_fn(function() put(at + 500) end, 1)
    else
      vim.bo[buffer].modified = false
      self.is_shown = true
    end
  end
  put(1)
  api.nvim_create_autocmd("BufWriteCmd", { buffer = buffer, callback = function() M.write(self) end })
end

-- What the buffer shows: for each file the lines with a +.
function M.read(self)
  local changes, name = {}, nil
  for _, line in ipairs(api.nvim_buf_get_lines(self.buffer, 0, -1, false)) do
    local number, after = line:match("^  (%d+) %+ (.*)$")
    local path = line:match("^== (.*)$")
    if number and name then
      changes[name][tonumber(number)] = after
    elseif path then
      path = path:gsub("%z", "\n")
      name = self.shown[path] and path or nil
      if name then
        changes[name] = changes[name] or {}
      end
    end
  end
  return changes
end

-- Changes the buffers, one at a time, and says what was skipped.
function M.write(self)
  if not self.is_shown then
    search.say("not all changes are shown yet", "WarningMsg")
    return
  end
  local changes, files = M.read(self), {}
  for _, name in ipairs(self.files) do
    if changes[name] and next(changes[name]) then
      files[#files + 1] = name
    end
  end
  local done, skipped, lines = {}, {}, 0
  local function finish()
    local said = { ("# %s changed in %s; :wall saves them."):format(count_of(lines, "line"), count_of(#done, "buffer")) }
    for _, one in ipairs(skipped) do
      said[#said + 1] = ("# skipped: %s: %s"):format(one[1], one[2])
    end
    if api.nvim_buf_is_valid(self.buffer) then
      api.nvim_buf_set_lines(self.buffer, 0, -1, false, said)
      vim.bo[self.buffer].modified = false
    end
    self.shown, self.files, self.done, self.skipped = {}, {}, done, skipped
    search.say(said[1]:sub(3) .. (#skipped > 0 and (" %s skipped."):format(count_of(#skipped, "file")) or ""))
  end
  local function next_file(at)
    local name = files[at]
    if not name then
      finish()
      return
    end
    M.change(self, name, changes[name], function(count, why)
      if count then
        lines, done[#done + 1] = lines + count, name
      else
        skipped[#skipped + 1] = { name, why }
      end
      vim.defer_fn(function() next_file(at + 1) end, 0)
    end)
  end
  next_file(1)
end

-- Changes one buffer, if its text is as it was searched.
function M.change(self, name, changed, done)
  local path = self.client.root .. "/" .. name
  local buffer = buffers.loaded(self.client, name)
  local tick = self.ticks[name]
  if tick then
    -- it was unsaved when it was searched
    if buffer ~= tick.buffer or api.nvim_buf_get_changedtick(buffer) ~= tick.tick then
      done(nil, "its buffer has changed since")
      return
    end
    M.put(self, name, buffer, changed, done)
    return
  end
  self.client:ask("open", { name = name, life = self.life, version = self.version }, function(last, fault)
    if fault then
      done(nil, fault.kind == "gone" and "it has changed since" or fault.message)
      return
    end
    buffer = buffers.loaded(self.client, name) or M.load(path)
    if not buffer then
      done(nil, "it cannot be read, or is open in another editor")
      return
    end
    local lines = vim.tbl_map(bytes, last.lines)
    if not M.is_same(buffer, lines) then
      done(nil, "it has changed since")
      return
    end
    M.put(self, name, buffer, changed, done)
  end)
end

-- Loads a file into a buffer; nil if it cannot be read, or there is a swap file of another editor. Nobody is asked what to do, and what is
-- to happen when a file is read happens once it is shown.
function M.load(path)
  local ignored, short = vim.o.eventignore, vim.o.shortmess
  vim.o.eventignore, vim.o.shortmess = "all", short .. "A"
  local buffer = vim.fn.bufadd(path)
  local fine = pcall(vim.fn.bufload, buffer)
  vim.o.eventignore, vim.o.shortmess = ignored, short
  local swap = fine and vim.fn.swapname(buffer) or ""
  if not fine or (swap ~= "" and not swap:match("%.swp$")) then
    pcall(api.nvim_buf_delete, buffer, { force = true })
    return nil
  end
  vim.bo[buffer].buflisted = true
  api.nvim_create_autocmd("BufWinEnter", { buffer = buffer, once = true, callback = function()
    vim.cmd("filetype detect")
  end })
  return buffer
end

-- Whether a buffer has these lines. Those of a file that ends its lines as DOS does have one byte more.
function M.is_same(buffer, lines)
  local have = api.nvim_buf_get_lines(buffer, 0, -1, false)
  if #lines == 0 then
    lines = { "" }
  end
  local ending = vim.bo[buffer].fileformat == "dos" and "\r" or ""
  if #have ~= #lines then
    return false
  end
  for at, line in ipairs(have) do
    if line .. ending ~= lines[at] then
      return false
    end
  end
  return true
end

function M.put(self, name, buffer, changed, done)
  local numbers, ending = {}, vim.bo[buffer].fileformat == "dos" and "\r" or ""
  for number in pairs(changed) do
    local line = api.nvim_buf_get_lines(buffer, number - 1, number, false)[1]
    if self.shown[name][number] == nil or line == nil or (line ~= self.shown[name][number] and line .. ending ~= self.shown[name][number]) then
      done(nil, "it is not as it was shown")
      return
    end
    numbers[#numbers + 1] = number
  end
  if not vim.bo[buffer].modifiable or vim.bo[buffer].readonly then
    done(nil, "its buffer may not be changed")
    return
  end
  for _, number in ipairs(numbers) do
    local after = changed[number]
    if ending ~= "" then
      after = after:gsub("\r$", "")
    end
    api.nvim_buf_set_lines(buffer, number - 1, number, true, { after })
  end
  done(#numbers)
end

return M
