-- One search: first what is unsaved goes to the server, and then what is asked for.
local M = {}
local buffers = require("tgrep.buffers")

-- Begins a search. `part` is called with each message of the answer, and `ended` with the last one, or with nil and an error. A search that
-- is lost with its server is made once more. What is given back has `cancel`, after which nothing is called.
function M.begin(client, given, part, ended)
  local search = { is_on = true, tries = 2 }
  function search.cancel()
    if search.is_on then
      search.is_on = false
      if search.number then
        client:cancel(search.number)
      end
    end
  end
  local function begin()
    search.tries = search.tries - 1
    buffers.sync(client, function(fault)
      if not search.is_on then
        return
      end
      local function finish(last, why)
        if not search.is_on then
          return
        end
        if why and why.kind == "lost" and search.tries > 0 and not search.has_part then
          begin()
          return
        end
        search.is_on = false
        ended(last, why)
      end
      if fault then
        finish(nil, fault)
        return
      end
      -- without watchman each look goes through the folder, so a search waits for one only after a buffer was saved
      local asked = vim.tbl_extend("force", { spans = not given.invert, fresh = client.watched or client.is_stale or false }, given)
      client.is_stale = false
      search.ticks = M.ticks(client)
      search.number = client:ask("find", asked, finish, function(message)
        search.has_part = true
        if search.is_on then
          part(message)
        end
      end)
    end)
  end
  begin()
  return search
end

-- How far the changes of each unsaved buffer go that the server has.
function M.ticks(client)
  local ticks = {}
  for buffer, overlay in pairs(client.overlays) do
    ticks[overlay.name] = { buffer = buffer, tick = vim.api.nvim_buf_get_changedtick(buffer) }
  end
  return ticks
end

-- The letters of the options that a query has.
function M.letters(query)
  local letters = {}
  for _, option in ipairs({ { "whole_words", "w" }, { "ignore_case", "i" }, { "literal", "F" }, { "whole_lines", "x" }, { "invert", "v" } }) do
    letters[#letters + 1] = query[option[1]] and "-" .. option[2] or nil
  end
  return table.concat(letters, " ")
end

-- What is said of a fault: for a pattern what is wrong, where, and what to write instead.
function M.fault(fault)
  local place = fault.offset and (" at %d"):format(fault.offset) or ""
  return fault.message .. place .. (fault.hint and ": " .. fault.hint or "")
end

-- A number and what there is of it: `1 line`, `2 lines`; with `more` there are more of them.
function M.count_of(number, what, more)
  return ("%d%s %s%s"):format(number, more and "+" or "", what, (number == 1 and not more) and "" or "s")
end

-- Says something in one line: a longer one would wait for a key.
function M.say(text, group)
  local line = ("tgrep: " .. text):gsub("%c", " ")
  if vim.fn.strdisplaywidth(line) > vim.v.echospace then
    line = vim.fn.strcharpart(line, 0, vim.v.echospace - 3) .. "..."
  end
  vim.api.nvim_echo({ { line, group } }, true, {})
end

-- Reads words as tgrep does: options, and then the pattern as it is.
function M.query(text)
  local query = {}
  local flags = { i = "ignore_case", S = "smart_case", w = "whole_words", x = "whole_lines", v = "invert", F = "literal" }
  while true do
    local word, rest = text:match("^%s*(%-%S+)%s?(.*)$")
    if not word then
      break
    end
    if word == "--" then
      text = rest
      break
    elseif word == "-g" then
      local glob, after = rest:match("^(%S+)%s?(.*)$")
      if not glob then
        return nil, "-g needs a glob"
      end
      query.globs = query.globs or {}
      table.insert(query.globs, glob)
      text = after
    else
      for letter in word:sub(2):gmatch(".") do
        if not flags[letter] then
          return nil, ("there is no option %s: write -- before a pattern that begins with -"):format(word)
        end
        query[flags[letter]] = true
      end
      text = rest
    end
  end
  query.pattern = text
  return query
end

return M
