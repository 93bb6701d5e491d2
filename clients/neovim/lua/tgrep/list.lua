-- The quickfix list of a search, which is filled as the lines come, and follows what changes while its window is open.
local M = {}
local buffers = require("tgrep.buffers")
local bytes = require("tgrep.client").bytes
local config = require("tgrep.config")
local search = require("tgrep.search")

-- In milliseconds: how long after a change the list follows. So many lines are put into it at a time.
local SOON, PIECE = 300, 200
local list = nil

local function items_of(client, message)
  local items = {}
  for _, document in ipairs(message.documents or {}) do
    local path = client.root .. "/" .. bytes(document.name)
    for _, line in ipairs(document.lines) do
      local span = line.spans and line.spans[1] or { 0, 0 }
      items[#items + 1] = {
        filename = path, lnum = line.line, col = span[1] + 1, end_lnum = line.line, end_col = span[2] + 1, text = bytes(line.text),
      }
    end
  end
  return items
end

local function title_of(query)
  return vim.trim("tgrep " .. search.letters(query) .. " " .. query.pattern)
end

local function given_of(query, limit)
  local given = vim.deepcopy(query)
  given.limit, given.cut, given.beside = limit, 1000, true
  return given
end

-- Fills a new list with what a query finds.
function M.fill(client, query, opens)
  M.cancel()
  vim.fn.setqflist({}, " ", { title = title_of(query), items = {} })
  local mine = { client = client, query = query, id = vim.fn.getqflist({ id = 0 }).id }
  list = mine
  mine.search = search.begin(client, given_of(query, config.list_lines), function(message)
    local items = items_of(client, message)
    vim.fn.setqflist({}, "a", { id = mine.id, items = items })
    if opens and not mine.is_open then
      mine.is_open = true
      vim.cmd("botright copen")
    end
  end, function(last, fault)
    if fault then
      search.say(search.fault(fault), "ErrorMsg")
    else
      M.say_end(last)
    end
  end)
  M.watch(client)
  return mine
end

-- Says how much was found, and what could not be searched.
function M.say_end(last)
  local parts = { search.count_of(last.count, "line") .. (last.more and ", and there are more" or "") }
  for _, one in ipairs(last.missing or {}) do
    parts[#parts + 1] = ("%s is not searched: %s"):format(bytes(one.name), one.reason)
  end
  if last.left_out then
    parts[#parts + 1] = ("%s left out (tgrep --left-out)"):format(search.count_of(last.left_out, "file"))
  end
  search.say(table.concat(parts, "; "))
end

-- Gives up the search that fills the list.
function M.cancel()
  if list and list.search then
    list.search.cancel()
  end
  if list and list.following then
    list.following.cancel()
  end
end

local function is_seen()
  return list and config.follow and vim.fn.getqflist({ id = list.id, winid = 0 }).winid ~= 0 and vim.fn.getqflist({ id = 0 }).id == list.id
end

-- Which item of the new list is where one of the old list was: the same one, or the last one before it.
local function place_in(items, before)
  if not before then
    return 1
  end
  local path = before.bufnr > 0 and vim.api.nvim_buf_get_name(before.bufnr) or ""
  local place = 1
  for at, item in ipairs(items) do
    if item.filename < path or (item.filename == path and item.lnum <= before.lnum) then
      place = at
    else
      break
    end
  end
  return place
end

-- Makes the search again, and puts what it finds in the place of the list.
local function follow()
  if not is_seen() or list.search.is_on then
    return
  end
  local mine, items = list, {}
  if mine.following then
    mine.following.cancel()
  end
  mine.following = search.begin(mine.client, given_of(mine.query, config.list_lines), function(message)
    vim.list_extend(items, items_of(mine.client, message))
  end, function(last)
    if last and list == mine and is_seen() then
      local seen = vim.fn.getqflist({ id = mine.id, idx = 0, items = 0 })
      local place = place_in(items, seen.items[seen.idx])
      -- what is much comes in pieces
      local function put(at)
        if list == mine and is_seen() then
          vim.fn.setqflist({}, at == 1 and "r" or "a", { id = mine.id, items = vim.list_slice(items, at, at + PIECE - 1), title = title_of(mine.query) })
          if at + PIECE <= #items then
            vim.defer_fn(function() put(at + PIECE) end, 1)
          elseif #items > 0 then
            vim.fn.setqflist({}, "a", { id = mine.id, idx = place })
          end
        end
      end
      put(1)
    end
  end)
end

-- Follows, some time after the last change.
local function follow_soon()
  if not list then
    return
  end
  list.timer = list.timer or vim.loop.new_timer()
  list.timer:start(SOON, 0, vim.schedule_wrap(follow))
end

local watched = {}
function M.watch(client)
  if watched[client] then
    return
  end
  watched[client] = true
  client:on("changes", follow_soon)
  buffers.on_edit("list", follow_soon)
end

-- The list that was filled last.
function M.last()
  return list
end

return M
