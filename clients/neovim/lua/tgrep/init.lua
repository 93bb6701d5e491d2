-- Searches the tree of the working folder through tgrep's warm server: `:help tgrep`.
local M = {}
local config = require("tgrep.config")

-- The query of the last search, and the client it was made with.
M.latest = nil

function M.setup(given)
  config.set(given)
end

-- :Tgrep
function M.command(text)
  if vim.trim(text) == "" then
    return M.open()
  end
  local query, fault = require("tgrep.search").query(text)
  if not query then
    require("tgrep.search").say(fault, "ErrorMsg")
    return
  end
  M.list(query)
end

-- Fills the quickfix list with what a query finds (docs/SERVER.md has its keys).
function M.list(query)
  local client = require("tgrep.client").of()
  M.latest = { client = client, query = query }
  return require("tgrep.list").fill(client, query, true)
end

-- Opens the window, with the keys of a query to begin with.
function M.open(query)
  return require("tgrep.window").open(query)
end

-- :TgrepReplace
function M.replace(text)
  if not M.latest then
    require("tgrep.search").say("search first", "ErrorMsg")
    return
  end
  local latest = M.latest
  if text ~= "" then
    require("tgrep.replace").open(latest.client, latest.query, text)
    return
  end
  vim.ui.input({ prompt = ("Replace %s by: "):format(latest.query.pattern) }, function(typed)
    if typed then
      require("tgrep.replace").open(latest.client, latest.query, typed)
    end
  end)
end

-- :TgrepCancel
function M.cancel()
  require("tgrep.list").cancel()
  require("tgrep.window").cancel()
end

return M
