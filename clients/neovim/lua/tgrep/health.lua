-- :checkhealth tgrep
local M = {}
-- 0.7 has them in another place, and under other names, than later versions
local health = vim.health or require("health")
local start, ok, info = health.start or health.report_start, health.ok or health.report_ok, health.info or health.report_info
local warn, fault = health.warn or health.report_warn, health.error or health.report_error

local function line_of(words)
  local out = vim.fn.system(words)
  return vim.v.shell_error == 0 and vim.trim(out) or nil
end

function M.check()
  start("tgrep")
  if vim.fn.has("nvim-0.7") == 1 then
    ok("Neovim is of version 0.7 or later")
  else
    fault("Neovim is older than 0.7")
  end
  local command = require("tgrep.config").command()
  if vim.fn.executable(command[1]) == 0 then
    fault(("there is no command %s"):format(command[1]), { 'install it, or set its path: require("tgrep").setup({ command = "/path/to/tgrep" })' })
    return
  end
  local version = line_of(vim.list_extend(vim.deepcopy(command), { "--version" }))
  if version then
    ok(("%s is %s"):format(command[1], version))
  else
    fault(("%s does not run"):format(command[1]), { "it needs Python 3.11" })
    return
  end
  if vim.fn.executable("watchman") == 1 then
    ok("watchman is there")
  else
    warn("watchman is missing: changed files are found by looking through the folder", { "apt-get install watchman python3-pywatchman" })
  end
  local client = require("tgrep.client").of()
  local told, why
  client:ask("status", {}, function(last, refused)
    told, why = last, refused
  end)
  vim.wait(20000, function() return told ~= nil or why ~= nil end, 20)
  if told then
    local count_of = require("tgrep.search").count_of
    ok(("the server of %s holds %s with %s"):format(
      require("tgrep.client").bytes(told.root), count_of(told.documents, "file"), count_of(told.bytes, "byte")))
    if told.unwatched then
      info("it looks through the folder, since " .. told.unwatched)
    end
  else
    fault("the server does not answer: " .. (why and why.message or "it may still read the folder"))
  end
end

return M
