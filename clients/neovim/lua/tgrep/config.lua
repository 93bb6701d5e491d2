-- The settings, which `require("tgrep").setup` changes.
local M = {
  -- the most lines of the window, and of the quickfix list
  window_lines = 1000,
  list_lines = 50000,
  -- whether the list in an open quickfix window follows what changes
  follow = true,
  -- the keys of the window
  keys = {
    open = "<CR>", split = "<C-x>", vsplit = "<C-v>", tab = "<C-t>", next = "<C-n>", previous = "<C-p>", page_down = "<C-d>", page_up = "<C-u>",
    paths = "<Tab>", words = "<M-w>", case = "<M-i>", literal = "<M-f>", list = "<C-q>", replace = "<M-r>", close = "<Esc>",
  },
}
local words

-- The words that call tgrep: those of the setting, or the one of this repository, or the one on the PATH.
function M.command()
  if not words then
    -- a folder of packages may have a link to it
    local source = debug.getinfo(1, "S").source:sub(2)
    local here = (vim.loop.fs_realpath(source) or source):match("^(.*)/clients/neovim/lua/tgrep/config%.lua$")
    local beside = here and here .. "/tgrep"
    words = beside and vim.loop.fs_stat(beside) and { beside } or { "tgrep" }
  end
  return words
end

-- Takes settings.
function M.set(given)
  for key, value in pairs(given or {}) do
    if key == "command" then
      words = type(value) == "table" and value or { value }
    elseif key == "keys" then
      M.keys = vim.tbl_extend("force", M.keys, value)
    else
      M[key] = value
    end
  end
end

return M
