-- The commands of tgrep. All else is loaded once one of them is called.
if vim.g.loaded_tgrep or vim.fn.has("nvim-0.7") == 0 then
  return
end
vim.g.loaded_tgrep = true

local command = vim.api.nvim_create_user_command
command("Tgrep", function(called)
  require("tgrep").command(called.args)
end, { nargs = "*", desc = "Searches for a pattern into the quickfix list; without one, opens the window that searches as one types" })
command("TgrepReplace", function(called)
  require("tgrep").replace(called.args)
end, { nargs = "?", desc = "Shows what the last search's matches would be replaced by, to be written with :w" })
command("TgrepCancel", function()
  require("tgrep").cancel()
end, { desc = "Gives up the searches that are under way" })
vim.keymap.set("n", "<Plug>(tgrep)", function()
  require("tgrep").open()
end, { desc = "Opens the window that searches as one types" })
vim.keymap.set("n", "<Plug>(tgrep-word)", function()
  require("tgrep").open({ pattern = vim.fn.expand("<cword>"), literal = true, whole_words = true })
end, { desc = "Searches for the word under the cursor" })
