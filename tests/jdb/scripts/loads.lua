-- Loads a file in each of Lua's ways, and runs it at once.
package.path = "./?.lua"
require("deep.required")
dofile("deep/done.lua")
loadfile("deep/loaded.lua")()
load("-- As of a file.\nlocal n = 1\nreturn n", "@deep/named.lua")()
local wrapped = coroutine.wrap(function() coroutine.yield(loadfile("deep/yielded.lua")) end)
wrapped()()
io.write("loads\tall\n")
