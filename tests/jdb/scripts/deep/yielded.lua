-- By loadfile in a coroutine, and run behind it.
local n = 1
return n
