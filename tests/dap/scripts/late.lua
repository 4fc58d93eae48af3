-- Loads a file after its start, and calls a function of it.
sleep(0.05)
local answer = dofile("my-dir/n-body2.lua")
answer(1)
