-- Loads a module that nobody needs when there is a file of the name GO, and ends when there is one of the name LAST.
local function wait(name)
    repeat
        sleep(0.01)
        local file = io.open(name)
    until file
end

print("ends")
io.stdout:flush()
wait(GO)
require("deep.late")
wait(LAST)
