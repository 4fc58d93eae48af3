-- Waits three calls deep in a module.
local steps = require("deep.steps")

local function begin()
    steps.down(2)
end

print("waits")
io.stdout:flush()
begin()
