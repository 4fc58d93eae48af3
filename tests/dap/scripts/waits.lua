-- Sleeps, and works a little.
local function rest()
    sleep(0.01)
end

while true do
    rest()
    local now = 1
end
