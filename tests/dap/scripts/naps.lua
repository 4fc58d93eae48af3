-- Sleeps for long.
local function nap()
    sleep(1)
end

while true do
    nap()
    local now = 1
end
