-- Adds for ever, and writes a line each time it has added a million.
local function add(sum, n)
    return (sum + n) % 1000003
end

local function spin()
    local sum = 0
    for n = 1, 1000000 do
        sum = add(sum, n)
    end
    return sum
end

while true do
    print("spins", spin())
    io.stdout:flush()
end
