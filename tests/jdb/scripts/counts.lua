-- Calls for ever, and writes a line each time.
local function add(sum, n)
    local more = sum + n
    return more
end

local function work(n)
    local sum = 0
    sum = add(sum, n)
    sum = add(sum, 2 * n)
    return sum
end

print("counts")
io.stdout:flush()
local n = 0
while true do
    n = n + 1
    print("counts", work(n))
    io.stdout:flush()
    sleep(0.01)
end
