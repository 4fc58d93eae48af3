-- Calls for ever.
local total = 0

local function add(n, by)
    local more = n * by
    total = total + more
end

local function work(n)
    for i = 1, 3 do
        add(n, i)
    end
    return total
end

local n = 0
while true do
    n = n + 1
    work(n)
    sleep(0.001)
end
