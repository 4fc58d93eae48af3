-- Calls a function all the time.
local function add(sum, n)
    return sum + n
end

local sum = 0
while true do
    sum = add(sum, 1)
end
