-- Sleeps in a function with ten tables of a hundred entries.
local function filled(first)
    local numbers = {}
    for n = 1, 100 do
        numbers[n] = first + n
    end
    return numbers
end

local function rest()
    local a, b, c, d, e = filled(1000), filled(2000), filled(3000), filled(4000), filled(5000)
    local f, g, h, i, j = filled(6000), filled(7000), filled(8000), filled(9000), filled(10000)
    sleep(1000000)
    return a, b, c, d, e, f, g, h, i, j
end

print("tables")
io.stdout:flush()
rest()
