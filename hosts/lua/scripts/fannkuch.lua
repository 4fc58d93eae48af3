-- Takes all orders of the numbers 1 to N. The first number says how many numbers at the front are turned round, again
-- and again until it is 1. Written are a checksum, and the greatest number of turns. For N = 7 they are 228 and 16.

local n = tonumber(arg and arg[1]) or N or 10

local order, copy, left = {}, {}, {}

-- How many turns it takes until 1 is in front.
local function turns()
    local first = order[1]
    if first == 1 then
        return 0
    end
    for i = 2, n do
        copy[i] = order[i]
    end
    local count = 1
    while true do
        local next = copy[first]
        if next == 1 then
            return count
        end
        copy[first] = first
        local low, high = 2, first - 1
        while low < high do
            copy[low], copy[high] = copy[high], copy[low]
            low, high = low + 1, high - 1
        end
        first, count = next, count + 1
    end
end

-- Goes on to the next order, and says whether there was one.
local function advance()
    order[1], order[2] = order[2], order[1]
    local i = 2
    left[i] = left[i] - 1
    while left[i] == 0 do
        if i == n then
            return false
        end
        left[i] = i
        i = i + 1
        local first = order[1]
        for j = 1, i - 1 do
            order[j] = order[j + 1]
        end
        order[i] = first
        left[i] = left[i] - 1
    end
    return true
end

for i = 1, n do
    order[i], left[i] = i, i
end
local checksum, greatest, sign = 0, 0, 1
repeat
    local count = turns()
    checksum = checksum + sign * count
    greatest = math.max(greatest, count)
    sign = -sign
until not advance()
print(string.format("%d\nPfannkuchen(%d) = %d", checksum, n, greatest))
