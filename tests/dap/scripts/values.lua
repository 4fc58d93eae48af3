-- Has a value of each type, and a deep stack.
local none, yes, no = nil, true, false
local whole, half, huge = 42, 2.5, 1e100
local quoted, digits, nought = 'say "hi"', "12", 0
local list = { 10, 20, 30, name = "x", ["a b"] = false, inner = { 1 } }
local empty, big = {}, {}
for i = 1, 150 do
    big[i] = i
end
KNOWN = "global"

local function deep(n)
    if n == 0 then
        return list
    end
    local found = deep(n - 1)
    return found
end

local function hidden(x)
    local x = x + 1
    local x = x * 2
    return x
end

local made = coroutine.create(deep)
print(hidden(1), deep(60), made)
