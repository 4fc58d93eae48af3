-- Has variables of each kind in three functions, and calls for ever.
local greeting, rounds = "hello", 0
local list = { 10, 20, 30 }
local empty = {}

local function inner(n, text)
    local half, flag, none = n / 2, n > 100, nil
    local t = { x = 1 }
    for i = 1, 2 do
        local n = i * 10
        rounds = rounds + n
    end
    return text .. rounds
end

local function outer(word)
    local before = #word
    local result = inner(7, word .. "!")
    return result, before
end

print("shows")
io.stdout:flush()
while true do
    rounds = 0
    outer(greeting)
    sleep(0.01)
end
