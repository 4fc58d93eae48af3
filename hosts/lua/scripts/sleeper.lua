-- Works and sleeps in turn. Under cqlua `sleep` is there. Under plain Lua the system's own sleep is taken.

local rounds = tonumber(arg and arg[1]) or N or 20

local sleep = sleep or function(seconds)
    os.execute(string.format("sleep %.3f", seconds))
end

local function work(size)
    local sum = 0
    for i = 1, size do
        sum = (sum * 31 + i) % 1000003
    end
    return sum
end

local function rest()
    sleep(0.05)
end

local sum = 0
for _ = 1, rounds do
    sum = (sum + work(1000000)) % 1000003
    rest()
end
print(string.format("%d rounds: %d", rounds, sum))
