-- A sampler in plain Lua, to compare with: lua5.4 traceback_counts.lua SCRIPT RATE [FILE]
--
-- It runs a script, and looks at the clock once in 1,009 instructions, as often as cqlua polls. When a sample is due,
-- the function that runs is counted. To FILE, or to standard error, it writes a line for each: how often, and
-- "file:line" where it is defined.

local path, rate, file = arg[1], tonumber(arg[2]), arg[3]

arg = { [0] = path }
local counts = {}
local chunk = assert(loadfile(path))
local clock, getinfo = os.clock, debug.getinfo
local next_time = clock()

-- A sample that is due several times over counts as often, as it does with cqlua.
local function look()
    local time = clock()
    if time < next_time then
        return
    end
    local times = math.floor((time - next_time) * rate) + 1
    local info = getinfo(2, "S")
    local where = info.short_src .. ":" .. info.linedefined
    counts[where] = (counts[where] or 0) + times
    next_time = next_time + times / rate
end

debug.sethook(look, "", 1009)
chunk()
debug.sethook()

local out = file and assert(io.open(file, "w")) or io.stderr
for where, count in pairs(counts) do
    out:write(string.format("%d %s\n", count, where))
end
