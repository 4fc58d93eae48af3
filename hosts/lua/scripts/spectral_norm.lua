-- The spectral norm of an infinite matrix, cut to N rows and columns. For N = 100 it is 1.274219991.

local n = tonumber(arg and arg[1]) or N or 700

-- The matrix's value at row i and column j, counted from 0.
local function A(i, j)
    return 1 / ((i + j) * (i + j + 1) // 2 + i + 1)
end

local function times(from, to)
    for i = 1, n do
        local sum = 0
        for j = 1, n do
            sum = sum + A(i - 1, j - 1) * from[j]
        end
        to[i] = sum
    end
end

local function times_turned(from, to)
    for i = 1, n do
        local sum = 0
        for j = 1, n do
            sum = sum + A(j - 1, i - 1) * from[j]
        end
        to[i] = sum
    end
end

local between = {}

local function times_both(from, to)
    times(from, between)
    times_turned(between, to)
end

local u, v = {}, {}
for i = 1, n do
    u[i] = 1
end
for _ = 1, 10 do
    times_both(u, v)
    times_both(v, u)
end
local uv, vv = 0, 0
for i = 1, n do
    uv, vv = uv + u[i] * v[i], vv + v[i] * v[i]
end
print(string.format("%0.9f", math.sqrt(uv / vv)))
