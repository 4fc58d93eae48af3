-- Makes many binary trees and counts their nodes. It is mostly work for the allocator and the collector.

local greatest = tonumber(arg and arg[1]) or N or 15
local SMALLEST = 4

local function grow(depth)
    if depth == 0 then
        return {}
    end
    return { grow(depth - 1), grow(depth - 1) }
end

local function count(tree)
    local left = tree[1]
    if not left then
        return 1
    end
    return 1 + count(left) + count(tree[2])
end

local function many(trees, depth)
    local sum = 0
    for _ = 1, trees do
        sum = sum + count(grow(depth))
    end
    print(string.format("%d\t trees of depth %d\t check: %d", trees, depth, sum))
end

greatest = math.max(SMALLEST + 2, greatest)
print(string.format("stretch tree of depth %d\t check: %d", greatest + 1, count(grow(greatest + 1))))
local kept = grow(greatest)
for depth = SMALLEST, greatest, 2 do
    many(1 << (greatest - depth + SMALLEST), depth)
end
print(string.format("long lived tree of depth %d\t check: %d", greatest, count(kept)))
