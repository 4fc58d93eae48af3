-- Steps that lead to a sleep.
local M = {}

local function rest()
    sleep(1000000)
end

function M.down(depth)
    if depth == 0 then
        rest()
    else
        M.down(depth - 1)
    end
    return depth
end

return M
