-- A module that comes late.
local M = {}

function M.unused()
end

return M
