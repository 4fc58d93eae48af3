-- A file whose path has signs that Java names do not have.
local function answer(n)
    local found = 41 + n
    return found
end

return answer
