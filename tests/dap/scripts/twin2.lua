while true do
    local round = 1
end
