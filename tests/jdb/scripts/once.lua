-- A script that is over at once.
local total = 0
for i = 1, 3 do
    total = total + i
end
io.write("once\t" .. total .. "\n")
