-- Spends three times as long in `heavy` as in `light`, by the clock.
local function busy(count)
  local sum = 0
  for i = 1, count do sum = (sum + i * 7) % 1000003 end
  return sum
end

local function heavy() return (busy(300000)) end
local function light() return (busy(100000)) end

while true do
  heavy()
  light()
end
