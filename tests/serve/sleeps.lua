-- Sleeps.
local function nap()
  sleep(1)
  return 0
end

while true do nap() end
