-- Sleeps, beside a script that is measured. Its breakpoint is in code that does not run.

local function rest(seconds)
    sleep(seconds)
    if seconds > 1 then
        print("rested for long")
    end
end

for _ = 1, N and 40 or 1 do
    rest(0.05)
end
