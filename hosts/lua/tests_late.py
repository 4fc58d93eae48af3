"""Where the profiler counts time in which a script does not poll: C functions, the collector, finalizers.

How long each of them takes is known from outside: it waits for a process that sleeps, or Lua's clock says it.
"""
import re

from profiles import profile
from shared import LUA, WithFolder, run

WAIT = "local function wait(seconds) io.popen('sleep ' .. seconds):close() end\n"
SPIN = "local function spin(n) local s = 0 for i = 1, n do s = (s * 3 + i) % 11 end return s end\n"


def shares(stacks):
    """The share of each newest function, by its name."""
    total, found = sum(stacks.values()), {}
    for stack, count in stacks.items():
        name = re.sub(r" \(.*", "", stack[-1])
        found[name] = found.get(name, 0) + count / total
    return found


class Late(WithFolder):
    def has_at_least(self, name, share, stacks):
        """A function has this share of the samples. A process that sleeps takes no less than its time, and more on a busy machine."""
        self.assertGreaterEqual(shares(stacks).get(name, 0), share - 0.05, stacks)

    def test_late_c_functions(self):
        """A pattern that takes long to match. Functions of Lua run before and after. The caller is below it."""
        path = self.script("match.lua", SPIN + """
            local text, pattern = string.rep("a", 20), string.rep("a?", 20) .. string.rep("a", 20)
            local function before() return spin(60000) end
            local function match() return (string.find(text, pattern)) end
            local start, spent = os.clock(), 0
            for i = 1, 8 do
                before() local from = os.clock() match() spent = spent + os.clock() - from spin(60000)
            end
            io.stderr:write("spent ", spent / (os.clock() - start), "\\n")
        """)
        result, stacks, _ = profile(self.folder, path)
        self.assertAlmostEqual(shares(stacks).get("[C] find", 0), float(re.search(r"spent (\S+)", result.stderr)[1]), delta=0.1, msg=stacks)
        below = {s[-2] for s in stacks if s[-1] == "[C] find"}
        self.assertEqual(len(below), 1, stacks)
        self.assertTrue(below.pop().startswith("match ("), stacks)

    def test_late_c_functions_that_wait(self):
        path = self.script("wait.lua", WAIT + SPIN + "for i = 1, 8 do wait(0.1) spin(60000) end")
        _, stacks, (_, seconds, *_) = profile(self.folder, path)
        self.has_at_least("[C] close", 0.8 / seconds, stacks)

    def test_late_c_functions_in_coroutines(self):
        """The stack is that of the coroutine, over the resumer's."""
        path = self.script("co.lua", WAIT + SPIN + """
            local function inner() while true do wait(0.1) coroutine.yield() spin(60000) end end
            local step = coroutine.wrap(inner)
            for i = 1, 8 do step() spin(60000) end
        """)
        _, stacks, (_, seconds, *_) = profile(self.folder, path)
        self.has_at_least("[C] close", 0.8 / seconds, stacks)
        names = {tuple(re.sub(r" \(.*", "", f) for f in s) for s in stacks if s[-1] == "[C] close"}
        self.assertEqual(names, {("main", "[C] step", "inner", "wait", "[C] close")})

    def test_late_finalizers(self):
        """Hooks are off in a finalizer. Its time is late where it ran, and not that of the function after it."""
        path = self.script("final.lua", WAIT + SPIN + """
            local finalized = 0
            local function finalize() finalized = finalized + 1 wait(0.1) end
            local function allocate()
                local before = finalized
                setmetatable({}, { __gc = finalize })
                while finalized == before do local t = { {}, {} } end
            end
            local function innocent() return spin(60000) end
            for i = 1, 8 do allocate() innocent() end
            io.stderr:write("finalized ", finalized, "\\n")
        """)
        result, stacks, (_, seconds, *_) = profile(self.folder, path)
        self.assertIn("finalized 8\n", result.stderr)
        self.has_at_least("late", 0.8 / seconds, stacks)
        self.assertLess(shares(stacks).get("innocent", 0), 0.3, stacks)
        below = {s[-2] for s in stacks if s[-1] == "late" and s != ("late",)}
        self.assertEqual(len(below), 1, stacks)
        self.assertTrue(below.pop().startswith("allocate ("), stacks)

    def test_late_collections(self):
        path = self.script("collect.lua", WAIT + SPIN + """
            local function finalize() wait(0.1) end
            local function innocent() return spin(60000) end
            for i = 1, 5 do setmetatable({}, { __gc = finalize }) collectgarbage() innocent() end
        """)
        _, stacks, (_, seconds, *_) = profile(self.folder, path)
        self.has_at_least("[C] collectgarbage", 0.5 / seconds, stacks)

    def test_late_at_the_end(self):
        """The last finalizers run as the state is closed, after the last poll."""
        path = self.script("close.lua", WAIT + SPIN + """
            setmetatable({}, { __gc = function() wait(0.6) end })
            for i = 1, 8 do spin(60000) end
        """)
        _, stacks, (ticks, seconds, count, *_) = profile(self.folder, path)
        self.assertTrue(ticks - 2 <= count <= ticks, f"{ticks} {count}")
        self.has_at_least("late", 0.6 / seconds, stacks)

    def test_late_counts(self):
        """Threads that outlast the samples, one of them in a C function: as many stacks as ticks times threads."""
        long = self.script("long.lua", WAIT + "wait(2.5)")
        work = self.script("work.lua", SPIN + "for i = 1, 12 do spin(3e6) end")
        _, stacks, (ticks, _, count, *_) = profile(self.folder, "--seconds", "0.5", "-e", "N = 40", long, work, "sleeper.lua")
        self.assertEqual((count, sum(stacks.values())), (3 * ticks, 3 * ticks))
        self.assertAlmostEqual(stacks[("late",)], ticks, delta=ticks / 10, msg=stacks)

    def test_nudged_scripts_run_alike(self):
        """10,000 nudges a second, at coroutines that end and throw, finalizers, errors and deep stacks: the script writes
        what it does under plain Lua."""
        path = self.script("alike.lua", """
            local made, log = 0, {}
            local function throw(n) if n == 0 then error("thrown") end return 1 + throw(n - 1) end
            local function gen(n) for i = 1, n do coroutine.yield(i) end error("ended " .. n, 0) end
            for round = 1, 300 do
                local step, sum = coroutine.wrap(gen), 0
                for i = 1, 20 do sum = sum + step(i == 1 and 20 or nil) end
                local ok, message = pcall(step) log[#log + 1] = sum .. tostring(ok) .. message
                ok, message = pcall(step) log[#log + 1] = message:gsub(".*:", "")
                ok, message = pcall(throw, round) log[#log + 1] = message:gsub(".*:", "")
                setmetatable({}, { __gc = function() made = made + 1 end })
                table.sort({ 5, 3, 9, 1, round % 7 }, function(a, b) return a < b end)
                log[#log + 1] = ("abc"):rep(50):gsub("%w", function(c) return c:upper() end):sub(1, 9)
                if round % 20 == 0 then collectgarbage() end
            end
            collectgarbage() print(made, table.concat(log, " "))
        """)
        plain = run(LUA, path)
        result, stacks, _ = profile(self.folder, "--rate", "10000", path)
        self.assertEqual(plain.stdout, result.stdout)
        self.assertNotEqual(plain.stdout, "")
        self.assertEqual(result.returncode, 0, result.stderr)
        self.assertGreater(sum(stacks.values()), 0)
