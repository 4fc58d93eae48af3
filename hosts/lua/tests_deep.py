"""Deep stacks: which frames are shown, and what a sample of them costs."""
import os
import re
import resource
import subprocess

from profiles import profile
from shared import CQLUA, HERE, Debugger, WithFolder, run

# Functions f1 to f40, each of which calls the next one by a function between, and then so many calls of `down`.
TOWER = "\n" + "".join(f"local function f{n}(next) return 1 + next() end\n" for n in range(1, 41)) + """
local function down(n) if n > 1 then return 1 + down(n - 1) end return 1 + leaf() end
local function tower(n)
    local next = function() return 1 + down(n) end
""" + "".join(f"    local g{n} = next next = function() return 1 + f{n}(g{n}) end\n" for n in range(40, 0, -1)) + """
    return 1 + next()
end
"""
NATIVE = ["[C] sleep", "leaf"]


def expected(depth):
    """All frames of the tower of this depth, newest first, as functions' names."""
    frames = NATIVE + ["down"] * depth + ["next"]
    for n in range(40, 0, -1):
        frames += [f"f{n}", "next"]
    return frames + ["tower", "main"]


def shown(frames):
    """What is shown of these: all of 512, and of more the 480 newest and the 31 oldest."""
    return frames if len(frames) <= 512 else frames[:480] + ["(frames left out)"] + frames[-31:]


def names(text):
    return re.findall(r"^#\d+ +(\(frames left out\)|(?:\[C\] )?[\w?]+)", text, re.M)


class Deep(WithFolder):
    def look(self, depth, program=CQLUA, where="tower({})"):
        """The frames of a thread that sleeps so deep."""
        self.stop.unlink(missing_ok=True)
        path = self.script("tower.lua", "local function leaf() repeat sleep(0.01) until io.open(STOP) return 1 end"
                           + TOWER + where.format(depth))
        d = Debugger("-e", f"STOP = '{self.stop}'", path, program=program)
        text = ""
        while "[C] sleep" not in text:
            text = d.say("bt 0")
        self.stop.touch()
        d.end()
        return names(text)

    def test_deep_stacks_are_shown(self):
        """As they are, or cut."""
        least = len(expected(0))
        for count in least + 1, 511, 512, 513, 514, 543, 544, 1000, 20000, 150000:
            with self.subTest(frames=count):
                self.assertEqual(self.look(count - least), shown(expected(count - least)))

    def test_deep_coroutine_over_a_shallow_state(self):
        """A coroutine that is deep, and a main state of four frames: the main chunk is there."""
        frames = self.look(2000, where="""
            local function resume(n) local step = coroutine.wrap(tower) local r = step(n) return r end
            resume({})""")
        self.assertEqual(frames, expected(2000)[:480] + ["(frames left out)", "[C] step", "resume", "main"])

    def test_coroutine_over_a_deep_state(self):
        frames = self.look(600, where="leaf = coroutine.wrap(leaf) tower({})")
        self.assertEqual(frames, shown(["[C] sleep", "leaf", "[C] leaf"] + expected(600)[2:]))

    def test_deep_stacks_by_public_functions(self):
        """Where the links of Lua's calls are not found, the oldest frames are left out."""
        out = str(self.folder / "out")
        subprocess.run(["make", "-s", "-C", str(HERE), f"OUT={out}", "CFLAGS=-O2 -g -DCQLUA_PUBLIC_ONLY"], check=True)
        for count in 512, 513, 2000:
            with self.subTest(frames=count):
                frames = expected(count - len(expected(0)))
                self.assertEqual(self.look(count - len(expected(0)), f"{out}/cqlua"),
                                 frames if count <= 512 else frames[:480] + ["(frames left out)"])

    def processor_time(self, *words):
        """Of a process, with what the agent took, in seconds."""
        before = resource.getrusage(resource.RUSAGE_CHILDREN)
        result = run(*words)
        after = resource.getrusage(resource.RUSAGE_CHILDREN)
        self.assertEqual(result.returncode, 0, result.stderr)
        return after.ru_utime + after.ru_stime - before.ru_utime - before.ru_stime

    def test_deep_stacks_cost_what_is_shown(self):
        """1,000 samples a second, most of them at this depth. When each walked the whole stack, it took a hundred times as
        long."""
        path = self.script("cost.lua", """
            local function down(n)
                if n > 1 then return 1 + down(n - 1) end
                local s = 0 for i = 1, 2e7 do s = (s + i) % 7 end
                return s
            end
            down(150000)
        """)
        without = min(self.processor_time(CQLUA, "run", path) for _ in range(3))
        sampled = min(self.processor_time(CQLUA, "prof", "-o", os.devnull, path) for _ in range(3))
        self.assertLess(sampled, 2 * without)

    def test_deep_stacks_in_a_profile(self):
        """A deep stack has its newest and its oldest frames."""
        leaf = "local function leaf() local s = 0 for i = 1, 2e7 do s = s + i end return s end"
        _, stacks, _ = profile(self.folder, self.script("deep.lua", leaf + TOWER + "tower(20000)"))
        self.assertIn(shown(expected(20000)[1:]), [[re.sub(r" \(.*:.*", "", frame) for frame in reversed(stack)] for stack in stacks])
