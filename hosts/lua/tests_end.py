"""The profile is written when a signal or a script ends the process before."""
import pathlib
import re
import signal
import subprocess
import time

from profiles import folded
from shared import CQLUA, LUA, SCRIPTS, WithFolder, cqlua, run

FOREVER = """
    local function work() local s = 0 while true do s = (s + 1) % 7 end end
    print("begun") io.stdout:flush() work()
"""
WORK = "local function work() local s = 0 for i = 1, 1e7 do s = (s + 1) % 7 end return s end print(work())\n"
# Scripts that end the process, by their names, and the status that plain Lua gives too.
EXITS = {
    "exit": ("os.exit(7)", 7),
    "exit of true": ("os.exit(true)", 0),
    "exit of false": ("os.exit(false)", 1),
    "exit that closes": ("setmetatable({}, { __gc = function() print('closed') os.exit(9) end }) os.exit('6', true)", 9),
    "exit in a coroutine": ("coroutine.wrap(function() os.exit(5, true) end)()", 5),
    "exit that is refused": ("print(pcall(os.exit, {})) print(pcall(os.exit, 1.5)) os.exit(4)", 4),
    "exit beside another script": ("os.exit(3)", 3),
}


def end_of(process, seconds=30):
    """What a process writes until it ends. One that does not end in this time is killed, and the test fails."""
    try:
        return process.communicate(timeout=seconds)
    except subprocess.TimeoutExpired:
        process.kill()
        raise


class EndBySignal(WithFolder):
    def setUp(self):
        super().setUp()
        self.profile = self.folder / "profile.txt"
        self.forever = self.script("forever.lua", FOREVER)

    def begin(self, *words, stream="stdout", **more):
        """A process that has written a first line."""
        process = subprocess.Popen([CQLUA, "prof", *words], cwd=SCRIPTS, stdout=subprocess.PIPE, stderr=subprocess.PIPE, text=True, **more)
        self.addCleanup(process.__exit__, None, None, None)
        self.addCleanup(process.kill)
        if stream:
            getattr(process, stream).readline()
        return process

    def start(self, *words):
        """A profiled process, once its script has begun."""
        self.profile.unlink(missing_ok=True)
        return self.begin("-o", str(self.profile), *words)

    def test_end_by_signal(self):
        """The process has ended by the signal, and the profile is written."""
        for number in signal.SIGINT, signal.SIGTERM, signal.SIGHUP:
            with self.subTest(number.name):
                process = self.start(self.forever)
                time.sleep(0.5)
                process.send_signal(number)
                _, text = end_of(process)
                self.assertEqual(process.returncode, -number)
                match = re.search(r"(\d+) ticks in ([\d.]+) s, (\d+) stacks", text)
                self.assertIsNotNone(match, text)
                self.assertGreaterEqual(float(match[2]), 0.4)
                stacks = folded(self.profile)
                self.assertEqual(int(match[3]), int(match[1]))
                self.assertEqual(sum(stacks.values()), int(match[1]))
                self.assertTrue(any("work (" in stack[-1] for stack in stacks), stacks)

    def test_end_by_signal_at_a_slow_rate(self):
        """Ctrl-C does not wait for the next tick."""
        process = self.start("--rate", "0.2", self.forever)
        time.sleep(0.5)
        before = time.time()
        process.send_signal(signal.SIGINT)
        end_of(process)
        self.assertLess(time.time() - before, 3)
        self.assertEqual(sum(folded(self.profile).values()), 1)

    def test_end_by_signal_in_a_c_function(self):
        """The thread does not answer any more. Its ticks are late, and a second signal ends the process at once."""
        wait = self.script("wait.lua", "print('begun') io.stdout:flush() io.popen('sleep 5'):close()")
        process = self.start(wait)
        time.sleep(0.5)
        process.send_signal(signal.SIGINT)
        process.wait(30)
        self.assertEqual(process.returncode, -signal.SIGINT)
        self.assertGreater(folded(self.profile)[("late",)], 250)
        process = self.start(wait)
        process.send_signal(signal.SIGINT)
        time.sleep(0.2)
        process.send_signal(signal.SIGINT)
        before = time.time()
        process.wait(30)
        self.assertEqual(process.returncode, -signal.SIGINT)
        self.assertLess(time.time() - before, 0.7)

    def test_end_by_signal_that_is_ignored(self):
        """As it is of a program that a shell runs in the background: it stays so."""
        process = self.begin("-e", "N = 10", "sleeper.lua", stream=None, preexec_fn=lambda: signal.signal(signal.SIGINT, signal.SIG_IGN))
        time.sleep(0.3)
        process.send_signal(signal.SIGINT)
        out, text = end_of(process)
        self.assertEqual(process.returncode, 0)
        self.assertIn("10 rounds: ", out)
        self.assertIn(" ticks in ", text)

    def test_end_after_the_profile(self):
        """Once the profile is written, Ctrl-C ends the process."""
        process = self.begin("--seconds", "0.2", "-o", str(self.profile), self.forever, stream="stderr")
        time.sleep(0.3)
        process.send_signal(signal.SIGINT)
        end_of(process, 10)
        self.assertEqual(process.returncode, -signal.SIGINT)
        self.assertTrue(folded(self.profile))


class EndByExit(WithFolder):
    def exits(self, path, status, *others):
        """The script ends the process, with this status and what it printed, as under plain Lua. `prof` writes the profile."""
        plain, profile = run(LUA, path), pathlib.Path(path).with_suffix(".txt")
        self.assertEqual(plain.returncode, status)
        for words in ["run"], ["prof", "-o", str(profile)]:
            result = cqlua(*words, path, *others)
            self.assertEqual(result.returncode, status, result)
            self.assertIn(plain.stdout, result.stdout)
        match = re.search(r"(\d+) ticks in [\d.]+ s, (\d+) stacks", result.stderr)
        self.assertIsNotNone(match, result.stderr)
        stacks = folded(profile)
        self.assertEqual(sum(stacks.values()), int(match[2]))
        self.assertTrue(any("work (" in stack[-1] for stack in stacks), stacks)

    def test_end_by_exit(self):
        for name, (text, status) in EXITS.items():
            with self.subTest(name):
                others = [self.script("forever.lua", FOREVER)] if "another" in name else []
                self.exits(self.script(f"{name}.lua", WORK + text), status, *others)

    def test_end_by_exit_of_four(self):
        """Of scripts that all exit, one ends the process, and the profile is written."""
        path = self.script("four.lua", "for i = 1, 1e7 do local s = i end os.exit(8)")
        for _ in range(10):
            result = cqlua("prof", *[path] * 4)
            self.assertEqual(result.returncode, 8)
            self.assertIn(" ticks in ", result.stderr)
            self.assertRegex(result.stdout, r"(?m)^(main|late).* \d+$")
