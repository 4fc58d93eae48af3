"""What a debugger is told of the variables of scripts. The values are those of their sources."""
import contextlib
import math
import subprocess
import time

from jdwp import PATIENCE, Error
from shared import CQLUA, SCRIPTS, WithFolder
from tests_attach import attach

ABSENT, THREAD_NOT_SUSPENDED = 101, 13
WAIT = "\nrepeat sleep(0.02) until io.open(STOP)\n"
KINDS = """
local nothing, yes, no = nil, true, false
local small, most, least = 7, math.maxinteger, math.mininteger
local half, whole, huge = 0.5, 2.0, math.huge
local text, bytes, zero, none = "gr\u00fcn", "a\\xffb\\xe2\\x82", "a\\0b", ""
local long = ("\u20ac"):rep(30000)
local list, empty, field = { 10, 20, 30 }, {}, { name = "Ann" }
local floats, flags, nested = { [1.5] = 2.0 }, { [true] = false }, { { 1 } }
local many, hundred = {}, {}
for i = 1, 101 do many[i] = i end
for i = 1, 100 do hundred[i] = i end
local wordy = { ("a"):rep(1000), "\\xff" }
local refuses = { __index = error, __tostring = error, __pairs = error, __len = error, __eq = error, __name = error }
local strange = setmetatable({ 1 }, refuses)
local holds = { strange }
local call, native, routine, file = function() end, print, coroutine.create(print), io.stdout
print(table.concat({ tostring(call), tostring(native), tostring(routine), tostring(nested[1]) }, "\\t"))
io.stdout:flush()
""" + WAIT
# The variables that are visible at a line are those whose scopes have code there.
SCOPES = """
local function blocks(n)
    local kept = n
    do
        local kept = "within"
        local later
        sleep(1e6)
        later = kept
    end
    local after = kept
    return after
end
local other, unused = "an upvalue", 1
local function caller()
    local before = other .. "!"
    local result = blocks(3)
    local behind = result
    return behind, before
end
caller()
"""
FRAMES = """
local function bottom(n, ...)
    if n == 0 then
        coroutine.yield(n)
        repeat sleep(0.02) until io.open(STOP)
        return n
    end
    local sum = n + bottom(n - 1)
    return sum
end
local routine = coroutine.wrap(function(word)
    local depth = #word
    bottom(2)
    return depth
end)
routine("four")
routine()
"""


class Thread:
    """A thread of a script, which is suspended."""

    def __init__(self, wire, thread):
        self.wire, self.thread = wire, thread

    def locals(self, depth):
        """The variables of a frame, but for the table of global ones."""
        found = self.wire.locals(self.thread, depth)
        found.pop("_ENV", None)
        return found

    def error(self, depth):
        """Why nothing is told of a frame, 0 if something is."""
        try:
            self.wire.locals(self.thread, depth)
        except Error as error:
            return error.args[0]
        return 0


def await_stack(wire, thread, newest):
    """Suspends a thread as soon as this is its newest function."""
    end = time.monotonic() + PATIENCE
    while time.monotonic() < end:
        wire.suspend(thread)
        stack = wire.stack(thread) if wire.status(thread)[1] else []
        if stack[:1] == [newest]:
            return
        wire.resume(thread)


class Variables(WithFolder):
    @contextlib.contextmanager
    def suspended(self, text, newest="C.sleep.sleep"):
        """A script, suspended as soon as this is its newest function, and what it has written."""
        self.script("shown.lua", text)
        with self.served("run", "--debug", "127.0.0.1:0", "shown.lua", where=self.folder) as (host, line), attach(line) as wire:
            thread = wire.threads(1)["shown.lua"]
            await_stack(wire, thread, newest)
            try:
                yield Thread(wire, thread), host
            finally:
                host.kill()

    def test_variables_of_each_kind(self):
        """Numbers keep their kinds. No metamethod is called. A long text is cut between characters, also within a table."""
        with self.suspended(KINDS) as (thread, host):
            call, native, routine, within = host.stdout.readline().rstrip("\n").split("\t")
            found = thread.locals(1)
        long, wordy, file = found.pop("long"), found.pop("wordy"), found.pop("file")
        refuses, holds = found.pop("refuses"), found.pop("holds")
        self.assertEqual(found, {
            "nothing": None, "yes": True, "no": False, "small": 7, "most": 2 ** 63 - 1, "least": -2 ** 63, "half": 0.5,
            "whole": 2.0, "huge": math.inf, "text": "gr\u00fcn", "bytes": "a\\xFFb\\xE2\\x82", "zero": "a\0b", "none": "",
            "list": ["1 = 10", "2 = 20", "3 = 30"], "empty": [], "field": ["name = Ann"], "floats": ["1.5 = 2.0"],
            "flags": ["true = false"], "nested": [f"1 = {within}"], "many": [f"{i} = {i}" for i in range(1, 101)] + ["..."],
            "hundred": [f"{i} = {i}" for i in range(1, 101)], "strange": ["1 = 1"], "call": call, "native": native,
            "routine": routine,
        })
        self.assertEqual((type(found["whole"]), type(found["small"])), (float, int))
        self.assertRegex(holds[0], r"\A1 = table: 0x[0-9a-f]+\Z")
        self.assertEqual(sorted(entry.partition(" = ")[0] for entry in refuses),
                         ["__eq", "__index", "__len", "__name", "__pairs", "__tostring"])
        self.assertRegex(file, r"\Auserdata: 0x[0-9a-f]+\Z")
        shown = long.removesuffix("...")
        self.assertNotEqual(shown, long)
        self.assertEqual(set(shown), {"\u20ac"})
        self.assertTrue(65500 < len(long.encode()) <= 65536, len(long))
        self.assertRegex(wordy[0], r"\A1 = a{200,300}\.\.\.\Z")
        self.assertEqual(wordy[1], "2 = \\xFF")

    def test_variables_of_scopes(self):
        """A block's variable hides the function's. One is there from the line behind its own, and an upvalue everywhere. A C function
        has none that are known."""
        with self.suspended(SCOPES) as (thread, _):
            self.assertEqual(thread.locals(1), {"n": 3, "kept": "within", "later": None})
            caller = thread.locals(2)
            function = caller.pop("blocks")
            self.assertTrue(function.startswith("function: 0x"), function)
            self.assertEqual(caller, {"before": "an upvalue!", "other": "an upvalue"})
            main = thread.locals(3)
            self.assertEqual(main.pop("blocks"), function)
            self.assertTrue(main.pop("caller").startswith("function: 0x"))
            self.assertEqual(main, {"other": "an upvalue", "unused": 1})
            self.assertEqual(thread.error(0), ABSENT)

    def test_variables_of_frames(self):
        """Frames of one function have their own, and so have those of a coroutine and of the function that resumed it."""
        with self.suspended(FRAMES) as (thread, _):
            found = [thread.locals(depth) for depth in range(1, 5)]
            upvalue = found[0]["bottom"]
            self.assertEqual(found[:3], [{"n": n, "bottom": upvalue} for n in range(3)])
            self.assertEqual(found[3], {"word": "four", "depth": 4, "bottom": upvalue})
            self.assertEqual(sorted(thread.locals(6)), ["bottom", "routine"])

    def test_variables_of_a_deep_stack(self):
        """The newest and the oldest frames have variables, and the frame for those between has none. The oldest is the chunk's."""
        text = "local function deep(n) if n == 0 then sleep(1e6) end\nreturn 1 + deep(n - 1) end\ndeep(700)\n"
        with self.suspended(text) as (thread, _):
            found = {depth: thread.locals(depth)["n"] for depth in (1, 2, 100, 479, 481, 482, 510)}
            self.assertEqual(found, {1: 0, 2: 1, 100: 99, 479: 478, 481: 671, 482: 672, 510: 700})
            self.assertEqual(thread.error(480), ABSENT)
            self.assertEqual(list(thread.locals(511)), ["deep"])

    def test_variables_of_what_is_no_file(self):
        """The function of a text has none that are known. Its caller has."""
        text = "local made = load('local inner = ...; sleep(1e6) return inner', '=made')\nmade(1)\n"
        with self.suspended(text) as (thread, _):
            self.assertEqual(thread.error(1), ABSENT)
            self.assertEqual(list(thread.locals(2)), ["made"])

    def test_variables_of_a_thread_that_runs(self):
        with self.suspended("local n = 1\n" + WAIT) as (thread, _):
            wire, frame = thread.wire, thread.wire.frames(thread.thread)[1]
            wire.resume(thread.thread)
            with self.assertRaises(Error) as refused:
                wire.values(thread.thread, frame.frame, [0])
            self.assertEqual(refused.exception.args[0], THREAD_NOT_SUSPENDED)

    @contextlib.contextmanager
    def debugged(self, command, *words, **more):
        """A host with standard input that a debugger has attached to, and the debugger."""
        with subprocess.Popen([CQLUA, command, "--debug", "127.0.0.1:0", *words], text=True, stdin=subprocess.PIPE,
                              stderr=subprocess.PIPE, **more) as host:
            try:
                with attach(host.stderr.readline()) as wire:
                    yield host, wire
            finally:
                host.kill()

    def test_variables_of_native_code(self):
        """It may use the state, so nothing is told. Once it waits to return, it is."""
        self.script("reads.lua", "local n = 1\nlocal line = io.read()\nlocal m = 2\nprint(n, line)\n" + WAIT)
        with self.debugged("run", "-e", "STOP = 'none'", "reads.lua", cwd=self.folder, stdout=subprocess.DEVNULL) as (host, wire):
            thread = Thread(wire, wire.threads(1)["reads.lua"])
            await_stack(wire, thread.thread, "C.read.read")
            self.assertEqual(thread.error(1), THREAD_NOT_SUSPENDED)
            host.stdin.write("a line\n")
            host.stdin.flush()
            end = time.monotonic() + PATIENCE
            while thread.error(1) and time.monotonic() < end:
                pass
            self.assertEqual(thread.locals(1), {"n": 1})

    def test_variables_while_another_resumes(self):
        """The terminal's debugger lets a thread go on, and holds it again, while its variables are asked for: they are told, or
        refused."""
        text = "local function step(n)\n    local twice = 2 * n\n    return twice\nend\nlocal n = 0\nwhile true do n = step(n) % 1000 + 1 end\n"
        with self.debugged("debug", self.script("steps.lua", text), cwd=SCRIPTS, stdout=subprocess.DEVNULL) as (host, wire):
            thread, told = wire.threads(1)["steps.lua"], 0
            for _ in range(300):
                wire.suspend(thread)
                host.stdin.write("resume 0\nsuspend 0\n" * 3)
                host.stdin.flush()
                with contextlib.suppress(Error, IndexError):
                    self.assertIs(type(wire.locals(thread, -1)["n"]), int)
                    told += 1
                wire.resume(thread)
            self.assertGreater(told, 0)
            self.assertIsNone(host.poll())
