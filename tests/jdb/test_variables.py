"""Variables that jdb shows at scripts. Their values are worked out from the sources, which have the lines' numbers."""
import contextlib
import unittest

import places
from jdb import attach
from test_stops import STOPPED, hit, step, told

FUNCTION = r"function: 0x[0-9a-f]+"
TABLE = r"instance of java\.lang\.String\[{}\] \(id=\d+\)"
RUNS = "Current thread isn't suspended.\n"


def table_of(count):
    return TABLE.format(count)


@places.wants_java
class AtABreakpoint(unittest.TestCase):
    """shows.lua, whose main chunk calls outer, which calls inner."""

    def setUp(self):
        stack = contextlib.ExitStack()
        self.addCleanup(stack.close)
        self.host = stack.enter_context(places.scripts("shows"))
        self.jdb = stack.enter_context(attach(self.host.port))
        self.stops("stop at shows:7", hit("shows.inner", 7, "shows.lua"))

    def stops(self, command, wanted):
        self.jdb.process.stdin.write(command.encode() + b"\n")
        self.jdb.process.stdin.flush()
        self.assertEqual(told(self.jdb.read(STOPPED)), wanted)

    def in_the_loop(self):
        """Goes on to the loop in inner, in its first round."""
        self.jdb.say("stop at shows:11")
        self.stops("cont", hit("shows.inner", 11, "shows.lua"))

    def shows(self, wanted):
        """`locals` shows these variables, each by a pattern, but for the table of global ones."""
        lines = [line for line in self.jdb.say("locals").splitlines() if not line.startswith("_ENV = ")]
        self.assertEqual(lines[:2], ["Method arguments:", "Local variables:"])
        found = dict(line.split(" = ", 1) for line in lines[2:])
        self.assertEqual(set(found), set(wanted))
        for name, pattern in wanted.items():
            self.assertRegex(found[name], rf"\A{pattern}\Z", name)

    def prints(self, expression, wanted):
        self.assertEqual(self.jdb.say(f"print {expression}"), f" {expression} = {wanted}\n")

    def test_parameters_and_upvalues(self):
        self.shows({"n": "7", "text": '"hello!"', "rounds": "0"})

    def test_locals(self):
        self.in_the_loop()
        self.shows({"n": "10", "text": '"hello!"', "half": "3\\.5", "flag": "false", "none": "null", "t": table_of(1),
                    "i": "1", "rounds": "0"})

    def test_variables_change(self):
        self.in_the_loop()
        self.stops("cont", hit("shows.inner", 11, "shows.lua"))
        self.shows({"n": "20", "text": '"hello!"', "half": "3\\.5", "flag": "false", "none": "null", "t": table_of(1),
                    "i": "2", "rounds": "10"})
        self.jdb.say("clear shows:11")
        self.jdb.say("clear shows:7")
        self.stops("step up", step("shows.outer", 19, "shows.lua"))
        self.shows({"word": '"hello"', "before": "5", "result": '"hello!30"', "inner": f'"{FUNCTION}"'})

    def test_print(self):
        self.in_the_loop()
        self.prints("n", "10")
        self.prints("half", "3.5")
        self.prints("flag", "false")
        self.prints("text", '"hello!"')
        self.prints("none", "null")
        self.prints("t[0]", '"x = 1"')
        self.assertIn("Name unknown: nowhere", self.jdb.say("print nowhere"))

    def test_dump(self):
        self.in_the_loop()
        self.assertEqual(self.jdb.say("dump t"), ' t = {\n"x = 1"\n}\n')
        self.jdb.say("up")
        self.jdb.say("up")
        self.assertEqual(self.jdb.say("dump list"), ' list = {\n"1 = 10", "2 = 20", "3 = 30"\n}\n')
        self.assertEqual(self.jdb.say("dump empty"), " empty = {\n\n}\n")
        self.assertRegex(self.jdb.say("dump _ENV"), r'"_VERSION = Lua 5\.4"')

    def test_outer_frames(self):
        self.jdb.say("up")
        self.shows({"word": '"hello"', "before": "5", "inner": f'"{FUNCTION}"'})
        self.prints("before", "5")
        self.jdb.say("up")
        self.shows({"greeting": '"hello"', "rounds": "0", "list": table_of(3), "empty": table_of(0), "inner": f'"{FUNCTION}"',
                    "outer": f'"{FUNCTION}"'})
        self.jdb.say("down")
        self.prints("word", '"hello"')


@places.wants_java
class AtThreads(unittest.TestCase):
    def test_thread_that_sleeps(self):
        """waits.lua sleeps three calls deep in a module."""
        with places.scripts("waits") as host, attach(host.port) as jdb:
            jdb.say_until("threads", r"waits\.lua +sleeping$")
            jdb.say("suspend 1")
            jdb.say("thread 1")
            self.assertRegex(jdb.say("locals"), "not available")
            jdb.say("up")
            for depth in range(3):
                jdb.say("up")
                self.assertEqual(jdb.say("print depth"), f" depth = {depth}\n")
            self.assertRegex(jdb.say("locals"), rf'(?m)^rest = "{FUNCTION}"$')

    def test_thread_that_runs(self):
        with places.scripts("shows", "spins") as host, attach(host.port) as jdb:
            jdb.process.stdin.write(b"stop at shows:7\n")
            jdb.process.stdin.flush()
            self.assertEqual(told(jdb.read(STOPPED)), hit("shows.inner", 7, "shows.lua"))
            jdb.say("thread 2")
            self.assertIn("Local variables:", jdb.say("locals"))
            jdb.say("resume 2")
            self.assertEqual(jdb.say("locals"), RUNS)
