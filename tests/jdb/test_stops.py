"""Breakpoints and steps of jdb at scripts. The lines are those of their sources."""
import contextlib
import os
import re
import select
import signal
import unittest

import places
from jdb import PATIENCE, attach

STOPPED = re.compile(r"((?:Breakpoint hit|Step completed): [^\n]*)\n(?:[^\n]*\n)*\S+\[\d+\] \Z")


def told(text):
    """What is told of a stop: the thread, the function and the line. jdb may have written in between that the breakpoint is set."""
    stop = re.search(r'(Breakpoint hit|Step completed): (?:Set breakpoint \S+\n> )?"thread=([^"]*)", (\S+)\(\), line=(\d+)', text)
    return stop and (stop[1], stop[2], stop[3], int(stop[4]))


def hit(function, line, thread="counts.lua"):
    return ("Breakpoint hit", thread, function, line)


def step(function, line, thread="counts.lua"):
    return ("Step completed", thread, function, line)


@places.wants_java
class AtOneScript(unittest.TestCase):
    """counts.lua calls work, which calls add twice."""

    def setUp(self):
        stack = contextlib.ExitStack()
        self.addCleanup(stack.close)
        self.host = stack.enter_context(places.scripts("counts"))
        self.jdb = stack.enter_context(attach(self.host.port))

    def stops(self, command):
        """Says it, and gives what is told of the next stop."""
        self.jdb.process.stdin.write(command.encode() + b"\n")
        self.jdb.process.stdin.flush()
        return told(self.jdb.read(STOPPED))

    def lines_in(self, seconds):
        """Whether the script writes something in this time, which is taken."""
        output = self.host.process.stdout.fileno()
        return bool(select.select([output], [], [], seconds)[0] and os.read(output, 1 << 20))

    def runs_on(self):
        while self.lines_in(0):
            pass
        return self.lines_in(PATIENCE)

    def test_breakpoint(self):
        self.assertEqual(self.stops("stop at counts:9"), hit("counts.work", 9))
        self.assertEqual(self.jdb.say("where"), "  [1] counts.work (counts.lua:9)\n  [2] counts.main (counts.lua:19)\n")
        self.assertEqual(self.stops("cont"), hit("counts.work", 9))
        self.assertIn("Removed: breakpoint counts:9", self.jdb.say("clear counts:9"))
        self.jdb.say("cont")
        self.assertTrue(self.runs_on())
        self.assertTrue(self.runs_on())

    def test_steps(self):
        self.assertEqual(self.stops("stop at counts:8"), hit("counts.work", 8))
        self.assertEqual(self.stops("next"), step("counts.work", 9))
        self.assertEqual(self.stops("next"), step("counts.work", 10))
        self.assertEqual(self.stops("step"), step("counts.add", 3))
        self.assertEqual(self.stops("step"), step("counts.add", 4))
        self.assertEqual(self.stops("step up"), step("counts.work", 11))
        self.assertEqual(self.stops("step up"), step("counts.main", 20))
        self.assertEqual(self.stops("cont"), hit("counts.work", 8))
        self.assertIn("Removed", self.jdb.say("clear counts:8"))
        self.assertEqual(self.stops("step"), step("counts.work", 9))
        self.jdb.say("cont")
        self.assertTrue(self.runs_on())

    def test_function(self):
        """It is called from two lines in turn. Either call may be the first that stops."""
        callers = set()
        for command in "stop in counts.add", "cont":
            self.assertEqual(self.stops(command), hit("counts.add", 3))
            callers.add(self.jdb.say("where").splitlines()[1])
        self.assertEqual(callers, {f"  [2] counts.work (counts.lua:{line})" for line in (9, 10)})

    def test_wrong_line(self):
        self.assertIn("No code at line 6 in counts", self.jdb.say("stop at counts:6"))
        self.assertTrue(self.runs_on())

    def test_breakpoint_and_step_at_one_line(self):
        self.assertEqual(self.stops("stop at counts:9"), hit("counts.work", 9))
        self.jdb.say("stop at counts:10")
        self.assertEqual(self.stops("next")[1:], hit("counts.work", 10)[1:])
        self.assertEqual(self.stops("next"), step("counts.work", 11))

    def test_jdb_is_killed_at_a_breakpoint(self):
        self.assertEqual(self.stops("stop at counts:9"), hit("counts.work", 9))
        self.jdb.process.send_signal(signal.SIGKILL)
        self.assertTrue(self.runs_on())
        self.assertTrue(self.runs_on())
        with attach(self.host.port) as jdb:
            self.assertEqual(jdb.say("where 1"), "Current thread isn't suspended.\n")

    def test_jdb_quits_at_a_breakpoint(self):
        self.assertEqual(self.stops("stop at counts:9"), hit("counts.work", 9))
        self.assertEqual(self.jdb.quit(), 0)
        self.assertTrue(self.runs_on())


@places.wants_java
class AtTwoScripts(unittest.TestCase):
    def test_all_stand(self):
        with places.scripts("spins", "counts") as host, attach(host.port) as jdb:
            jdb.process.stdin.write(b"stop at spins:3\n")
            jdb.process.stdin.flush()
            self.assertEqual(told(jdb.read(STOPPED)), hit("spins.add", 3, "spins.lua"))
            text = jdb.say("where all")
            self.assertEqual(jdb.say("where all"), text, "they stand")
            self.assertRegex(text, r"(?m)^counts\.lua:\n  \[1\]")
            jdb.process.stdin.write(b"next\n")
            jdb.process.stdin.flush()
            self.assertEqual(told(jdb.read(STOPPED))[2:], ("spins.spin", 8))
