"""jdb at scripts. What it has to say is worked out from their sources, which have the lines' numbers."""
import contextlib
import os
import pathlib
import re
import select
import signal
import subprocess
import tempfile
import unittest

import places
from jdb import PATIENCE, attach

WAITS = """\
  [1] C.sleep.sleep (native method)
  [2] deep.steps.rest (steps.lua:5)
  [3] deep.steps.down (steps.lua:10)
  [4] deep.steps.down (steps.lua:12)
  [5] deep.steps.down (steps.lua:12)
  [6] waits.begin (waits.lua:5)
  [7] waits.main (waits.lua:10)
"""
# The lines at which each function of spins.lua may be: at a call or in a loop of its own.
SPINS = r"(  \[\d\] spins\.add \(spins\.lua:3\)\n)?(  \[\d\] spins\.spin \(spins\.lua:([6-9]|1[01])\)\n)?" \
        r"  \[\d\] spins\.main \(spins\.lua:1[3-6]\)\n"
RUNS = "Current thread isn't suspended.\n"


@places.wants_java
class AtTwoScripts(unittest.TestCase):
    """waits.lua is thread 1, and spins.lua thread 2."""

    def setUp(self):
        stack = contextlib.ExitStack()
        self.addCleanup(stack.close)
        self.host = stack.enter_context(places.scripts("waits", "spins"))
        self.jdb = stack.enter_context(attach(self.host.port))
        self.jdb.say_until("threads", r"waits\.lua +sleeping$")

    def test_threads(self):
        self.assertRegex(self.jdb.say("threads"), r"\AGroup main:\n  \(\S+\)(0x)?1 waits\.lua +sleeping\n"
                                                  r"  \(\S+\)(0x)?2 spins\.lua +running\n\Z")

    def test_thread_groups(self):
        self.assertRegex(self.jdb.say("threadgroups"), r"\A1\. \(java\.lang\.ThreadGroup\)(0x)?[0-9a-f]+ main\n\Z")
        self.assertRegex(self.jdb.say("threads main"), r"waits\.lua +sleeping\n.*spins\.lua +running")

    def test_one_thread(self):
        say = self.jdb.say
        self.assertEqual(say("where 1"), RUNS)
        self.assertEqual(say("suspend 1"), "")
        self.assertEqual(say("where 1"), WAITS)
        self.assertEqual(say("where 2"), RUNS)
        self.assertEqual(say("resume 1"), "")
        self.assertEqual(say("where 1"), RUNS)

    def test_all_threads(self):
        say = self.jdb.say
        self.assertEqual(say("suspend"), "All threads suspended.\n")
        text = say("where all")
        self.assertIn("waits.lua:\n" + WAITS, text)
        self.assertRegex(text, r"(?m)^spins\.lua:\n" + SPINS)
        self.assertEqual(say("where all"), text, "they stand")
        self.assertEqual(say("resume"), "All threads resumed.\n")
        self.assertEqual(say("where 1"), RUNS)
        self.assertEqual(say("where 2"), RUNS)

    def test_suspensions_nest(self):
        say = self.jdb.say
        for command in "suspend 1", "suspend 1", "suspend", "resume", "resume 1":
            say(command)
            self.assertEqual(say("where 1"), WAITS, command)
        say("resume 1")
        self.assertEqual(say("where 1"), RUNS)
        self.assertEqual(say("where 2"), RUNS)

    def test_one_of_all_is_resumed(self):
        say = self.jdb.say
        say("suspend")
        say("resume 2")
        self.assertEqual(say("where 2"), RUNS)
        self.assertEqual(say("where 1"), WAITS)

    def test_classes(self):
        say = self.jdb.say
        classes = say("classes").splitlines()
        self.assertEqual(classes[0], "** classes list **")
        self.assertLessEqual({"C.sleep", "deep.steps", "spins", "waits"}, set(classes))
        for name in "deep.steps", "spins", "waits":
            self.assertEqual(classes.count(name), 1)
        self.assertEqual(say("class deep.steps"), "Class: deep.steps\n")
        self.assertEqual(say("methods deep.steps"),
                         "** methods list **\ndeep.steps main()\ndeep.steps rest()\ndeep.steps down()\n")
        self.assertEqual(say("methods spins"), "** methods list **\nspins main()\nspins add()\nspins spin()\n")

    def test_source(self):
        say = self.jdb.say
        self.assertEqual(say("classpath"), f"base directory: {places.SCRIPTS}\nclasspath: [{places.SCRIPTS}]\n")
        say("suspend")
        say("thread 1")
        say("up")
        text = say("list")
        self.assertRegex(text, r"(?m)^5 => +sleep\(1000000\)$")
        self.assertRegex(text, r"(?m)^4 +local function rest\(\)$")
        for _ in range(4):
            say("up")
        self.assertRegex(say("list"), r"(?m)^5 => +steps\.down\(2\)$")

    def test_version(self):
        self.assertIn("cqlua", self.jdb.say("version"))

    def test_next_jdb(self):
        self.jdb.say("suspend")
        self.assertEqual(self.jdb.quit(), 0)
        self.assertTrue(self.host.runs())
        with attach(self.host.port) as jdb:
            self.assertRegex(jdb.say("threads"), r"waits\.lua +sleeping\n.*spins\.lua +running")
            self.assertEqual(jdb.say("where 2"), RUNS)

    def test_second_jdb_is_refused(self):
        second = subprocess.run(["jdb", "-attach", f"127.0.0.1:{self.host.port}"], stdin=subprocess.DEVNULL,
                                capture_output=True, text=True, timeout=PATIENCE)
        self.assertIn("Unable to attach", second.stdout + second.stderr)
        self.jdb.say("suspend 1")
        self.assertEqual(self.jdb.say("where 1"), WAITS)

    def waits_for_output(self, seconds):
        """Whether spins.lua writes something in this time, which is taken."""
        output = self.host.process.stdout.fileno()
        return bool(select.select([output], [], [], seconds)[0] and os.read(output, 1 << 20))

    def test_jdb_is_killed(self):
        self.jdb.say("suspend")
        while self.waits_for_output(0):
            pass
        self.jdb.process.send_signal(signal.SIGKILL)
        self.assertTrue(self.waits_for_output(PATIENCE), "spins.lua runs on")
        with attach(self.host.port) as jdb:
            self.assertEqual(jdb.say("where 2"), RUNS)
            jdb.say("suspend 2")
            self.assertRegex(jdb.say("where 2"), SPINS)


@places.wants_java
class AtScriptsThatGoOn(unittest.TestCase):
    def test_thread_that_ends_and_class_that_comes(self):
        with tempfile.TemporaryDirectory() as folder:
            go, last = (pathlib.Path(folder, name) for name in ("go", "last"))
            with places.scripts("waits", "ends", statement=f"GO, LAST = '{go}', '{last}'") as host, attach(host.port) as jdb:
                self.assertRegex(jdb.say("threads"), r"ends\.lua")
                self.assertNotRegex(jdb.say("classes"), r"(?m)^deep\.late$")
                go.touch()
                jdb.say_until("classes", r"^deep\.late$")
                self.assertEqual(jdb.say("methods deep.late"), "** methods list **\ndeep.late main()\ndeep.late unused()\n")
                last.touch()
                jdb.say_until("threads", r"\A((?!ends\.lua)[\s\S])*\Z")


@places.wants_java
class AtAThousandThreads(unittest.TestCase):
    def test_all_of_them(self):
        with tempfile.TemporaryDirectory() as folder, places.many(folder) as host, attach(host.port) as jdb:
            threads = jdb.say("threads")
            self.assertEqual(sorted(re.findall(r"many-(\d+) ", threads), key=int), [str(number) for number in range(1000)])
            self.assertEqual(jdb.say("suspend"), "All threads suspended.\n")
            stack = "  [1] many.Threads.rest (threads.txt:21)\n  [2] many.Threads.work (threads.txt:11)\n"
            self.assertEqual(jdb.say("where all").count(stack), 1000)
            self.assertEqual(jdb.say("resume"), "All threads resumed.\n")
            host.tell("come")
            jdb.say_until("threads", r" late +running$")
            host.tell("go")
            jdb.say_until("threads", r"\A((?! late )[\s\S])*\Z")
            host.process.stdin.close()
            self.assertEqual(host.process.wait(PATIENCE), 0)

    def test_pop(self):
        with tempfile.TemporaryDirectory() as folder, places.many(folder) as host, attach(host.port) as jdb:
            self.assertEqual(jdb.say("suspend"), "All threads suspended.\n")
            jdb.say("thread 1")
            rest, work = "many.Threads.rest (threads.txt:21)\n", "many.Threads.work (threads.txt:11)\n"
            self.assertEqual(jdb.say("where"), f"  [1] {rest}  [2] {work}")
            self.assertNotIn("Error", jdb.say("pop"))
            self.assertEqual(jdb.say("where"), f"  [1] {work}")
            self.assertIn("Error popping frame", jdb.say("pop"))
            self.assertEqual(jdb.say("where"), f"  [1] {work}")
            self.assertEqual(jdb.say("resume"), "All threads resumed.\n")
            host.process.stdin.close()
            self.assertEqual(host.process.wait(PATIENCE), 0)
