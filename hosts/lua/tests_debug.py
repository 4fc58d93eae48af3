"""The table, and the debugger by a pipe."""
import re
import subprocess
import time

from shared import CQLUA, SCRIPTS, SLEEPER, WORKER, Debugger, WithFolder


class Top(WithFolder):
    def test_top(self):
        reader = self.script("reader.lua", "local function wait() return (io.read()) end\nprint('read ' .. wait())\n")
        process = subprocess.Popen([CQLUA, "top", "-e", f"STOP = '{self.stop}'", reader, self.script("sleeps.lua", SLEEPER),
                                    self.script("works.lua", WORKER)], cwd=SCRIPTS, stdin=subprocess.PIPE,
                                   stdout=subprocess.PIPE, text=True)
        rows = [process.stdout.readline() for _ in range(17)]  # three tables, of which the first row is an empty one
        process.stdin.write("a line\n")
        process.stdin.close()
        self.stop.touch()
        text = "".join(rows) + process.stdout.read()
        process.stdout.close()
        self.assertEqual(process.wait(), 0)
        for ended in "read a line", "the sleeper has ended", "the worker has ended":
            self.assertIn(ended, text)
        self.assertEqual([row for row in rows if row.endswith(" s\n")], ["1 s\n", "2 s\n", "3 s\n"], "a table each second")
        for what, row in {"in native code": r" +0  reader.lua +RUNNABLE, in native +3  \[C\] read",
                          "that sleeps": r" +1  sleeps.lua +TIMED_WAITING +2  \[C\] sleep",
                          "that runs": r" +2  works.lua +RUNNABLE +\d  [a-z ]+ .*works.lua:\d+"}.items():
            with self.subTest(f"a thread {what}"):
                self.assertRegex(text, f"(?m)^{row}$")


def moves(debugger, command):
    """Whether what the command shows changes within ten seconds. A thread that `bt all` has held needs a processor to
    run on, and on a busy machine it may get none for as long as a hundred commands take."""
    first, end = debugger.say(command), time.time() + 10
    while time.time() < end:
        if debugger.say(command) != first:
            return True
        time.sleep(0.001)
    return False


class AtThreeScripts(WithFolder):
    """Two scripts that work, and one that sleeps."""

    def setUp(self):
        super().setUp()
        first, second = self.script("first.lua", WORKER), self.script("second.lua", WORKER)
        self.debugger = Debugger("-e", f"STOP = '{self.stop}'", first, second, self.script("sleeps.lua", SLEEPER))
        self.addCleanup(self.end)
        end = time.monotonic() + 60
        while time.monotonic() < end and not re.search(r"(?s)main.*main.*\[C\] sleep.*main", self.say("bt all")):
            time.sleep(0.01)

    def end(self):
        """Stops the scripts. The end of input resumes what was suspended, and they run to their ends."""
        self.stop.touch()
        status, text = self.debugger.end()
        self.assertEqual(text.count("the worker has ended"), 2, text)
        self.assertIn("the sleeper has ended", text)
        self.assertEqual(status, 0)

    def say(self, command):
        return self.debugger.say(command)

    def processor_times(self):
        return [self.debugger.processor_time(f"{number} ") for number in range(3)]

    def test_threads(self):
        threads = self.say("threads")
        self.assertRegex(threads, r"(?m)^0  first.lua  RUNNABLE")
        self.assertRegex(threads, r"(?m)^2  sleeps.lua  (RUNNABLE|TIMED_WAITING)")

    def test_suspend_and_resume(self):
        self.assertEqual(self.say("suspend 0"), "suspend 0: done\n")
        self.assertEqual(self.say("suspend 0"), "suspend 0: it is suspended already\n")
        self.assertIn("first.lua  RUNNABLE, suspended", self.say("threads"))
        self.assertEqual(self.say("resume 0"), "resume 0: done\n")
        self.assertEqual(self.say("resume 0"), "resume 0: it is not suspended\n")

    def test_bt_of_a_suspended_thread(self):
        """It is the same twice. Meanwhile others wake the thread, which takes next to no processor time, and they run."""
        self.say("suspend 0")
        one, before, start = self.say("bt 0"), self.debugger.processor_time("0 "), time.time()
        self.assertTrue(moves(self.debugger, "bt 1"), "bt of a thread that runs moves")
        time.sleep(1)
        two, spent, seconds = self.say("bt 0"), self.debugger.processor_time("0 ") - before, time.time() - start
        self.assertEqual(one, two)
        self.assertRegex(one, r"(?m)^#\d+ +main .*first.lua:\d+$")
        self.assertLess(spent, seconds / 100)

    def test_bt_all(self):
        """It has the stacks of all threads, that of a suspended one as bt has it. Those of others move."""
        self.say("suspend 0")
        one, text = self.say("bt 0"), self.say("bt all")
        self.assertEqual(re.findall(r"^thread (\d)  (\w+).lua  ", text, re.M), [("0", "first"), ("1", "second"), ("2", "sleeps")])
        self.assertEqual(len(re.findall(r"^#\d+ +main ", text, re.M)), 3, text)
        wanted = "thread 0  first.lua  RUNNABLE, suspended\n" + one + "thread 1  second.lua  RUNNABLE\n"
        self.assertEqual(text[:len(wanted)], wanted)
        self.assertTrue(moves(self.debugger, "bt all"), text)

    def test_what_is_no_thread_or_command(self):
        self.assertIn("there is no thread", self.say("bt 9"))
        self.assertIn("there is no thread", self.say("suspend x"))
        self.assertIn("is no command", self.say("frob"))
        self.assertEqual(self.say(""), "")
        self.assertIn("bt N", self.say("help"))

    def test_suspend_all(self):
        """None takes any processor time, also the one that sleeps. Then all go on."""
        self.assertEqual(self.say("suspend all").count("done"), 3)
        self.assertIn("TIMED_WAITING, suspended", self.say("threads"))
        time.sleep(0.2)
        stands = self.processor_times()
        time.sleep(1)
        self.assertEqual(stands, self.processor_times())
        self.assertEqual(self.say("bt all").count(", suspended\n"), 3)
        self.assertEqual(self.say("resume all").count("done"), 3)
        time.sleep(0.2)
        for before, after in zip(stands, self.processor_times()):
            self.assertLess(before, after)

    def test_end_of_input_resumes(self):
        self.assertEqual(self.say("suspend 1"), "suspend 1: done\n")  # see `end`


class DebugEnds(WithFolder):
    def test_with_the_last_script(self):
        d = Debugger("-e", "N = 2", "sleeper.lua")
        text = d.read()
        self.assertEqual(d.process.wait(30), 0)
        self.assertIn("2 rounds", text)
        self.assertIn("all scripts have ended", text)

    def test_a_thread_that_does_not_poll(self):
        """A function of C that does not poll for a while. `bt all` does not wait for ever, the suspension stays out, and the debugger
        resumes it at its end."""
        d = Debugger(self.script("busy.lua", "local s = string.rep('a', 27)\n"
                                 "string.find(s, string.rep('a?', 27) .. string.rep('a', 27))\n"
                                 "for i = 1, 3e6 do s = i end print('got on')\n"))
        time.sleep(0.3)
        text = d.say("bt all")
        self.assertTrue(text.startswith(("bt all: a thread has not polled yet\n", "thread 0  busy.lua  RUNNABLE\n")), text)
        self.assertRegex(d.say("suspend 0"), r"\Asuspend 0: (it has not polled yet|done)\n\Z")
        status, last = d.end()
        self.assertIn("got on", last)
        self.assertEqual(status, 0)

    def test_quit_resumes(self):
        d = Debugger("-e", "N = 3", "sleeper.lua")
        d.say("suspend 0")
        d.process.stdin.write(b"quit\n")
        status, text = d.end()
        self.assertIn("3 rounds", text)
        self.assertEqual(status, 0)
