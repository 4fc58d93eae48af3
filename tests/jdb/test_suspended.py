"""Scripts that begin when jdb has resumed them."""
import re
import unittest

import places
from jdb import PATIENCE, attach
from test_stops import STOPPED, hit, step, told

BEGAN = re.compile(r"VM Started: .*\n(?:[^\n]*\n)*\S+\[\d+\] \Z")


def attached(host):
    """A jdb that was told that the scripts begin."""
    jdb = attach(host.port)
    if not BEGAN.search(jdb.greeting):
        jdb.read(BEGAN)
    return jdb


@places.wants_java
class FirstDebugger(unittest.TestCase):
    def ends(self, host, written):
        """The scripts run to their ends, and have written this."""
        self.assertEqual(host.process.wait(PATIENCE), 0)
        self.assertEqual(sorted(host.process.stdout.read().splitlines()), written)

    def test_stops_at_the_first_line(self):
        with places.scripts("once", suspended=True) as host, attached(host) as jdb:
            self.assertIn("Set breakpoint once:2", jdb.say("stop at once:2"))
            jdb.process.stdin.write(b"cont\n")
            jdb.process.stdin.flush()
            self.assertEqual(told(jdb.read(STOPPED)), hit("once.main", 2, "once.lua"))
            jdb.process.stdin.write(b"next\n")
            jdb.process.stdin.flush()
            self.assertEqual(told(jdb.read(STOPPED)), step("once.main", 3, "once.lua"))
            jdb.say("clear once:2")
            jdb.process.stdin.write(b"cont\n")
            jdb.process.stdin.flush()
            self.ends(host, ["once\t6"])

    def go_on(self, jdb):
        jdb.process.stdin.write(b"cont\n")
        jdb.process.stdin.flush()

    def test_is_told_that_the_scripts_end(self):
        with places.scripts("once", suspended=True) as host, attached(host) as jdb:
            self.go_on(jdb)
            self.assertIn("The application exited", jdb.read(None))
            self.ends(host, ["once\t6"])

    def test_stops_in_files_that_are_loaded_later(self):
        files = ("required", "done", "loaded", "named", "yielded")
        with places.scripts("loads", suspended=True) as host, attached(host) as jdb:
            for file in files:
                self.assertIn(f"Deferring breakpoint deep.{file}:2", jdb.say(f"stop at deep.{file}:2"))
            for file in files:
                self.go_on(jdb)
                self.assertEqual(told(jdb.read(STOPPED)), hit(f"deep.{file}.main", 2, "loads.lua"))
                self.assertIn(f"Removed: breakpoint deep.{file}:2", jdb.say(f"clear deep.{file}:2"))
            self.go_on(jdb)
            self.ends(host, ["loads\tall"])

    def test_each_script_stops_in_a_file_that_both_load(self):
        with places.scripts("loads", "./loads", suspended=True) as host, attached(host) as jdb:
            jdb.say("stop at deep.required:2")
            for _ in range(2):
                self.go_on(jdb)
                self.assertEqual(told(jdb.read(STOPPED)), hit("deep.required.main", 2, "loads.lua"))
            jdb.say("clear deep.required:2")
            self.go_on(jdb)
            self.ends(host, ["loads\tall", "loads\tall"])

    def test_all_scripts_wait(self):
        with places.scripts("once", "./once", suspended=True) as host, attached(host) as jdb:
            self.assertEqual(len(re.findall(r"once\.lua", jdb.say_until("threads", r"once\.lua"))), 2)
            jdb.process.stdin.write(b"resume\n")
            jdb.process.stdin.flush()
            self.ends(host, ["once\t6", "once\t6"])

    def test_a_debugger_that_goes_lets_them_begin(self):
        with places.scripts("once", suspended=True) as host:
            with attached(host) as jdb:
                jdb.quit()
            self.ends(host, ["once\t6"])

    def test_a_door_that_does_not_open_ends_all(self):
        with places.scripts("spins", suspended=True) as host:
            words = [places.cqlua, "run", "--debug", f"127.0.0.1:{host.port}", "--suspend", "once.lua"]
            done = places.subprocess.run(words, cwd=places.SCRIPTS, capture_output=True, text=True, timeout=PATIENCE)
            self.assertEqual((done.returncode, done.stdout), (1, ""))
            self.assertIn("no debugger can attach", done.stderr)
