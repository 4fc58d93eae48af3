"""Programs over JDI (jdi/*.java). Each checks what it sees, and ends with the line "ok"."""
import pathlib
import subprocess
import tempfile
import unittest

import places

PATIENCE = 300  # seconds


@places.wants_java
class Programs(unittest.TestCase):
    @classmethod
    def setUpClass(cls):
        room = tempfile.TemporaryDirectory()
        cls.addClassCleanup(room.cleanup)
        cls.room = room.name
        subprocess.run(["javac", "-Xlint:all", "-Werror", "-d", cls.room, *(places.HERE / "jdi").glob("*.java")], check=True)

    def ends_well(self, host, program):
        words = ["java", "-cp", self.room, program, str(host.port)]
        done = subprocess.run(words, capture_output=True, text=True, timeout=PATIENCE)
        self.assertEqual((done.stdout, done.returncode), ("ok\n", 0), done.stderr)

    def run_at(self, host, program):
        self.ends_well(host, program)
        self.assertTrue(host.runs())

    def events_at(self, host, *steps):
        """Does each step, and expects its event. A step is a function and the event's text."""
        words = ["java", "-cp", self.room, "Events", str(host.port), str(len(steps))]
        with subprocess.Popen(words, stdout=subprocess.PIPE, text=True) as process:
            self.addCleanup(process.kill)
            self.assertEqual(process.stdout.readline(), "ready\n")
            for act, event in steps:
                act()
                self.assertEqual(process.stdout.readline(), event + "\n")
            self.assertEqual(process.stdout.readline(), "ok\n")

    def test_stacks_and_classes(self):
        with places.scripts("waits", "spins") as host:
            self.run_at(host, "Stacks")

    def test_suspensions_nest(self):
        with places.scripts("waits", "spins") as host:
            self.run_at(host, "Nesting")

    def test_variables(self):
        with places.scripts("waits", "spins") as host:
            self.run_at(host, "Variables")

    def test_a_breakpoint_in_a_class_that_comes_later(self):
        with places.scripts("loads", suspended=True) as host:
            self.ends_well(host, "Deferred")
            self.assertEqual((host.process.wait(PATIENCE), host.process.stdout.read()), (0, "loads\tall\n"))

    def test_the_end_of_a_runtime(self):
        with places.scripts("once", suspended=True) as host:
            self.ends_well(host, "Last")

    def test_a_thousand_threads(self):
        with tempfile.TemporaryDirectory() as folder, places.many(folder) as host:
            self.run_at(host, "Many")

    def test_events_of_scripts(self):
        with tempfile.TemporaryDirectory() as folder:
            go, last = (pathlib.Path(folder, name) for name in ("go", "last"))
            with places.scripts("waits", "ends", statement=f"GO, LAST = '{go}', '{last}'") as host:
                self.events_at(host, (go.touch, "prepare deep.late [main, unused]"), (last.touch, "death ends.lua"))

    def test_events_of_a_runtime(self):
        with tempfile.TemporaryDirectory() as folder, places.many(folder) as host:
            self.events_at(host, (lambda: host.tell("come"), "start late"), (lambda: host.tell("go"), "death late"),
                           (lambda: host.tell("define"), "prepare deep.late [unused]"))
