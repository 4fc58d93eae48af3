#!/usr/bin/env python3
"""Tests of the host for CPython, which `make` has built: test.py [NAME..]

All tests run, or those whose name has one of the words. It writes TAP."""

import contextlib
import gzip
import http.client
import json
import os
import pathlib
import re
import shutil
import signal
import socket
import subprocess
import sys
import tempfile
import threading
import time
import unittest

sys.dont_write_bytecode = True

HERE = pathlib.Path(__file__).resolve().parent
TOP = HERE.parent.parent
SCRIPTS = HERE / "scripts"
OUT = HERE / os.environ.get("OUT", "out")
sys.path[:0] = [str(TOP / "ci"), str(TOP / "tests/jdb")]

import jdb
import tap

PATIENCE = 120  # seconds
HOST = (sys.executable, "-m", "cebdyraq", "run")
ENVIRONMENT = dict(os.environ, PYTHONPATH=str(OUT), PYTHONDONTWRITEBYTECODE="1")


def run(*words, **more):
    return subprocess.run([str(word) for word in words], capture_output=True, text=True, timeout=PATIENCE, env=ENVIRONMENT, **more)


def line_of(pipe):
    """The next line of a pipe, and no byte more: `communicate` knows nothing of what a file has read ahead."""
    line = b""
    while not line.endswith(b"\n") and (byte := os.read(pipe.fileno(), 1)):
        line += byte
    return line.decode()


class Host:
    """A script that runs, whose doors are open."""

    def __init__(self, *words, stdout=subprocess.PIPE, **more):
        self.process = subprocess.Popen([*HOST, *map(str, words)], env=ENVIRONMENT, stdout=stdout, stderr=subprocess.PIPE, text=True, **more)
        lines = [line_of(self.process.stderr) for word in words if word in ("--serve", "--debug")]
        self.ports = [int(re.search(r":(\d+)/?\n\Z", line)[1]) for line in lines]

    def get(self, target):
        connection = http.client.HTTPConnection("127.0.0.1", self.ports[0], timeout=PATIENCE)
        connection.request("GET", target)
        answer = connection.getresponse()
        with contextlib.closing(connection):
            return answer.status, answer.read()

    def threads(self):
        return {thread["name"]: thread for thread in json.loads(self.get("/threads.json")[1])["threads"]}

    def end(self):
        out, err = self.process.communicate(timeout=PATIENCE)
        return self.process.returncode, out, err


class WithFolder(unittest.TestCase):
    def setUp(self):
        folder = tempfile.TemporaryDirectory()
        self.addCleanup(folder.cleanup)
        self.folder = pathlib.Path(folder.name)

    @contextlib.contextmanager
    def places(self, *words):
        """scripts/places.py, which ends behind this."""
        host = Host(*words, SCRIPTS / "places.py", self.folder)
        try:
            yield host
        finally:
            (self.folder / "STOP").touch()
            self.ended = host.end()


class AsPlain(WithFolder):
    """A program does under the host what it does without."""

    def differs_not(self, script, wanted, *clients):
        plain = run(sys.executable, script)
        self.assertEqual(plain.returncode, wanted)
        host = Host("--serve", "127.0.0.1:0", "--debug", "127.0.0.1:0", script)
        stop = threading.Event()
        tools = [threading.Thread(target=self.ask, args=(host, target, stop)) for target in clients]
        for tool in tools:
            tool.start()
        status, out, err = host.end()
        stop.set()
        for tool in tools:
            tool.join()
        self.assertEqual((status, out, err), (plain.returncode, plain.stdout, plain.stderr))

    @staticmethod
    def ask(host, target, stop):
        while not stop.is_set():
            with contextlib.suppress(OSError, http.client.HTTPException):
                host.get(target)

    def test_forks_and_signals(self):
        self.differs_not(SCRIPTS / "edges.py", 3)

    def test_forks_and_signals_while_it_is_watched(self):
        self.differs_not(SCRIPTS / "edges.py", 3, "/threads", "/debug/pprof/profile?seconds=1&rate=100", "/metrics")

    def test_an_exception(self):
        script = self.folder / "raises.py"
        script.write_text("def f():\n    raise ValueError('no')\nf()\n")
        status, out, err = Host("--serve", "127.0.0.1:0", script).end()
        self.assertEqual((status, out), (1, ""))
        self.assertRegex(err, r"Traceback[^\0]+raises\.py\", line 2, in f\n[^\0]+ValueError: no\n\Z")

    def test_ctrl_c(self):
        with self.places("--serve", "127.0.0.1:0") as host:
            self.assertEqual(host.get("/threads")[0], 200)
            host.process.send_signal(signal.SIGINT)
            self.assertTrue(line_of(host.process.stderr).startswith("Traceback"))
        status, out, err = self.ended
        self.assertEqual((status, out), (-signal.SIGINT, ""))
        self.assertTrue(err.rstrip().endswith("KeyboardInterrupt"), err)

    def test_a_fork_at_the_end_keeps_its_files(self):
        """The doors are closed by then, and a file of the program may have the number that one of them had."""
        script = self.folder / "late.py"
        script.write_text("import atexit, os\n"
                          "def late():\n"
                          "    import socket\n"
                          "    sockets = [socket.create_server(('127.0.0.1', 0)) for _ in range(9)]\n"
                          "    child = os.fork()\n"
                          "    if child == 0:\n"
                          "        os._exit(sum(one.getsockname()[1] > 0 for one in sockets))\n"
                          "    print(os.waitstatus_to_exitcode(os.waitpid(child, 0)[1]), flush=True)\n"
                          "import cebdyraq.host as host\n"
                          "atexit.register(late)\n"
                          "host.start(serve='127.0.0.1:0', debug='127.0.0.1:0')\n")
        done = run(sys.executable, script)
        self.assertEqual((done.stdout, done.stderr, done.returncode), ("9\n", "", 0))

    def test_arguments_and_modules(self):
        (self.folder / "shown.py").write_text("import sys\nprint(__name__, sys.argv[1:])\n")
        for words in ((self.folder / "shown.py",), ("-m", "shown")):
            done = run(*HOST, *words, "a", "--serve", "b", cwd=self.folder)
            self.assertEqual((done.stdout, done.stderr, done.returncode), ("__main__ ['a', '--serve', 'b']\n", "", 0))

    def test_the_port_is_free_behind_a_child(self):
        """A child of a fork lives on, and keeps nothing that the doors listen at."""
        script = self.folder / "forks.py"
        script.write_text("import os, time\nif os.fork() == 0:\n    os.close(1)\n    os.close(2)\n    time.sleep(3)\n")
        host = Host("--serve", "127.0.0.1:0", "--debug", "127.0.0.1:0", script)
        self.assertEqual(host.end()[0], 0)
        for port in host.ports:
            with socket.socket() as again:
                again.setsockopt(socket.SOL_SOCKET, socket.SO_REUSEADDR, 1)
                again.bind(("127.0.0.1", port))
                again.listen()


# The newest functions of threads of scripts/places.py that wait.
PLACES = {"MainThread": ["sleep", "main"], "napper": ["sleep", "nap"], "locked": ["lock", "wait_for_lock"], "loop": ["sleep", "generate"]}


class Served(WithFolder):
    def threads_at_places(self, host):
        """What is told of the threads once each has come to its place, or what was told last."""
        end = time.monotonic() + PATIENCE
        while True:
            threads = host.threads()
            newest = {name: [frame["method"] for frame in thread["frames"][:2]] for name, thread in threads.items()}
            if PLACES.items() <= newest.items() and "spin" in newest.get("spinner", ()) or time.monotonic() > end:
                return threads
            time.sleep(0.05)

    def test_threads(self):
        with self.places("--serve", "127.0.0.1:0") as host:
            threads = self.threads_at_places(host)
            frames = {name: [(frame["method"], frame["file"]) for frame in thread["frames"]] for name, thread in threads.items()}
        self.assertEqual(self.ended[:2], (0, "ended\n"))
        self.assertEqual(set(frames), {"MainThread", "spinner", "napper", "locked", "loop"})
        bottom = [("Thread.run", "threading.py"), ("Thread._bootstrap_inner", "threading.py"), ("Thread._bootstrap", "threading.py")]
        self.assertEqual(frames["MainThread"][-2:], [("main", "places.py"), ("<module>", "places.py")])
        self.assertEqual(frames["napper"], [("sleep", None), ("nap", "places.py"), *bottom])
        self.assertEqual(frames["locked"], [("lock", None), ("wait_for_lock", "places.py"), *bottom])
        self.assertIn(("spin", "places.py"), frames["spinner"])
        self.assertEqual(frames["loop"][:3], [("sleep", None), ("generate", "places.py"), ("pause", "places.py")])
        self.assertIn(("run_loop", "places.py"), frames["loop"])
        text = (SCRIPTS / "places.py").read_text().splitlines()
        lines = {frame["method"]: frame["line"] for thread in threads.values() for frame in thread["frames"] if frame["file"] == "places.py"}
        for method, shown in {"nap": "time.sleep", "wait_for_lock": "with lock", "generate": "time.sleep", "run_loop": "asyncio.run"}.items():
            self.assertIn(shown, text[lines[method] - 1])

    def wakes_of_the_watcher(self, host):
        """How often it has slept until now."""
        tasks = pathlib.Path(f"/proc/{host.process.pid}/task").iterdir()
        [status] = [text for text in ((task / "status").read_text() for task in tasks) if text.startswith("Name:\tcq-watcher\n")]
        return int(re.search(r"^voluntary_ctxt_switches:\t(\d+)$", status, re.M)[1])

    def test_the_watcher_sleeps_while_nobody_asks(self):
        with self.places("--serve", "127.0.0.1:0") as host:
            self.threads_at_places(host)
            time.sleep(0.2)
            before = self.wakes_of_the_watcher(host)
            time.sleep(1)
            self.assertEqual(self.wakes_of_the_watcher(host), before)
            self.threads_at_places(host)
            self.assertGreater(self.wakes_of_the_watcher(host), before)

    def test_profile(self):
        with self.places("--serve", "127.0.0.1:0") as host:
            status, profile = host.get("/debug/pprof/profile?seconds=2&rate=100")
            self.assertEqual(status, 200)
            text = gzip.decompress(profile) if profile[:2] == b"\x1f\x8b" else profile
            for word in b"spin", b"nap", b"wait_for_lock", b"places.py", b"spinner":
                self.assertIn(word, text)
            self.assertRegex(host.get("/metrics")[1].decode(), r'(?m)^cebdyraq_threads\{state="\w+"\} \d+$')


@unittest.skipUnless(shutil.which("jdb"), "there is no jdb")
class Debugged(WithFolder):
    @contextlib.contextmanager
    def at_sums(self):
        """jdb at scripts/sums.py, which waits for it."""
        host = Host("--debug", "127.0.0.1:0", "--suspend", SCRIPTS / "sums.py")
        with jdb.attach(host.ports[0]) as debugger:
            yield debugger
        self.ended = host.end()

    def line_with(self, text):
        return 1 + next(i for i, line in enumerate((SCRIPTS / "sums.py").read_text().splitlines()) if text in line)

    def stopped_at(self, debugger, command, line):
        """Says a command, and reads until jdb has stopped at this line."""
        debugger.process.stdin.write(f"{command}\n".encode())
        debugger.process.stdin.flush()
        return debugger.read(re.compile(rf"line={line} [^\0]*MainThread\[1\] \Z"))

    def goes_on(self, debugger):
        debugger.process.stdin.write(b"cont\n")
        debugger.process.stdin.flush()
        debugger.read(None)

    def test_a_breakpoint(self):
        line = self.line_with("return result + point.x")
        with self.at_sums() as debugger:
            debugger.say(f"stop at sums:{line}")
            self.assertIn("sums.total(), line=", self.stopped_at(debugger, "resume", line))
            names = [re.search(r"\[\d+\] (\S+)", row)[1] for row in debugger.say("where").splitlines()]
            self.assertEqual(names[:3], ["sums.total", "sums.main", "sums.<module>"])
            said = debugger.say("locals")
            for row in ("result = 6", "number = 3"):
                self.assertIn(row, said)
            self.assertEqual(re.findall(r"[123]", debugger.say("dump numbers").split("=", 1)[1]), ["1", "2", "3"])
            said = debugger.say("dump point")
            self.assertIn("x = 4", said)
            self.assertIn("y = 5", said)
            self.goes_on(debugger)
        self.assertEqual(self.ended[:2], (4, "the total is 10\n"))

    def test_steps(self):
        """Into a call, whose first line is that of its `def`, over lines, and out of it."""
        call, first = self.line_with("found = total"), self.line_with("def total")
        with self.at_sums() as debugger:
            debugger.say(f"stop at sums:{call}")
            self.stopped_at(debugger, "resume", call)
            self.assertIn("sums.total(), ", self.stopped_at(debugger, "step", first))
            self.assertIn("sums.total(), ", self.stopped_at(debugger, "next", first + 1))
            self.assertIn("sums.main(), ", self.stopped_at(debugger, "step up", call))
            self.stopped_at(debugger, "next", call + 1)
            self.stopped_at(debugger, "next", call + 2)
            self.goes_on(debugger)
        self.assertEqual(self.ended[:2], (4, "the total is 10\n"))


class Refusals(WithFolder):
    def test_addresses(self):
        taken = socket.create_server(("127.0.0.1", 0))
        self.addCleanup(taken.close)
        port = taken.getsockname()[1]
        for address, why in ((f"127.0.0.1:{port}", "Address already in use"), ("1.2.3.4:1", "CQ_ILLEGAL_ARGUMENT"), ("x", "CQ_ILLEGAL_ARGUMENT")):
            for option in "--serve", "--debug":
                done = run(*HOST, option, address, SCRIPTS / "sums.py")
                self.assertEqual((done.returncode, done.stdout), (1, ""))
                self.assertRegex(done.stderr, rf"\Acebdyraq: [^\n]*{why}[^\n]*\n\Z")

    def test_usage(self):
        for words, why in ((("run",), "a script or a module is wanted"), (("run", "--suspend", "x.py"), "--suspend wants --debug"), ((), "command")):
            done = run(*HOST[:-1], *words)
            self.assertEqual((done.returncode, done.stdout), (2, ""))
            self.assertIn(why, done.stderr)

    def test_started_twice(self):
        done = run(sys.executable, "-c", "from cebdyraq import host\nhost.start()\nhost.start()")
        self.assertEqual(done.returncode, 1)
        self.assertTrue(done.stderr.endswith("RuntimeError: it was started before: CQ_MISUSED\n"), done.stderr)

    def test_another_interpreter(self):
        done = run(sys.executable, "-c", "import sys\nsys.version_info = (3, 12, 0)\nimport cebdyraq.host")
        self.assertTrue(done.stderr.endswith("ImportError: cebdyraq.host runs in CPython 3.11 alone\n"), done.stderr)


class Wheel(WithFolder):
    def test_it_is_installed(self):
        made = subprocess.run(["make", "-s", "-C", HERE, "wheel"], capture_output=True, text=True, check=True).stdout.split()[-1]
        pip = [sys.executable, "-m", "pip", "install", "-q", "--no-index", "--no-deps", "--target", self.folder, HERE / made]
        done = run(*pip)
        self.assertEqual(done.returncode, 0, done.stderr)
        environment = dict(ENVIRONMENT, PYTHONPATH=str(self.folder))
        done = subprocess.run([*HOST, "--serve", "127.0.0.1:0", SCRIPTS / "sums.py"], env=environment, capture_output=True, text=True, timeout=PATIENCE)
        self.assertEqual((done.returncode, done.stdout), (4, "the total is 10\n"))
        self.assertRegex(done.stderr, r"\Acebdyraq: serves http://127\.0\.0\.1:\d+/\n\Z")


def main():
    signal.signal(signal.SIGINT, signal.default_int_handler)
    loader = unittest.TestLoader()
    loader.testNamePatterns = [f"*{word}*" for word in sys.argv[1:]] or None
    return tap.run(loader.loadTestsFromModule(sys.modules[__name__]))


if __name__ == "__main__":
    sys.exit(main())
