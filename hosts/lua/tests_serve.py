"""Scripts that are served over HTTP. What pprof and Prometheus make of it: tests/serve."""
import contextlib
import http.client
import json
import re
import socket
import stat
import threading
import time

from shared import SLEEPER, WORKER, WithFolder, cqlua


class OverPath(http.client.HTTPConnection):
    """A connection to a Unix socket."""

    def connect(self):
        self.sock = socket.socket(socket.AF_UNIX)
        self.sock.settimeout(30)
        self.sock.connect(self.host)


def get(connection, target):
    connection.request("GET", target, headers={"Host": "localhost"})
    answer = connection.getresponse()
    return answer.status, answer.read()


def threads_of(connection):
    for _ in range(100):
        status, text = get(connection, "/threads.json")
        threads = {thread["name"]: thread for thread in json.loads(text)["threads"]}
        if status == 200 and all(thread["frames"] for thread in threads.values()):
            return threads
        time.sleep(0.05)
    return threads


class Serve(WithFolder):
    def test_serve_at_a_port(self):
        work, sleep = self.script("work.lua", WORKER), self.script("sleep.lua", SLEEPER)
        with self.served("serve", "127.0.0.1:0", work, sleep) as (host, line):
            self.assertRegex(line, r"\Acqlua: serves http://127\.0\.0\.1:\d+/\n\Z")
            connection = http.client.HTTPConnection("127.0.0.1", int(re.search(r":(\d+)/", line)[1]), timeout=60)
            threads = threads_of(connection)
            self.assertEqual(set(threads), {"work.lua", "sleep.lua"})
            frames = {name: [(frame["method"], frame["file"]) for frame in thread["frames"]] for name, thread in threads.items()}
            self.assertIn(("work", work), frames["work.lua"])
            self.assertEqual(frames["work.lua"][-1], ("main", work))
            self.assertEqual(frames["sleep.lua"][0], ("sleep", None), "a C function has no file")
            self.assertEqual(threads["sleep.lua"]["state"], "sleeping")
            text = get(connection, "/threads")[1].decode()
            self.assertRegex(text, r'(?m)^"sleep\.lua" #\d+ prio=\d+ sleeping\n    at sleep \(Native Method\)$')
            for frame in threads["work.lua"]["frames"]:
                self.assertTrue(frame["line"] and WORKER.splitlines()[frame["line"] - 1].strip(), frame)
            status, profile = get(connection, "/debug/pprof/profile?seconds=1&rate=200")
            self.assertEqual(status, 200)
            for name in b"work", work.encode(), b"sleep":
                self.assertIn(name, profile)
            self.assertIn(b'cebdyraq_threads{state="sleeping"} 1\n', get(connection, "/metrics")[1])

    def test_serve_takes_two_words(self):
        with self.served("run", f"--serve=unix:{self.folder}/socket", self.script("sleep.lua", SLEEPER)) as (host, line):
            self.assertIn("usage", line)

    def test_serve_at_a_path(self):
        """The file is for this user alone, and gone at the end."""
        path = self.folder / "socket"
        with self.served("serve", f"unix:{path}", self.script("sleep.lua", SLEEPER)) as (host, line):
            self.assertEqual(line, f"cqlua: serves unix:{path}\n")
            self.assertEqual(stat.S_IMODE(path.stat().st_mode), 0o600)
            self.assertEqual(get(OverPath(str(path)), "/threads")[0], 200)
        self.assertFalse(path.exists())

    def test_serve_beside_prof(self):
        result = cqlua("prof", "--serve", "127.0.0.1:0", "--rate", "100", "-e", "N = 100", "spectral_norm.lua")
        self.assertIn("cqlua: serves http://127.0.0.1:", result.stderr)
        self.assertIn("main (", result.stdout)
        self.assertEqual(result.returncode, 0)

    def refuses(self, address, why):
        result = cqlua("serve", address, self.script("sleep.lua", SLEEPER))
        self.assertIn(why, result.stderr)
        self.assertEqual(result.returncode, 1)

    def test_serve_at_no_such_address(self):
        for address in "6060", "0.0.0.0:6060", "127.0.0.1:65536":
            with self.subTest(address):
                self.refuses(address, "is refused with code 103")

    def test_serve_at_a_port_in_use(self):
        with socket.socket() as taken:
            taken.bind(("127.0.0.1", 0))
            taken.listen()
            self.refuses(f"127.0.0.1:{taken.getsockname()[1]}", "Address already in use")

    def test_serve_usage(self):
        for words in ["serve"], ["serve", "127.0.0.1:0"], ["run", "--no-service", "--serve", "127.0.0.1:0", self.script("sleep.lua", SLEEPER)]:
            with self.subTest(words[:2]):
                self.assertEqual(cqlua(*words).returncode, 2)

    def test_scripts_end_while_clients_wait(self):
        """A profile that is under way is cut off when the last script has ended, and the host ends."""
        with self.served("serve", "127.0.0.1:0", "-e", "N = 300", "spectral_norm.lua") as (host, line):
            connection = http.client.HTTPConnection("127.0.0.1", int(re.search(r":(\d+)/", line)[1]), timeout=60)

            def ask():
                with contextlib.suppress(OSError, http.client.HTTPException):
                    get(connection, "/debug/pprof/profile?seconds=300")

            waits = threading.Thread(target=ask)
            waits.start()
            began = time.monotonic()
            host.wait(timeout=120)
            waits.join(timeout=60)
            self.assertFalse(waits.is_alive())
            self.assertLess(time.monotonic() - began, 60)
