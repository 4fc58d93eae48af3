#!/usr/bin/env python3
"""Real clients at a Lua program that is served: go tool pprof, promtool and Prometheus (Debian's golang-go and prometheus).

    tests/serve/run.py [CQLUA]      the host, otherwise hosts/lua/out/cqlua

What wants a client that is missing is skipped. It writes TAP.
"""

import contextlib
import json
import pathlib
import re
import shutil
import socket
import subprocess
import sys
import tempfile
import time
import unittest
import urllib.parse
import urllib.request

sys.dont_write_bytecode = True

HERE = pathlib.Path(__file__).resolve().parent
TOP = HERE.parent.parent
sys.path.append(str(TOP / "ci"))

import tap

CQLUA = TOP / "hosts/lua/out/cqlua"
SCRAPED_SECONDS = 20
CONFIGURATION = """global:
  scrape_interval: 1s
scrape_configs:
  - job_name: cebdyraq
    static_configs:
      - targets: ["127.0.0.1:{port}"]
"""


def wants(*programs):
    missing = [program for program in programs if not shutil.which(program)]
    return unittest.skipIf(missing, f"there is no {' and no '.join(missing)}")


def has_pprof():
    return shutil.which("go") and not subprocess.run(["go", "tool", "-n", "pprof"], capture_output=True).returncode


def free_port():
    with socket.socket() as made:
        made.bind(("127.0.0.1", 0))
        return made.getsockname()[1]


@contextlib.contextmanager
def served(*scripts):
    """The address of a host that runs these scripts."""
    command = [CQLUA, "serve", "127.0.0.1:0", *(HERE / script for script in scripts)]
    with subprocess.Popen(command, stderr=subprocess.PIPE, stdout=subprocess.DEVNULL, text=True) as host:
        try:
            line = host.stderr.readline()
            yield re.search(r"http://127\.0\.0\.1:\d+", line)[0]
        finally:
            host.kill()


def get(address, target):
    with urllib.request.urlopen(address + target, timeout=60) as answer:
        return answer.read()


def ask(base, query):
    """The samples of a query, by their label `state`, as Prometheus gives them."""
    text = get(base, "/api/v1/query?query=" + urllib.parse.quote(query))
    return {row["metric"].get("state", ""): float(row["value"][1]) for row in json.loads(text)["data"]["result"]}


class Pprof(unittest.TestCase):
    def setUp(self):
        if not has_pprof():
            self.skipTest("there is no go tool pprof")
        stack = contextlib.ExitStack()
        self.addCleanup(stack.close)
        self.room = stack.enter_context(tempfile.TemporaryDirectory())
        self.address = stack.enter_context(served("shares.lua", "sleeps.lua"))

    def pprof(self, *words):
        done = subprocess.run(["go", "tool", "pprof", *words], capture_output=True, text=True, timeout=120,
                              env={"PATH": "/usr/bin:/bin:/usr/local/go/bin", "HOME": self.room, "PPROF_TMPDIR": self.room})
        self.assertEqual(done.returncode, 0, done.stderr)
        return done.stdout

    def url(self, query):
        return f"{self.address}/debug/pprof/{query}"

    def fetch(self, query, name):
        path = pathlib.Path(self.room, name)
        path.write_bytes(get(self.address, "/debug/pprof/" + query))
        return str(path)

    def test_top_has_the_shares_of_the_script(self):
        """The script spends three times as long in `heavy` as in `light`."""
        text = self.pprof("-top", "-sample_index=samples", "-tagfocus=shares.lua", self.url("profile?seconds=3&rate=200"))
        share = {name: int(count) for count, name in re.findall(r"^\s*\d+\s+[\d.]+%\s+[\d.]+%\s+(\d+)\s+[\d.]+%\s+(\w+)", text, re.M)}
        self.assertGreater(share["heavy"], 0, text)
        self.assertAlmostEqual(share["heavy"] / (share["heavy"] + share["light"]), 0.75, delta=0.08, msg=text)

    def test_samples_are_ticks_times_threads(self):
        path = self.fetch("profile?seconds=2&rate=100", "p")
        comment = re.search(r"ticks=(\d+) missed=(\d+) thread_ticks=(\d+) late=(\d+) unanswered=(\d+)", self.pprof("-comments", path))
        ticks, missed, thread_ticks = map(int, comment.groups()[:3])
        raw = self.pprof("-raw", path)
        counts = [int(count) for count in re.findall(r"^\s+(\d+)\s+\d+:(?: |$)", raw, re.M)]
        self.assertEqual(sum(counts), thread_ticks)
        self.assertEqual(thread_ticks, 2 * ticks)
        self.assertLessEqual(ticks + missed, 201)
        self.assertGreater(ticks, 100)

    def test_traces_have_names_lines_and_labels(self):
        text = self.pprof("-traces", "-lines", self.fetch("profile?seconds=1", "p"))
        self.assertRegex(text, r"thread:\s*\[?shares\.lua")
        self.assertRegex(text, r"heavy .*shares\.lua:\d+")

    def test_no_labels_if_none_are_asked_for(self):
        self.assertNotIn("thread:", self.pprof("-traces", self.fetch("profile?seconds=1&labels=none", "p")))
        text = self.pprof("-traces", self.fetch("profile?seconds=1&labels=state", "p"))
        self.assertNotIn("thread:", text)
        self.assertIn("state:", text)

    def test_a_profile_less_itself_is_nothing(self):
        path = self.fetch("profile?seconds=1", "p")
        text = self.pprof("-top", f"-diff_base={path}", path)
        self.assertRegex(text, r"Showing nodes accounting for 0, 0% of")

    def test_stacks_of_now(self):
        text = self.pprof("-top", self.url("threads"))
        self.assertIn("Type: threads\n", text)
        self.assertRegex(text, r"of 2 total\b")

    @wants("dot")
    def test_draws_a_graph(self):
        path = pathlib.Path(self.room, "graph.svg")
        self.pprof("-svg", f"-output={path}", self.url("profile?seconds=1"))
        self.assertIn("heavy", path.read_text())


class Prometheus(unittest.TestCase):
    @wants("promtool")
    def test_metrics_are_well_formed(self):
        with served("shares.lua") as address:
            done = subprocess.run(["promtool", "check", "metrics"], input=get(address, "/metrics"), capture_output=True, timeout=60)
        self.assertEqual((done.returncode, done.stdout, done.stderr), (0, b"", b""))

    @wants("prometheus")
    def test_a_scrape_agrees_with_the_threads(self):
        with tempfile.TemporaryDirectory() as room, served("shares.lua", "sleeps.lua") as address, contextlib.ExitStack() as stack:
            file, port = pathlib.Path(room, "prometheus.yml"), free_port()
            file.write_text(CONFIGURATION.format(port=address.rsplit(":", 1)[1]))
            words = ["prometheus", f"--config.file={file}", f"--storage.tsdb.path={room}/data", f"--web.listen-address=127.0.0.1:{port}"]
            prometheus = stack.enter_context(subprocess.Popen(words, stderr=subprocess.DEVNULL))
            stack.callback(prometheus.kill)
            time.sleep(SCRAPED_SECONDS)
            base = f"http://127.0.0.1:{port}"
            threads = json.loads(get(address, "/threads.json"))["threads"]
            states = {state: count for state, count in ask(base, "cebdyraq_threads").items() if count}
            self.assertEqual(sum(states.values()), len(threads))
            self.assertEqual(states.get("sleeping"), sum(thread["state"] == "sleeping" for thread in threads))
            self.assertEqual(ask(base, "up"), {"": 1.0})
            self.assertEqual(ask(base, "cebdyraq_threads_attached_total"), {"": 2.0})
            rate = ask(base, 'sum(rate(cebdyraq_thread_seconds_total[10s]))')
            self.assertAlmostEqual(rate[""], 2, delta=0.2)


class Told(unittest.TestCase):
    """What needs no client but this one."""

    def test_json_tells_what_the_text_tells(self):
        with served("shares.lua", "sleeps.lua") as address:
            for _ in range(100):
                told = json.loads(get(address, "/threads.json"))
                if any(thread["state"] == "sleeping" for thread in told["threads"]):
                    break
                time.sleep(0.05)
            text = get(address, "/threads").decode()
        self.assertEqual(told["count"], 2)
        self.assertEqual({thread["name"] for thread in told["threads"]}, {"shares.lua", "sleeps.lua"})
        for thread in told["threads"]:
            self.assertIn(f'"{thread["name"]}" #{thread["number"]} prio={thread["priority"]} ', text)
        sleeps = next(thread for thread in told["threads"] if thread["name"] == "sleeps.lua")
        self.assertEqual(sleeps["state"], "sleeping")
        self.assertIn("nap", [frame["method"] for frame in sleeps["frames"]])


def main():
    global CQLUA
    CQLUA = pathlib.Path(sys.argv[1]).resolve() if sys.argv[1:] else CQLUA
    if not CQLUA.is_file():
        sys.exit(f"there is no {CQLUA}: make lua builds it")
    return tap.run(unittest.defaultTestLoader.loadTestsFromName("__main__"))


if __name__ == "__main__":
    sys.exit(main())
