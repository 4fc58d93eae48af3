#!/usr/bin/env python3
"""Runs suites of CPython's own tests plain, and under the host while tools use it: suites.py [SUITE..]

Beside each run one tool reads /threads and profiles at 100 samples a second, and a debugger suspends and resumes all threads. What
fails plain may fail under the host too, as what counts the files of its process, and nothing else. It writes TAP, with a test for each suite.
"""

import re
import subprocess
import sys
import tempfile
import threading

sys.dont_write_bytecode = True

import test as host_tests

sys.path.append(str(host_tests.TOP / "hosts/lua"))

import jdwp
import tap

SUITES = ("test_thread", "test_threading", "test_threadsignals", "test_signal", "test_queue", "test_fork1", "test_generators", "test_coroutines",
          "test_contextlib", "test_gc", "test_atexit", "test_asyncio", "test_subprocess")
# Tests that count or close the files of their process, of which the doors' connections are some.
OF_FILES = ("test_close_fds_0_1_2", "test_failed_child_execute_fd_leak", "test_swap_fds", "test_swap_std_fds_with_one_closed")
SECONDS = 600
FAILED = re.compile(r"^(?:FAIL|ERROR): (\S+ \(\S+\))", re.M)


def tests_of(said):
    """How many tests ran, and which failed."""
    ran = re.search(r"^Total tests: run=(\d+)", said, re.M) or re.search(r"^Ran (\d+) tests?", said, re.M)
    return int(ran[1]) if ran else 0, set(FAILED.findall(said))


def plain(suite, folder):
    done = subprocess.run([sys.executable, "-m", "test", "-v", suite], cwd=folder, stdout=subprocess.PIPE, stderr=subprocess.STDOUT, text=True,
                          errors="replace", timeout=SECONDS)
    return tests_of(done.stdout)


def repeat(action, ended):
    """Does something again and again until the program has ended."""
    while not ended.is_set():
        try:
            action()
        except (OSError, jdwp.Closed, jdwp.Error, ValueError):
            ended.wait(0.2)


def suspend_and_resume(port):
    with jdwp.Wire(port) as debugger:
        while True:
            debugger.suspend()
            debugger.resume()


def watched(suite, folder):
    with tempfile.TemporaryFile("w+") as said:
        host = host_tests.Host("--serve", "127.0.0.1:0", "--debug", "127.0.0.1:0", "-m", "test", "-v", suite, stdout=said, cwd=folder)
        ended = threading.Event()
        tools = [threading.Thread(target=repeat, args=(action, ended), daemon=True) for action in (
            lambda: host.get("/threads"), lambda: host.get("/debug/pprof/profile?seconds=2&rate=100"), lambda: suspend_and_resume(host.ports[1]))]
        for tool in tools:
            tool.start()
        errors = host.process.communicate(timeout=SECONDS)[1]
        ended.set()
        said.seek(0)
        return tests_of(said.read() + errors)


def main():
    told = tap.Tap()
    for suite in sys.argv[1:] or SUITES:
        with tempfile.TemporaryDirectory() as folder:
            (count, failed), (count_watched, failed_watched) = plain(suite, folder), watched(suite, folder)
        more = sorted(name for name in failed_watched - failed if name.split()[0] not in OF_FILES)
        fault = f"{count_watched} of {count} tests ran" if not 0 < count == count_watched else f"these fail only when watched: {more}" if more else ""
        told.result(f"{suite}: {count} tests, {len(failed)} of which fail plain", fault)
    return told.end()


if __name__ == "__main__":
    sys.exit(main())
