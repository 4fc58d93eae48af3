#!/usr/bin/env python3
"""What the host costs: measure.py [ROUNDS [WORKLOAD..]]

Each workload of scripts/work.py runs plain and under the host in turn: with nobody, with profiles at 100 and at 1,000 samples a
second, with a debugger that has no breakpoint, and with one whose breakpoint is in code that never runs. A row has each one's least
processor time in milliseconds, and its ratio to the plain one.
"""

import contextlib
import re
import subprocess
import sys
import threading

sys.dont_write_bytecode = True

import test as host_tests

WORK = host_tests.SCRIPTS / "work.py"
REPEAT = 50


def profile(host, rate, ended):
    while not ended.is_set():
        with contextlib.suppress(OSError):
            host.get(f"/debug/pprof/profile?seconds=2&rate={rate}")


@contextlib.contextmanager
def profiled(host, rate):
    ended = threading.Event()
    tool = threading.Thread(target=profile, args=(host, rate, ended), daemon=True)
    tool.start()
    yield
    ended.set()


@contextlib.contextmanager
def debugged(host, *commands):
    with host_tests.jdb.attach(host.ports[1]) as debugger:
        for command in commands:
            debugger.say(command)
        yield


NEVER = 1 + WORK.read_text().splitlines().index("        never()")
TOOLS = {
    "nobody": lambda host: contextlib.nullcontext(),
    "100/s": lambda host: profiled(host, 100),
    "1,000/s": lambda host: profiled(host, 1000),
    "debugger": lambda host: debugged(host, "resume"),
    "breakpoint": lambda host: debugged(host, f"stop at work:{NEVER}", "resume"),
}
WAITING = ("debugger", "breakpoint")


def times_of(out):
    """The least processor time of each workload."""
    return {name: float(time) for name, time in re.findall(r"^(\S+) (\S+)$", out, re.M)}


def plain(workloads):
    return times_of(host_tests.run(sys.executable, WORK, REPEAT, *workloads).stdout)


def under_host(name, workloads):
    suspend = ["--suspend"] * (name in WAITING)
    host = host_tests.Host("--serve", "127.0.0.1:0", "--debug", "127.0.0.1:0", *suspend, WORK, REPEAT, *workloads)
    with TOOLS[name](host):
        return times_of(host.end()[1])


def main():
    rounds, workloads = int(sys.argv[1]) if sys.argv[1:] else 3, sys.argv[2:]
    least = {}
    for _ in range(rounds):
        for name in ("plain", *TOOLS):
            for workload, time in (plain(workloads) if name == "plain" else under_host(name, workloads)).items():
                row = least.setdefault(workload, {})
                row[name] = min(time, row.get(name, time))
    print("| Workload | plain |", " | ".join(TOOLS), "|")
    print("|---" * (2 + len(TOOLS)) + "|")
    for workload, row in least.items():
        print(f"| {workload} | {row['plain']:.1f} |", " | ".join(f"{row[name]:.1f} ({row[name] / row['plain']:.2f})" for name in TOOLS), "|")


if __name__ == "__main__":
    main()
