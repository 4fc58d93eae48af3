"""What a run of a program used."""

import collections
import os
import re
import subprocess
import tempfile
import time

Usage = collections.namedtuple("Usage", ("seconds", "kilobytes", "pages"))
Watched = collections.namedtuple("Watched", ("wrote", "kilobytes", "pages"))

PAUSE = 0.01


def run(*command):
    """The seconds of the clock; the greatest memory, which is at least that of who starts the program; the pages touched."""
    start = time.perf_counter()
    with subprocess.Popen(command, stderr=subprocess.DEVNULL) as started:
        _, status, used = os.wait4(started.pid, 0)
        started.returncode = os.waitstatus_to_exitcode(status)
    check(command, started.returncode)
    return Usage(time.perf_counter() - start, used.ru_maxrss, used.ru_minflt)


def watch(*command):
    """What the program wrote to standard error; the peak of its resident memory; the pages touched.

    The peak is the one that the system notes of the program alone, however much memory the one who starts it has. It is
    read every hundredth of a second, so that what a run takes in its last hundredth may be missed.
    """
    peak, ended = 0, 0
    with tempfile.TemporaryFile("w+") as sink:
        with subprocess.Popen(command, stdout=subprocess.DEVNULL, stderr=sink) as started:
            while not ended:
                peak = max(peak, resident(started.pid))
                ended, status, used = os.wait4(started.pid, os.WNOHANG)
                time.sleep(0 if ended else PAUSE)
            started.returncode = os.waitstatus_to_exitcode(status)
        check(command, started.returncode)
        sink.seek(0)
        return Watched(sink.read(), peak, used.ru_minflt)


def resident(pid):
    """The peak of a process's resident memory in kilobytes; 0 for one that has ended."""
    with open(f"/proc/{pid}/status") as status:
        found = re.search(r"^VmHWM:\s*(\d+) kB$", status.read(), re.M)
    return int(found[1]) if found else 0


def check(command, status):
    if status:
        raise SystemExit(f"{' '.join(command)}: status {status}")
