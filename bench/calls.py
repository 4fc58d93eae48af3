#!/usr/bin/env python3
"""What calls through C cost, of an agent at a thread in native code, and of a running thread (`calls.c`): instructions by valgrind, and
nanoseconds.

    calls.py ARCHIVE [CALL..]

ARCHIVE is the library for C, such as dist/lib/libcebdyraq.a. Instructions are those of 20,000 calls without those of 10,000, so
that only the calls and the loop around them are counted. From these are taken what the loop takes with no call. Nanoseconds are
the least of nine runs of a million calls.

It fails if a call takes a tenth more instructions than docs/SPEED.md says.
"""

import pathlib
import re
import subprocess
import sys
import tempfile

HERE = pathlib.Path(__file__).resolve().parent
SPEED = HERE.parent / "docs/SPEED.md"
CALLS = ["none", "state", "word", "set_word", "resume", "count", "poll_clear", "poll", "enter_leave", "native_back", "wait_native_back", "set_frames",
         "trace", "may_stop", "reached", "may_stop_in", "version"]
# Where docs/SPEED.md says what a call takes: how the row begins, and which of its numbers it is.
SAID = {
    "poll_clear": ("`cq_poll_clear` of", 0), "enter_leave": ("`cq_enter` and `cq_leave`", 0), "poll": ("`cq_poll`, and", 0),
    "native_back": ("`cq_native` and", 0), "wait_native_back": ("`cq_wait_native` and", 0), "state": ("`cq_get_thread_state` at", 0),
    "trace": ("a trace of 32 frames:", 0), "set_frames": ("`cq_set_frames`, when", 0), "may_stop": ("`cq_may_stop`, and", 0),
    "reached": ("`cq_reached`, and", 0), "may_stop_in": ("`cq_may_stop_in` likewise", 0), "version": ("`cq_may_stop_in` likewise", 1),
}
MORE = 1.1
FEW, MANY, ROUNDS, RUNS = 10000, 20000, 1000000, 9


def said(*command):
    done = subprocess.run([str(word) for word in command], check=True, stdout=subprocess.PIPE, stderr=subprocess.STDOUT, text=True)
    return done.stdout


def instructions(program, call, count):
    text = said("valgrind", "--tool=callgrind", "--callgrind-out-file=/dev/null", program, call, count)
    return int(re.search(r"Collected : (\d+)", text)[1])


def most(call):
    """How many instructions a call may take."""
    row, place = SAID[call]
    numbers = re.search(rf"^\| {re.escape(row)}[^|]*\| ([\d,]+(?:, \d+)*) \|", SPEED.read_text(), re.M)[1].split(", ")
    return MORE * int(numbers[place].replace(",", ""))


def main():
    with tempfile.TemporaryDirectory(prefix="calls-") as folder:
        program = pathlib.Path(folder) / "calls"
        said("cc", "-O2", "-std=c11", HERE / "calls.c", sys.argv[1], "-lpthread", "-o", program)
        empty, slower = 0, []
        for call in ["none", *sys.argv[2:]] if sys.argv[2:] else CALLS:
            each = (instructions(program, call, MANY) - instructions(program, call, FEW)) / (MANY - FEW)
            empty = empty or each
            least = min(float(said(program, call, ROUNDS)) for _ in range(RUNS))
            print(f"{call:16} {each - empty:6.0f} instructions {least:6.1f} ns", flush=True)
            if call in SAID and each - empty > most(call):
                slower.append(call)
    if slower:
        return f"more than docs/SPEED.md says by a tenth: {', '.join(slower)}"


if __name__ == "__main__":
    sys.exit(main())
