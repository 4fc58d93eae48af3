#!/usr/bin/env python3
"""Measures running threads and the environments that ask at them, by `tibench runs`.

A row says what was done, and for each number of environments that asked at once the nanoseconds that one time took the one
who did it: of the processor, and in brackets of the clock (the best of five runs by processor time). A thread takes 65,536
steps and an environment 1,024 calls at a thread, so a run goes through 32 rounds of four new threads each; making them and
starting threads of the operating system is no part of the time. `lasting` is one thread that may run as long as its
process. So is the thread of `calls`, and that of `coming`: it is asked while other threads come and go.

The next line is the time from a resumption to the suspended thread's next step, of the clock: the environment notes the
clock before it resumes the thread, which has slept for about a millisecond, and the thread notes it after its step.

Last comes what lasts, in one run each: how many times, what one took, and the memory of the process, beside that of a run
of a tenth. The peak of the resident memory has to be below 1.1 times that after a tenth. Otherwise the status is 1.
Peaks of the same run differ by some 100 kilobytes from time to time, so that of the tenth is the greatest of five.

    bench/running.py [PROGRAM]        bench/out/tibench by default: bench/tibench.py builds it
"""

import os
import subprocess
import sys

sys.dont_write_bytecode = True

import usage

RUNS = 5
ROWS = (
    ("steps", ("0",), "a step"),
    ("lasting", ("0",), "one step of 1,000,000,000"),
    ("polls", ("0",), "a clear poll"),
    ("state", ("1", "2", "4"), "state, parked thread"),
    ("word", ("1", "2", "4"), "word, parked thread"),
    ("count", ("1", "2", "4"), "count, parked thread of 4 frames"),
    ("deep", ("1", "2", "4"), "count, parked thread of 256 frames"),
    ("trace", ("1", "2", "4"), "trace, parked thread of 4 frames"),
    ("newest", ("1", "2", "4"), "trace of 32 frames, parked thread of 256"),
    ("running", ("1", "2", "4"), "count, running thread that polls"),
    ("all", ("1", "2", "4"), "all stacks of 4 parked threads"),
    ("beside", ("0", "1", "2", "4"), "a step and a poll beside an asked thread"),
    ("calls", ("1",), "one state of 10,000,000, parked thread"),
    ("coming", ("1",), "the same while other threads come and go"),
    ("suspended", ("1",), "a suspension of 2 seconds"),
    ("unpolled", ("1",), "a count, no poll for 2 seconds"),
)
LASTING = (
    ("lasting", "0", "steps"),
    ("calls", "1", "states, parked thread"),
    ("posts", "1", "traces, posted and collected"),
)
# The rows that are done to a part: as many states as `coming` has.
SHARES = {"calls": "10"}
MOST = 1.1


def each(wrote):
    """How often it was done, and the nanoseconds that one time took, of the processor and of the clock."""
    times, cpu, wall = map(int, wrote.split())
    return times, cpu / times, wall / times


def measure(program, what, envs):
    ended = subprocess.run([program, "runs", what, envs, SHARES.get(what, "1")], check=True, capture_output=True, text=True)
    return each(ended.stderr)[1:]


def rounded(nanoseconds):
    return f"{nanoseconds:.1f}" if nanoseconds < 20 else f"{nanoseconds:,.0f}"


def shown(cpu, wall):
    return f"{rounded(cpu)} ({rounded(wall)})"


def print_rows(program):
    print(f"{'':42}" + "".join(f"{n + ' asking':>18}" for n in ("0", "1", "2", "4")))
    for what, crowds, title in ROWS:
        cells = dict.fromkeys(("0", "1", "2", "4"), "")
        for envs in crowds:
            cells[envs] = shown(*min(measure(program, what, envs) for _ in range(RUNS)))
        print(f"{title:42}" + "".join(f"{cell:>18}" for cell in cells.values()), flush=True)


def print_resumed(program):
    medians = sorted(measure(program, "resumed", "1")[1] for _ in range(RUNS))
    print(f"from a resumption to the thread's next step: {rounded(medians[RUNS // 2])} ns, the middle one of {RUNS} medians of")
    print(f"    1,000 each, from {rounded(medians[0])} to {rounded(medians[-1])}", flush=True)


def lasts(program, what, envs, title):
    """Prints a row of what lasts. Whether its memory is flat."""
    part = max((usage.watch(program, "runs", what, envs, "10") for _ in range(RUNS)), key=lambda run: run.kilobytes)
    whole = usage.watch(program, "runs", what, envs)
    times, cpu, wall = each(whole.wrote)
    ratio = whole.kilobytes / part.kilobytes
    flat = ratio < MOST
    print(f"{f'{times:,} {title}':42}{shown(cpu, wall):>18}{f'{part.pages:,} {whole.pages:,}':>18}"
          f"{f'{part.kilobytes:,} {whole.kilobytes:,}':>18}{ratio:>9.3f} {'flat' if flat else 'NOT FLAT'}", flush=True)
    return flat


def main():
    program = sys.argv[1] if len(sys.argv) > 1 else os.path.join("bench", "out", "tibench")
    print_rows(program)
    print_resumed(program)
    print(f"{'a tenth of it, and all':42}{'ns each':>18}{'pages touched':>18}{'peak, kilobytes':>18}{'ratio':>9}")
    if not all([lasts(program, *row) for row in LASTING]):
        sys.exit(f"memory grows: a peak is not below {MOST} times that after a tenth")


main()
