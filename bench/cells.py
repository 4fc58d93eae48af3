#!/usr/bin/env python3
"""Times holds of cells by `tibench cells`: one cell by 1, 2 and 4 threads, and four cells by four threads.

For each it prints the holds of all threads in one second of wall time (the best of some runs; each hold sets one word).
A cell takes 1,024 calls of an environment, so each thread goes through 256 cells, one after another. Threads that share
a cell are started at each cell, and their starts are part of the time; those that share none are started once.

    bench/cells.py [PROGRAM..]      bench/out/tibench by default: bench/tibench.py builds it

Last come 10,000 cells that nobody holds, each with room for 65,536 frames: what one takes of the clock, and of memory.

Where bench/plain/target/release/holds is there, it is measured beside it, in turn: threads that lock a std `Mutex` round
the same structure (`plain/src/main.rs` says how it is built).
"""

import os
import subprocess
import sys
import time

sys.dont_write_bytecode = True

import usage

HOLDS = 1024 * 256
RUNS = 15
CELLS = 10_000
CROWDS = (("one", 1, "one cell, 1 thread"), ("two", 2, "one cell, 2 threads"), ("four", 4, "one cell, 4 threads"), ("apart", 4, "4 cells, 4 threads"))
TIBENCH = "bench/out/tibench"
PLAIN = "bench/plain/target/release/holds"


def seconds(program, how):
    start = time.perf_counter()
    subprocess.run([program, *(["cells"] if program != PLAIN else []), how], check=True)
    return time.perf_counter() - start


def programs():
    if sys.argv[1:]:
        return sys.argv[1:]
    return [TIBENCH] + [PLAIN] * os.path.exists(PLAIN)


def main():
    names = programs()
    print(f"{'holds per second':24}" + "".join(f"{os.path.basename(name):>20}" for name in names))
    for how, threads, title in CROWDS:
        best = {name: float("inf") for name in names}
        for _ in range(RUNS):
            for name in names:
                best[name] = min(best[name], seconds(name, how))
        print(f"{title:24}" + "".join(f"{threads * HOLDS / best[name]:20,.0f}" for name in names))
    runs = [usage.run(names[0], "cells", "many") for _ in range(RUNS)]
    took, memory = min(run.seconds for run in runs), max(run.kilobytes for run in runs)
    print(f"a cell that is made and kept: {took / CELLS * 1e6:.1f} microseconds, {memory / CELLS:.1f} kilobytes")


main()
