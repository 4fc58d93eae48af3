#!/usr/bin/env python3
"""Measures whether it pays to spin before one sleeps, on so many processors, idle and busy.

    bench/spinning.py [ARCHIVE]      dist/lib/libcebdyraq.a by default

It compiles tests/c/bench_spin.c in front of the library with cebdyraq_wait.c as it is, and with one that never spins.
"""

import os
import pathlib
import re
import subprocess
import sys
import tempfile

TOP = pathlib.Path(__file__).resolve().parent.parent
SPIN = re.compile(r"(SPIN_NS = )\d+(, PROBE_NS = )\d+")
POLLS = ("1000", "10000", "100000")


def compiled(folder, archive, spin):
    """The program whose waits spin for so many nanoseconds. None is as the library has it."""
    wait, program = TOP / "c/cebdyraq_wait.c", folder / f"spin-{spin}"
    text = wait.read_text()
    text = text if spin is None else SPIN.sub(rf"\g<1>{spin}\g<2>{spin}", text)
    (folder / "wait.c").write_text(text)
    flags = ("-O2", "-std=c11", f"-I{TOP}/c")
    subprocess.run(["cc", *flags, TOP / "tests/c/bench_spin.c", folder / "wait.c", archive, "-lpthread", "-o", program], check=True)
    return program


def main():
    archive = pathlib.Path(sys.argv[1] if len(sys.argv) > 1 else TOP / "dist/lib/libcebdyraq.a").resolve()
    most = len(os.sched_getaffinity(0))
    with tempfile.TemporaryDirectory(prefix="spinning-") as folder:
        programs = {name: compiled(pathlib.Path(folder), archive, spin) for name, spin in (("spins", None), ("never spins", 0))}
        for processors in (count for count in (2, 4) if count <= most):
            for others in (0, processors, 2 * processors):
                for poll in POLLS:
                    for name, program in programs.items():
                        done = subprocess.run([program, str(processors), str(others), poll], check=True, stdout=subprocess.PIPE, text=True)
                        print(f"{name:11}: {done.stdout}", end="", flush=True)


if __name__ == "__main__":
    main()
