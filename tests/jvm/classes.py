#!/usr/bin/env python3
"""Defines the classes of a Java VM in the library for C, and compares what both tell of them (`classes/classes.c`).

    classes.py ARCHIVE

ARCHIVE is libcebdyraq.a. It takes the VM that `java` names, and needs a JDK and a C compiler. If something is missing, one line says
so, and the status is 2. The last line is 'N passed, M failed'.
"""

import pathlib
import re
import subprocess
import sys

sys.dont_write_bytecode = True

import build

AGENT = build.BUILT / "libclasses.so"
SECONDS = 300


def main():
    archive = pathlib.Path(sys.argv[1]).resolve()
    try:
        folder = build.home()
        build.build_library(folder, AGENT, build.HERE.glob("classes/*.c"), archive)
    except build.Missing as what:
        print(what)
        return 2
    words = [folder / "bin/java", f"-agentpath:{AGENT}", "-version"]
    done = subprocess.run(words, stdout=subprocess.PIPE, stderr=subprocess.STDOUT, text=True, timeout=SECONDS)
    told = done.stdout.splitlines()
    counts = next((found for line in told if (found := re.fullmatch(r"(\d+) passed, (\d+) failed", line))), None)
    if done.returncode or not counts:
        print(done.stdout)
        print("0 passed, 1 failed")
        return 1
    print("\n".join(line for line in told if line != counts[0]))
    print(counts[0])
    return 1 if int(counts[2]) or not int(counts[1]) else 0


if __name__ == "__main__":
    sys.exit(main())
