#!/usr/bin/env python3
"""Adds up folded stacks, as `tiprof` writes them, and compares the sum with what its last line says.

    crates/tiprof/out/tiprof --seconds 10 > folded.txt 2> said.txt
    tools/profile_sum.py folded.txt said.txt

It writes both numbers, and ends with status 0 where they are the same, else with 1.
"""

import pathlib
import re
import sys


def folded_sum(text):
    """The sum of the counts, each of which stands after the last space of a line."""
    return sum(int(line.rpartition(" ")[2]) for line in text.splitlines())


def said_live(text):
    """How many live threads were seen, over all samples, by the last line."""
    said = re.search(r"(\d+) live threads seen", text.splitlines()[-1])
    return int(said[1]) if said else None


def main():
    folded, said = (pathlib.Path(name).read_text() for name in sys.argv[1:3])
    counted, live = folded_sum(folded), said_live(said)
    print(f"sum of the folded counts {counted}, live threads over all samples {live}")
    return 0 if counted == live else 1


if __name__ == "__main__":
    sys.exit(main())
