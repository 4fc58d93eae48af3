#!/usr/bin/env python3
"""Counts the instructions of giving a thread back and of letting go of it, by how many threads there are and the order in which they go.

    bench/orders.py [PROGRAM]      bench/out/tibench by default: bench/tibench.py builds it

Valgrind counts them in `tibench churn order`: all that a call makes happen, so that what frees its memory is counted too. For each
count of threads there is a line for each order, with how often it takes what the newest take.
"""

import re
import subprocess
import sys

TIBENCH = "bench/out/tibench"
COUNTS = (1_000, 10_000, 65_536)
ORDERS = ("newest", "oldest", "random")
# A compiler may put a function into the one that calls it, so there is a second one for each part.
PARTS = (
    ("give back", ("tibench::orders::withdraw_all*", "ti_service::service::Service::withdraw_thread*")),
    ("let go", ("tibench::orders::let_go_all*", "ti_service::agent_calls::EnvMembershipServiceCalls::let_go::*")),
)


def instructions(program, order, count, functions):
    """The instructions for one thread, of all that the first of these functions does that the program has by itself."""
    for function in functions:
        words = ["valgrind", "--tool=callgrind", "--callgrind-out-file=/dev/null", f"--toggle-collect={function}"]
        done = subprocess.run([*words, program, "churn", "order", order, str(count)], check=True, stderr=subprocess.PIPE, text=True)
        counted = int(re.search(r"Collected : (\d+)", done.stderr)[1])
        if counted:
            return counted / count
    sys.exit(f"{program} has no function {' or '.join(functions)}")


def main():
    program = sys.argv[1] if len(sys.argv) > 1 else TIBENCH
    for count in COUNTS:
        newest = {}
        for order in ORDERS:
            told = []
            for title, functions in PARTS:
                each = instructions(program, order, count, functions)
                told.append(f"{title} {each:6,.0f} ({each / newest.setdefault(title, each):.2f})")
            print(f"{count:6,} threads, {order}: {', '.join(told)}", flush=True)


if __name__ == "__main__":
    sys.exit(main())
