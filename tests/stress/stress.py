#!/usr/bin/env python3
"""Runs `tiwalk live` on random documents, and looks whether each run ends and tells what it may.

Each document has 1 to 64 threads and 1 to 32 agents, who ask at few threads or at all: suspensions with their resumes,
words, frames, pops, and traces of all threads and of listed ones. Each is run on two processors and on four (as many as
there are). A run is right where it ends with status 0 and nothing on standard error, each history is `legal`, and each line
is one that the rules leave possible (`stress_rules.py`): exactly one for what an agent is refused by itself, for its
capabilities and its own word, and for the refused operations of a thread of which no frame is popped.

    tests/stress/stress.py [--runs N] [--seed TEXT] [--first K] [PROGRAM]      1,000 runs of crates/tiwalk/out/tiwalk by default
    tests/stress/stress.py --seed TEXT --show K                                writes the document K of that seed, and runs nothing
    tests/stress/stress.py --spoil ..        also changes one line of each text, or leaves it out, and counts how often that is noticed

The last line is 'N passed, M failed', and before it stand the processor time and what the documents had.
"""

import argparse
import json
import os
import random
import re
import resource
import subprocess
import sys
import time

sys.dont_write_bytecode = True

import stress_documents
import stress_rules

PROGRAM = "crates/tiwalk/out/tiwalk"
PROCESSORS = (2, 4)
# a run takes some milliseconds: one that takes so long waits for ever
SECONDS = 60


def run_on(program, processors, document):
    """What standard output and standard error got, and the status, of a run on so many processors."""
    there = sorted(os.sched_getaffinity(0))[:processors]
    done = subprocess.run(
        [program, "live"],
        input=document,
        capture_output=True,
        timeout=SECONDS,
        preexec_fn=lambda: os.sched_setaffinity(0, there),
    )
    return done.stdout, done.stderr, done.returncode


def text_of(program, processors, tree):
    """What a run wrote, and what is wrong with that, or None."""
    try:
        out, err, status = run_on(program, processors, json.dumps(tree, separators=(",", ":")).encode())
    except subprocess.TimeoutExpired:
        return "", f"no end within {SECONDS} seconds"
    if status or err:
        return "", f"status {status}, {err!r}"
    return out.decode(), stress_rules.fault_of(tree, out.decode())


def spoilt(chance, text):
    """The text with another reply in one line, or without it."""
    lines = text.splitlines()
    number = chance.randrange(len(lines))
    for pattern, other in (
        (r"error \d+$", lambda _: "ok"),
        (r"ok$", lambda _: "error 15"),
        (r"legal$", lambda _: "illegal 0"),
        (r"0x[0-9a-f]+$", lambda found: hex(int(found[0], 16) ^ chance.choice((0x1, 0x4, 0x80, 0x100000)))),
        (r"\d+$", lambda found: str(int(found[0]) + 1)),
    ):
        if re.search(pattern, lines[number]):
            lines[number] = re.sub(pattern, other, lines[number])
            break
    else:
        del lines[number]
    return "".join(line + "\n" for line in lines)


def parsed():
    parser = argparse.ArgumentParser(usage="%(prog)s [--runs N] [--seed TEXT] [--first K] [--show K] [--spoil] [PROGRAM]")
    parser.add_argument("--runs", type=int, default=1_000)
    parser.add_argument("--seed", default="1")
    parser.add_argument("--first", type=int, default=0)
    parser.add_argument("--show", type=int)
    parser.add_argument("--spoil", action="store_true")
    parser.add_argument("program", nargs="?", default=PROGRAM)
    return parser.parse_args()


def run_all(words):
    """How many runs passed and how many failed. It tells of each that failed, and of all at the end."""
    program, chance = os.path.abspath(words.program), random.Random(words.seed)
    passed = failed = noticed = threads = agents = operations = calls = 0
    begun = time.monotonic()
    for number in range(words.runs):
        index, turn = words.first + number // len(PROCESSORS), number % len(PROCESSORS)
        if turn == 0:
            tree = stress_documents.document(words.seed, index)
        text, fault = text_of(program, PROCESSORS[turn], tree)
        passed, failed = passed + (not fault), failed + bool(fault)
        threads, agents = threads + len(tree["threads"]), agents + len(tree["agents"])
        operations, calls = operations + sum(map(len, tree["walks"])), calls + sum(map(len, tree["calls"]))
        if fault:
            print(f"--seed {words.seed} --show {index}, on {PROCESSORS[turn]} processors: {fault}", flush=True)
        elif words.spoil:
            noticed += stress_rules.fault_of(tree, spoilt(chance, text)) is not None
    spent = resource.getrusage(resource.RUSAGE_CHILDREN)
    print(f"{threads} threads, {operations} operations, {agents} agents, {calls} calls")
    print(f"{spent.ru_utime + spent.ru_stime:.1f} s of processors in the runs, {time.monotonic() - begun:.1f} s in all")
    if words.spoil:
        print(f"{noticed} of {passed} spoilt texts were noticed")
    return passed, failed


def main():
    words = parsed()
    if words.show is not None:
        print(json.dumps(stress_documents.document(words.seed, words.show), separators=(",", ":")))
        return 0
    if not os.path.isfile(words.program):
        print(f"there is no {words.program}: `make run` builds it")
        return 1
    passed, failed = run_all(words)
    print(f"{passed} passed, {failed} failed")
    return 1 if failed or not passed else 0


if __name__ == "__main__":
    sys.exit(main())
