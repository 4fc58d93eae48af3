#!/usr/bin/env python3
"""Carries walks out on a real Java VM, and compares the lines with those of `tiwalk`.

The walks are random, from a seed. The VM is the one that `java` names. Agents' calls are JVM TI calls of a C agent,
so that their lines are the VM's own answers. Lines of threads' own events are what the driver noted, beside the VM.

    tests/jvm/compare.py [--walks N] [--seed TEXT] [--first K] [--program PATH]     1,000 walks of seed 1 by default
    tests/jvm/compare.py --seed TEXT --show K            writes the walk K of that seed, and runs nothing
    tests/jvm/compare.py --differences [--program PATH]  the events that differ by design, and are in no such walk, with both lines

It needs a JDK of version 17 or later and a C compiler. Status 2 says that something is missing. A walk that differs is kept in
tests/jvm/build/differ with both texts. The last line is 'N passed, M failed'.
"""

import argparse
import dataclasses
import itertools
import json
import os
import pathlib
import subprocess
import sys

sys.dont_write_bytecode = True

import build
import differences
import machine
import walks

PROGRAM = build.HERE.parent.parent / "crates/tiwalk/out/tiwalk"
KEPT = build.BUILT / "differ"
SECONDS = 60


@dataclasses.dataclass
class Count:
    """What was compared, and what came of it."""

    passed: int = 0
    failed: int = 0
    lines: int = 0
    answers: int = 0

    def add(self, document, compared, passes):
        """Adds a walk, and how many of its events were compared."""
        self.passed += passes
        self.failed += not passes
        self.lines += compared
        self.answers += sum(event[0] in document["agents"] for event in document["events"][:compared])


def as_text(tree):
    return json.dumps(tree, separators=(",", ":"))


def lines_of_program(program, document):
    done = subprocess.run([program], input=as_text(document), capture_output=True, text=True, timeout=SECONDS)
    if done.returncode or done.stderr:
        return [f"status {done.returncode}, {done.stderr.strip()!r}"]
    return done.stdout.splitlines()


def lines_of_machine(there, document):
    try:
        return there.carry_out(document)
    except (machine.Broken, OSError) as why:
        return [f"the VM broke down: {why}"]


def same_lines(ours, theirs):
    """How many lines are the same before the first that differs."""
    return next((number for number, pair in enumerate(zip(ours, theirs)) if pair[0] != pair[1]), min(len(ours), len(theirs)))


def difference(document, ours, theirs, number):
    """The event and both lines of that number, as far as they are there."""
    event, our, their = (lines[number] if number < len(lines) else None for lines in (document["events"], ours, theirs))
    return f"{as_text(event)}: tiwalk {our!r}, VM {their!r}"


def keep(name, document, ours, theirs):
    KEPT.mkdir(parents=True, exist_ok=True)
    KEPT.joinpath(f"{name}.json").write_text(as_text(document) + "\n")
    KEPT.joinpath(f"{name}.tiwalk").write_text("\n".join(ours) + "\n")
    KEPT.joinpath(f"{name}.vm").write_text("\n".join(theirs) + "\n")


def compare(words, there):
    """Compares walk by walk, and tells of each that differs."""
    count = Count()
    for number in range(words.first, words.first + words.walks):
        document = walks.walk(words.seed, number, there.pops)
        ours, theirs = lines_of_program(words.program, document), lines_of_machine(there, document)
        same = same_lines(ours, theirs)
        passes = len(ours) == len(theirs) == same
        count.add(document, same if passes else same + 1, passes)
        if not passes:
            keep(f"{words.seed}-{number}", document, ours, theirs)
            print(f"--seed {words.seed} --show {number}: {difference(document, ours, theirs, same)}", flush=True)
    return count


def outcome(lines, number):
    """What the line of this number says, or None."""
    return next((line.split(" ", 1)[1] for line in lines if line.startswith(f"{number} ")), None)


def show_differences(words, there):
    """Shows both outcomes of each event that differs by design."""
    count = Count()
    for one in differences.DIFFERENCES:
        document = one.document()
        number = len(document["events"]) + one.place
        our = outcome(lines_of_program(words.program, document), number)
        their = outcome(lines_of_machine(there, document), number)
        differs = our != their and None not in (our, their)
        count.add(document, len(document["events"]), differs)
        print(f"{one.name}: tiwalk {our!r}, VM {their!r}" + ("" if differs else "   NOT AS THE TABLE SAYS"))
    return count


def parsed():
    usage = "%(prog)s [--walks N] [--seed TEXT] [--first K] [--show K] [--differences] [--program PATH]"
    parser = argparse.ArgumentParser(usage=usage)
    parser.add_argument("--walks", type=int, default=1_000)
    parser.add_argument("--seed", default="1")
    parser.add_argument("--first", type=int, default=0)
    parser.add_argument("--show", type=int)
    parser.add_argument("--differences", action="store_true")
    parser.add_argument("--program", type=pathlib.Path, default=PROGRAM)
    return parser.parse_args()


def begun(program):
    """A VM that is ready, or what is missing."""
    if not os.access(program, os.X_OK) or program.is_dir():
        raise build.Missing(f"there is no {program}: `make run` builds it")
    build.build()
    try:
        return machine.Machine()
    except (machine.Broken, OSError) as why:
        raise build.Missing(f"no walk can be carried out: {why}") from None


def main():
    words = parsed()
    if words.show is not None:
        print(as_text(walks.walk(words.seed, words.show)))
        return 0
    words.program = words.program.resolve()
    try:
        there = begun(words.program)
    except build.Missing as what:
        print(what)
        return 2
    try:
        count = (show_differences if words.differences else compare)(words, there)
    finally:
        there.stop()
    print(f"frames above those of a blocked thread: {there.above}" + ("" if there.pops else "; no frame can be popped"))
    print(f"{there.name}: {count.lines} lines compared, {count.answers} of them the VM's own answers")
    print(f"{count.passed} passed, {count.failed} failed")
    return 1 if count.failed or not count.passed else 0


if __name__ == "__main__":
    sys.exit(main())
