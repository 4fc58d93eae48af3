#!/usr/bin/env python3
"""Runs `tiwalk` and `tilint` on each case, and compares standard output, standard error and status with what it wants.

The cases are the documents of `tests/cases` and `examples/`, those that are made (`ci/made_cases.py`), and the ends of a
process that no document shows (`ci/process_ends.py`). What they want was worked out from the rules. It writes TAP.

    ci/cases.py [PROGRAM..]     crates/tiwalk/out/tiwalk by default (`make run` builds it), and crates/tilint/out/tilint if built
    ci/cases.py --examples      the documents of `examples/` alone

In `tests/cases`, NAME.in is the document and NAME.out what standard output gets, NAME.err what standard error gets,
NAME.status the status, and NAME.args has the arguments, one a line. A file that is not there says: nothing, nothing, 0,
and the name of the folder. `lint` has the cases of `tilint`, which are walks where no NAME.args says otherwise. In an
example NAME.json is the document and NAME.out the text, with status 1 where it begins with `illegal`; one whose name has
`history` in it is given to `check`, one whose name begins with `live` to `live`.
"""

import dataclasses
import os
import pathlib
import subprocess
import sys

sys.dont_write_bytecode = True

import made_cases
import process_ends
import tap

PROGRAM = "crates/tiwalk/out/tiwalk"
LINT = "crates/tilint/out/tilint"
FOLDER = pathlib.Path("tests/cases")
SECONDS = 60


@dataclasses.dataclass
class Case:
    """What the program is given, and what it has to make of it."""

    name: str
    arguments: list
    document: bytes
    wanted: tuple

    def run(self, program):
        """What standard output and standard error got, and the status."""
        done = subprocess.run([program, *self.arguments], input=self.document, capture_output=True, timeout=SECONDS)
        return done.stdout, done.stderr, done.returncode


def read(path, otherwise):
    return path.read_bytes() if path.exists() else otherwise


def stored_cases(folder, command):
    """The cases of a folder. The command is what they are given to where they do not say it."""
    for path in sorted((FOLDER / folder).glob("*.in")):
        arguments = read(path.with_suffix(".args"), command.encode()).decode().splitlines()
        status = int(read(path.with_suffix(".status"), b"0"))
        wanted = read(path.with_suffix(".out"), b""), read(path.with_suffix(".err"), b""), status
        yield Case(path.stem, arguments, path.read_bytes(), wanted)


def command_of(example):
    """The word that an example is given to."""
    if "history" in example.stem:
        return "check"
    return "live" if example.stem.startswith("live") else "walk"


def examples():
    for path in sorted(pathlib.Path("examples").glob("*.json")):
        text = path.with_suffix(".out").read_bytes()
        yield Case(path.name, [command_of(path)], path.read_bytes(), (text, b"", 1 if text.startswith(b"illegal") else 0))


def made():
    for name, arguments, document, out, err, status in made_cases.CASES:
        yield Case(name, arguments, document(), (out(), err, status))


def difference(wanted, got):
    """What was wanted and what there was instead, or None."""
    for what, one, other in zip(("standard output", "standard error", "status"), wanted, got):
        if one != other:
            at = 0
            if isinstance(one, bytes):
                at = next((n for n, pair in enumerate(zip(one, other)) if pair[0] != pair[1]), min(len(one), len(other)))
                at = one.rfind(b"\n", 0, at) + 1
                one, other = one[at : at + 80], other[at : at + 80]
            return f"{what}: wanted {one!r}, got {other!r}"
    return None


def walk_cases():
    """The stored cases of `tiwalk`."""
    for folder in ("walk", "live", "check", "usage"):
        yield from stored_cases(folder, folder)


def lint_cases():
    """The cases of `tilint`."""
    return stored_cases("lint", "walk")


def fault_of(case, program):
    """What is wrong with what a program makes of a case, or None."""
    try:
        return difference(case.wanted, case.run(program))
    except (OSError, subprocess.TimeoutExpired) as error:
        return repr(error)


def run_all(told, program, only_examples=False):
    program = os.path.abspath(program)
    if not os.path.isfile(program):
        sys.exit(f"there is no {program}: `make run` builds it")
    if os.path.basename(program).startswith("tilint"):
        cases = [*lint_cases(), *process_ends.LINT_ENDS]
    elif only_examples:
        cases = list(examples())
    else:
        cases = [*walk_cases(), *examples(), *made(), *process_ends.ENDS]
    for case in cases:
        told.result(f"{os.path.basename(program)}: {case.name}", fault_of(case, program))


def main():
    words = sys.argv[1:]
    programs = [word for word in words if word != "--examples"] or [PROGRAM]
    if not words and os.path.isfile(LINT):
        programs.append(LINT)
    told = tap.Tap()
    for program in programs:
        run_all(told, program, "--examples" in words)
    return told.end()


if __name__ == "__main__":
    sys.exit(main())
