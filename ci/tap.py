#!/usr/bin/env python3
"""TAP, the Test Anything Protocol (https://testanything.org): what a test program writes, and what the gate reads.

    ci/tap.py PROGRAM.py [WORD..]      runs a test program, and shows only what did not pass, and the counts

A test program prints its results by a `Tap`, or gives its tests of unittest to `run`. The plan comes last, so a program that ends early
has none.
"""

import dataclasses
import re
import subprocess
import sys
import time
import unittest

VERSION = "TAP version 14"
POINT = re.compile(r"(ok|not ok) (\d+) - (.*?)(?: # SKIP (.*))?")
PLAN = re.compile(r"1\.\.(\d+)(?: # SKIP (.*))?")
PASSED, FAILED, SKIPPED = "ok", "not ok", "skip"


def escaped(text):
    """A text in one line, in which no # begins a directive."""
    return re.sub(r"([\\#])", r"\\\1", " ".join(text.split()))


def unescaped(text):
    return re.sub(r"\\([\\#])", r"\1", text)


def comment(text):
    """The lines of a text, as no results."""
    print("".join(f"# {line}\n" for line in text.splitlines()), end="", flush=True)


def skip_all(why):
    """What a program prints that tries nothing, and its exit status."""
    print(f"{VERSION}\n1..0 # SKIP {escaped(why)}")
    return 0


class Tap:
    """Prints the results of a test program."""

    def __init__(self):
        self.count = self.failed = 0
        sys.stdout.reconfigure(errors="backslashreplace")
        print(VERSION, flush=True)

    def point(self, word, name, directive=""):
        self.count += 1
        print(f"{word} {self.count} - {escaped(name)}{directive}", flush=True)

    def ok(self, name):
        self.point(PASSED, name)

    def not_ok(self, name, detail=""):
        self.failed += 1
        self.point(FAILED, name)
        comment(detail)

    def skip(self, name, why):
        self.point(PASSED, name, f" # SKIP {escaped(why)}")

    def result(self, name, fault):
        """A test that failed if it has a fault."""
        if fault:
            self.not_ok(name, str(fault))
        else:
            self.ok(name)

    def end(self):
        """Prints the plan, and gives the exit status: 1 if a test failed, or if there was none."""
        print(f"1..{self.count}", flush=True)
        return 1 if self.failed or not self.count else 0


def name_of(test):
    return test.id().removeprefix("__main__.")


class Result(unittest.TestResult):
    """Prints each test of unittest as it ends, and each subTest as a test of its own."""

    def __init__(self, tap):
        super().__init__()
        self.tap = tap

    def addSuccess(self, test):
        self.tap.ok(name_of(test))

    def addFailure(self, test, err):
        super().addFailure(test, err)
        self.tap.not_ok(name_of(test), self.failures[-1][1])

    def addError(self, test, err):
        super().addError(test, err)
        self.tap.not_ok(name_of(test), self.errors[-1][1])

    def addSubTest(self, test, subtest, err):
        if err is None:
            self.addSuccess(subtest)
        else:
            self.addFailure(subtest, err)

    def addSkip(self, test, reason):
        self.tap.skip(name_of(test), reason)

    def addExpectedFailure(self, test, err):
        self.addSuccess(test)

    def addUnexpectedSuccess(self, test):
        self.tap.not_ok(name_of(test), "it was expected to fail")


def run(tests):
    """Runs tests of unittest, and gives the exit status."""
    tap = Tap()
    tests.run(Result(tap))
    return tap.end()


@dataclasses.dataclass
class Point:
    """A result that was read: a name, one of PASSED, FAILED and SKIPPED, how long it took, and what was said of it."""

    name: str
    word: str
    seconds: float = 0
    detail: str = ""


@dataclasses.dataclass
class Suite:
    """The results of a test program, or only their counts."""

    name: str
    points: list = dataclasses.field(default_factory=list)
    passed: int = 0
    failed: int = 0
    skipped: int = 0

    def add(self, point):
        self.points.append(point)
        self.passed += point.word == PASSED
        self.failed += point.word == FAILED
        self.skipped += point.word == SKIPPED

    def fail(self, why):
        """Adds a test that failed, and says why."""
        print(f"{self.name}: {why}", flush=True)
        self.add(Point("the program", FAILED, 0, why))

    def __str__(self):
        return f"{self.name}: {self.passed} passed, {self.failed} failed" + (f", {self.skipped} skipped" if self.skipped else "")


class Reader:
    """Reads the lines of a test program into a suite."""

    def __init__(self, suite):
        self.suite, self.planned, self.misnumbered = suite, None, False
        self.then = time.monotonic()

    def take(self, line):
        """Reads a line, and says whether it is worth showing."""
        if found := POINT.fullmatch(line):
            now = time.monotonic()
            word = found[1] if found[4] is None else SKIPPED
            self.suite.add(Point(unescaped(found[3]), word, now - self.then, unescaped(found[4] or "")))
            self.misnumbered |= int(found[2]) != len(self.suite.points)
            self.then = now
            return word != PASSED
        if found := PLAN.fullmatch(line):
            self.planned = int(found[1])
            if found[2]:
                self.suite.skipped += 1
            return bool(found[2])
        if line.startswith("# ") and self.suite.points and self.suite.points[-1].word == FAILED:
            self.suite.points[-1].detail += line.removeprefix("# ") + "\n"
        return line != VERSION

    def fault(self, status):
        """What is wrong with a program that ended so, besides tests that failed, or None."""
        count = len(self.suite.points)
        if self.planned is None:
            return f"it ended with status {status} before its plan"
        if self.planned != count or self.misnumbered:
            return f"its plan is {self.planned} tests, and it has {count} results" + " with other numbers" * self.misnumbered
        if not count and not self.suite.skipped:
            return "it has no tests"
        return f"it ended with status {status}" if status and not self.suite.failed else None


def read(name, command):
    """Runs a test program, shows what it writes but for the tests that passed, and gives its results."""
    suite = Suite(name)
    reader = Reader(suite)
    with subprocess.Popen(command, stdout=subprocess.PIPE, text=True, errors="replace") as program:
        for line in program.stdout:
            if reader.take(line.rstrip("\n")):
                print(line, end="", flush=True)
    if fault := reader.fault(program.returncode):
        suite.fail(fault)
    return suite


def main():
    if not sys.argv[1:]:
        sys.exit(__doc__.strip())
    suite = read(sys.argv[1], [sys.executable, *sys.argv[1:]])
    print(suite)
    return 1 if suite.failed else 0


if __name__ == "__main__":
    sys.exit(main())
