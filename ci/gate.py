#!/usr/bin/env python3
"""Runs the test programs of the gate, and `rt ci` between those that need no proof and those that run what it has proved and built.

    ci/gate.py [JUNIT]      also writes all results into this file, as JUnit's XML

Each test program writes TAP (`ci/tap.py`). What passed is only counted. The toolchain's `rt ci` has a last line of its own,
'N passed, M failed'. It leaves the libraries that it proved, and `tiwalk` and `tilint` in their crates' `out/` as LLVM builds them, and,
where Rattle's own compiler took them, as that builds them. Of the static library it leaves nothing, so `rattle build` proves that crate
once more, over the libraries below it as they lie there (`ci/rattle.py`).

The last line is 'N passed, M failed' of all, and the line before it has the processor time that all of this took.
"""

import os
import pathlib
import re
import resource
import shutil
import subprocess
import sys
from xml.etree import ElementTree

sys.dont_write_bytecode = True

import lib
import rattle
import tap

WALK = "crates/tiwalk/out/tiwalk"
LINT = "crates/tilint/out/tilint"
NO_CHARACTER_OF_XML = re.compile("[^\t\n\x20-\ud7ff\ue000-\ufffd\U00010000-\U0010ffff]")


def rt_ci():
    """What `rt ci` proves and runs. Its output is passed on, but for its last line."""
    suite, last = tap.Suite("rt ci"), ""
    with subprocess.Popen(["rt", "ci"], stdout=subprocess.PIPE, text=True, errors="replace") as started:
        for line in started.stdout:
            print(last, end="", flush=True)
            last = line
    if counts := re.fullmatch(r"(\d+) passed, (\d+) failed\n", last):
        suite.passed, suite.failed = map(int, counts.groups())
    else:
        print(last, end="")
    if not counts or started.returncode and not suite.failed:
        suite.fail(f"it ended with status {started.returncode}")
    return suite


class Gate:
    """Runs test programs, and keeps their results."""

    def __init__(self):
        self.suites = []

    def add(self, suite):
        print(suite, flush=True)
        self.suites.append(suite)
        return not suite.failed

    def run(self, name, *words, program=sys.executable):
        return self.add(tap.read(name, [program, *map(str, words)]))

    def count(self, word):
        return sum(getattr(suite, word) for suite in self.suites)

    def run_unproved(self):
        self.run("the reader of TAP", "ci/test_tap.py")
        self.run("tests without a proof", "ci/unproved_tests.py")
        self.run("wrong bodies that a test must refuse", "ci/wrong_bodies.py")
        self.run("the benchmark", "bench/tibench.py", "--try")

    def run_built(self):
        """The programs that `rt ci` has built."""
        others = [program + ".by-rattle" for program in (WALK, LINT) if pathlib.Path(program + ".by-rattle").is_file()]
        for program in (WALK, LINT, *others):
            self.run(f"cases on {program}", "ci/cases.py", program)
        self.run("refused allocations", "ci/refused_memory.py", "--gate", WALK)

    def run_proved(self):
        """The libraries that `rt ci` has proved, and that for C, which is built first."""
        self.run("edits that the prover must refuse", "ci/edits.py")
        self.run("what the compiler must refuse", "ci/must_not_compile.py")
        if not shutil.which(os.environ.get("CC", "cc")):
            self.add(tap.Suite("the library for C: there is no C compiler", skipped=1))
        elif archive := self.built_archive():
            self.run("C programs", "tests/c/run.py", archive)
            self.run("as it is installed", "tests/install/run.py", "--gate")
            self.run("schedules of the waiting layer", "tests/model/run.py", archive, "--gate")
        self.run("snippets", "ci/snippets.py")

    def built_archive(self):
        """The archive of the static library, once `dist/` is built over it, or None if either is not."""
        archive = rattle.build_archive(lib.CRATE.name, jobs=2)
        if archive and subprocess.run([sys.executable, "ci/lib.py", archive]).returncode == 0:
            return archive
        self.add(tap.Suite("the library for C is not built", failed=1))
        return None


def write_junit(suites, path):
    """Writes the results as JUnit's XML."""
    def text(words):
        return NO_CHARACTER_OF_XML.sub("?", words)

    root = ElementTree.Element("testsuites")
    for suite in suites:
        counts = {"tests": suite.passed + suite.failed + suite.skipped, "failures": suite.failed, "skipped": suite.skipped}
        inner = ElementTree.SubElement(root, "testsuite", name=suite.name, **{word: str(count) for word, count in counts.items()})
        for point in suite.points:
            case = ElementTree.SubElement(inner, "testcase", classname=suite.name, name=text(point.name), time=f"{point.seconds:.3f}")
            if point.word == tap.FAILED:
                ElementTree.SubElement(case, "failure").text = text(point.detail)
            elif point.word == tap.SKIPPED:
                ElementTree.SubElement(case, "skipped", message=text(point.detail))
    ElementTree.ElementTree(root).write(path, encoding="utf-8", xml_declaration=True)


def main():
    gate = Gate()
    gate.run_unproved()
    is_proved = gate.add(rt_ci())
    gate.run_built()
    if is_proved:
        gate.run_proved()
    if sys.argv[1:]:
        write_junit(gate.suites, sys.argv[1])
    used = resource.getrusage(resource.RUSAGE_CHILDREN)
    print(f"it took {(used.ru_utime + used.ru_stime) / 60:.0f} processor minutes")
    print(f"{gate.count('passed')} passed, {gate.count('failed')} failed")
    return 1 if gate.count("failed") else 0


if __name__ == "__main__":
    sys.exit(main())
