#!/usr/bin/env python3
"""Tests that a program's TAP is read as it should be: what fails, and what a program that breaks off counts as."""

import contextlib
import io
import sys
import unittest

sys.dont_write_bytecode = True

import tap

RESULTS = r"""
t = tap.Tap()
t.ok('a # SKIP \\ # b')
t.not_ok('c', 'd\n1..7\nok 3 - e')
t.skip('f', 'g')
sys.exit(t.end())
"""
SUITE = """
import unittest
class Shown(unittest.TestCase):
    def test_passes(self):
        for number in range(3):
            with self.subTest(number=number):
                self.assertNotEqual(number, WRONG)
    def test_skips(self):
        self.skipTest("no # here")
    @classmethod
    def tearDownClass(cls):
        assert WRONG != 9, "the end"
sys.exit(tap.run(unittest.defaultTestLoader.loadTestsFromTestCase(Shown)))
"""


def results_of(text):
    """How a program with this text counts: passed, failed, skipped. Also its results, and what is shown of it."""
    with contextlib.redirect_stdout(io.StringIO()) as shown:
        suite = tap.read("program", [sys.executable, "-c", f"import os, sys\nsys.path.append({sys.path[0]!r})\nimport tap\n{text}"])
    return (suite.passed, suite.failed, suite.skipped), suite.points, shown.getvalue()


class Reading(unittest.TestCase):
    def expect(self, text, wanted):
        found, points, shown = results_of(text)
        self.assertEqual(found, wanted, shown)
        return points, shown

    def test_results(self):
        points, shown = self.expect(RESULTS, (1, 1, 1))
        self.assertEqual([(point.name, point.word, point.detail) for point in points],
                         [("a # SKIP \\ # b", tap.PASSED, ""), ("c", tap.FAILED, "d\n1..7\nok 3 - e\n"), ("f", tap.SKIPPED, "g")])
        self.assertEqual(shown, "not ok 2 - c\n# d\n# 1..7\n# ok 3 - e\nok 3 - f # SKIP g\n")

    def test_all_skipped(self):
        self.expect("sys.exit(tap.skip_all('no compiler'))", (0, 0, 1))

    def test_crash_before_the_plan(self):
        self.expect("t = tap.Tap()\nt.ok('a')\nos.abort()", (1, 1, 0))

    def test_end_before_the_plan(self):
        self.expect("t = tap.Tap()\nt.ok('a')", (1, 1, 0))

    def test_plan_that_is_not_met(self):
        self.expect("t = tap.Tap()\nt.ok('a')\nprint('1..2')", (1, 1, 0))

    def test_numbers_out_of_order(self):
        self.expect("print('ok 2 - a\\nok 1 - b\\n1..2')", (2, 1, 0))

    def test_status_that_does_not_fit(self):
        self.expect("t = tap.Tap()\nt.ok('a')\nt.end()\nsys.exit(3)", (1, 1, 0))

    def test_failure_with_status_0(self):
        self.expect("t = tap.Tap()\nt.not_ok('a')\nt.end()", (0, 1, 0))

    def test_no_tests(self):
        self.expect("sys.exit(tap.Tap().end())", (0, 1, 0))
        self.expect("", (0, 1, 0))

    def test_unittest(self):
        self.expect("WRONG = 5\n" + SUITE, (4, 0, 1))
        points, _ = self.expect("WRONG = 1\n" + SUITE, (2, 1, 1))
        self.assertEqual([point.name for point in points if point.word == tap.FAILED], ["Shown.test_passes (number=1)"])
        self.expect("WRONG = 9\n" + SUITE, (4, 1, 1))


if __name__ == "__main__":
    sys.exit(tap.run(unittest.defaultTestLoader.loadTestsFromName("__main__")))
