#!/usr/bin/env python3
"""Runs the tests of `ti_driver_tests` and `ti_agent_tests` with the first allocation of each test refused, then with the second
alone, and so on.

The tests of `memory` have to pass each time: the call that wants the memory says 110, and all is as it was. (The other
tests want ample memory, and fail where theirs is refused.) A crate's turn ends with the first number at which the tests of
`lists` or `traces` pass too: they make the same core, or the same cells, and more calls, so no test of `memory` takes so
much memory. It writes TAP.

    ci/refused_tests.py [FIRST [LAST]]        from allocation 1 to at most 200 by default

Each number takes a build of the tests, some 20 seconds.
"""

import sys

sys.dont_write_bytecode = True

import tap
import unproved
import unproved_tests


def turn(told, folder, greater, numbers):
    """Tells which tests of `memory` pass in a crate, until the tests of `greater` pass."""
    for refused in numbers:
        said, verdicts = unproved.try_tests(folder, "--fail-alloc", str(refused))
        memory = {name: passed for name, passed in verdicts.items() if name.startswith("memory::")}
        for name, passed in memory.items():
            told.result(f"{folder.name}: {name} with allocation {refused} refused", "" if passed else "it fails")
        if not memory:
            return told.not_ok(f"{folder.name}: the tests run with allocation {refused} refused", said)
        if all(passed for name, passed in verdicts.items() if name.startswith(greater)):
            break


def main():
    first, last = int(sys.argv[1]) if len(sys.argv) > 1 else 1, int(sys.argv[2]) if len(sys.argv) > 2 else 200
    told = tap.Tap()
    with unproved.copy_of_crates() as root:
        for name, greater in (("ti_driver_tests", "lists::"), ("ti_agent_tests", "traces::")):
            turn(told, unproved_tests.add(root, name), greater, range(first, last + 1))
    return told.end()


if __name__ == "__main__":
    sys.exit(main())
