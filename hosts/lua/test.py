#!/usr/bin/env python3
"""Builds cqlua and tests it: python3 test.py [NAME..] runs all tests, or those whose name has one of the words. It writes TAP.

Variables of the Makefile go on to it from the environment: CEBDYRAQ, CEBDYRAQ_LIB, OUT. The tests are in tests_*.py.
"""
import signal
import subprocess
import sys
import unittest

sys.dont_write_bytecode = True

from shared import HERE, LUA

sys.path.append(str(HERE.parent.parent / "ci"))

import tap

MODULES = ("tests_run", "tests_prof", "tests_late", "tests_deep", "tests_end", "tests_debug", "tests_serve", "tests_attach",
           "tests_classes", "tests_stops", "tests_variables", "tests_build")


def main():
    # a shell that runs this in the background has it ignore Ctrl-C, and `nohup` a hang-up, and then cqlua would too
    signal.signal(signal.SIGINT, signal.default_int_handler)
    signal.signal(signal.SIGHUP, signal.SIG_DFL)
    if not LUA:
        sys.exit("test.py wants Debian's lua5.4")
    if subprocess.run(["make", "-s", "-C", str(HERE)]).returncode:
        sys.exit(1)
    loader = unittest.TestLoader()
    loader.testNamePatterns = [f"*{word}*" for word in sys.argv[1:]] or None
    return tap.run(loader.loadTestsFromNames(MODULES))


if __name__ == "__main__":
    sys.exit(main())
