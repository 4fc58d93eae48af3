#!/usr/bin/env python3
"""Installs what `make lib` has built into an empty prefix, and uses it from there alone.

    run.py [--gate] [NAME ..]

With --gate, only what a C compiler alone can show (test_basics.py), and what the headers' table refuses (test_generated.py). A NAME is
that of a module, a class or a test, as unittest has it. A test that needs a program that is missing is skipped. CC and CXX name the
compilers, otherwise cc and c++. It writes TAP.
"""

import sys
import unittest

sys.dont_write_bytecode = True

import installed
import tap

GATE = ("test_basics", "test_generated")
MODULES = (*GATE, "test_abi", "test_platforms", "test_bindings", "test_debian", "test_unwind")


def main(words):
    if not (installed.TOP / "dist/lib/libcebdyraq.a").is_file():
        sys.exit("there is no library in dist/: make lib builds it")
    chosen = [word for word in words if word != "--gate"] or (GATE if "--gate" in words else MODULES)
    return tap.run(unittest.defaultTestLoader.loadTestsFromNames(chosen))


if __name__ == "__main__":
    sys.exit(main(sys.argv[1:]))
