#!/usr/bin/env python3
"""The real jdb and programs over JDI at threads of Lua and of C (Debian's openjdk-17-jdk-headless), and malformed packets.

    tests/jdb/run.py [CQLUA [DIST]]     the host and the library, otherwise hosts/lua/out/cqlua and dist

What wants a program that is missing is skipped. It writes TAP.
"""

import sys
import unittest

sys.dont_write_bytecode = True

import places
import tap

MODULES = ("test_wire", "test_jdb", "test_stops", "test_suspended", "test_variables", "test_jdi")


def main():
    places.set_places(sys.argv[1:])
    if not places.cqlua.is_file():
        sys.exit(f"there is no {places.cqlua}: make lua builds it")
    return tap.run(unittest.defaultTestLoader.loadTestsFromNames(MODULES))


if __name__ == "__main__":
    sys.exit(main())
