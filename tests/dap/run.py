#!/usr/bin/env python3
"""The debug adapter tools/dap, as `tools/dap/build.py` builds it, at threads of Lua and of C: by a client that checks each message
against DAP's schema, and by Emacs (Debian's elpa-dap-mode) and Kate (with xvfb, xdotool and imagemagick), where they are.

    tests/dap/run.py [CQLUA [DIST]]     the host and the library, otherwise hosts/lua/out/cqlua and dist

CQ_PICTURES names a folder for pictures of the editors. What wants a program that is missing is skipped. It writes TAP.
"""

import pathlib
import sys
import unittest

sys.dont_write_bytecode = True

import places
import tap

MODULES = ("test_schema", "test_framing", "test_expressions", "test_target", "test_extension", "test_begin", "test_breakpoints", "test_threads",
           "test_frames", "test_runtime", "test_python", "test_editors")


def main(words):
    places.cqlua = pathlib.Path(words[0]).resolve() if words else places.cqlua
    places.dist = pathlib.Path(words[1]).resolve() if words[1:] else places.dist
    for path, target in ((places.cqlua, "make lua"), (places.ADAPTER, "make dap-adapter")):
        if not path.is_file():
            sys.exit(f"there is no {path}: {target} builds it")
    return tap.run(unittest.defaultTestLoader.loadTestsFromNames(MODULES))


if __name__ == "__main__":
    sys.exit(main(sys.argv[1:]))
