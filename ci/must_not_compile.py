#!/usr/bin/env python3
"""Tries what the compiler has to refuse, and not only the prover: a value used after it was moved, say.

    ci/must_not_compile.py [NAME..]        of these crates, or of all

A file crates/NAME/must-not-compile/WHAT.edit has an edit (`ci/edits.py`) and a line 'error: NAME', the error that the compiler gives
then, as 'borrow-e0382'. The check of a copy of the crate with the edit has to fail with that error. The crates below have to be proved.

It writes TAP, with a test for each edit.
"""

import pathlib
import re
import subprocess
import sys
import tempfile
from concurrent import futures

sys.dont_write_bytecode = True

import edits
import rattle
import tap


def fault_of(path):
    """What is wrong with how the compiler takes an edit, or nothing."""
    edit = edits.Edit.read(path)
    error = re.search(r"^error: (.+)$", path.read_text(), re.M)
    if not error:
        return "it has no line 'error:'"
    with tempfile.TemporaryDirectory(prefix="must-not-compile-") as room:
        copy = edits.Copy(path.parent.parent, room)
        try:
            text, _ = edit.applied((copy.folder / edit.file).read_text())
        except (edits.Misfit, OSError) as why:
            return str(why)
        (copy.folder / edit.file).write_text(text)
        done = rattle.call("check", rattle.crates()[edit.crate], cwd=room, stdout=subprocess.PIPE, stderr=subprocess.STDOUT, text=True, errors="replace")
    if done.returncode == 0:
        return "the crate is still proved"
    return "" if f"error[{error[1]}]" in done.stdout else f"the check fails without the error {error[1]}:\n{done.stdout[-1500:]}"


def main():
    paths = [path for crate in edits.crates_of(sys.argv[1:]) for path in sorted((crate / "must-not-compile").glob("*.edit"))]
    told = tap.Tap()
    with futures.ThreadPoolExecutor(edits.AT_ONCE) as pool:
        for path, fault in zip(paths, pool.map(fault_of, paths)):
            told.result(f"{pathlib.Path(*path.parts[-3:])} is refused", fault)
    return told.end()


if __name__ == "__main__":
    sys.exit(main())
