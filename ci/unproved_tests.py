#!/usr/bin/env python3
"""Compiles and runs the tests below tests/crates, with nothing proved.

    ci/unproved_tests.py [NAME..]        of these folders, or of all
    ci/unproved_tests.py --fmt           lays their files out, and runs none

Each folder tests/crates/NAME has the tests of a crate, with a module for each file NAME/*.rattle. Several share the module
made.rattle. They call nothing with a condition (`requires`), or assert the condition, so a proof would show what a run shows
(`ci/unproved.py`). A run whose contract is a theorem stands in a crate below crates/, and `rt ci` proves it. The files have an
ending of their own because `rt ci` refuses a .rt file that it does not read.

All folders are compiled as one crate, so that the crates below are compiled once. Besides, each folder has to be laid out as `rt fmt`
does it. It writes TAP.
"""

import pathlib
import re
import subprocess
import sys

sys.dont_write_bytecode = True

import tap
import unproved

TESTS = pathlib.Path("tests/crates")
ENDING = ".rattle"
SHARED = TESTS / f"made{ENDING}"
# The crate of all tests. A module of a folder has the folder's name before its own there.
ALL = "tests"
BETWEEN = "__"


def files_of(name):
    """The files of a folder of tests. If its tests use the module `made` and have none of their own, the one that folders share is
    among them."""
    own = sorted((TESTS / name).glob(f"*{ENDING}"))
    is_shared = all(file.name != SHARED.name for file in own) and any("crate::made::" in file.read_text() for file in own)
    return own + [SHARED] * is_shared


def add(root, name):
    """Adds a folder of tests to a copy of the crates, as a crate of its own. It gives the crate's folder."""
    return unproved.add(root, name, {file.stem: file.read_text() for file in files_of(name)})


def modules_of(name):
    """The modules of a folder in the crate of all tests: the text of each, by its name."""
    return {f"{name}{BETWEEN}{file.stem}": re.sub(r"\bcrate::", f"crate::{name}{BETWEEN}", file.read_text()) for file in files_of(name)}


def ill_laid(root, name):
    """The files of a folder of tests that are not laid out, with the text that they should have."""
    folder = add(root, name)
    subprocess.run(["rt", "fmt"], cwd=folder, check=True, stdout=subprocess.DEVNULL)
    files = ((file, (folder / "src" / f"{file.stem}.rt").read_text()) for file in files_of(name))
    return [(file, text) for file, text in files if file.read_text() != text]


def try_all(told, root, names):
    """Tells which tests of these folders passed, and whether all of them ran."""
    said, verdicts = unproved.try_tests(unproved.add(root, ALL, {module: text for name in names for module, text in modules_of(name).items()}))
    for name in names:
        own = {test: passed for test, passed in verdicts.items() if test.startswith(f"{name}{BETWEEN}")}
        for test, passed in own.items():
            told.result(f"{TESTS / name}: {test.removeprefix(name + BETWEEN)}", "" if passed else "it failed")
        count = sum(len(re.findall(r"^ *#\[test\]", file.read_text(), re.M)) for file in files_of(name))
        if len(own) != count:
            told.not_ok(f"{TESTS / name}: all tests run", f"{len(own)} of {count} ran")
    if told.failed:
        tap.comment(re.sub(rf"^\S*\bsrc/(\w+?){BETWEEN}(\w+)\.rt", rf"{TESTS}/\1/\2{ENDING}", said, flags=re.M))


def main():
    words = sys.argv[1:]
    names = [word for word in words if word != "--fmt"] or sorted(folder.name for folder in TESTS.iterdir() if folder.is_dir())
    with unproved.copy_of_crates() as root:
        ill = {name: ill_laid(root, name) for name in names}
        if "--fmt" in words:
            for file, text in (pair for pairs in ill.values() for pair in pairs):
                file.write_text(text)
                print(f"laid out: {file}")
            return 0
        told = tap.Tap()
        for name, pairs in ill.items():
            told.result(f"{TESTS / name}: laid out", "\n".join(f"{file}: ci/unproved_tests.py --fmt does it" for file, _ in pairs))
        try_all(told, root, names)
    return told.end()


if __name__ == "__main__":
    sys.exit(main())
