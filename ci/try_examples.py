#!/usr/bin/env python3
"""Runs tiwalk on all examples with nothing proved, by one compilation, and shows each document's lines.

    ci/try_examples.py

The program is compiled by `rt try` with checks: it stops at an index out of bounds, an overflow, a failed unwrap or a bad
access. It says of each document how the run ended, and that nothing was proved. Each document's lines are compared with the
text beside it. The last line is 'N as expected, M not'.
"""

import pathlib
import re
import subprocess
import sys
import tempfile

EXAMPLES = pathlib.Path("examples")
CRATE = pathlib.Path("crates/tiwalk")
HEAD = re.compile(r"^== (\S+)\n", re.MULTILINE)


def word_of(name):
    """The command that an example of this name is for, or none for a walk."""
    if name.startswith("live"):
        return "live"
    return "check" if "history" in name else None


def fill(folder):
    """Writes each example there as `rt try --cases` wants it, and gives their names."""
    names = sorted(path.stem for path in EXAMPLES.glob("*.json"))
    for name in names:
        folder.joinpath(name).write_bytes(EXAMPLES.joinpath(f"{name}.json").read_bytes())
        if word_of(name):
            folder.joinpath(f"{name}.args").write_text(word_of(name) + "\n")
    return names


def lines_of(output):
    """What each case wrote, by its name: a line `== NAME` comes before it."""
    parts = HEAD.split(output)
    return dict(zip(parts[1::2], parts[2::2]))


def main():
    if len(sys.argv) > 1:
        sys.exit(__doc__.strip())
    print("tiwalk is compiled once, with nothing proved, and run on each document of examples/: about a minute.", flush=True)
    with tempfile.TemporaryDirectory() as folder:
        names = fill(pathlib.Path(folder))
        tried = subprocess.run(["rt", "try", "--cases", folder], cwd=CRATE, stdout=subprocess.PIPE, text=True)
    written = lines_of(tried.stdout)
    if not written:
        print(tried.stdout, end="")
        return 1
    wrong = 0
    for name in names:
        same = written.get(name) == EXAMPLES.joinpath(f"{name}.out").read_text()
        wrong += not same
        print(f"\nexamples/{name}.json" + (f" ({word_of(name)})" if word_of(name) else "") + ("" if same else "   NOT AS EXPECTED"))
        print(written.get(name, ""), end="")
    print(f"\n{len(names) - wrong} as expected, {wrong} not")
    return 1 if wrong else 0


if __name__ == "__main__":
    sys.exit(main())
