#!/usr/bin/env python3
"""Proves and builds the program of bench/tibench, which measures threads, cells and environments. Or it only tries it.

    bench/tibench.py            proves it, over the crates, and builds it: bench/out/tibench
    bench/tibench.py --try      compiles it with nothing proved, and has it do each of its parts with small numbers
    bench/tibench.py --fmt      lays its files out

It promises nothing to anybody, so the gate does not prove it: the gate tries it, which writes TAP. A file there has the ending .rattle,
because `rt ci` refuses a .rt or an .antt file outside crates/. What stands in specs/ and proofs/ are definitions and proofs.
"""

import pathlib
import shutil
import subprocess
import sys

sys.dont_write_bytecode = True

TOP = pathlib.Path(__file__).resolve().parent.parent
sys.path.insert(0, str(TOP / "ci"))

import tap
import unproved

NAME = "tibench"
SOURCE = pathlib.Path("bench", NAME)
BUILT = pathlib.Path("bench/out", NAME)
ENDING = ".rattle"
LINES = """1000 threads came and went, no two with one number
16 environments came and went, and found each word 0
nobody is there
"""


def add(root):
    """Adds the program to a copy of the crates. It gives the program's folder."""
    folder = unproved.add_program(root, NAME, **{"text" if file.stem == "main" else file.stem: file.read_text() for file in SOURCE.glob(f"*{ENDING}")})
    for part in ("specs", "proofs"):
        for file in (SOURCE / part).rglob(f"*{ENDING}"):
            made = folder / file.relative_to(SOURCE).with_suffix(".antt")
            made.parent.mkdir(parents=True, exist_ok=True)
            shutil.copy(file, made)
    return folder


def ill_laid(folder):
    """The sources that are not laid out, with the text that they should have."""
    subprocess.run(["rt", "fmt"], cwd=folder, check=True, stdout=subprocess.DEVNULL)
    files = ((SOURCE / f"{file.stem}{ENDING}", file.read_text()) for file in sorted((folder / "src").glob("*.rt")))
    return [(file, text) for file, text in files if file.read_text() != text]


def try_it(folder):
    """Whether it compiles, does all of its parts, and is laid out."""
    told = tap.Tap()
    told.result("laid out", "\n".join(f"{file}: bench/tibench.py --fmt does it" for file, _ in ill_laid(folder)))
    done = subprocess.run(["rt", "try", "--", "try"], cwd=folder, stdout=subprocess.PIPE, stderr=subprocess.STDOUT, text=True)
    does_all = not done.returncode and LINES in done.stdout
    told.result("does each of its parts", "" if does_all else f"status {done.returncode}\n{done.stdout}")
    return told.end()


def build(folder):
    """Proves it and builds it. It does one part, so that it is known to run."""
    BUILT.parent.mkdir(exist_ok=True)
    done = subprocess.run(["rt", "run", "--", "runs", "steps", "0", "32"], cwd=folder)
    if not done.returncode:
        shutil.copy(folder / "out" / NAME, BUILT)
    return done.returncode


def main():
    with unproved.copy_of_crates() as root:
        folder = add(root)
        match sys.argv[1:]:
            case []:
                return build(folder)
            case ["--try"]:
                return try_it(folder)
            case ["--fmt"]:
                for file, text in ill_laid(folder):
                    file.write_text(text)
                    print(f"laid out: {file}")
                return 0
    sys.exit(__doc__.strip())


if __name__ == "__main__":
    sys.exit(main())
