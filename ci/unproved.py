"""Compiles and runs tests and programs over the crates, with nothing proved, in a copy outside the repository.

`rt ci` proves each test that stands below crates/. If a test calls nothing with a condition (`requires`), or asserts the
condition, that proof shows what its run shows. `rt try --test` compiles the tests of a crate and runs them, in half a minute.
"""

import contextlib
import pathlib
import re
import shutil
import subprocess
import tempfile

CRATES = pathlib.Path("crates")
LISTED = pathlib.Path("crates.txt")
LEFT_OUT = ("out", "edits", "more-edits", "must-not-compile")
# How long the tests of a crate may take. They take seconds, and a minute on a busy machine.
SECONDS = 240


def libraries_of(text):
    """The crates that a text names, and those on which the repository's among them stand."""
    below = dict(re.findall(r"^(\w+)[^:#\n]*:(.*)$", LISTED.read_text(), re.M))
    named = {crate for crate in below if re.search(rf"\b{crate}::", text)}
    used = set(re.findall(r"^\s*use (\w+)::", text, re.M)) - {"std", "crate"}
    return sorted(named.union(used, *(below[crate].split() for crate in named)))


def left_out(folder, names):
    """What of a crate's folder is not copied. Folders of proofs may have such names, and are."""
    return {name for name in names if name in LEFT_OUT} if pathlib.Path(folder).parent == CRATES else set()


@contextlib.contextmanager
def copy_of_crates():
    """A folder with a copy of the crates, for as long as it is needed."""
    with tempfile.TemporaryDirectory(prefix="unproved-") as folder:
        root = pathlib.Path(folder)
        shutil.copytree(CRATES, root / CRATES, ignore=left_out)
        for file in (LISTED, "HANDLES"):
            shutil.copy(file, root)
        yield root


def add(root, name, modules):
    """Adds a crate of tests to a copy: the text of each module, by its name. It gives the crate's folder."""
    with open(root / LISTED, "a", encoding="utf-8") as listed:
        listed.write(f"{name} tests_may=Threads+Wait: {' '.join(libraries_of(' '.join(modules.values())))}\n")
    source = root / CRATES / name / "src"
    source.mkdir(parents=True)
    for module, text in modules.items():
        (source / f"{module}.rt").write_text(text)
    heads = (f"#[cfg(test)]\nmod {module};\n" for module in modules)
    (source / "lib.rt").write_text("//! Tests.\n#![tactic(auto)]\n\n" + "".join(heads))
    return source.parent


def add_program(root, name, text, **modules):
    """Adds a program to a copy: the text of its root, and of each other module by its name. It gives the program's folder."""
    with open(root / LISTED, "a", encoding="utf-8") as listed:
        listed.write(f"{name}: {' '.join(libraries_of(' '.join([text, *modules.values()])))}\n")
    source = root / CRATES / name / "src"
    source.mkdir(parents=True)
    for module, its_text in {"main": text, **modules}.items():
        (source / f"{module}.rt").write_text(its_text)
    return source.parent


def try_tests(folder, *flags):
    """What the toolchain says of a crate's tests, and whether each passed, by its name."""
    done = subprocess.run(["rt", "try", "--test", "--seconds", str(SECONDS), *flags], cwd=folder, stdout=subprocess.PIPE, stderr=subprocess.STDOUT, text=True)
    return done.stdout, {name: verdict == "ok" for name, verdict in re.findall(r"^test (\S+) \.\.\. (\S+)$", done.stdout, re.M)}
