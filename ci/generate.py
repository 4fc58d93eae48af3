#!/usr/bin/env python3
"""Writes what says the same as the headers of the library for C: the names that the shared library exports, names and texts of codes,
the calls after which watches are told, declarations of the bindings, the page of codes, and the version wherever it stands.

    ci/generate.py            writes
    ci/generate.py --check    writes nothing, and fails if a file is not as it would be written

A file of WHOLE is written whole. In one of BLOCKS a block is, between a line that says so and a line that ends it, and in one of VERSIONS
the version. What is generated is kept in the repository, so nobody who builds needs this. --check writes TAP.
"""

import difflib
import re
import sys
from dataclasses import dataclass

sys.dont_write_bytecode = True

import api
import codes
import header
import made_c
import made_page
import made_python
import made_rust
import tap

TOP = header.C.parent
WHOLE = {
    "bindings/python/cebdyraq/_api.py": made_python.declarations,
    "bindings/rust/cebdyraq-sys/src/api.rs": made_rust.declarations,
    "c/cebdyraq.map": made_c.exported,
    "c/cebdyraq_calls.c": made_c.calls_file,
    "c/cebdyraq_codes.c": made_c.codes_file,
    "docs/CODES.md": made_page.codes_page,
}
# The blocks of a file, by their names.
BLOCKS = {
    "bindings/rust/cebdyraq/src/error.rs": {"errors": made_rust.errors},
    "c/cebdyraq.hpp": {"enums": made_c.cxx_enums},
}


@dataclass(frozen=True)
class Version:
    """Where the version stands: how often, behind what, and how many of its numbers."""

    path: str
    before: str
    count: int = 1
    numbers: int = 3


VERSIONS = (
    Version("bindings/python/pyproject.toml", r'^version = "'),
    Version("bindings/rust/Cargo.toml", r'^version = "'),
    Version("bindings/rust/Cargo.lock", r'name = "cebdyraq(?:-sys)?"\nversion = "', count=2),
    Version("bindings/rust/cebdyraq/Cargo.toml", r'^cebdyraq-sys = .* version = "'),
    Version("bindings/rust/cebdyraq-sys/build.rs", r'"cebdyraq >= ', numbers=2),
)


def with_block(text, name, made):
    """A text with a block between its two lines, which are comments."""
    parts = re.split(rf"(// {name}: .*\n)(?:.*\n)*?(// end of {name}\n)", text)
    if len(parts) != 4:
        raise ValueError(f"there is no block {name}")
    before, first, last, after = parts
    return before + first + made + last + after


def with_version(text, place, version):
    number = ".".join(map(str, version[:place.numbers]))
    made, count = re.subn(rf'({place.before})[\d.]+(?=")', rf"\g<1>{number}", text, flags=re.M)
    if count != place.count:
        raise ValueError(f"{place.path}: the version stands {count} times, and not {place.count} times")
    return made


def generated(table):
    """The text of each file, as it is to be."""
    none = codes.Codes(table).given_by_none()
    if none:
        raise ValueError(f"no function gives {', '.join(none)}")
    files = {path: make(table) for path, make in WHOLE.items()}
    for path, blocks in BLOCKS.items():
        files[path] = (TOP / path).read_text()
        for name, make in blocks.items():
            files[path] = with_block(files[path], name, make(table))
    for place in VERSIONS:
        files[place.path] = with_version((TOP / place.path).read_text(), place, table.version)
    return files


def difference(path, text):
    """How a file differs from this text, or an empty text."""
    before = (TOP / path).read_text() if (TOP / path).exists() else ""
    return "".join(difflib.unified_diff(before.splitlines(True), text.splitlines(True), path, f"{path}, as generated"))


def check(files):
    told = tap.Tap()
    for path, text in files.items():
        told.result(path, difference(path, text))
    return told.end()


def write(files):
    for path, text in files.items():
        if not (TOP / path).exists() or (TOP / path).read_text() != text:
            (TOP / path).write_text(text)
            print(f"written: {path}")
    return 0


def main(words):
    if words not in ([], ["--check"]):
        sys.exit(__doc__.strip())
    try:
        files = generated(api.read())
    except (SyntaxError, ValueError) as why:
        sys.exit(f"refused: {why}")
    return (check if words else write)(files)


if __name__ == "__main__":
    sys.exit(main(sys.argv[1:]))
