#!/usr/bin/env python3
"""Compares pages, examples, cases and schemas with the tree and with each other, and runs nothing of them.

    ci/pages.py [examples] [cases] [schemas] [names]      these, or all

- examples: each walk and each history of examples/, with its text, is a test of tests/crates/ti_driver_tests.
- cases: each word, text and fault of the definitions is in a case (`ci/coverage_of_cases.py`).
- schemas: the JSON Schemas say of each document what the program says of it (`ci/schemas.py`).
- names: what the pages show as `code` stands in the tree, outside the pages, so that no page speaks of what is gone. A name is a word
  with an underscore or a capital letter within it, or one behind a module's name, as in `Rule.Ends`. `name_..` stands for all that
  begin so. CHANGELOG.md is left out, since it speaks of what was.

It writes TAP.
"""

import json
import os
import pathlib
import re
import sys

sys.dont_write_bytecode = True

import cases
import coverage_of_cases
import process_ends
import schemas
import tap

TESTS = pathlib.Path("tests/crates/ti_driver_tests/walks.rattle")
NAME = re.compile(r"[A-Za-z]\w*")
INNER = re.compile(r"[A-Za-z0-9]_\w|[a-z][A-Z]")
OF_MODULE = re.compile(r"\b[A-Z]\w*\.([A-Za-z]\w*)")
# What is the toolchain's or the system's, and not in the tree.
OTHERS = {"RT_JOBS"}
BUILT = {".git", "__pycache__", "dist", "out", "target"}


def tell_examples(told):
    literals = [line.strip().rstrip(",") for line in TESTS.read_text().splitlines()]
    # a verdict may stand between a document and its text
    literals = [line for line in literals if line not in ("true", "false")]
    pairs = set(zip(literals, literals[1:]))
    for example in sorted(path for path in pathlib.Path("examples").glob("*.json") if not path.stem.startswith("live")):
        pair = tuple(json.dumps(path.read_text()) for path in (example, example.with_suffix(".out")))
        told.result(f"{example} is a test", "" if pair in pairs else f"it is none of {TESTS}")


def tell_cases(told):
    coverage_of_cases.tell(told, [*cases.walk_cases(), *cases.examples(), *cases.made(), *process_ends.ENDS], list(cases.lint_cases()))


def tell_schemas(told):
    schemas.tell(told, [*cases.walk_cases(), *cases.examples()])


def all_files():
    """The files of the tree, without what is built."""
    for folder, below, names in os.walk("."):
        below[:] = [name for name in below if name not in BUILT]
        yield from (pathlib.Path(folder, name) for name in names)


def missing_in(page, words):
    """The names that a page shows and that are no such word."""
    spans = re.findall(r"(?<!`)`([^`\n]+)`(?!`)", page.read_text())
    names = {name for span in spans for name in NAME.findall(span) if INNER.search(name)}
    names.update(name for span in spans for name in OF_MODULE.findall(span))
    return sorted(name for name in names - words if not (name.endswith("_") and any(word.startswith(name) for word in words)))


def tell_names(told):
    files = list(all_files())
    words = set(OTHERS)
    for file in files:
        if file.suffix != ".md":
            words.update(NAME.findall(str(file)), NAME.findall(file.read_text(errors="replace")))
    for page in sorted(file for file in files if file.suffix == ".md" and file.name != "CHANGELOG.md"):
        told.result(f"{page} names what is there", ", ".join(missing_in(page, words)))


PARTS = {"examples": tell_examples, "cases": tell_cases, "schemas": tell_schemas, "names": tell_names}


def main():
    parts = sys.argv[1:] or PARTS
    if not set(parts) <= set(PARTS):
        sys.exit(__doc__.strip())
    told = tap.Tap()
    for part in parts:
        before = told.count
        PARTS[part](told)
        if told.count == before:
            told.not_ok(f"{part}: there is something to compare")
    return told.end()


if __name__ == "__main__":
    sys.exit(main())
