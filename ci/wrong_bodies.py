#!/usr/bin/env python3
"""Tries wrong bodies that no contract refuses: a test has to fail with each.

    ci/wrong_bodies.py

A file of tests/wrong has an edit as `ci/edits.py` reads it, with files named from crates/ on, and before it a line
'shown by: FOLDER MODULE::TEST', which names the test of tests/crates that has to fail. These tests' modules are run with nothing
proved. Bodies are made together, in one copy. One that never ends has a line 'seconds: N', is made alone, and its test must not end
within this time. What does not compile is not refused. It writes TAP.
"""

import dataclasses
import pathlib
import re
import sys

sys.dont_write_bytecode = True

import tap
import unproved
import unproved_tests

BODIES = pathlib.Path("tests/wrong")


@dataclasses.dataclass
class Body:
    """A wrong body: its name, the test that shows it, its edit, as triples of a file, an old text and a new one, and how many seconds
    its test gets if the body never ends."""

    name: str
    shown_by: str
    edit: list
    seconds: str | None

    @classmethod
    def read(cls, path):
        words = [line.split(":", 1) for line in path.read_text().splitlines() if line]
        said = {word: rest.strip() for word, rest in words}
        texts = [rest.removeprefix(" ") for word, rest in words if word in ("old", "new")]
        return cls(path.stem, said["shown by"], [(said["file"], *pair) for pair in zip(texts[::2], texts[1::2])], said.get("seconds"))

    def test(self):
        """The name of its test in the crate of all tests."""
        return self.shown_by.replace(" ", unproved_tests.BETWEEN)

    def modules(self):
        """The module of its test and those that this uses: the text of each, by its name."""
        texts = unproved_tests.modules_of(self.shown_by.split()[0])
        found, left = {}, [self.test().split("::")[0]]
        while left:
            name = left.pop()
            if name not in found:
                found[name] = texts[name]
                left += re.findall(r"\bcrate::(\w+)", texts[name])
        return found

    def apply(self, root):
        for file, old, new in self.edit:
            path = root / "crates" / file
            text = path.read_text()
            if text.count(old) != 1:
                sys.exit(f"{self.name}: an old text stands in {file} {text.count(old)} times")
            path.write_text(text.replace(old, new))


def try_together(told, bodies, *flags):
    """Tells which of these bodies are refused when all are made."""
    with unproved.copy_of_crates() as root:
        modules = {}
        for body in bodies:
            body.apply(root)
            modules |= body.modules()
        said, verdicts = unproved.try_tests(unproved.add(root, unproved_tests.ALL, modules), *flags)
    for body in bodies:
        is_refused = verdicts.get(body.test()) is False
        told.result(f"{body.name} is refused by {body.shown_by}", "" if is_refused else said[-4000:] or "nothing is said")


def main():
    told = tap.Tap()
    bodies = [Body.read(path) for path in sorted(BODIES.glob("*.edit"))]
    try_together(told, [body for body in bodies if not body.seconds])
    for body in bodies:
        if body.seconds:
            try_together(told, [body], "--seconds", body.seconds)
    return told.end()


if __name__ == "__main__":
    sys.exit(main())
