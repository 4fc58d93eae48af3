#!/usr/bin/env python3
"""Tries wrong bodies, which the prover has to refuse: the edits of crates/NAME/edits and crates/NAME/more-edits.

An edit is a line 'file: src/x.rt', then pairs of lines 'old: TEXT' and 'new: TEXT', where each old text stands in the file once
when its turn comes. The gate tries those of edits/: one for each relation that a crate's contracts speak of, the cheapest to refuse.

    ci/edits.py [NAME..]          the edits of edits/, of these crates or of all
    ci/edits.py --more [NAME..]   those of more-edits/
    ci/edits.py --apply [NAME..]  tries none, but looks whether each edit of both folders can be applied

The crates have to be proved. An edit is refused if a function that it changes is not proved then. The others of its crate keep
their contracts, so edits of different functions are made together, on a copy. For those of edits/ a check looks at their functions
alone, for those of more-edits/ at the whole crate. An edit that changes more than bodies is tried alone, and one that changes no
body by a check of the crate. What does not compile is not refused. If edits that are made together do not compile, each half of
them is made without the other.

It writes TAP, with a test for each edit.
"""

import dataclasses
import os
import pathlib
import re
import shutil
import subprocess
import sys
import tempfile
from concurrent import futures

sys.dont_write_bytecode = True

import rattle
import tap

CRATES = pathlib.Path("crates")
# How many crates are tried at once. A check with one job keeps a processor busy, and takes up to 4 GB.
AT_ONCE = len(os.sched_getaffinity(0))


class Misfit(Exception):
    """Why an edit cannot be applied."""


@dataclasses.dataclass(frozen=True)
class Edit:
    """An edit: its crate and its name, the file that it changes, and the pairs of an old and a new text."""

    crate: str
    name: str
    file: str
    pairs: tuple

    @classmethod
    def read(cls, path):
        words = [line.split(":", 1) for line in path.read_text().splitlines() if line]
        texts = [rest.removeprefix(" ") for word, rest in words if word in ("old", "new")]
        file = next((rest.strip() for word, rest in words if word == "file"), "")
        return cls(path.parent.parent.name, path.stem, file, tuple(zip(texts[::2], texts[1::2])))

    def applied(self, text):
        """The file's text after the edit, and the function whose body each place is in."""
        functions = set()
        for old, new in self.pairs:
            if text.count(old) != 1:
                raise Misfit(f"an old text stands in {self.file} {text.count(old)} times")
            functions.add(function_at(text, text.index(old)))
            text = text.replace(old, new)
        if not functions:
            raise Misfit("it has no pair of an old and a new text")
        return text, {function and (function if "::" in function else f"{self.module()}::{function}") for function in functions}

    def module(self):
        """The name of the file's module."""
        name = pathlib.Path(self.file).stem
        return self.crate if name in ("lib", "main") else name


def function_at(text, place):
    """The function in whose body a place of a laid out text is: its name, with that of its type before it, if it has one. None if
    the place is in no body."""
    for head in reversed(list(re.finditer(r"^( *)(?:[\w()\"]+ )*fn (\w+)", text[:place], re.M))):
        end = re.compile(rf"^{head[1]}}}$", re.M).search(text, head.end())
        body = re.compile(rf"\{{$|^{head[1]}\{{", re.M).search(text, head.end())
        if end and body and body.start() < place < end.start():
            return of_type(text, head) + head[2]
    return None


def of_type(text, head):
    """The name of the type before a function's, as the prover prints it. (Of a method it prints the type's module, wherever the
    method stands. In front of a trait's method stand the type and the trait, with what they are given.)"""
    if not head[1]:
        return ""
    impl = list(re.finditer(r"^impl(?:<([^{]*?)>)? (?:([^{]*) for )?([^{]*?) (?:where|\{)", text[: head.start()], re.M))[-1]
    given, trait, name = impl.groups("")
    unnamed = set(re.findall(r"(\w+)(?=:|,|$)", given))
    named = [word for word in re.findall(r"\w+", f"{name} {trait}") if word not in unnamed]
    return "".join(word[0].upper() + word[1:] for word in (named if trait else named[:1])) + "::"


@dataclasses.dataclass
class Said:
    """What a check said: the functions with a goal that is not proved, those that only call such a one, and the end of its output if
    it failed and names none, since something does not compile."""

    unproved: set
    callers: set
    fault: str

    @staticmethod
    def names(functions, paths):
        """Whether one of the functions is named by one of the paths that the prover printed."""
        return any(function and path.endswith(f"::{function}") or path == function for function in functions for path in paths)

    @classmethod
    def of(cls, crate, folder, *flags):
        done = rattle.call("check", crate, *flags, cwd=folder, stdout=subprocess.PIPE, stderr=subprocess.STDOUT, text=True, errors="replace")
        callers = set(re.findall(r"^fn (\S+): (?:no proof: it|not proved; it) calls", done.stdout, re.M))
        unproved = set(re.findall(r"^fn (\S+): (?:not proved(?!; it calls)|no proof: (?!it calls))", done.stdout, re.M))
        return cls(unproved, callers, done.stdout[-800:] if done.returncode and not callers | unproved else "")


class Copy:
    """A crate's copy, in which edits are made. Its checks keep what they proved."""

    def __init__(self, crate, room):
        self.crate, self.folder = crate, pathlib.Path(room)
        for part in rattle.PARTS:
            if (crate / part).is_dir():
                shutil.copytree(crate / part, self.folder / part)

    def choose(self, waiting):
        """Edits that can be tried together, with their functions, and the texts of files with all of them."""
        texts, taken, chosen = {}, set(), []
        for edit in waiting:
            try:
                text, functions = edit.applied(texts.get(edit.file) or (self.crate / edit.file).read_text())
            except Misfit:
                continue
            if functions & taken or None in functions and chosen:
                continue
            texts[edit.file], taken = text, taken | functions
            chosen.append((edit, functions))
            if None in functions:
                break
        return chosen, texts

    def said_of(self, chosen, texts, is_whole):
        """What a check of the crate says of these edits, or a check of their functions alone."""
        functions = set().union(*(functions for _, functions in chosen)) - {None}
        for file, text in texts.items():
            (self.folder / file).write_text(text)
        only = () if is_whole else (word for function in sorted(functions) for word in ("--only", function))
        said = Said.of(rattle.crates()[self.crate.name], self.folder, "--incremental", "incremental", *only)
        for file in texts:
            shutil.copy(self.crate / file, self.folder / file)
        return said

    def refused(self, edits, is_whole):
        """Those of the edits that are refused. One whose function only calls another that is not proved is tried again."""
        refused, waiting = [], list(edits)
        while waiting:
            chosen, texts = self.choose(waiting)
            said = self.said_of(chosen, texts, is_whole)
            tried = [edit for edit, _ in chosen]
            if said.fault and len(tried) > 1:
                half = len(tried) // 2
                refused += self.refused(tried[:half], is_whole) + self.refused(tried[half:], is_whole)
                waiting = [edit for edit in waiting if edit not in tried]
                continue
            if said.fault:
                tap.comment(f"{self.crate}: this does not compile: {[edit.name for edit in tried]}\n{said.fault}")
            now = [edit for edit, functions in chosen if said.names(functions, said.unproved) or functions == {None} and said.unproved]
            again = [edit for edit, functions in chosen if edit not in now and said.names(functions, said.callers)]
            done = [edit for edit, _ in chosen if not now or edit not in again]
            refused, waiting = refused + now, [edit for edit in waiting if done and edit not in done]
        return refused


def edits_of(crate, folder):
    return [Edit.read(path) for path in sorted((crate / folder).glob("*.edit"))]


def crates_of(names):
    """The folders of these crates, or of all."""
    return sorted(crate for crate in CRATES.iterdir() if not names or crate.name in names)


def apply_all(names):
    told = tap.Tap()
    for crate in crates_of(names):
        for edit in edits_of(crate, "edits") + edits_of(crate, "more-edits"):
            try:
                edit.applied((crate / edit.file).read_text())
                told.ok(f"{edit.crate}/{edit.name} can be applied")
            except (Misfit, OSError) as why:
                told.not_ok(f"{edit.crate}/{edit.name} can be applied", str(why))
    return told.end()


def refused(crate, edits, is_whole):
    with tempfile.TemporaryDirectory(prefix="edits-") as room:
        return Copy(crate, room).refused(edits, is_whole)


def try_all(folder, names):
    work = [(crate, edits) for crate in crates_of(names) if (edits := edits_of(crate, folder))]
    told = tap.Tap()
    with futures.ThreadPoolExecutor(AT_ONCE) as pool:
        tries = [pool.submit(refused, crate, edits, folder == "more-edits") for crate, edits in work]
        for (_, edits), found in zip(work, tries):
            for edit in edits:
                told.result(f"{edit.crate}/{edit.name} is refused", "" if edit in found.result() else "its crate is proved with it, or does not compile")
    return told.end()


def main():
    words = sys.argv[1:]
    names = [word for word in words if not word.startswith("--")]
    if "--apply" in words:
        return apply_all(names)
    return try_all("more-edits" if "--more" in words else "edits", names)


if __name__ == "__main__":
    sys.exit(main())
