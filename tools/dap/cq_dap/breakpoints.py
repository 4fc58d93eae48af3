"""Breakpoints of the client, and what becomes of them as classes are loaded."""
from __future__ import annotations

import re
from collections.abc import Callable, Iterator
from dataclasses import dataclass, field
from typing import Any, NamedTuple

from . import jdwp
from .expressions import Expression, LookUp, NoValue, is_true, text_of
from .jdwp import Class, Jdwp, Method
from .packets import BREAKPOINT, JdwpError
from .sources import Sources

HITS = re.compile(r"\s*(==|=|>=|>|<=|<|%)?\s*([1-9]\d{0,8})\s*", re.ASCII)
HOLDS: dict[str, Callable[[int, int], bool]] = {
    ">=": lambda hits, count: hits >= count, ">": lambda hits, count: hits > count, "<": lambda hits, count: hits < count,
    "<=": lambda hits, count: hits <= count, "%": lambda hits, count: hits % count == 0, "==": lambda hits, count: hits == count}

Place = tuple[Method, int, int]  # a method, an index in it, and its line


class Wish(NamedTuple):
    """What the client says of a breakpoint: a line of a file here, or a function, and when it counts."""
    path: str = ""
    line: int = 0
    function: str = ""
    condition: str = ""
    hits: str = ""
    log: str = ""


@dataclass
class Breakpoint:
    id: int
    wish: Wish
    condition: Expression | None = None
    log: list[str | Expression] = field(default_factory=list)
    sign: str = ""   # how hits are compared with `count`
    count: int = 0
    error: str = ""
    hits: int = 0
    line: int = 0    # where it was set
    requests: set[int] = field(default_factory=set)  # JDWP's
    classes: set[int] = field(default_factory=set)   # in which it was set
    is_counted: bool = False  # whether the runtime counts the hits, in each class apart

    @property
    def is_plain(self) -> bool:
        """Whether each hit that the runtime tells is a stop."""
        return not (self.condition or self.log or self.sign) or self.is_counted

    def describe(self) -> dict[str, Any]:
        """A Breakpoint of the protocol, with lines from 1."""
        found: dict[str, Any] = {"id": self.id, "verified": bool(self.requests)}
        if self.line or self.wish.line:
            found["line"] = self.line or self.wish.line
        if self.wish.path:
            found["source"] = {"path": self.wish.path}
        if self.error or not self.requests:
            found["message"] = self.error or ("No such function is loaded yet." if self.wish.function else "The file is not loaded yet.")
        return found

    def message(self, look_up: LookUp) -> str:
        """What a log point writes."""
        return "".join(part if isinstance(part, str) else text_of(part(look_up)) for part in self.log)

    def is_due(self, look_up: LookUp) -> bool:
        """Counts a hit, and says whether it is to be told."""
        if self.condition and not is_true(self.condition(look_up)):
            return False
        self.hits += 1
        return not self.sign or HOLDS[self.sign](self.hits, self.count)


def read_wish(number: int, wish: Wish) -> Breakpoint:
    """A breakpoint, which has an error if its expressions are not understood."""
    made = Breakpoint(number, wish)
    try:
        if wish.condition:
            made.condition = Expression(wish.condition)
        if wish.hits:
            if not (match := HITS.fullmatch(wish.hits)):
                raise NoValue("a hit count is a number, or one of >=, >, <, <=, == and % before a number")
            made.sign, made.count = {None: "==", "=": "=="}.get(match[1], match[1]), int(match[2])
        if wish.log:
            parts = re.split(r"\{([^{}]*)\}", wish.log)
            made.log = [Expression(part) if at % 2 else part for at, part in enumerate(parts)]
    except NoValue as error:
        made.error = str(error)
    return made


class Breakpoints:
    """All breakpoints. `policy` is which threads a plain one suspends."""

    def __init__(self, wire: Jdwp, sources: Sources, policy: int):
        self.wire, self.sources, self.policy = wire, sources, policy
        self.all: list[Breakpoint] = []
        self.last = 0

    def replace(self, is_old: Callable[[Wish], bool], wishes: list[Wish], classes: list[Class]) -> list[Breakpoint]:
        """Puts breakpoints in the place of old ones. One that the client wants again stays as it is, with its hits."""
        old, made = [one for one in self.all if is_old(one.wish)], []
        for wish in wishes:
            if same := next((one for one in old if one.wish == wish), None):
                old.remove(same)
            made.append(same or self._new(wish, classes))
        for one in old:
            self.wire.clear(BREAKPOINT, one.requests)
        self.all = [one for one in self.all if not is_old(one.wish)] + made
        return made

    def _new(self, wish: Wish, classes: list[Class]) -> Breakpoint:
        self.last += 1
        made = read_wish(self.last, wish)
        for class_ in classes:
            self.set_in(made, class_)
        return made

    def class_came(self, class_: Class) -> list[Breakpoint]:
        """Sets breakpoints in a new class, and gives those that it has."""
        return [one for one in self.all if self.set_in(one, class_)]

    def set_in(self, one: Breakpoint, class_: Class) -> bool:
        """Sets a breakpoint in a class, once, and says whether it has a place there."""
        if one.error or class_.id in one.classes:
            return False
        places = list(self._of_function(one.wish.function, class_) if one.wish.function else self._of_line(one.wish, class_))
        if not places:
            return False
        one.classes.add(class_.id)
        if not one.requests:
            one.is_counted = one.sign == "==" and not one.condition and not one.log and len(places) == 1
        made: set[int] = set()
        try:
            for method, index, _ in places:
                modifiers = [jdwp.at_count(one.count)] if one.is_counted else []
                policy = self.policy if one.is_plain else jdwp.EVENT_THREAD
                made.add(self.wire.request(BREAKPOINT, policy, jdwp.at_place(class_.id, method.id, index), *modifiers))
        except JdwpError as error:
            self.wire.clear(BREAKPOINT, made)
            one.error = str(error)
            return False
        one.requests |= made
        one.line = places[0][2]
        return True

    def _of_function(self, function: str, class_: Class) -> Iterator[Place]:
        """The functions of this name, before which that of their class may stand: scripts.nbody.pull, nbody.pull, nbody:pull, pull."""
        prefix, _, name = function.replace(":", ".").rpartition(".")
        if prefix and not ("." + class_.signature[1:-1].replace("/", ".")).endswith("." + prefix):
            return
        if any(method.name == name for method in class_.methods):
            self.wire.read_lines(class_)
            yield from ((method, *min(method.lines)) for method in class_.methods if method.name == name and method.lines)

    def _of_line(self, wish: Wish, class_: Class) -> Iterator[Place]:
        """The first line from there on that has code, in each method that has it."""
        if not self.sources.is_class_of(class_, wish.path):
            return
        self.wire.read_lines(class_)
        line = min((line for method in class_.methods for _, line in method.lines or () if line >= wish.line), default=None)
        for method in class_.methods:
            if indexes := [index for index, here in method.lines or () if here == line]:
                yield method, min(indexes), line

    def of_request(self, request: int) -> Breakpoint | None:
        """The breakpoint for which JDWP's request was made."""
        return next((one for one in self.all if request in one.requests), None)

    def lines_of(self, path: str, classes: list[Class], first: int, last: int) -> list[int]:
        """The lines of a file that have code."""
        found = set()
        for class_ in classes:
            if self.sources.is_class_of(class_, path):
                self.wire.read_lines(class_)
                found |= {line for method in class_.methods for _, line in method.lines or () if first <= line <= last}
        return sorted(found)
