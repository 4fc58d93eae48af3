"""The requests of the Java Debug Wire Protocol that the adapter makes."""
from __future__ import annotations

import struct
from collections.abc import Iterable
from dataclasses import dataclass, field
from typing import NamedTuple

from .packets import Connection, Data, Gone, JdwpError, ids

NONE, EVENT_THREAD, ALL = 0, 1, 2  # policies: the threads that an event suspends
INTO, OVER, OUT = 0, 1, 2          # depths of a step


class Frame(NamedTuple):
    id: int
    class_: int
    method: int
    index: int

    @property
    def is_native(self) -> bool:
        return self.index >= 1 << 63


class Variable(NamedTuple):
    """A variable of a method, and the range of indexes in which it is visible."""
    first: int
    slot: int
    count: int
    name: str


class Value(NamedTuple):
    """A tag: L nil, Z a boolean, J an integer, D a float, s a text, [ the id of a table."""
    tag: str
    of: object


@dataclass
class Method:
    id: int
    name: str
    lines: list[tuple[int, int]] | None = None  # (index, line), once they were asked for


@dataclass
class Class:
    id: int
    signature: str
    file: str = ""  # the file's name without its folders, if it has one
    methods: list[Method] = field(default_factory=list)


class Jdwp(Connection):
    """A runtime, by the requests that it answers."""

    def name(self) -> str:
        data = self.ask(1, 1)
        description, _, version = data.text(), data.take(8), data.text()
        return f"{description} {version}"

    def base(self) -> str:
        """The directory from which relative paths lead."""
        return self.ask(1, 13).text()

    def pops_frames(self) -> bool:
        """The 11th of the new capabilities, canPopFrames."""
        return self.ask(1, 17).data[10:11] == b"\1"

    def dispose(self) -> None:
        """Ends the session: the runtime resumes what was suspended. Closes the connection."""
        try:
            self.ask(1, 6)
        except (Gone, JdwpError):
            pass
        self.shut()

    # Threads.

    def threads(self) -> list[int]:
        data = self.ask(1, 4)
        return [data.number(8) for _ in data.count()]

    def thread_names(self, threads: list[int]) -> dict[int, str]:
        replies = self.ask_all((11, 1, ids(thread)) for thread in threads)
        return {thread: reply.text() for thread, reply in zip(threads, replies) if isinstance(reply, Data)}

    def suspensions(self, threads: list[int]) -> dict[int, int]:
        """How often each thread is suspended."""
        replies = self.ask_all((11, 12, ids(thread)) for thread in threads)
        return {thread: reply.number(4) for thread, reply in zip(threads, replies) if isinstance(reply, Data)}

    def suspend(self, thread: int) -> None:
        self.ask(11, 2, ids(thread))

    def resume(self, threads: Iterable[int]) -> None:
        self.ask_all((11, 3, ids(thread)) for thread in threads)

    def suspend_all(self) -> None:
        self.ask(1, 8)

    def resume_all(self) -> None:
        self.ask(1, 9)

    def depth(self, thread: int) -> int:
        return self.ask(11, 7, ids(thread)).number(4)

    def frames(self, thread: int, start: int, count: int) -> list[Frame]:
        data, found = self.ask(11, 6, ids(thread) + struct.pack(">ii", start, count)), []
        for _ in data.count():
            frame, _, class_, method, index = (data.number(size) for size in (8, 1, 8, 8, 8))
            found.append(Frame(frame, class_, method, index))
        return found

    def pop(self, thread: int, frame: int) -> None:
        """Pops this frame and all newer ones."""
        self.ask(16, 4, ids(thread, frame))

    # Classes.

    def classes(self) -> list[Class]:
        data, found = self.ask(1, 20), []
        for _ in data.count():
            data.take(1)
            found.append(Class(data.number(8), data.text()))
            data.text(), data.take(4)
        return found

    def look_into(self, class_: Class) -> None:
        """Asks for the class's file and methods."""
        file, methods = self.ask_all([(2, 7, ids(class_.id)), (2, 15, ids(class_.id))])
        class_.file = file.text() if isinstance(file, Data) else ""
        if isinstance(methods, Data):
            for _ in methods.count():
                class_.methods.append(Method(methods.number(8), methods.text()))
                methods.text(), methods.text(), methods.take(4)

    def read_lines(self, class_: Class) -> None:
        """Asks for the lines of the class's methods, unless they are known."""
        missing = [method for method in class_.methods if method.lines is None]
        for method, data in zip(missing, self.ask_all((6, 1, ids(class_.id, method.id)) for method in missing)):
            method.lines = []
            if isinstance(data, Data):
                data.take(16)
                method.lines = [(data.number(8), data.number(4)) for _ in data.count()]

    # Variables.

    def variables(self, class_: int, method: int) -> list[Variable]:
        data, found = self.ask(6, 2, ids(class_, method)), []
        data.take(4)
        for _ in data.count():
            first, name, _, count, slot = data.number(8), data.text(), data.text(), data.number(4), data.number(4)
            found.append(Variable(first, slot, count, name))
        return found

    def values(self, thread: int, frame: int, slots: list[int]) -> list[Value]:
        wanted = b"".join(struct.pack(">iB", slot, ord("L")) for slot in slots)
        data = self.ask(16, 1, ids(thread, frame) + struct.pack(">i", len(slots)) + wanted)
        read = [_value(data) for _ in data.count()]
        texts = iter(self.texts([value.of for value in read if value.tag == "s"]))
        return [Value("s", next(texts)) if value.tag == "s" else value for value in read]

    def texts(self, numbers: list[int]) -> list[str]:
        """The texts with these ids."""
        replies = self.ask_all((10, 1, ids(number)) for number in numbers)
        return [reply.text() if isinstance(reply, Data) else f"<{reply}>" for reply in replies]

    def lengths(self, tables: list[int]) -> list[int]:
        replies = self.ask_all((13, 1, ids(table)) for table in tables)
        return [reply.number(4) if isinstance(reply, Data) else 0 for reply in replies]

    def entries(self, table: int) -> list[str]:
        """The entries of a table, each a text "key = value"."""
        count = self.ask(13, 1, ids(table)).number(4)
        if not count:
            return []
        data = self.ask(13, 2, ids(table) + struct.pack(">ii", 0, count))
        data.take(1)
        return self.texts([_value(data).of for _ in data.count()])

    # Event requests.

    def request(self, kind: int, policy: int, *modifiers: bytes) -> int:
        """Asks for events, and gives the request's number."""
        return self.ask(15, 1, struct.pack(">BBi", kind, policy, len(modifiers)) + b"".join(modifiers)).number(4)

    def clear(self, kind: int, requests: Iterable[int]) -> None:
        """Takes requests back."""
        self.ask_all((15, 2, struct.pack(">Bi", kind, request)) for request in requests)


def _value(data: Data) -> Value:
    tag = data.take(1).decode("latin-1")
    if tag == "Z":
        return Value(tag, data.number(1) != 0)
    bits = data.take(8)
    return Value(tag, struct.unpack({"J": ">q", "D": ">d"}.get(tag, ">Q"), bits)[0])


def at_place(class_: int, method: int, index: int) -> bytes:
    """A modifier: events at this place."""
    return b"\7\1" + ids(class_, method, index)


def at_count(count: int) -> bytes:
    """A modifier: the event of this count alone."""
    return struct.pack(">Bi", 1, count)


def one_step(thread: int, depth: int) -> bytes:
    """A modifier: a step of this thread to another line."""
    return b"\x0a" + ids(thread) + struct.pack(">ii", 1, depth)
