"""What the calls take and give."""

from typing import List, NamedTuple

from ._api import Code, EventKind, StopReason


class Error(Exception):
    """A call was refused. `code` says why."""

    code: Code

    def __init__(self, code: int) -> None:
        self.code = Code(code)
        super().__init__(f"{self.code.value} {self.code.name}: {self.code.text}")


class Frame(NamedTuple):
    """A method by its number, and a location in it, or -1 if it is native."""

    method: int
    location: int


class ThreadInfo(NamedTuple):
    name: str
    priority: int


class StackInfo(NamedTuple):
    """What a trace of several threads tells of one: its number, the bits of its state, and its frames, newest first."""

    thread: int
    state: int
    frames: List[Frame]


class Event(NamedTuple):
    """What happened, the number of the thread, or with CLASS_PREPARE of the class, and how many events of threads were lost before it."""

    kind: EventKind
    number: int
    lost: int


class Stop(NamedTuple):
    """A stop of a thread: where it is, and why it stops there."""

    thread: int
    method: int
    location: int
    why: StopReason


class MethodName(NamedTuple):
    """A method's name, its signature, and the line at which it is defined, or 0 if that is not known."""

    name: str
    signature: str
    first_line: int


class LineEntry(NamedTuple):
    """From this location on, up to that of the next entry, a method is at this line."""

    start_location: int
    line_number: int
