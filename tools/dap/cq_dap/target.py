"""The program that is debugged: its classes, its threads, which of them are stopped, and what their frames have.

A thread that the client sees as stopped is suspended once by the adapter, and each other thread not at all.
"""
from __future__ import annotations

from collections.abc import Iterable

from . import jdwp
from .expressions import LookUp, NoValue, Table
from .jdwp import Class, Frame, Jdwp, Value
from .packets import BREAKPOINT, CLASS_PREPARE, STEP, THREAD_DEATH, THREAD_START, JdwpError

NO_VALUE, NOT_TOLD = 35, 101  # errors of JDWP


class Target:
    """A program. With `stops_all` one stop stops all threads, otherwise the thread alone."""

    def __init__(self, wire: Jdwp, stops_all: bool):
        self.wire, self.stops_all = wire, stops_all
        self.policy = jdwp.ALL if stops_all else jdwp.EVENT_THREAD
        self.classes: dict[int, Class] = {}
        self.names: dict[int, str] = {}
        self.stopped: set[int] = set()
        self.steps: dict[int, int] = {}   # JDWP's requests, by threads
        self.entries: set[int] = set()    # those of breakpoints where scripts begin
        for kind in THREAD_START, THREAD_DEATH:
            wire.request(kind, jdwp.NONE)
        wire.request(CLASS_PREPARE, jdwp.ALL)
        for class_ in wire.classes():
            self.add(class_)

    def add(self, class_: Class) -> bool:
        """Notes a class, and says whether it is new."""
        if class_.id in self.classes:
            return False
        self.wire.look_into(class_)
        self.classes[class_.id] = class_
        return True

    # Threads.

    def threads(self) -> dict[int, str]:
        """The names of the threads that are alive."""
        alive = self.wire.threads()
        self.names.update(self.wire.thread_names([thread for thread in alive if thread not in self.names]))
        return {thread: self.names.get(thread, f"thread {thread}") for thread in alive}

    def started(self, thread: int) -> bool:
        """A thread has started. Where all are stopped it is stopped too; says whether it is."""
        if not (self.stops_all and self.stopped):
            return False
        if thread not in self.stopped:
            self.wire.suspend(thread)
            self.stopped.add(thread)
        return True

    def ended(self, thread: int) -> None:
        self.stopped.discard(thread)
        self.names.pop(thread, None)
        self.steps.pop(thread, None)

    def pause(self, thread: int) -> None:
        """Stops this thread, or all."""
        if self.stops_all:
            before = self.stopped
            self.wire.suspend_all()
            self._note_suspended()
            self.wire.resume(before)
        elif thread not in self.stopped:
            self.wire.suspend(thread)
            self.stopped.add(thread)

    def hold(self, policy: int, thread: int) -> set[int]:
        """An event came, for which threads were suspended. Gives those that were not stopped before."""
        before = set(self.stopped)
        if policy == jdwp.ALL:
            self._note_suspended()
            self.wire.resume(before)  # they are suspended twice
            # no further event comes until a request to resume all: one by which nothing moves
            self.wire.suspend_all()
            self.wire.resume_all()
        elif policy == jdwp.EVENT_THREAD:
            self.wire.resume(before & {thread})
            self.stopped.add(thread)
        return self.stopped - before

    def _note_suspended(self) -> None:
        """All threads were suspended. One that has started since was not."""
        counts = self.wire.suspensions(self.wire.threads())
        self.stopped = {thread for thread, count in counts.items() if count}

    def release(self, threads: set[int]) -> None:
        """Resumes threads that `hold` gave."""
        self.wire.resume(threads)
        self.stopped -= threads

    def go_on(self, thread: int, alone: bool) -> set[int]:
        """Resumes this thread, or all that are stopped. Gives those that it resumed."""
        self._forget_steps(thread)
        return self._resume(thread, alone)

    def step(self, thread: int, depth: int, alone: bool) -> set[int]:
        """Resumes them as `go_on` does, and lets this thread stop at its next line."""
        self._forget_steps(thread)
        self.steps[thread] = self.wire.request(STEP, self.policy, jdwp.one_step(thread, depth), jdwp.at_count(1))
        return self._resume(thread, alone)

    def _resume(self, thread: int, alone: bool) -> set[int]:
        going = self.stopped & {thread} if alone else set(self.stopped)
        self.stopped -= going
        if going >= set(self.wire.threads()):
            self.wire.resume_all()  # at one moment
        else:
            self.wire.resume(going)
        return going

    def is_step_of(self, thread: int, request: int) -> bool:
        return self.steps.get(thread) == request

    def _forget_steps(self, thread: int) -> None:
        """Takes back the steps that have not ended: of this thread, or of all if one stop stops all."""
        over = [one for one in self.steps if one == thread or self.stops_all]
        self.wire.clear(STEP, [self.steps.pop(one) for one in over])

    def stop_in(self, name: str) -> bool:
        """Lets threads stop where a function of this name begins, and says whether there is one. A thread without frames cannot step."""
        for class_ in self.classes.values():
            if class_.file and any(method.name == name for method in class_.methods):
                self.wire.read_lines(class_)
                for method in class_.methods:
                    if method.name == name and method.lines:
                        place = jdwp.at_place(class_.id, method.id, min(method.lines)[0])
                        self.entries.add(self.wire.request(BREAKPOINT, self.policy, place))
        return bool(self.entries)

    def has_entered(self, requests: Iterable[int]) -> bool:
        """Whether one of these requests is of `stop_in`. Then no other of them stops a thread."""
        if not self.entries.intersection(requests):
            return False
        self.wire.clear(BREAKPOINT, self.entries)
        self.entries = set()
        return True

    # Frames.

    def line_of(self, frame: Frame) -> int:
        """The line at which a frame is, or 0."""
        if frame.is_native or not (class_ := self.classes.get(frame.class_)):
            return 0
        self.wire.read_lines(class_)
        lines = next((method.lines for method in class_.methods if method.id == frame.method), None) or []
        return max(((index, line) for index, line in lines if index <= frame.index), default=(0, 0))[1]

    def name_of(self, frame: Frame) -> str:
        class_ = self.classes.get(frame.class_)
        return next((method.name for method in class_.methods if method.id == frame.method), "?") if class_ else "?"

    def variables(self, thread: int, frame: Frame) -> dict[str, Value]:
        """The variables that are visible in a frame, as they were declared. A later one hides those of its name."""
        if frame.is_native:
            return {}
        try:
            known = self.wire.variables(frame.class_, frame.method)
        except JdwpError as error:
            if error.code != NOT_TOLD:
                raise
            return {}
        slots: dict[str, int] = {}
        for one in sorted(known):
            if one.first <= frame.index < one.first + one.count:
                slots.pop(one.name, None)
                slots[one.name] = one.slot
        return self._values(thread, frame, slots)

    def _values(self, thread: int, frame: Frame, slots: dict[str, int]) -> dict[str, Value]:
        """The values of these slots, without those that have none here."""
        try:
            return dict(zip(slots, self.wire.values(thread, frame.id, list(slots.values()))))
        except JdwpError as error:
            if error.code != NO_VALUE:
                raise
        if len(slots) < 2:
            return {}
        return {name: value for one in slots.items() for name, value in self._values(thread, frame, dict([one])).items()}

    def looker(self, thread: int, frame: Frame) -> LookUp:
        """A function that gives the value of a name in a frame: a variable, or else a global one."""
        found: dict[str, object] | None = None

        def look_up(name: str) -> object:
            nonlocal found
            if found is None:
                found = {one: self.plain(value) for one, value in self.variables(thread, frame).items()}
            if name in found:
                return found[name]
            if isinstance(globals_ := found.get("_ENV"), Table) and (value := globals_.get(name)) is not None:
                return value
            raise NoValue(f"{name} is not known here")
        return look_up

    def plain(self, value: Value) -> object:
        """A value as expressions have it."""
        return None if value.tag == "L" else Table(value.of, self.wire.entries) if value.tag == "[" else value.of
