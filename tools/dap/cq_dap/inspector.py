"""Requests for what a stopped thread has: its stack, variables, and the values of expressions."""
from __future__ import annotations

from collections.abc import Callable, Iterable

from .arguments import Refused, take
from .expressions import LEFT_OUT, Expression, Table, read_text, show, type_of
from .framing import Message
from .jdwp import Class, Frame, Value
from .target import Target

MOST_ENTRIES = 100  # of a table, that cqlua tells


class Inspector:
    """Frames, scopes and tables have numbers, by which the client asks for more, until their thread goes on."""

    def __init__(self, target: Target, source_of: Callable[[Class], Message], line_out: Callable[[int], int]):
        self.target, self.source_of, self.line_out = target, source_of, line_out
        self.handles: dict[int, tuple] = {}  # a kind, a thread, and what it is
        self.last = 0

    def forget(self, threads: Iterable[int]) -> None:
        """These threads go on."""
        gone = set(threads)
        self.handles = {handle: one for handle, one in self.handles.items() if one[1] not in gone}

    def _handle(self, kind: str, thread: int, of: object) -> int:
        self.last += 1
        self.handles[self.last] = (kind, thread, of)
        return self.last

    def _find(self, handle: int, *kinds: str) -> tuple:
        found = self.handles.get(handle)
        if not found or found[0] not in kinds:
            raise Refused("its thread has gone on since")
        return found

    def on_stackTrace(self, args: Message) -> Message:
        thread, start, levels = take(args, "threadId", int), take(args, "startFrame", int, 0), take(args, "levels", int, 0)
        if thread not in self.target.stopped:
            raise Refused("the thread runs")
        total = self.target.wire.depth(thread)
        count = min(levels or total, total - start)
        frames = self.target.wire.frames(thread, start, count) if count > 0 else []
        return {"stackFrames": [self._frame(thread, frame) for frame in frames], "totalFrames": total}

    def _frame(self, thread: int, frame: Frame) -> Message:
        line, class_ = self.target.line_of(frame), self.target.classes.get(frame.class_)
        found: Message = {"id": self._handle("frame", thread, frame), "name": self.target.name_of(frame), "line": 0, "column": 0}
        if class_ and class_.file and line:
            return found | {"line": self.line_out(line), "column": 1, "source": self.source_of(class_)}
        return found | {"presentationHint": "subtle"}

    def on_scopes(self, args: Message) -> Message:
        _, thread, frame = self._find(take(args, "frameId", int), "frame")
        values = self.target.variables(thread, frame)
        globals_ = values.pop("_ENV", None)
        found = [{"name": "Locals", "presentationHint": "locals", "expensive": False, "namedVariables": len(values),
                  "variablesReference": self._handle("locals", thread, values)}]
        if globals_ and globals_.tag == "[":
            found.append({"name": "Globals", "expensive": True, "variablesReference": self._handle("table", thread, globals_.of)})
        return {"scopes": found}

    def on_variables(self, args: Message) -> Message:
        kind, thread, of = self._find(take(args, "variablesReference", int), "locals", "table")
        start, count = take(args, "start", int, 0), take(args, "count", int, 0)
        if args.get("filter") == "indexed":
            return {"variables": []}
        found = self._locals(thread, of) if kind == "locals" else [_entry(*entry) for entry in Table(of, self.target.wire.entries).entries()]
        return {"variables": found[start:start + count if count else None]}

    def _locals(self, thread: int, values: dict[str, Value]) -> list[Message]:
        tables = [value.of for value in values.values() if value.tag == "["]
        lengths = dict(zip(tables, self.target.wire.lengths(tables)))
        return [{"name": name, "evaluateName": name, "value": shown, **more}
                for name, value in values.items() for shown, more in [self._shown(thread, self.target.plain(value), lengths)]]

    def _shown(self, thread: int, value: object, lengths: dict[int, int]) -> tuple[str, Message]:
        """A value's text, and what the protocol has beside it."""
        if not isinstance(value, Table):
            return show(value), {"type": type_of(value), "variablesReference": 0}
        count = lengths[value.number]
        text = f"table of {count}" if count <= MOST_ENTRIES else f"table of more than {MOST_ENTRIES}"
        return text, {"type": "table", "variablesReference": self._handle("table", thread, value.number)}

    def on_evaluate(self, args: Message) -> Message:
        expression = Expression(take(args, "expression", str))
        if "frameId" not in args:
            raise Refused("a frame of a stopped thread is needed")
        _, thread, frame = self._find(take(args, "frameId", int), "frame")
        value = expression(self.target.looker(thread, frame))
        tables = [value.number] if isinstance(value, Table) else []
        shown, more = self._shown(thread, value, dict(zip(tables, self.target.wire.lengths(tables))))
        return {"result": shown, **more}

    def restart_frame(self, args: Message) -> int:
        """Pops a frame, so that its caller calls again, and gives the thread."""
        _, thread, frame = self._find(take(args, "frameId", int), "frame")
        self.target.wire.pop(thread, frame.id)
        self.forget([thread])
        return thread


def _entry(key: str, value: str) -> Message:
    if (key, value) == (LEFT_OUT, ""):
        return {"name": key, "value": "more entries, which the runtime does not tell", "variablesReference": 0}
    read = read_text(value)
    return {"name": key, "value": show(read) if isinstance(read, str) else value, "type": type_of(read), "variablesReference": 0}
