"""A session: one client, and at most one program. All that happens comes through one queue, and is worked on one by one."""
from __future__ import annotations

import os
import queue
import threading
from collections.abc import Callable
from dataclasses import dataclass
from typing import BinaryIO, TextIO

from . import jdwp
from .arguments import Refused, take, take_list, take_port
from .breakpoints import Breakpoint, Breakpoints, Wish
from .client import Client
from .expressions import NoValue
from .framing import BadMessage, Message, read_message
from .inspector import Inspector
from .jdwp import Class, Jdwp
from .packets import BREAKPOINT, CLASS_PREPARE, STEP, THREAD_DEATH, THREAD_START, VM_DEATH, VM_START, Connection, Event, EventSet, Gone, JdwpError
from .program import DEBUGGED, Program
from .sources import Sources
from .target import Target

CAPABILITIES = {
    "supportsConfigurationDoneRequest": True, "supportsFunctionBreakpoints": True, "supportsConditionalBreakpoints": True,
    "supportsHitConditionalBreakpoints": True, "supportsLogPoints": True, "supportsEvaluateForHovers": True,
    "supportsLoadedSourcesRequest": True, "supportsDelayedStackTraceLoading": True, "supportsBreakpointLocationsRequest": True,
    "supportsSingleThreadExecutionRequests": True, "supportTerminateDebuggee": True, "supportsTerminateRequest": True,
    "exceptionBreakpointFilters": [],
}
DEPTHS = {"next": jdwp.OVER, "stepIn": jdwp.INTO, "stepOut": jdwp.OUT}
NOT_ENDED = "a program that was attached to cannot be ended by its debugger"


@dataclass
class Options:
    """What attach and launch have in common."""
    stops_all: bool
    stops_on_entry: bool
    gives_content: bool
    mappings: list[tuple[str, str]]


def options_of(args: Message) -> Options:
    mappings = [(take(one, "local", str), take(one, "remote", str)) for one in take_list(args, "pathMappings", dict)]
    return Options(take(args, "stopAll", bool, True), take(args, "stopOnEntry", bool, False), take(args, "sourceContent", bool, False), mappings)


def _environment(args: Message) -> dict[str, str]:
    """The adapter's own, with what the client changes. It takes a variable out by null."""
    changes = take(args, "env", dict, {})
    if not all(value is None or isinstance(value, str) for value in changes.values()):
        raise Refused("each value of env has to be a string or null")
    return {name: value for name, value in (os.environ | changes).items() if value is not None}


@dataclass
class Attached:
    """A program to which the session is attached."""
    target: Target
    sources: Sources
    breakpoints: Breakpoints
    inspector: Inspector
    options: Options
    waiting: int = 0  # a thread, if the program waits for its first debugger


class Session:
    """Serves a client that writes to `source` and reads `sink`."""

    def __init__(self, source: BinaryIO, sink: BinaryIO, log: TextIO | None = None):
        self.source, self.client = source, Client(sink, log)
        self.queue: queue.SimpleQueue[Callable[[], None]] = queue.SimpleQueue()
        self.has_ended = self.has_told_end = self.is_configured = False
        self.first_line = 1
        self.program: Program | None = None
        self.attached: Attached | None = None
        self.then: list[Callable[[], None]] = []  # what is done behind the response

    # The loop.

    def run(self) -> None:
        """Returns when the client has disconnected, or is gone."""
        threading.Thread(target=self._read, daemon=True).start()
        try:
            while not self.has_ended:
                try:
                    self.queue.get()()
                except (Gone, JdwpError) as error:
                    self.client.output("important", f"cq-dap: {error}\n")
        except OSError:
            pass  # the client is gone
        finally:
            self._leave(self.program is not None)

    def _read(self) -> None:
        try:
            while (message := read_message(self.source)) is not None:
                self.queue.put(lambda message=message: self._answer(message))
        except (BadMessage, OSError, ValueError):
            pass
        self.queue.put(self._end)

    def _end(self) -> None:
        self.has_ended = True

    def _answer(self, message: Message) -> None:
        self.client.note("->", message)
        if message.get("type") != "request":
            return
        self.then = []
        try:
            body = self._handler(message.get("command"))(message.get("arguments") or {})
        except (Refused, NoValue, Gone, JdwpError, OSError) as error:
            self.client.refuse(message, str(error))
        except Exception as error:  # arguments that no client sends
            self.client.refuse(message, f"not understood: {type(error).__name__}: {error}")
        else:
            self.client.respond(message, body)
            for act in self.then:
                act()

    def _handler(self, command: object) -> Callable[[Message], Message | None]:
        if isinstance(command, str) and command in DEPTHS:
            return lambda args: self._step(DEPTHS[command], args)
        name = f"on_{command}"
        if hasattr(Inspector, name):
            return getattr(self.at.inspector, name)
        if not hasattr(self, name):
            raise Refused(f"{command} is not supported")
        return getattr(self, name)

    @property
    def at(self) -> Attached:
        if not self.attached:
            raise Refused("no program is attached")
        return self.attached

    # Begin and end.

    def on_initialize(self, args: Message) -> Message:
        if take(args, "pathFormat", str, "path") != "path":
            raise Refused("pathFormat has to be path")
        self.first_line = 1 if take(args, "linesStartAt1", bool, True) else 0
        return CAPABILITIES

    def on_attach(self, args: Message) -> None:
        self._need_none()
        self._attach(options_of(args), take(args, "host", str, "127.0.0.1"), take_port(args))

    def on_launch(self, args: Message) -> None:
        self._need_none()
        options, debugs = options_of(args), not take(args, "noDebug", bool, False)
        if not (scripts := take_list(args, "program", str)):
            raise Refused("program is missing")
        host = take_list(args, "runtimeExecutable", str) or ["cqlua"]
        words = [*host, "run", *(DEBUGGED if debugs else []), *take_list(args, "runtimeArgs", str), *scripts]
        program = Program(words, take(args, "cwd", str, "") or None, _environment(args),
                          lambda category, said: self.queue.put(lambda: self.client.output(category, said)),
                          lambda status: self.queue.put(lambda: self._program_ended(program, status)))
        if not debugs:
            self.program = program
            self.then.append(lambda: self.client.event("initialized"))
            return
        try:
            if not (found := program.wait_for_port()):
                raise Refused("the program does not say where a debugger may attach")
            self.program = program
            self._attach(options, "127.0.0.1", found)
        except Exception:
            self.program = None
            program.end()
            raise

    def _need_none(self) -> None:
        if self.attached or self.program:
            raise Refused("there is a program already")

    def _attach(self, options: Options, host: str, where: int) -> None:
        try:
            wire = Jdwp(host, where, lambda of, events: self.queue.put(lambda: self._happened(of, events)),
                        lambda of: self.queue.put(lambda: self._closed(of)))
        except OSError as error:
            raise Refused(f"no debugger can attach at {host}:{where}: {error}") from error
        try:
            target, sources = Target(wire, options.stops_all), Sources(wire.base(), options.mappings)
            name, pops = wire.name(), wire.pops_frames()
        except (Gone, JdwpError):
            wire.dispose()
            raise
        self.attached = Attached(target, sources, Breakpoints(wire, sources, target.policy),
                                 Inspector(target, self.source_of, self.line_out), options)
        started = {"startMethod": "launch", "systemProcessId": self.program.process.pid} if self.program else {"startMethod": "attach"}
        if pops:
            self.then.append(lambda: self.client.event("capabilities", capabilities={"supportsRestartFrame": True}))
        self.then += [lambda: self.client.event("process", name=name, **started), lambda: self.client.event("initialized")]

    def on_configurationDone(self, args: Message) -> None:
        self.is_configured = True
        self.then.append(self._begin)

    def _begin(self) -> None:
        """If the program waits for its first debugger it begins, once the client has set its breakpoints."""
        if not self.attached or not self.attached.waiting:
            return
        at, thread = self.attached, self.attached.waiting
        at.waiting = 0
        if at.options.stops_on_entry and not at.target.stop_in("main"):
            self.client.output("important", "There is no main in which to stop.\n")
        at.target.go_on(thread, False)

    def on_disconnect(self, args: Message) -> None:
        if take(args, "suspendDebuggee", bool, False):
            raise Refused("a runtime resumes its threads when its debugger goes")
        ends = take(args, "terminateDebuggee", bool, self.program is not None)
        if ends and not self.program:
            raise Refused(NOT_ENDED)
        self._leave(ends)
        self.then += [self._tell_end, self._end]

    def on_terminate(self, args: Message) -> None:
        if not self.program:
            raise Refused(NOT_ENDED)
        self.program.end()

    def _leave(self, ends: bool) -> None:
        (attached, self.attached), (program, self.program) = (self.attached, None), (self.program, None)
        if attached:
            attached.target.wire.dispose()
        if program and ends:
            program.end()

    def _closed(self, wire: Connection) -> None:
        if self.attached and self.attached.target.wire is wire:
            self.attached = None
            wire.shut()
            if not self.program:
                self._tell_end()

    def _program_ended(self, program: Program, status: int) -> None:
        if self.program is program:
            self.client.event("exited", exitCode=status)
            self._tell_end()

    def _tell_end(self) -> None:
        if not self.has_told_end:
            self.has_told_end = True
            self.client.event("terminated")

    # What the program tells.

    def _happened(self, wire: Connection, one: EventSet) -> None:
        if not self.attached or self.attached.target.wire is not wire:
            return
        for event in one.events:
            if event.kind == VM_START:
                self._started(one.policy, event.thread)
            elif event.kind == THREAD_START:
                self.client.event("thread", reason="started", threadId=event.thread)
                if self.at.target.started(event.thread):
                    self._tell_stop("pause", event.thread, keeps_focus=True)
            elif event.kind == THREAD_DEATH:
                self.at.target.ended(event.thread)
                self.client.event("thread", reason="exited", threadId=event.thread)
            elif event.kind == CLASS_PREPARE:
                self._class_came(Class(event.class_, event.signature))
            elif event.kind == VM_DEATH:
                self._closed(wire)
        if stops := [event for event in one.events if event.kind in (STEP, BREAKPOINT)]:
            self._stopped(one.policy, stops)

    def _started(self, policy: int, thread: int) -> None:
        self.at.target.hold(policy, thread)
        self.at.waiting = thread
        if self.is_configured:
            self._begin()

    def _class_came(self, class_: Class) -> None:
        """All threads are suspended until its breakpoints are set."""
        try:
            if self.at.target.add(class_):
                placed = self.at.breakpoints.class_came(class_)  # first: of files with like names, one with breakpoints is meant
                if class_.file:
                    self.client.event("loadedSource", reason="new", source=self.source_of(class_))
                for one in placed:
                    self.client.event("breakpoint", reason="changed", breakpoint=self._described(one))
        finally:
            self.at.target.wire.resume_all()  # a thread that was stopped before stays so

    def _stopped(self, policy: int, events: list[Event]) -> None:
        """A thread has stopped. It goes on at once if the client is not to see it."""
        target, thread, requests = self.at.target, events[0].thread, [event.request for event in events]
        held = target.hold(policy, thread)
        hit = [one for one in map(self.at.breakpoints.of_request, requests) if one and self._is_due(one, thread)]
        has_stepped = any(target.is_step_of(thread, request) for request in requests)
        has_entered = target.has_entered(requests)
        if not hit and not has_stepped and not has_entered:
            target.release(held)
            return
        if policy != jdwp.ALL:
            target.pause(thread)
        reason = "function breakpoint" if hit and hit[0].wish.function else "breakpoint" if hit else "step" if has_stepped else "entry"
        self._tell_stop(reason, thread, thread not in held, [one.id for one in hit])

    def _is_due(self, one: Breakpoint, thread: int) -> bool:
        """Whether a hit is told. One with a message writes it, and is not."""
        if one.is_plain:
            return True
        try:
            frame, = self.at.target.wire.frames(thread, 0, 1)
            look_up = self.at.target.looker(thread, frame)
            if not one.is_due(look_up):
                return False
            if one.log:
                where = {"line": self.line_out(self.at.target.line_of(frame)), "source": self.source_of(self.at.target.classes[frame.class_])}
                self.client.output("console", one.message(look_up) + "\n", **where)
        except (NoValue, JdwpError) as error:
            self.client.output("important", f"The breakpoint at line {self.line_out(one.line)}: {error}\n")
        return not one.log

    def _tell_stop(self, reason: str, thread: int, keeps_focus: bool = False, hit: list[int] | None = None) -> None:
        more: Message = {"preserveFocusHint": True} if keeps_focus else {}
        if hit:
            more["hitBreakpointIds"] = hit
        self.client.event("stopped", reason=reason, threadId=thread, allThreadsStopped=self.at.target.stops_all, **more)

    # Breakpoints.

    def on_setBreakpoints(self, args: Message) -> Message:
        path = self._path(args)
        return self._replace(lambda wish: wish.path == path, [
            Wish(path=path, line=self.line_in(take(one, "line", int)), condition=take(one, "condition", str, ""),
                 hits=take(one, "hitCondition", str, ""), log=take(one, "logMessage", str, "")) for one in take_list(args, "breakpoints", dict)])

    def on_setFunctionBreakpoints(self, args: Message) -> Message:
        return self._replace(lambda wish: bool(wish.function), [
            Wish(function=take(one, "name", str), condition=take(one, "condition", str, ""), hits=take(one, "hitCondition", str, ""))
            for one in take_list(args, "breakpoints", dict)])

    def _replace(self, is_old: Callable[[Wish], bool], wishes: list[Wish]) -> Message:
        if not self.attached:
            return {"breakpoints": [{"verified": False, "message": "The program is not debugged."} for _ in wishes]}
        made = self.at.breakpoints.replace(is_old, wishes, list(self.at.target.classes.values()))
        return {"breakpoints": [self._described(one) for one in made]}

    def on_setExceptionBreakpoints(self, args: Message) -> Message:
        if args.get("filters"):
            raise Refused("the runtime does not tell of exceptions")
        return {"breakpoints": []}

    def on_breakpointLocations(self, args: Message) -> Message:
        first = self.line_in(take(args, "line", int))
        last = self.line_in(take(args, "endLine", int)) if args.get("endLine") is not None else first
        lines = self.at.breakpoints.lines_of(self._path(args), list(self.at.target.classes.values()), first, last)
        return {"breakpoints": [{"line": self.line_out(line)} for line in lines]}

    def _described(self, one: Breakpoint) -> Message:
        found = one.describe()
        return found | {"line": self.line_out(found["line"])} if "line" in found else found

    def line_in(self, line: int) -> int:
        return line + 1 - self.first_line

    def line_out(self, line: int) -> int:
        return line - 1 + self.first_line

    # Threads.

    def on_threads(self, args: Message) -> Message:
        threads = self.attached.target.threads() if self.attached else {}
        return {"threads": [{"id": thread, "name": name} for thread, name in threads.items()]}

    def on_pause(self, args: Message) -> None:
        threads = list(self.at.target.threads())
        thread = take(args, "threadId", int) or next(iter(threads), 0)
        if thread not in threads:
            raise Refused("there is no such thread")
        self.at.target.pause(thread)
        self.then.append(lambda: self._tell_stop("pause", thread))

    def on_continue(self, args: Message) -> Message:
        thread, alone = self._stopped_thread(args)
        self.at.inspector.forget(self.at.target.go_on(thread, alone))
        return {"allThreadsContinued": not alone}

    def _step(self, depth: int, args: Message) -> None:
        thread, alone = self._stopped_thread(args)
        going = self.at.target.step(thread, depth, alone)
        self.at.inspector.forget(going)
        if len(going) > 1:  # the request does not say that others go on
            self.then.append(lambda: self.client.event("continued", threadId=thread, allThreadsContinued=True))

    def _stopped_thread(self, args: Message) -> tuple[int, bool]:
        """The thread that is to go on, and whether it goes on alone."""
        thread = take(args, "threadId", int)
        if thread not in self.at.target.stopped:
            raise Refused("the thread runs")
        return thread, take(args, "singleThread", bool, False) or not self.at.target.stops_all

    def on_restartFrame(self, args: Message) -> None:
        thread = self.at.inspector.restart_frame(args)
        self.then.append(lambda: self._tell_stop("restart", thread))

    # Sources. The number of one is its class's number, counted from 1.

    def source_of(self, class_: Class) -> Message:
        """The Source of a class's file."""
        path = self.at.sources.path_of(class_)
        found: Message = {"name": class_.file, "path": path}
        if self.at.options.gives_content and os.path.isfile(path):
            found["sourceReference"] = (class_.id & 0xFFFFFFFF) + 1
        return found

    def _class_of(self, reference: int) -> Class | None:
        return next((one for one in self.at.target.classes.values() if (one.id & 0xFFFFFFFF) + 1 == reference), None)

    def _path(self, args: Message) -> str:
        """The path of the Source that a request speaks of."""
        source = args.get("source")
        if not isinstance(source, dict):
            raise Refused("source is missing")
        class_ = self._class_of(source.get("sourceReference") or 0) if self.attached else None
        return self.at.sources.path_of(class_) if class_ else os.path.normpath(take(source, "path", str))

    def on_loadedSources(self, args: Message) -> Message:
        return {"sources": [self.source_of(class_) for class_ in self.at.target.classes.values() if class_.file]}

    def on_source(self, args: Message) -> Message:
        reference = (args.get("source") or {}).get("sourceReference") or take(args, "sourceReference", int)
        if not (class_ := self._class_of(reference)):
            raise Refused("there is no such source")
        with open(self.at.sources.path_of(class_), encoding="utf-8", errors="replace") as file:
            return {"content": file.read()}
