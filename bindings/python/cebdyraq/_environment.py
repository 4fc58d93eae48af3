"""An environment, and calls that it posts."""

import ctypes
import math
import threading
import time
from types import TracebackType
from typing import Any, Callable, Generic, List, NamedTuple, Optional, Sequence, Type, TypeVar

from . import _api as api
from ._api import ALL_THREADS, Capability, Code, EventKind, StopKind, StopReason
from ._classes import Classes
from ._library import numbers, room_for
from ._types import BOOL, SIZE, U32, U64
from ._values import Error, Event, Frame, StackInfo, Stop, ThreadInfo

Told = TypeVar("Told")


def _nanoseconds(timeout: Optional[float]) -> int:
    return -1 if timeout is None else max(0, math.ceil(timeout * 1_000_000_000))


def _frames_in(room: Any, count: int) -> List[Frame]:
    return [Frame(frame.method, frame.location) for frame in room[:count]]


class Posted(Generic[Told]):
    """A call that was posted. `collect` gives its answer, and `cancel` cancels it."""

    def __init__(self, env: "Environment", read: Callable[[Any, Any], Told], frames: Any) -> None:
        self._env, self._read, self._frames = env, read, frames
        self._answer, self._is_out, self._code = api.Answer(), False, int(Code.OK)

    def _post(self, name: str, *arguments: Any) -> "Posted[Told]":
        with_frames = (self._frames, len(self._frames)) if name == "cq_get_stack_trace" else ()
        code = Code.BUSY
        while code == Code.BUSY:
            code = self._env._plain_call(name, *arguments, ctypes.byref(self._answer), *with_frames)
            if code == Code.BUSY:
                time.sleep(0.00005)
        if code not in (Code.OK, Code.WAITING):
            raise Error(code)
        self._is_out = code == Code.WAITING
        self._ticket = api.Ticket.from_buffer_copy(self._answer.ticket)
        return self

    def collect(self, timeout: Optional[float] = None) -> Told:
        """The answer, as the call itself would give it. When the time is over, the call is out as before."""
        if self._is_out:
            code = self._env._plain_call("cq_wait_collect", self._env._signal, ctypes.byref(self._ticket), _nanoseconds(timeout),
                                         ctypes.byref(self._answer), self._frames, len(self._frames))
            self._is_out = code == Code.TIMED_OUT
            if code != Code.OK:
                raise Error(code)
        if self._code != Code.OK:
            raise Error(self._code)
        return self._read(self._answer, self._frames)

    def _told(self, code: int, answer: Any, frames: Any) -> "Posted[Told]":
        self._answer, self._frames, self._code, self._is_out = answer, frames, code, False
        return self

    def cancel(self) -> None:
        """Cancels the call. It may still take place (`collect_cancelled`)."""
        if self._is_out:
            self._env._call("cq_wait_cancel", self._env._signal, ctypes.byref(self._ticket))
            self._is_out = False


class Cancelled(NamedTuple):
    """What came of a call that was cancelled, or whose time was over. Code.OK says that it has taken place. `call` is the call itself,
    if it is one of those that `collect_cancelled` was told. Its `collect` gives the answer."""

    code: Code
    call: Optional[Posted[Any]]


def _number(answer: Any, _: Any) -> int:
    return int(answer.number)


def _frame(answer: Any, _: Any) -> Frame:
    return Frame(answer.frame.method, answer.frame.location)


def _frames(answer: Any, frames: Any) -> List[Frame]:
    return _frames_in(frames, answer.number)


def _nothing(_answer: Any, _frames: Any) -> None:
    return None


class Environment(Classes):
    """An environment of a service. `service` and `signal` are the addresses of the runtime's cq_service and cq_signal.

    Any Python thread may use it: its calls are made one after the other. The cq_service is used only while the environment is
    attached, and by nobody else then (cebdyraq.h, what a caller owes)."""

    def __init__(self, library: ctypes.CDLL, service: int, signal: int) -> None:
        self._library, self._signal = library, signal
        self._handle = api.Env()
        self._one_at_a_time = threading.Lock()
        code = library.cq_wait_attach_environment(service, signal, ctypes.byref(self._handle))
        if code != Code.OK:
            raise Error(code)

    def __enter__(self) -> "Environment":
        return self

    def __exit__(self, kind: Optional[Type[BaseException]], error: Optional[BaseException], trace: Optional[TracebackType]) -> None:
        self.dispose()

    def _plain_call(self, name: str, *arguments: Any) -> Any:
        with self._one_at_a_time:
            return getattr(self._library, name)(ctypes.byref(self._handle), *arguments)

    def _call(self, name: str, *arguments: Any) -> None:
        code = self._plain_call(name, *arguments)
        if code != Code.OK:
            raise Error(code)

    def _get(self, kind: Any, name: str, *arguments: Any) -> Any:
        found = kind()
        self._call(name, *arguments, ctypes.byref(found))
        return found.value

    # Threads.

    def meet(self) -> None:
        """Meets the threads that were attached since the last meeting. If it has met 65,536, it first lets go of those that were
        given back."""
        self._call("cq_wait_meet", self._signal)

    def has_news(self) -> bool:
        """Says whether others came, went, met threads, stopped or asked for other stops since it last looked, or its last meeting
        failed. Meet once before: attaching is a look."""
        return bool(self._plain_call("cq_has_news"))

    def let_go(self, thread: int) -> bool:
        """Lets go of a thread that was given back, and says whether it did."""
        return bool(self._get(BOOL, "cq_wait_let_go", self._signal, thread))

    def let_go_of_all(self) -> None:
        """Lets go of all threads that were given back and at which none of its calls is out."""
        self._call("cq_wait_let_go_of_all", self._signal)

    def get_all_threads(self) -> List[int]:
        """The numbers of the threads that are attached, in rising order."""
        room = 64
        while True:
            threads, count = (U32 * room)(), U64()
            self._call("cq_wait_get_all_threads", self._signal, threads, room, ctypes.byref(count))
            if count.value <= room:
                return list(threads[:count.value])
            room = count.value

    def get_thread_info(self, thread: int) -> ThreadInfo:
        info = api.ThreadInfo()
        room = 64
        while True:
            name = (ctypes.c_uint8 * room)()
            self._call("cq_wait_get_thread_info", self._signal, thread, ctypes.byref(info), name, room)
            if info.name_length <= room:
                return ThreadInfo(bytes(name[:info.name_length]).decode("utf-8"), info.priority)
            room = info.name_length

    # Calls at a thread.

    def get_thread_state(self, thread: int, timeout: Optional[float] = None) -> int:
        """The bits of the thread's state."""
        return int(self._get(U32, "cq_wait_get_thread_state", self._signal, thread, _nanoseconds(timeout)))

    def get_frame_count(self, thread: int, timeout: Optional[float] = None) -> int:
        return int(self._get(U32, "cq_wait_get_frame_count", self._signal, thread, _nanoseconds(timeout)))

    def get_frame_location(self, thread: int, depth: int, timeout: Optional[float] = None) -> Frame:
        """The frame at a depth, 0 for the newest one."""
        frame = api.Frame()
        self._call("cq_wait_get_frame_location", self._signal, thread, depth, _nanoseconds(timeout), ctypes.byref(frame))
        return Frame(frame.method, frame.location)

    def get_stack_trace(self, thread: int, start: int = 0, max_count: int = 1024, timeout: Optional[float] = None) -> List[Frame]:
        """At most `max_count` frames, newest first, from `start` on. A negative `start` counts from the oldest."""
        frames = room_for(max_count)
        count = self._get(U32, "cq_wait_get_stack_trace", self._signal, thread, start, max_count, _nanoseconds(timeout), frames,
                          len(frames))
        return _frames_in(frames, count)

    def get_all_stack_traces(self, max_count: int = 1024, timeout: Optional[float] = None) -> List[StackInfo]:
        """A StackInfo of each thread that is alive, all at one moment. No thread runs until all were read."""
        return self._gather("cq_wait_get_all_stack_traces", max_count, _nanoseconds(timeout))

    def get_thread_list_stack_traces(self, threads: Sequence[int], max_count: int = 1024,
                                     timeout: Optional[float] = None) -> List[StackInfo]:
        """The same of each of these threads, in their order. One that is not alive has no frames."""
        return self._gather("cq_wait_get_thread_list_stack_traces", numbers(threads), len(threads), max_count, _nanoseconds(timeout))

    def _gather(self, name: str, *arguments: Any) -> List[StackInfo]:
        """Makes a trace, and reads all that it has gathered before another call of the environment is made."""
        count = U64()
        with self._one_at_a_time:
            code = getattr(self._library, name)(ctypes.byref(self._handle), self._signal, *arguments, ctypes.byref(count))
            if code != Code.OK:
                raise Error(code)
            return [self._gathered_stack(index) for index in range(count.value)]

    def _gathered_stack(self, index: int) -> StackInfo:
        info, frames = api.StackInfo(), room_for(0)
        for _ in range(2):
            code = self._library.cq_gathered_stack(ctypes.byref(self._handle), index, ctypes.byref(info), frames, len(frames))
            if code != Code.OK:
                raise Error(code)
            if info.frame_count <= len(frames):
                break
            frames = room_for(info.frame_count)
        return StackInfo(info.thread, info.state, _frames_in(frames, info.frame_count))

    def suspend_thread(self, thread: int, timeout: Optional[float] = None) -> None:
        self._call("cq_wait_suspend_thread", self._signal, thread, _nanoseconds(timeout))

    def resume_thread(self, thread: int, timeout: Optional[float] = None) -> None:
        self._call("cq_wait_resume_thread", self._signal, thread, _nanoseconds(timeout))

    def ensure_resumed(self, thread: int, timeout: Optional[float] = None) -> None:
        """Takes back what the environment's suspensions did to the thread, and what those that were cancelled would still do to it.
        With Code.TIMED_OUT the thread has not reached one of them: call again."""
        self._call("cq_wait_ensure_resumed", self._signal, thread, _nanoseconds(timeout))

    def _list(self, name: str, threads: Sequence[int], timeout: Optional[float]) -> List[Code]:
        wanted, codes = numbers(threads), (U32 * len(threads))()
        self._call(name, self._signal, wanted, len(threads), _nanoseconds(timeout), codes)
        return [Code(code) for code in codes]

    def suspend_thread_list(self, threads: Sequence[int], timeout: Optional[float] = None) -> List[Code]:
        """Suspends the threads, and gives a Code for each. All are asked before the first is waited for."""
        return self._list("cq_wait_suspend_thread_list", threads, timeout)

    def resume_thread_list(self, threads: Sequence[int], timeout: Optional[float] = None) -> List[Code]:
        """Resumes the threads, and gives a Code for each."""
        return self._list("cq_wait_resume_thread_list", threads, timeout)

    def pop_frame(self, thread: int, timeout: Optional[float] = None) -> None:
        self._call("cq_wait_pop_frame", self._signal, thread, _nanoseconds(timeout))

    def get_thread_local_storage(self, thread: int, timeout: Optional[float] = None) -> int:
        return int(self._get(U64, "cq_wait_get_thread_local_storage", self._signal, thread, _nanoseconds(timeout)))

    def set_thread_local_storage(self, thread: int, word: int, timeout: Optional[float] = None) -> None:
        self._call("cq_wait_set_thread_local_storage", self._signal, thread, word, _nanoseconds(timeout))

    # Calls that are posted now and collected later.

    def post_frame_count(self, thread: int) -> Posted[int]:
        return Posted(self, _number, room_for(0))._post("cq_get_frame_count", thread)

    def post_frame_location(self, thread: int, depth: int) -> Posted[Frame]:
        return Posted(self, _frame, room_for(0))._post("cq_get_frame_location", thread, depth)

    def post_stack_trace(self, thread: int, start: int = 0, max_count: int = 1024) -> Posted[List[Frame]]:
        return Posted(self, _frames, room_for(max_count))._post("cq_get_stack_trace", thread, start, max_count)

    def post_suspend_thread(self, thread: int) -> Posted[None]:
        return Posted(self, _nothing, room_for(0))._post("cq_suspend_thread", thread)

    def post_pop_frame(self, thread: int) -> Posted[None]:
        return Posted(self, _nothing, room_for(0))._post("cq_pop_frame", thread)

    def wait_any(self, calls: Sequence[Posted[Any]], timeout: Optional[float] = None) -> Optional[Posted[Any]]:
        """Waits until one of these calls is answered, and gives it: its `collect` does not wait then. None says that threads or
        environments have come or gone, again and again until the environment looks, as by `meet`."""
        for call in calls:
            if not call._is_out:
                return call
        tickets = (api.Ticket * len(calls))(*(call._ticket for call in calls))
        which, answer, frames = SIZE(), api.Answer(), max((call._frames for call in calls), key=len, default=room_for(0))
        room = (api.Frame * len(frames))()
        code = self._plain_call("cq_wait_any", self._signal, tickets, len(calls), _nanoseconds(timeout), ctypes.byref(which),
                                ctypes.byref(answer), room, len(room))
        if code == Code.NONE:
            return None
        if code in (Code.TIMED_OUT, Code.MISUSED):
            raise Error(code)
        return calls[which.value]._told(code, answer, room)

    def discard(self, thread: int) -> bool:
        """Discards the answer to the call that was cancelled first at the thread, and says whether it was there."""
        return bool(self._get(BOOL, "cq_wait_discard", self._signal, thread))

    def collect_cancelled(self, thread: int, calls: Sequence[Posted[Any]] = (), timeout: Optional[float] = None) -> Optional[Cancelled]:
        """What came of the call that was cancelled first at the thread, which may be one of these calls. None if no call that was
        cancelled is out there. With Code.TIMED_OUT it is out as before."""
        answer, room = api.Answer(), room_for(max((len(call._frames) for call in calls), default=0))
        code = self._plain_call("cq_wait_collect_cancelled", self._signal, thread, _nanoseconds(timeout), ctypes.byref(answer), room, len(room))
        if code == Code.NONE:
            return None
        if code in (Code.TIMED_OUT, Code.MISUSED):
            raise Error(code)
        found = next((call for call in calls if bytes(call._ticket) == bytes(answer.ticket)), None)
        return Cancelled(Code(code), found._told(code, answer, room) if found else None)

    def out_at(self, thread: int) -> int:
        """How many calls are out at the thread."""
        return int(self._get(U32, "cq_out_at", thread))

    def stopper(self, thread: int) -> Optional[int]:
        """The number of the environment whose trace has stopped the thread. None if none has."""
        number = U32()
        try:
            self._settled("cq_stopper", thread, ctypes.byref(number))
        except Error as why:
            if why.code == Code.NONE:
                return None
            raise
        return number.value

    def number(self) -> int:
        """The environment's number."""
        return int(self._get(U32, "cq_environment_number"))

    # The environment itself.

    def add_capabilities(self, capabilities: int) -> None:
        self._call("cq_add_capabilities", capabilities)

    def relinquish_capabilities(self, capabilities: int) -> None:
        self._call("cq_relinquish_capabilities", capabilities)

    def get_capabilities(self) -> Capability:
        return Capability(self._get(U32, "cq_get_capabilities"))

    def get_potential_capabilities(self) -> Capability:
        return Capability(self._get(U32, "cq_get_potential_capabilities"))

    def get_environment_local_storage(self) -> int:
        return int(self._get(U64, "cq_get_environment_local_storage"))

    def set_environment_local_storage(self, word: int) -> None:
        self._call("cq_set_environment_local_storage", word)

    def set_event_notification_mode(self, enabled: bool, kind: EventKind) -> None:
        """Whether the environment is told of this kind of event from now on."""
        self._call("cq_wait_set_event_notification_mode", self._signal, enabled, kind)

    def next_event(self, timeout: Optional[float] = None) -> Event:
        """The next event. Events that are disabled never come."""
        event = api.Event()
        self._call("cq_wait_next_event", self._signal, _nanoseconds(timeout), ctypes.byref(event))
        return Event(EventKind(event.kind), event.number, event.lost)

    # Stops of threads.

    def _ask(self, name: str, *arguments: Any) -> None:
        """Asks for stops, or for fewer. Environments that wait for news go on."""
        self._settled(name, *arguments)
        self._library.cq_wake(self._signal)

    def set_breakpoint(self, method: int, location: int) -> None:
        self._ask("cq_set_breakpoint", method, location)

    def clear_breakpoint(self, method: int, location: int) -> None:
        self._ask("cq_clear_breakpoint", method, location)

    def set_stop_notification_mode(self, enabled: bool, kind: StopKind, thread: Optional[int] = None) -> None:
        """Whether the environment is told of this kind of stop, at one thread or at all."""
        self._ask("cq_set_stop_notification_mode", enabled, kind, ALL_THREADS if thread is None else thread)

    def notify_frame_pop(self, thread: int, frames: int) -> None:
        """The frame is the one that is `frames` from the oldest, which is 1."""
        self._ask("cq_notify_frame_pop", thread, frames)

    def next_stop(self, timeout: Optional[float] = None) -> Stop:
        """The next stop. The thread stops until `end_stop`."""
        stop = api.Stop()
        self._call("cq_wait_next_stop", self._signal, _nanoseconds(timeout), ctypes.byref(stop))
        return Stop(stop.thread, stop.method, stop.location, StopReason(stop.why))

    def end_stop(self, thread: int) -> None:
        self._call("cq_wait_end_stop", self._signal, thread)

    def dispose(self, timeout: Optional[float] = None) -> None:
        """DisposeEnvironment. A further call does nothing. It waits for calls that are out, at most this time: then it raises TIMED_OUT, and
        the environment stays."""
        code = self._plain_call("cq_wait_dispose_environment_within", self._signal, _nanoseconds(timeout))
        if code not in (Code.OK, Code.MISUSED):
            raise Error(code)
