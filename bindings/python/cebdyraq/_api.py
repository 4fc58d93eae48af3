"""What the headers declare, for ctypes. Made from the headers by ci/generate.py. Do not edit."""

import ctypes
import enum
from typing import Any, Dict, List, Tuple

from ._types import AT, BOOL, DOUBLE, I32, I64, INT, NUMBER, SIZE, TEXT, U32, U64, WORD

VERSION = (2, 5)

ALL_THREADS = 4294967295
DOOR_CONNECTIONS = 16


class Code(enum.IntEnum):
    """The codes."""

    OK = 0
    INVALID_THREAD = 10
    THREAD_NOT_SUSPENDED = 13
    THREAD_SUSPENDED = 14
    THREAD_NOT_ALIVE = 15
    INVALID_CLASS = 21
    INVALID_METHODID = 23
    INVALID_LOCATION = 24
    NO_MORE_FRAMES = 31
    OPAQUE_FRAME = 32
    DUPLICATE = 40
    NOT_FOUND = 41
    NOT_AVAILABLE = 98
    MUST_POSSESS_CAPABILITY = 99
    ABSENT_INFORMATION = 101
    ILLEGAL_ARGUMENT = 103
    NATIVE_METHOD = 104
    OUT_OF_MEMORY = 110
    OVERFLOW = 201
    NO_FRAME = 202
    NOT_JAVA_FRAME = 203
    NOT_RUNNING = 204
    NOT_SAFE = 205
    BARRED = 206
    NO_NATIVE_FRAME = 207
    OWN_SPENT = 208
    CALLS_SPENT = 209
    NOT_NEW = 210
    ALREADY_STOPPED = 211
    STILL_RUNNING = 213
    TIMED_OUT = 214
    BUSY = 215
    FULL = 216
    HELD = 301
    WAITING = 302
    NONE = 303
    MISUSED = 304
    POPPED = 305
    SYSTEM = 306

    @property
    def text(self) -> str:
        """When the code comes."""
        return TEXTS[self]


TEXTS: Dict[int, str] = {
    0: "it is done, or the answer is there",
    10: "there is no thread of this number, or the environment has not met it",
    13: "a resumption or a pop, and the thread is not suspended; or the end of a stop, and it does not stop for the environment",
    14: "a suspension, and the thread is suspended",
    15: "the thread has not started, or has ended",
    21: "no class of this number was defined",
    23: "no method of this number was defined",
    24: "there can be no breakpoint at this location of the method",
    31: "there is no frame at this depth, or there are fewer than two for a pop",
    32: "a pop, and one of the two newest frames is native",
    40: "the environment has this breakpoint, or asked for this pop, before",
    41: "the environment has no such breakpoint",
    98: "a capability that cannot be had",
    99: "the call needs a capability that the environment does not have",
    101: "the class has no source file, or the method no lines",
    103: "an argument is out of its range",
    104: "a native method has no lines",
    110: "there is no memory for it",
    201: "the stack has as many frames as the service's depth",
    202: "a step needs a frame, and there is none",
    203: "a new location for a native frame",
    204: "the thread does not run",
    205: "a return of a thread that is not native, blocked or held",
    206: "the thread is suspended or stopped, and may not start or return",
    207: "a hand-over to native code, and the newest frame is not native",
    208: "the thread has spent its 2^59 steps",
    209: "the environment has spent its 2^52 calls at the thread",
    210: "a start of a thread that has started",
    211: "another environment's trace has stopped the thread: call again later",
    213: "a thread of the trace has not come to its next poll: call again later",
    214: "the time is over",
    215: "another thread uses it at this moment: call again",
    216: "a bound other than memory leaves no room for it: the window, envs, the 65,536 threads that an environment may have met, or a count that no process reaches",
    301: "the thread is held at its poll, and returns by cq_back",
    302: "the call waits for the thread: collect its answer later",
    303: "there is nothing of the kind: no event, stop, trace, cancelled call, connection or question",
    304: "the handle is empty, of another kind, or full when an empty one is wanted. Or the environment gathers a trace, or has none to go on with",
    305: "all frames are to be set, and frames were popped that the runtime has not taken note of (cq_take_pops)",
    306: "the operating system refused; errno says why",
}


class State(enum.IntFlag):
    """Bits of GetThreadState (JVM TI 11)."""

    ALIVE = 0x1
    TERMINATED = 0x2
    RUNNABLE = 0x4
    WAITING_INDEFINITELY = 0x10
    WAITING_WITH_TIMEOUT = 0x20
    SLEEPING = 0x40
    WAITING = 0x80
    IN_OBJECT_WAIT = 0x100
    PARKED = 0x200
    BLOCKED_ON_MONITOR_ENTER = 0x400
    SUSPENDED = 0x100000
    IN_NATIVE = 0x400000


class Capability(enum.IntFlag):
    """Capabilities, as a sum of bits (jvmtiCapabilities; the bits are this service's)."""

    SUSPEND = 1
    POP_FRAME = 2


class Reason(enum.IntEnum):
    """Why a thread blocks."""

    MONITOR_ENTER = 0
    OBJECT_WAIT = 1
    TIMED_WAIT = 2
    SLEEP = 3
    PARK = 4
    TIMED_PARK = 5


class EventKind(enum.IntEnum):
    """Events of a thread's life."""

    THREAD_START = 0
    THREAD_END = 1
    CLASS_PREPARE = 2
    THREAD_ATTACHED = 3
    THREAD_DETACHED = 4


class StopKind(enum.IntEnum):
    """Kinds of stops."""

    BREAKPOINT = 0
    SINGLE_STEP = 1
    FRAME_POP = 2


class StopReason(enum.IntFlag):
    """Why a thread stops, as a sum of bits."""

    BREAKPOINT = 1
    SINGLE_STEP = 2
    FRAME_POP = 4


class LinesKind(enum.IntEnum):
    """What is known of a method's lines."""

    ABSENT = 0
    LOCATIONS = 1
    TABLE = 2
    NATIVE = 3


class DoorAction(enum.IntEnum):
    """What is to be done with a connection's socket."""

    WAIT = 0
    WRITE = 1
    CLOSE = 2
    ASK = 3


class QuestionKind(enum.IntEnum):
    """What a debugger asks."""

    NONE = 0
    VARIABLES = 1
    VALUES = 2


class ValueKind(enum.IntEnum):
    """What a value is, and what its bits are."""

    NIL = 0
    BOOLEAN = 1
    INTEGER = 2
    NUMBER = 3
    TEXT = 4
    TABLE = 5
    ENTRY = 6


class Service(ctypes.Structure):
    _fields_ = [("kind", U32), ("at", AT)]


class Thread(ctypes.Structure):
    _fields_ = [("kind", U32), ("at", AT)]


class Env(ctypes.Structure):
    _fields_ = [("kind", U32), ("at", AT)]


class Frame(ctypes.Structure):
    _fields_ = [("method", U32), ("location", I64)]


class Ticket(ctypes.Structure):
    _fields_ = [("env", U32), ("thread", U32), ("no", U64)]


class Answer(ctypes.Structure):
    _fields_ = [("number", U64), ("frame", Frame), ("ticket", Ticket)]


class ThreadInfo(ctypes.Structure):
    _fields_ = [("name_length", U64), ("priority", I32)]


class Event(ctypes.Structure):
    _fields_ = [("kind", U32), ("number", U32), ("lost", U64)]


class Stop(ctypes.Structure):
    _fields_ = [("thread", U32), ("method", U32), ("location", I64), ("why", U32)]


class StackInfo(ctypes.Structure):
    _fields_ = [("thread", U32), ("state", U32), ("frame_count", U64)]


class LineEntry(ctypes.Structure):
    _fields_ = [("start_location", U32), ("line_number", U32)]


class Range(ctypes.Structure):
    _fields_ = [("start", SIZE), ("length", SIZE)]


class ClassRanges(ctypes.Structure):
    _fields_ = [("signature", Range), ("source_file", Range)]


class MethodRanges(ctypes.Structure):
    _fields_ = [("name", Range), ("signature", Range), ("lines", Range), ("lines_kind", U32), ("first_line", U32)]


class MethodStrings(ctypes.Structure):
    _fields_ = [("name", AT), ("signature", AT), ("lines", AT), ("line_count", SIZE), ("lines_kind", U32), ("first_line", U32)]


class MethodName(ctypes.Structure):
    _fields_ = [("name_length", U64), ("signature_length", U64), ("first_line", U32)]


class Sleepers(ctypes.Structure):
    _fields_ = [("news", U32), ("sleepers", U32)]


class Signal(ctypes.Structure):
    _fields_ = [("threads", Sleepers), ("agents", Sleepers)]


class Door(ctypes.Structure):
    _fields_ = [("kind", U32), ("at", AT)]


class Question(ctypes.Structure):
    _fields_ = [("kind", U32), ("method", U32), ("thread", U32), ("depth", U32)]


class Variable(ctypes.Structure):
    _fields_ = [("slot", U32), ("first", U32), ("count", U32), ("name_length", U32)]


class Value(ctypes.Structure):
    _fields_ = [("slot", U32), ("kind", U32), ("bits", U64)]


OF_METHOD = ctypes.CFUNCTYPE(U32, AT, U32, AT)


OF_FRAME = ctypes.CFUNCTYPE(U32, AT, U32, U32, AT)


class Variables(ctypes.Structure):
    _fields_ = [("context", AT), ("of_method", OF_METHOD), ("of_frame", OF_FRAME)]


class Server(ctypes.Structure):
    _fields_ = [("opaque", U64 * 96)]


class Watch(ctypes.Structure):
    _fields_ = [("kind", U32), ("at", AT), ("kept", U64 * 14)]


# The result and the arguments of each function. A pointer is a void pointer here.
FUNCTIONS: Dict[str, Tuple[Any, List[Any]]] = {
    "cq_version": (U32, []),
    "cq_code_name": (TEXT, [NUMBER]),
    "cq_code_text": (TEXT, [NUMBER]),
    "cq_set_heap": (U32, [ctypes.CFUNCTYPE(AT, SIZE), ctypes.CFUNCTYPE(AT, AT, SIZE), ctypes.CFUNCTYPE(None, AT)]),
    "cq_make": (U32, [NUMBER, NUMBER, NUMBER, NUMBER, AT]),
    "cq_share": (U32, [AT, AT]),
    "cq_free": (U32, [AT]),
    "cq_attach_thread": (U32, [AT, AT, SIZE, INT, AT]),
    "cq_attach_environment": (U32, [AT, AT]),
    "cq_thread_number": (U32, [AT, AT]),
    "cq_start": (U32, [AT]),
    "cq_enter": (U32, [AT, NUMBER]),
    "cq_enter_native": (U32, [AT, NUMBER]),
    "cq_at": (U32, [AT, NUMBER]),
    "cq_leave": (U32, [AT]),
    "cq_set_frames": (U32, [AT, AT, SIZE]),
    "cq_set_newest_frames": (U32, [AT, AT, SIZE, AT]),
    "cq_frame_count": (U32, [AT, AT]),
    "cq_take_pops": (U32, [AT, AT]),
    "cq_poll_clear": (BOOL, [AT]),
    "cq_poll_word": (U32, [AT, AT, AT]),
    "cq_poll": (U32, [AT]),
    "cq_native": (U32, [AT]),
    "cq_block": (U32, [AT, NUMBER]),
    "cq_back": (U32, [AT]),
    "cq_end": (U32, [AT]),
    "cq_detach_thread": (U32, [AT]),
    "cq_meet": (U32, [AT]),
    "cq_has_news": (BOOL, [AT]),
    "cq_let_go": (U32, [AT, NUMBER, AT]),
    "cq_let_go_of_all": (U32, [AT]),
    "cq_get_all_threads": (U32, [AT, AT, SIZE, AT]),
    "cq_get_thread_info": (U32, [AT, NUMBER, AT, AT, SIZE]),
    "cq_get_thread_state": (U32, [AT, NUMBER, AT]),
    "cq_get_frame_count": (U32, [AT, NUMBER, AT]),
    "cq_get_frame_location": (U32, [AT, NUMBER, INT, AT]),
    "cq_get_stack_trace": (U32, [AT, NUMBER, INT, INT, AT, AT, SIZE]),
    "cq_suspend_thread": (U32, [AT, NUMBER, AT]),
    "cq_resume_thread": (U32, [AT, NUMBER, AT]),
    "cq_pop_frame": (U32, [AT, NUMBER, AT]),
    "cq_get_thread_local_storage": (U32, [AT, NUMBER, AT]),
    "cq_set_thread_local_storage": (U32, [AT, NUMBER, WORD, AT]),
    "cq_collect": (U32, [AT, AT, AT, AT, SIZE]),
    "cq_cancel": (U32, [AT, AT]),
    "cq_discard": (U32, [AT, NUMBER, AT]),
    "cq_collect_cancelled": (U32, [AT, NUMBER, AT, AT, SIZE]),
    "cq_ensure_resumed": (U32, [AT, NUMBER]),
    "cq_out_at": (U32, [AT, NUMBER, AT]),
    "cq_stopper": (U32, [AT, NUMBER, AT]),
    "cq_gather_all_stack_traces": (U32, [AT, INT]),
    "cq_gather_thread_list_stack_traces": (U32, [AT, AT, SIZE, INT]),
    "cq_gather_step": (U32, [AT, AT]),
    "cq_gather_give_up": (U32, [AT]),
    "cq_gathered": (U32, [AT, AT]),
    "cq_gathered_stack": (U32, [AT, WORD, AT, AT, SIZE]),
    "cq_environment_number": (U32, [AT, AT]),
    "cq_add_capabilities": (U32, [AT, NUMBER]),
    "cq_relinquish_capabilities": (U32, [AT, NUMBER]),
    "cq_get_capabilities": (U32, [AT, AT]),
    "cq_get_potential_capabilities": (U32, [AT, AT]),
    "cq_get_environment_local_storage": (U32, [AT, AT]),
    "cq_set_environment_local_storage": (U32, [AT, WORD]),
    "cq_set_event_notification_mode": (U32, [AT, BOOL, NUMBER]),
    "cq_next_event": (U32, [AT, AT]),
    "cq_dispose_environment": (U32, [AT]),
    "cq_define_class": (U32, [AT, AT, SIZE, AT, AT, SIZE, AT, SIZE, AT, AT]),
    "cq_define_class_strings": (U32, [AT, TEXT, TEXT, AT, SIZE, AT, AT]),
    "cq_get_loaded_classes": (U32, [AT, AT, SIZE, AT]),
    "cq_get_class_signature": (U32, [AT, NUMBER, AT, SIZE, AT]),
    "cq_get_source_file_name": (U32, [AT, NUMBER, AT, SIZE, AT]),
    "cq_get_class_methods": (U32, [AT, NUMBER, AT, SIZE, AT]),
    "cq_get_method_name": (U32, [AT, NUMBER, AT, AT, SIZE, AT, SIZE]),
    "cq_get_method_declaring_class": (U32, [AT, NUMBER, AT]),
    "cq_is_method_native": (U32, [AT, NUMBER, AT]),
    "cq_get_line_number_table": (U32, [AT, NUMBER, AT, AT, SIZE, AT]),
    "cq_may_stop": (BOOL, [AT]),
    "cq_stops_version": (U64, [AT]),
    "cq_may_stop_in": (U32, [AT, NUMBER, NUMBER, AT]),
    "cq_reached": (U32, [AT, NUMBER, NUMBER, AT]),
    "cq_leaves": (U32, [AT, NUMBER, NUMBER, NUMBER, AT]),
    "cq_is_stopped": (U32, [AT, AT]),
    "cq_set_breakpoint": (U32, [AT, NUMBER, NUMBER]),
    "cq_clear_breakpoint": (U32, [AT, NUMBER, NUMBER]),
    "cq_set_stop_notification_mode": (U32, [AT, BOOL, NUMBER, NUMBER]),
    "cq_notify_frame_pop": (U32, [AT, NUMBER, NUMBER]),
    "cq_next_stop": (U32, [AT, AT]),
    "cq_end_stop": (U32, [AT, NUMBER]),
    "cq_wake": (None, [AT]),
    "cq_wait_attach_thread": (U32, [AT, AT, AT, SIZE, INT, AT]),
    "cq_wait_attach_environment": (U32, [AT, AT, AT]),
    "cq_wait_start": (U32, [AT, AT, I64]),
    "cq_wait_poll": (U32, [AT, AT]),
    "cq_wait_native": (U32, [AT, AT]),
    "cq_wait_block": (U32, [AT, AT, NUMBER]),
    "cq_wait_back": (U32, [AT, AT, I64]),
    "cq_wait_reached": (U32, [AT, AT, NUMBER, NUMBER, AT]),
    "cq_wait_leaves": (U32, [AT, AT, NUMBER, NUMBER, NUMBER, AT]),
    "cq_wait_stop": (U32, [AT, AT]),
    "cq_wait_end": (U32, [AT, AT]),
    "cq_wait_detach_thread": (U32, [AT, AT]),
    "cq_wait_meet": (U32, [AT, AT]),
    "cq_wait_let_go": (U32, [AT, AT, NUMBER, AT]),
    "cq_wait_let_go_of_all": (U32, [AT, AT]),
    "cq_wait_get_all_threads": (U32, [AT, AT, AT, SIZE, AT]),
    "cq_wait_get_thread_info": (U32, [AT, AT, NUMBER, AT, AT, SIZE]),
    "cq_wait_cancel": (U32, [AT, AT, AT]),
    "cq_wait_discard": (U32, [AT, AT, NUMBER, AT]),
    "cq_wait_collect_cancelled": (U32, [AT, AT, NUMBER, I64, AT, AT, SIZE]),
    "cq_wait_ensure_resumed": (U32, [AT, AT, NUMBER, I64]),
    "cq_wait_set_event_notification_mode": (U32, [AT, AT, BOOL, NUMBER]),
    "cq_wait_dispose_environment": (U32, [AT, AT]),
    "cq_wait_dispose_environment_within": (U32, [AT, AT, I64]),
    "cq_wait_end_environment": (U32, [AT, AT, I64]),
    "cq_wait_next_event": (U32, [AT, AT, I64, AT]),
    "cq_wait_next_stop": (U32, [AT, AT, I64, AT]),
    "cq_wait_end_stop": (U32, [AT, AT, NUMBER]),
    "cq_wait_get_thread_state": (U32, [AT, AT, NUMBER, I64, AT]),
    "cq_wait_get_frame_count": (U32, [AT, AT, NUMBER, I64, AT]),
    "cq_wait_get_frame_location": (U32, [AT, AT, NUMBER, INT, I64, AT]),
    "cq_wait_get_stack_trace": (U32, [AT, AT, NUMBER, INT, INT, I64, AT, SIZE, AT]),
    "cq_wait_suspend_thread": (U32, [AT, AT, NUMBER, I64]),
    "cq_wait_resume_thread": (U32, [AT, AT, NUMBER, I64]),
    "cq_wait_pop_frame": (U32, [AT, AT, NUMBER, I64]),
    "cq_wait_get_thread_local_storage": (U32, [AT, AT, NUMBER, I64, AT]),
    "cq_wait_set_thread_local_storage": (U32, [AT, AT, NUMBER, WORD, I64]),
    "cq_wait_suspend_thread_list": (U32, [AT, AT, AT, SIZE, I64, AT]),
    "cq_wait_resume_thread_list": (U32, [AT, AT, AT, SIZE, I64, AT]),
    "cq_wait_get_all_stack_traces": (U32, [AT, AT, INT, I64, AT]),
    "cq_wait_get_thread_list_stack_traces": (U32, [AT, AT, AT, SIZE, INT, I64, AT]),
    "cq_wait_any": (U32, [AT, AT, AT, SIZE, I64, AT, AT, AT, SIZE]),
    "cq_wait_collect": (U32, [AT, AT, AT, I64, AT, AT, SIZE]),
    "cq_open_door": (U32, [AT, AT, SIZE, NUMBER, WORD, AT]),
    "cq_open_debugger": (U32, [AT, AT, SIZE, AT, SIZE, WORD, AT]),
    "cq_door_connect": (U32, [AT, WORD, AT]),
    "cq_door_next": (U32, [AT, NUMBER, WORD, WORD, AT, AT]),
    "cq_door_feed": (U32, [AT, NUMBER, AT, SIZE, WORD, AT]),
    "cq_door_end": (U32, [AT, NUMBER, WORD]),
    "cq_door_output": (U32, [AT, NUMBER, AT, SIZE, AT]),
    "cq_door_written": (U32, [AT, NUMBER, WORD, WORD]),
    "cq_door_disconnect": (U32, [AT, NUMBER]),
    "cq_door_runtime_ends": (U32, [AT]),
    "cq_door_tick": (U32, [AT, WORD, AT]),
    "cq_door_starts_suspended": (U32, [AT, BOOL]),
    "cq_door_tells_variables": (U32, [AT, BOOL]),
    "cq_door_pops_frames": (U32, [AT, BOOL]),
    "cq_door_question": (U32, [AT, AT]),
    "cq_door_tell_variables": (U32, [AT, AT, SIZE, AT, SIZE]),
    "cq_door_tell_values": (U32, [AT, AT, SIZE, AT, SIZE]),
    "cq_door_tell_none": (U32, [AT, NUMBER]),
    "cq_door_answer": (U32, [AT, AT]),
    "cq_tell_variable": (U32, [AT, AT, SIZE, NUMBER, NUMBER, NUMBER]),
    "cq_tell_nil": (U32, [AT, NUMBER]),
    "cq_tell_boolean": (U32, [AT, NUMBER, BOOL]),
    "cq_tell_integer": (U32, [AT, NUMBER, I64]),
    "cq_tell_number": (U32, [AT, NUMBER, DOUBLE]),
    "cq_tell_text": (U32, [AT, NUMBER, AT, SIZE]),
    "cq_tell_table": (U32, [AT, NUMBER]),
    "cq_tell_entry": (U32, [AT, AT, SIZE]),
    "cq_door_resumptions": (U32, [AT, AT]),
    "cq_close_door": (U32, [AT]),
    "cq_serve": (U32, [AT, AT, AT, TEXT, TEXT]),
    "cq_debug_listen": (U32, [AT, AT, AT, TEXT, TEXT, TEXT]),
    "cq_server_variables": (U32, [AT, AT]),
    "cq_server_pops_frames": (U32, [AT, BOOL]),
    "cq_server_starts_suspended": (U32, [AT, BOOL]),
    "cq_server_await_resumption": (U32, [AT]),
    "cq_server_tell_classes": (U32, [AT]),
    "cq_server_port": (U32, [AT, AT]),
    "cq_serve_end": (U32, [AT]),
    "cq_open_watch": (U32, [AT]),
    "cq_close_watch": (U32, [AT]),
    "cq_watch_thread": (U32, [AT, AT]),
    "cq_unwatch_thread": (U32, [AT]),
    "cq_watch_stops": (U32, [AT, AT]),
    "cq_next_wanted": (U32, [AT, AT, SIZE, AT]),
    "cq_wait_next_wanted": (U32, [AT, I64, AT, SIZE, AT]),
    "cq_watch_fd": (U32, [AT, AT]),
}
