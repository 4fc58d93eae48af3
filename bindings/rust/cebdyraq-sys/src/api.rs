// Made from the headers by ci/generate.py. Do not edit.

use core::ffi::{c_char, c_void};
use core::ptr::null_mut;

// The version whose functions are declared here.
pub const CQ_VERSION_MAJOR: u32 = 2;
pub const CQ_VERSION_MINOR: u32 = 5;

// cq_code
/// It is done, or the answer is there.
pub const CQ_OK: u32 = 0;
/// There is no thread of this number, or the environment has not met it.
pub const CQ_INVALID_THREAD: u32 = 10;
/// A resumption or a pop, and the thread is not suspended; or the end of a stop, and it does not stop for the environment.
pub const CQ_THREAD_NOT_SUSPENDED: u32 = 13;
/// A suspension, and the thread is suspended.
pub const CQ_THREAD_SUSPENDED: u32 = 14;
/// The thread has not started, or has ended.
pub const CQ_THREAD_NOT_ALIVE: u32 = 15;
/// No class of this number was defined.
pub const CQ_INVALID_CLASS: u32 = 21;
/// No method of this number was defined.
pub const CQ_INVALID_METHODID: u32 = 23;
/// There can be no breakpoint at this location of the method.
pub const CQ_INVALID_LOCATION: u32 = 24;
/// There is no frame at this depth, or there are fewer than two for a pop.
pub const CQ_NO_MORE_FRAMES: u32 = 31;
/// A pop, and one of the two newest frames is native.
pub const CQ_OPAQUE_FRAME: u32 = 32;
/// The environment has this breakpoint, or asked for this pop, before.
pub const CQ_DUPLICATE: u32 = 40;
/// The environment has no such breakpoint.
pub const CQ_NOT_FOUND: u32 = 41;
/// A capability that cannot be had.
pub const CQ_NOT_AVAILABLE: u32 = 98;
/// The call needs a capability that the environment does not have.
pub const CQ_MUST_POSSESS_CAPABILITY: u32 = 99;
/// The class has no source file, or the method no lines.
pub const CQ_ABSENT_INFORMATION: u32 = 101;
/// An argument is out of its range.
pub const CQ_ILLEGAL_ARGUMENT: u32 = 103;
/// A native method has no lines.
pub const CQ_NATIVE_METHOD: u32 = 104;
/// There is no memory for it.
pub const CQ_OUT_OF_MEMORY: u32 = 110;
/// The stack has as many frames as the service's depth.
pub const CQ_OVERFLOW: u32 = 201;
/// A step needs a frame, and there is none.
pub const CQ_NO_FRAME: u32 = 202;
/// A new location for a native frame.
pub const CQ_NOT_JAVA_FRAME: u32 = 203;
/// The thread does not run.
pub const CQ_NOT_RUNNING: u32 = 204;
/// A return of a thread that is not native, blocked or held.
pub const CQ_NOT_SAFE: u32 = 205;
/// The thread is suspended or stopped, and may not start or return.
pub const CQ_BARRED: u32 = 206;
/// A hand-over to native code, and the newest frame is not native.
pub const CQ_NO_NATIVE_FRAME: u32 = 207;
/// The thread has spent its 2^59 steps.
pub const CQ_OWN_SPENT: u32 = 208;
/// The environment has spent its 2^52 calls at the thread.
pub const CQ_CALLS_SPENT: u32 = 209;
/// A start of a thread that has started.
pub const CQ_NOT_NEW: u32 = 210;
/// Another environment's trace has stopped the thread: call again later.
pub const CQ_ALREADY_STOPPED: u32 = 211;
/// A thread of the trace has not come to its next poll: call again later.
pub const CQ_STILL_RUNNING: u32 = 213;
/// The time is over.
pub const CQ_TIMED_OUT: u32 = 214;
/// Another thread uses it at this moment: call again.
pub const CQ_BUSY: u32 = 215;
/// A bound other than memory leaves no room for it: the window, `envs`, the 65,536 threads that an environment may have met, or a count that no process reaches.
pub const CQ_FULL: u32 = 216;
/// The thread is held at its poll, and returns by cq_back.
pub const CQ_HELD: u32 = 301;
/// The call waits for the thread: collect its answer later.
pub const CQ_WAITING: u32 = 302;
/// There is nothing of the kind: no event, stop, trace, cancelled call, connection or question.
pub const CQ_NONE: u32 = 303;
/// The handle is empty, of another kind, or full when an empty one is wanted. Or the environment gathers a trace, or has none to go on with.
pub const CQ_MISUSED: u32 = 304;
/// All frames are to be set, and frames were popped that the runtime has not taken note of (cq_take_pops).
pub const CQ_POPPED: u32 = 305;
/// The operating system refused; errno says why.
pub const CQ_SYSTEM: u32 = 306;

// cq_state
pub const CQ_STATE_ALIVE: u32 = 0x1;
pub const CQ_STATE_TERMINATED: u32 = 0x2;
pub const CQ_STATE_RUNNABLE: u32 = 0x4;
pub const CQ_STATE_WAITING_INDEFINITELY: u32 = 0x10;
pub const CQ_STATE_WAITING_WITH_TIMEOUT: u32 = 0x20;
pub const CQ_STATE_SLEEPING: u32 = 0x40;
pub const CQ_STATE_WAITING: u32 = 0x80;
pub const CQ_STATE_IN_OBJECT_WAIT: u32 = 0x100;
pub const CQ_STATE_PARKED: u32 = 0x200;
pub const CQ_STATE_BLOCKED_ON_MONITOR_ENTER: u32 = 0x400;
pub const CQ_STATE_SUSPENDED: u32 = 0x100000;
pub const CQ_STATE_IN_NATIVE: u32 = 0x400000;

// cq_capability
pub const CQ_CAN_SUSPEND: u32 = 1;
pub const CQ_CAN_POP_FRAME: u32 = 2;

// cq_reason
pub const CQ_MONITOR_ENTER: u32 = 0;
pub const CQ_OBJECT_WAIT: u32 = 1;
pub const CQ_TIMED_WAIT: u32 = 2;
pub const CQ_SLEEP: u32 = 3;
pub const CQ_PARK: u32 = 4;
pub const CQ_TIMED_PARK: u32 = 5;

// cq_event_kind
pub const CQ_THREAD_START: u32 = 0;
pub const CQ_THREAD_END: u32 = 1;
pub const CQ_CLASS_PREPARE: u32 = 2;
pub const CQ_THREAD_ATTACHED: u32 = 3;
pub const CQ_THREAD_DETACHED: u32 = 4;

// cq_stop_kind
pub const CQ_BREAKPOINT: u32 = 0;
pub const CQ_SINGLE_STEP: u32 = 1;
pub const CQ_FRAME_POP: u32 = 2;

// A number that stands for all threads.
pub const CQ_ALL_THREADS: u32 = 4294967295;

// cq_stop_reason
pub const CQ_STOP_BREAKPOINT: u32 = 1;
pub const CQ_STOP_SINGLE_STEP: u32 = 2;
pub const CQ_STOP_FRAME_POP: u32 = 4;

// cq_lines_kind
/// Nothing.
pub const CQ_LINES_ABSENT: u32 = 0;
/// A location is its line.
pub const CQ_LINES_LOCATIONS: u32 = 1;
/// There is a table.
pub const CQ_LINES_TABLE: u32 = 2;
/// The method is native, and has no lines.
pub const CQ_LINES_NATIVE: u32 = 3;

// How many connections a door for HTTP has at most.
pub const CQ_DOOR_CONNECTIONS: u32 = 16;

// cq_door_action
/// Nothing, until the socket gives more, or the next tick.
pub const CQ_DOOR_WAIT: u32 = 0;
/// Write what cq_door_output gives, and tell how much it took by cq_door_written.
pub const CQ_DOOR_WRITE: u32 = 1;
/// Close it, and tell that by cq_door_disconnect.
pub const CQ_DOOR_CLOSE: u32 = 2;
/// Answer the question that cq_door_question gives.
pub const CQ_DOOR_ASK: u32 = 3;

// cq_question_kind
/// Nothing.
pub const CQ_QUESTION_NONE: u32 = 0;
/// The names and the scopes of all variables of `method`.
pub const CQ_QUESTION_VARIABLES: u32 = 1;
/// The values of all variables of the frame at `depth` of `thread`; 0 is the newest frame.
pub const CQ_QUESTION_VALUES: u32 = 2;

// cq_value_kind
/// 0.
pub const CQ_VALUE_NIL: u32 = 0;
/// 0 or 1.
pub const CQ_VALUE_BOOLEAN: u32 = 1;
/// 64 bits, in two's complement.
pub const CQ_VALUE_INTEGER: u32 = 2;
/// 64 bits of an IEEE 754 double.
pub const CQ_VALUE_NUMBER: u32 = 3;
/// The length of the text in bytes.
pub const CQ_VALUE_TEXT: u32 = 4;
/// How many entries come right behind it.
pub const CQ_VALUE_TABLE: u32 = 5;
/// The length of the entry in bytes, such as that of "key = value".
pub const CQ_VALUE_ENTRY: u32 = 6;

/// Handles. Zeros at first, and then for this library alone.
#[repr(C)]
#[derive(Debug)]
pub struct cq_service {
    kind: u32,
    at: *mut c_void,
}

impl cq_service {
    /// An empty one.
    pub const fn empty() -> Self {
        Self { kind: 0, at: null_mut() }
    }
}

impl Default for cq_service {
    fn default() -> Self {
        Self::empty()
    }
}

/// Handles. Zeros at first, and then for this library alone.
#[repr(C)]
#[derive(Debug)]
pub struct cq_thread {
    kind: u32,
    at: *mut c_void,
}

impl cq_thread {
    /// An empty one.
    pub const fn empty() -> Self {
        Self { kind: 0, at: null_mut() }
    }
}

impl Default for cq_thread {
    fn default() -> Self {
        Self::empty()
    }
}

/// Handles. Zeros at first, and then for this library alone.
#[repr(C)]
#[derive(Debug)]
pub struct cq_env {
    kind: u32,
    at: *mut c_void,
}

impl cq_env {
    /// An empty one.
    pub const fn empty() -> Self {
        Self { kind: 0, at: null_mut() }
    }
}

impl Default for cq_env {
    fn default() -> Self {
        Self::empty()
    }
}

/// A frame: a method by a number of the runtime's, and a location in it from 0 to 2^32 - 1, or -1 if it is native.
#[repr(C)]
#[derive(Clone, Copy, Debug, Default, PartialEq, Eq, Hash)]
pub struct cq_frame {
    pub method: u32,
    pub location: i64,
}

/// The name of a call that waits.
#[repr(C)]
#[derive(Clone, Copy, Debug, Default, PartialEq, Eq, Hash)]
pub struct cq_ticket {
    pub env: u32,
    pub thread: u32,
    pub no: u64,
}

/// What a call at a thread gives. Each function says which of these it writes.
#[repr(C)]
#[derive(Clone, Copy, Debug, Default, PartialEq, Eq, Hash)]
pub struct cq_answer {
    pub number: u64,
    pub frame: cq_frame,
    pub ticket: cq_ticket,
}

/// What is told of a thread (GetThreadInfo): the length of its name in bytes, and its priority.
#[repr(C)]
#[derive(Clone, Copy, Debug, Default, PartialEq, Eq, Hash)]
pub struct cq_thread_info {
    pub name_length: u64,
    pub priority: i32,
}

/// An event: its kind, from CQ_THREAD_START to CQ_THREAD_DETACHED; the thread's number, or with CQ_CLASS_PREPARE the class's; and how many events of threads were lost before it, of whatever kind.
#[repr(C)]
#[derive(Clone, Copy, Debug, Default, PartialEq, Eq, Hash)]
pub struct cq_event {
    pub kind: u32,
    pub number: u32,
    pub lost: u64,
}

/// A stop: the thread's number, where it is, and why it stops there.
#[repr(C)]
#[derive(Clone, Copy, Debug, Default, PartialEq, Eq, Hash)]
pub struct cq_stop {
    pub thread: u32,
    pub method: u32,
    pub location: i64,
    pub why: u32,
}

/// What a trace of several threads tells of one: its number, its state (GetThreadState), and how many frames there are.
#[repr(C)]
#[derive(Clone, Copy, Debug, Default, PartialEq, Eq, Hash)]
pub struct cq_stack_info {
    pub thread: u32,
    pub state: u32,
    pub frame_count: u64,
}

/// An entry of a table of lines (jvmtiLineNumberEntry): from this location on, up to that of the next entry, a method is at this line.
#[repr(C)]
#[derive(Clone, Copy, Debug, Default, PartialEq, Eq, Hash)]
pub struct cq_line_entry {
    pub start_location: u32,
    pub line_number: u32,
}

/// A part of a text, in bytes, or of a list of line entries: where it starts, from 0, and how long it is.
#[repr(C)]
#[derive(Clone, Copy, Debug, Default, PartialEq, Eq, Hash)]
pub struct cq_range {
    pub start: usize,
    pub length: usize,
}

/// A class for cq_define_class: its signature (JVM TI 11), as in `Ljava/lang/Object;`, and the name of its source file, as parts of a text. A name of no bytes is no name. Two classes may have the same signature.
#[repr(C)]
#[derive(Clone, Copy, Debug, Default, PartialEq, Eq, Hash)]
pub struct cq_class_ranges {
    pub signature: cq_range,
    pub source_file: cq_range,
}

/// A method for cq_define_class: its name and its signature (JVM TI 11), as in `(I)V`, as parts of the text. With CQ_LINES_TABLE `lines` is its part of the line entries, and otherwise nothing reads it. The first line is that at which the method is defined, or 0 if it is not known.
#[repr(C)]
#[derive(Clone, Copy, Debug, Default, PartialEq, Eq, Hash)]
pub struct cq_method_ranges {
    pub name: cq_range,
    pub signature: cq_range,
    pub lines: cq_range,
    pub lines_kind: u32,
    pub first_line: u32,
}

/// A method for cq_define_class_strings: the same as strings that end with a 0, and with `line_count` line entries of its own. NULL is the empty signature, or no lines.
#[repr(C)]
#[derive(Clone, Copy, Debug)]
pub struct cq_method_strings {
    pub name: *const c_char,
    pub signature: *const c_char,
    pub lines: *const cq_line_entry,
    pub line_count: usize,
    pub lines_kind: u32,
    pub first_line: u32,
}

/// What is told of a method's name (GetMethodName): the lengths of the name and of the signature in bytes, and the line at which the method is defined.
#[repr(C)]
#[derive(Clone, Copy, Debug, Default, PartialEq, Eq, Hash)]
pub struct cq_method_name {
    pub name_length: u64,
    pub signature_length: u64,
    pub first_line: u32,
}

/// One for all threads that use a service. Zeros at first, and then for these functions alone. It stays where it is as long as one of them may use it.
#[repr(C)]
#[derive(Debug)]
pub struct cq_sleepers {
    news: u32,
    sleepers: u32,
}

impl cq_sleepers {
    /// An empty one.
    pub const fn empty() -> Self {
        Self { news: 0, sleepers: 0 }
    }
}

impl Default for cq_sleepers {
    fn default() -> Self {
        Self::empty()
    }
}

/// One for all threads that use a service. Zeros at first, and then for these functions alone. It stays where it is as long as one of them may use it.
#[repr(C)]
#[derive(Debug)]
pub struct cq_signal {
    threads: cq_sleepers,
    agents: cq_sleepers,
}

impl cq_signal {
    /// An empty one.
    pub const fn empty() -> Self {
        Self { threads: cq_sleepers::empty(), agents: cq_sleepers::empty() }
    }
}

impl Default for cq_signal {
    fn default() -> Self {
        Self::empty()
    }
}

/// A handle of a door. Zeros at first.
#[repr(C)]
#[derive(Debug)]
pub struct cq_door {
    kind: u32,
    at: *mut c_void,
}

impl cq_door {
    /// An empty one.
    pub const fn empty() -> Self {
        Self { kind: 0, at: null_mut() }
    }
}

impl Default for cq_door {
    fn default() -> Self {
        Self::empty()
    }
}

/// A question. What it does not ask about is 0.
#[repr(C)]
#[derive(Clone, Copy, Debug, Default, PartialEq, Eq, Hash)]
pub struct cq_question {
    pub kind: u32,
    pub method: u32,
    pub thread: u32,
    pub depth: u32,
}

/// A variable of a method. It is visible at the locations from `first` to `first` + `count` - 1.
#[repr(C)]
#[derive(Clone, Copy, Debug, Default, PartialEq, Eq, Hash)]
pub struct cq_variable {
    pub slot: u32,
    pub first: u32,
    pub count: u32,
    pub name_length: u32,
}

/// A value, or an entry of the table before it. The slot of an entry is not read.
#[repr(C)]
#[derive(Clone, Copy, Debug, Default, PartialEq, Eq, Hash)]
pub struct cq_value {
    pub slot: u32,
    pub kind: u32,
    pub bits: u64,
}

/// An answer that is put together. It is there for one call of a function of cq_variables.
#[repr(C)]
#[derive(Debug)]
pub struct cq_teller {
    opaque: [u8; 0],
}

/// Two functions of the runtime by which cq_door_answer answers a question. Both get `context`. They tell by cq_tell_.. below, and run on the thread that answers.
#[repr(C)]
#[derive(Clone, Copy, Debug)]
pub struct cq_variables {
    pub context: *mut c_void,
    pub of_method: unsafe extern "C" fn(*mut c_void, u32, *mut cq_teller) -> u32,
    pub of_frame: unsafe extern "C" fn(*mut c_void, u32, u32, *mut cq_teller) -> u32,
}

/// Zeros at first, and then for these functions alone. It stays where it is until cq_serve_end.
#[repr(C)]
#[derive(Debug)]
pub struct cq_server {
    opaque: [u64; 96],
}

impl cq_server {
    /// An empty one.
    pub const fn empty() -> Self {
        Self { opaque: [0; 96] }
    }
}

impl Default for cq_server {
    fn default() -> Self {
        Self::empty()
    }
}

/// A watch of threads of one service. Zeros at first, and then for these functions alone. It stays where it is until cq_close_watch.
#[repr(C)]
#[derive(Debug)]
pub struct cq_watch {
    kind: u32,
    at: *mut c_void,
    kept: [u64; 14],
}

impl cq_watch {
    /// An empty one.
    pub const fn empty() -> Self {
        Self { kind: 0, at: null_mut(), kept: [0; 14] }
    }
}

impl Default for cq_watch {
    fn default() -> Self {
        Self::empty()
    }
}

extern "C" {
    // cebdyraq.h
    pub fn cq_version() -> u32;
    pub fn cq_code_name(code: u32) -> *const c_char;
    pub fn cq_code_text(code: u32) -> *const c_char;
    pub fn cq_set_heap(
        allocate: unsafe extern "C" fn(usize) -> *mut c_void,
        resize: unsafe extern "C" fn(*mut c_void, usize) -> *mut c_void,
        release: unsafe extern "C" fn(*mut c_void),
    ) -> u32;
    pub fn cq_make(depth: u32, envs: u32, window: u32, capabilities: u32, service: *mut cq_service) -> u32;
    pub fn cq_share(service: *mut cq_service, other: *mut cq_service) -> u32;
    pub fn cq_free(service: *mut cq_service) -> u32;
    pub fn cq_attach_thread(
        service: *mut cq_service,
        name: *const u8,
        length: usize,
        priority: i32,
        thread: *mut cq_thread,
    ) -> u32;
    pub fn cq_attach_environment(service: *mut cq_service, env: *mut cq_env) -> u32;
    pub fn cq_thread_number(thread: *mut cq_thread, number: *mut u32) -> u32;
    pub fn cq_start(thread: *mut cq_thread) -> u32;
    pub fn cq_enter(thread: *mut cq_thread, method: u32) -> u32;
    pub fn cq_enter_native(thread: *mut cq_thread, method: u32) -> u32;
    pub fn cq_at(thread: *mut cq_thread, location: u32) -> u32;
    pub fn cq_leave(thread: *mut cq_thread) -> u32;
    pub fn cq_set_frames(thread: *mut cq_thread, frames: *const cq_frame, count: usize) -> u32;
    pub fn cq_set_newest_frames(thread: *mut cq_thread, frames: *const cq_frame, count: usize, kept: *mut u64) -> u32;
    pub fn cq_frame_count(thread: *mut cq_thread, count: *mut u64) -> u32;
    pub fn cq_take_pops(thread: *mut cq_thread, count: *mut u64) -> u32;
    pub fn cq_poll_clear(thread: *mut cq_thread) -> bool;
    pub fn cq_poll_word(thread: *mut cq_thread, word: *mut *const u64, mask: *mut u64) -> u32;
    pub fn cq_poll(thread: *mut cq_thread) -> u32;
    pub fn cq_native(thread: *mut cq_thread) -> u32;
    pub fn cq_block(thread: *mut cq_thread, reason: u32) -> u32;
    pub fn cq_back(thread: *mut cq_thread) -> u32;
    pub fn cq_end(thread: *mut cq_thread) -> u32;
    pub fn cq_detach_thread(thread: *mut cq_thread) -> u32;
    pub fn cq_meet(env: *mut cq_env) -> u32;
    pub fn cq_has_news(env: *mut cq_env) -> bool;
    pub fn cq_let_go(env: *mut cq_env, thread: u32, gone: *mut bool) -> u32;
    pub fn cq_let_go_of_all(env: *mut cq_env) -> u32;
    pub fn cq_get_all_threads(env: *mut cq_env, threads: *mut u32, room: usize, count: *mut u64) -> u32;
    pub fn cq_get_thread_info(
        env: *mut cq_env,
        thread: u32,
        info: *mut cq_thread_info,
        name: *mut u8,
        room: usize,
    ) -> u32;
    pub fn cq_get_thread_state(env: *mut cq_env, thread: u32, answer: *mut cq_answer) -> u32;
    pub fn cq_get_frame_count(env: *mut cq_env, thread: u32, answer: *mut cq_answer) -> u32;
    pub fn cq_get_frame_location(env: *mut cq_env, thread: u32, depth: i32, answer: *mut cq_answer) -> u32;
    pub fn cq_get_stack_trace(
        env: *mut cq_env,
        thread: u32,
        start: i32,
        max_count: i32,
        answer: *mut cq_answer,
        frames: *mut cq_frame,
        room: usize,
    ) -> u32;
    pub fn cq_suspend_thread(env: *mut cq_env, thread: u32, answer: *mut cq_answer) -> u32;
    pub fn cq_resume_thread(env: *mut cq_env, thread: u32, answer: *mut cq_answer) -> u32;
    pub fn cq_pop_frame(env: *mut cq_env, thread: u32, answer: *mut cq_answer) -> u32;
    pub fn cq_get_thread_local_storage(env: *mut cq_env, thread: u32, answer: *mut cq_answer) -> u32;
    pub fn cq_set_thread_local_storage(env: *mut cq_env, thread: u32, word: u64, answer: *mut cq_answer) -> u32;
    pub fn cq_collect(
        env: *mut cq_env,
        ticket: *const cq_ticket,
        answer: *mut cq_answer,
        frames: *mut cq_frame,
        room: usize,
    ) -> u32;
    pub fn cq_cancel(env: *mut cq_env, ticket: *const cq_ticket) -> u32;
    pub fn cq_discard(env: *mut cq_env, thread: u32, discarded: *mut bool) -> u32;
    pub fn cq_collect_cancelled(
        env: *mut cq_env,
        thread: u32,
        answer: *mut cq_answer,
        frames: *mut cq_frame,
        room: usize,
    ) -> u32;
    pub fn cq_ensure_resumed(env: *mut cq_env, thread: u32) -> u32;
    pub fn cq_out_at(env: *mut cq_env, thread: u32, count: *mut u32) -> u32;
    pub fn cq_stopper(env: *mut cq_env, thread: u32, number: *mut u32) -> u32;
    pub fn cq_gather_all_stack_traces(env: *mut cq_env, max_count: i32) -> u32;
    pub fn cq_gather_thread_list_stack_traces(
        env: *mut cq_env,
        threads: *const u32,
        count: usize,
        max_count: i32,
    ) -> u32;
    pub fn cq_gather_step(env: *mut cq_env, over: *mut bool) -> u32;
    pub fn cq_gather_give_up(env: *mut cq_env) -> u32;
    pub fn cq_gathered(env: *mut cq_env, count: *mut u64) -> u32;
    pub fn cq_gathered_stack(
        env: *mut cq_env,
        index: u64,
        info: *mut cq_stack_info,
        frames: *mut cq_frame,
        room: usize,
    ) -> u32;
    pub fn cq_environment_number(env: *mut cq_env, number: *mut u32) -> u32;
    pub fn cq_add_capabilities(env: *mut cq_env, capabilities: u32) -> u32;
    pub fn cq_relinquish_capabilities(env: *mut cq_env, capabilities: u32) -> u32;
    pub fn cq_get_capabilities(env: *mut cq_env, capabilities: *mut u32) -> u32;
    pub fn cq_get_potential_capabilities(env: *mut cq_env, capabilities: *mut u32) -> u32;
    pub fn cq_get_environment_local_storage(env: *mut cq_env, word: *mut u64) -> u32;
    pub fn cq_set_environment_local_storage(env: *mut cq_env, word: u64) -> u32;
    pub fn cq_set_event_notification_mode(env: *mut cq_env, enabled: bool, kind: u32) -> u32;
    pub fn cq_next_event(env: *mut cq_env, event: *mut cq_event) -> u32;
    pub fn cq_dispose_environment(env: *mut cq_env) -> u32;
    pub fn cq_define_class(
        service: *mut cq_service,
        text: *const u8,
        text_length: usize,
        class_ranges: *const cq_class_ranges,
        methods: *const cq_method_ranges,
        count: usize,
        entries: *const cq_line_entry,
        entry_count: usize,
        class_no: *mut u32,
        first_method: *mut u32,
    ) -> u32;
    pub fn cq_define_class_strings(
        service: *mut cq_service,
        signature: *const c_char,
        source_file: *const c_char,
        methods: *const cq_method_strings,
        count: usize,
        class_no: *mut u32,
        first_method: *mut u32,
    ) -> u32;
    pub fn cq_get_loaded_classes(env: *mut cq_env, classes: *mut u32, room: usize, count: *mut u64) -> u32;
    pub fn cq_get_class_signature(env: *mut cq_env, class_no: u32, text: *mut u8, room: usize, length: *mut u64) -> u32;
    pub fn cq_get_source_file_name(
        env: *mut cq_env,
        class_no: u32,
        text: *mut u8,
        room: usize,
        length: *mut u64,
    ) -> u32;
    pub fn cq_get_class_methods(
        env: *mut cq_env,
        class_no: u32,
        methods: *mut u32,
        room: usize,
        count: *mut u64,
    ) -> u32;
    pub fn cq_get_method_name(
        env: *mut cq_env,
        method: u32,
        info: *mut cq_method_name,
        name: *mut u8,
        name_room: usize,
        signature: *mut u8,
        signature_room: usize,
    ) -> u32;
    pub fn cq_get_method_declaring_class(env: *mut cq_env, method: u32, class_no: *mut u32) -> u32;
    pub fn cq_is_method_native(env: *mut cq_env, method: u32, native: *mut bool) -> u32;
    pub fn cq_get_line_number_table(
        env: *mut cq_env,
        method: u32,
        kind: *mut u32,
        entries: *mut cq_line_entry,
        room: usize,
        count: *mut u64,
    ) -> u32;
    pub fn cq_may_stop(thread: *mut cq_thread) -> bool;
    pub fn cq_stops_version(thread: *mut cq_thread) -> u64;
    pub fn cq_may_stop_in(thread: *mut cq_thread, first: u32, count: u32, may: *mut bool) -> u32;
    pub fn cq_reached(thread: *mut cq_thread, method: u32, location: u32, stops: *mut bool) -> u32;
    pub fn cq_leaves(thread: *mut cq_thread, method: u32, location: u32, frames: u32, stops: *mut bool) -> u32;
    pub fn cq_is_stopped(thread: *mut cq_thread, stops: *mut bool) -> u32;
    pub fn cq_set_breakpoint(env: *mut cq_env, method: u32, location: u32) -> u32;
    pub fn cq_clear_breakpoint(env: *mut cq_env, method: u32, location: u32) -> u32;
    pub fn cq_set_stop_notification_mode(env: *mut cq_env, enabled: bool, kind: u32, thread: u32) -> u32;
    pub fn cq_notify_frame_pop(env: *mut cq_env, thread: u32, frames: u32) -> u32;
    pub fn cq_next_stop(env: *mut cq_env, stop: *mut cq_stop) -> u32;
    pub fn cq_end_stop(env: *mut cq_env, thread: u32) -> u32;
    // cebdyraq_wait.h
    pub fn cq_wake(signal: *mut cq_signal);
    pub fn cq_wait_attach_thread(
        service: *mut cq_service,
        signal: *mut cq_signal,
        name: *const u8,
        length: usize,
        priority: i32,
        thread: *mut cq_thread,
    ) -> u32;
    pub fn cq_wait_attach_environment(service: *mut cq_service, signal: *mut cq_signal, env: *mut cq_env) -> u32;
    pub fn cq_wait_start(thread: *mut cq_thread, signal: *mut cq_signal, timeout_ns: i64) -> u32;
    pub fn cq_wait_poll(thread: *mut cq_thread, signal: *mut cq_signal) -> u32;
    pub fn cq_wait_native(thread: *mut cq_thread, signal: *mut cq_signal) -> u32;
    pub fn cq_wait_block(thread: *mut cq_thread, signal: *mut cq_signal, reason: u32) -> u32;
    pub fn cq_wait_back(thread: *mut cq_thread, signal: *mut cq_signal, timeout_ns: i64) -> u32;
    pub fn cq_wait_reached(
        thread: *mut cq_thread,
        signal: *mut cq_signal,
        method: u32,
        location: u32,
        stops: *mut bool,
    ) -> u32;
    pub fn cq_wait_leaves(
        thread: *mut cq_thread,
        signal: *mut cq_signal,
        method: u32,
        location: u32,
        frames: u32,
        stops: *mut bool,
    ) -> u32;
    pub fn cq_wait_stop(thread: *mut cq_thread, signal: *mut cq_signal) -> u32;
    pub fn cq_wait_end(thread: *mut cq_thread, signal: *mut cq_signal) -> u32;
    pub fn cq_wait_detach_thread(thread: *mut cq_thread, signal: *mut cq_signal) -> u32;
    pub fn cq_wait_meet(env: *mut cq_env, signal: *mut cq_signal) -> u32;
    pub fn cq_wait_let_go(env: *mut cq_env, signal: *mut cq_signal, thread: u32, gone: *mut bool) -> u32;
    pub fn cq_wait_let_go_of_all(env: *mut cq_env, signal: *mut cq_signal) -> u32;
    pub fn cq_wait_get_all_threads(
        env: *mut cq_env,
        signal: *mut cq_signal,
        threads: *mut u32,
        room: usize,
        count: *mut u64,
    ) -> u32;
    pub fn cq_wait_get_thread_info(
        env: *mut cq_env,
        signal: *mut cq_signal,
        thread: u32,
        info: *mut cq_thread_info,
        name: *mut u8,
        room: usize,
    ) -> u32;
    pub fn cq_wait_cancel(env: *mut cq_env, signal: *mut cq_signal, ticket: *const cq_ticket) -> u32;
    pub fn cq_wait_discard(env: *mut cq_env, signal: *mut cq_signal, thread: u32, discarded: *mut bool) -> u32;
    pub fn cq_wait_collect_cancelled(
        env: *mut cq_env,
        signal: *mut cq_signal,
        thread: u32,
        timeout_ns: i64,
        answer: *mut cq_answer,
        frames: *mut cq_frame,
        room: usize,
    ) -> u32;
    pub fn cq_wait_ensure_resumed(env: *mut cq_env, signal: *mut cq_signal, thread: u32, timeout_ns: i64) -> u32;
    pub fn cq_wait_set_event_notification_mode(
        env: *mut cq_env,
        signal: *mut cq_signal,
        enabled: bool,
        kind: u32,
    ) -> u32;
    pub fn cq_wait_dispose_environment(env: *mut cq_env, signal: *mut cq_signal) -> u32;
    pub fn cq_wait_dispose_environment_within(env: *mut cq_env, signal: *mut cq_signal, timeout_ns: i64) -> u32;
    pub fn cq_wait_end_environment(env: *mut cq_env, signal: *mut cq_signal, timeout_ns: i64) -> u32;
    pub fn cq_wait_next_event(env: *mut cq_env, signal: *mut cq_signal, timeout_ns: i64, event: *mut cq_event) -> u32;
    pub fn cq_wait_next_stop(env: *mut cq_env, signal: *mut cq_signal, timeout_ns: i64, stop: *mut cq_stop) -> u32;
    pub fn cq_wait_end_stop(env: *mut cq_env, signal: *mut cq_signal, thread: u32) -> u32;
    pub fn cq_wait_get_thread_state(
        env: *mut cq_env,
        signal: *mut cq_signal,
        thread: u32,
        timeout_ns: i64,
        state: *mut u32,
    ) -> u32;
    pub fn cq_wait_get_frame_count(
        env: *mut cq_env,
        signal: *mut cq_signal,
        thread: u32,
        timeout_ns: i64,
        count: *mut u32,
    ) -> u32;
    pub fn cq_wait_get_frame_location(
        env: *mut cq_env,
        signal: *mut cq_signal,
        thread: u32,
        depth: i32,
        timeout_ns: i64,
        frame: *mut cq_frame,
    ) -> u32;
    pub fn cq_wait_get_stack_trace(
        env: *mut cq_env,
        signal: *mut cq_signal,
        thread: u32,
        start: i32,
        max_count: i32,
        timeout_ns: i64,
        frames: *mut cq_frame,
        room: usize,
        count: *mut u32,
    ) -> u32;
    pub fn cq_wait_suspend_thread(env: *mut cq_env, signal: *mut cq_signal, thread: u32, timeout_ns: i64) -> u32;
    pub fn cq_wait_resume_thread(env: *mut cq_env, signal: *mut cq_signal, thread: u32, timeout_ns: i64) -> u32;
    pub fn cq_wait_pop_frame(env: *mut cq_env, signal: *mut cq_signal, thread: u32, timeout_ns: i64) -> u32;
    pub fn cq_wait_get_thread_local_storage(
        env: *mut cq_env,
        signal: *mut cq_signal,
        thread: u32,
        timeout_ns: i64,
        word: *mut u64,
    ) -> u32;
    pub fn cq_wait_set_thread_local_storage(
        env: *mut cq_env,
        signal: *mut cq_signal,
        thread: u32,
        word: u64,
        timeout_ns: i64,
    ) -> u32;
    pub fn cq_wait_suspend_thread_list(
        env: *mut cq_env,
        signal: *mut cq_signal,
        threads: *const u32,
        count: usize,
        timeout_ns: i64,
        codes: *mut u32,
    ) -> u32;
    pub fn cq_wait_resume_thread_list(
        env: *mut cq_env,
        signal: *mut cq_signal,
        threads: *const u32,
        count: usize,
        timeout_ns: i64,
        codes: *mut u32,
    ) -> u32;
    pub fn cq_wait_get_all_stack_traces(
        env: *mut cq_env,
        signal: *mut cq_signal,
        max_count: i32,
        timeout_ns: i64,
        count: *mut u64,
    ) -> u32;
    pub fn cq_wait_get_thread_list_stack_traces(
        env: *mut cq_env,
        signal: *mut cq_signal,
        threads: *const u32,
        thread_count: usize,
        max_count: i32,
        timeout_ns: i64,
        count: *mut u64,
    ) -> u32;
    pub fn cq_wait_any(
        env: *mut cq_env,
        signal: *mut cq_signal,
        tickets: *const cq_ticket,
        count: usize,
        timeout_ns: i64,
        which: *mut usize,
        answer: *mut cq_answer,
        frames: *mut cq_frame,
        room: usize,
    ) -> u32;
    pub fn cq_wait_collect(
        env: *mut cq_env,
        signal: *mut cq_signal,
        ticket: *const cq_ticket,
        timeout_ns: i64,
        answer: *mut cq_answer,
        frames: *mut cq_frame,
        room: usize,
    ) -> u32;
    // cebdyraq_serve.h
    pub fn cq_open_door(
        service: *mut cq_service,
        program: *const u8,
        length: usize,
        port: u32,
        now: u64,
        door: *mut cq_door,
    ) -> u32;
    pub fn cq_open_debugger(
        service: *mut cq_service,
        program: *const u8,
        program_length: usize,
        path: *const u8,
        path_length: usize,
        now: u64,
        door: *mut cq_door,
    ) -> u32;
    pub fn cq_door_connect(door: *mut cq_door, now: u64, connection: *mut u32) -> u32;
    pub fn cq_door_next(
        door: *mut cq_door,
        connection: u32,
        now: u64,
        unix_time: u64,
        action: *mut u32,
        room: *mut u64,
    ) -> u32;
    pub fn cq_door_feed(
        door: *mut cq_door,
        connection: u32,
        bytes: *const u8,
        count: usize,
        now: u64,
        taken: *mut u64,
    ) -> u32;
    pub fn cq_door_end(door: *mut cq_door, connection: u32, now: u64) -> u32;
    pub fn cq_door_output(door: *mut cq_door, connection: u32, bytes: *mut u8, room: usize, count: *mut u64) -> u32;
    pub fn cq_door_written(door: *mut cq_door, connection: u32, count: u64, now: u64) -> u32;
    pub fn cq_door_disconnect(door: *mut cq_door, connection: u32) -> u32;
    pub fn cq_door_runtime_ends(door: *mut cq_door) -> u32;
    pub fn cq_door_tick(door: *mut cq_door, now: u64, deadline: *mut u64) -> u32;
    pub fn cq_door_starts_suspended(door: *mut cq_door, suspended: bool) -> u32;
    pub fn cq_door_tells_variables(door: *mut cq_door, tells: bool) -> u32;
    pub fn cq_door_pops_frames(door: *mut cq_door, pops: bool) -> u32;
    pub fn cq_door_question(door: *mut cq_door, question: *mut cq_question) -> u32;
    pub fn cq_door_tell_variables(
        door: *mut cq_door,
        variables: *const cq_variable,
        count: usize,
        names: *const u8,
        length: usize,
    ) -> u32;
    pub fn cq_door_tell_values(
        door: *mut cq_door,
        values: *const cq_value,
        count: usize,
        texts: *const u8,
        length: usize,
    ) -> u32;
    pub fn cq_door_tell_none(door: *mut cq_door, code: u32) -> u32;
    pub fn cq_door_answer(door: *mut cq_door, variables: *const cq_variables) -> u32;
    pub fn cq_tell_variable(
        teller: *mut cq_teller,
        name: *const u8,
        length: usize,
        slot: u32,
        first: u32,
        count: u32,
    ) -> u32;
    pub fn cq_tell_nil(teller: *mut cq_teller, slot: u32) -> u32;
    pub fn cq_tell_boolean(teller: *mut cq_teller, slot: u32, value: bool) -> u32;
    pub fn cq_tell_integer(teller: *mut cq_teller, slot: u32, value: i64) -> u32;
    pub fn cq_tell_number(teller: *mut cq_teller, slot: u32, value: f64) -> u32;
    pub fn cq_tell_text(teller: *mut cq_teller, slot: u32, text: *const u8, length: usize) -> u32;
    pub fn cq_tell_table(teller: *mut cq_teller, slot: u32) -> u32;
    pub fn cq_tell_entry(teller: *mut cq_teller, text: *const u8, length: usize) -> u32;
    pub fn cq_door_resumptions(door: *mut cq_door, count: *mut u64) -> u32;
    pub fn cq_close_door(door: *mut cq_door) -> u32;
    pub fn cq_serve(
        server: *mut cq_server,
        service: *mut cq_service,
        signal: *mut cq_signal,
        address: *const c_char,
        program: *const c_char,
    ) -> u32;
    pub fn cq_debug_listen(
        server: *mut cq_server,
        service: *mut cq_service,
        signal: *mut cq_signal,
        address: *const c_char,
        program: *const c_char,
        path: *const c_char,
    ) -> u32;
    pub fn cq_server_variables(server: *mut cq_server, variables: *const cq_variables) -> u32;
    pub fn cq_server_pops_frames(server: *mut cq_server, pops: bool) -> u32;
    pub fn cq_server_starts_suspended(server: *mut cq_server, suspended: bool) -> u32;
    pub fn cq_server_await_resumption(server: *mut cq_server) -> u32;
    pub fn cq_server_tell_classes(server: *mut cq_server) -> u32;
    pub fn cq_server_port(server: *const cq_server, port: *mut u16) -> u32;
    pub fn cq_serve_end(server: *mut cq_server) -> u32;
    // cebdyraq_watch.h
    pub fn cq_open_watch(watch: *mut cq_watch) -> u32;
    pub fn cq_close_watch(watch: *mut cq_watch) -> u32;
    pub fn cq_watch_thread(thread: *mut cq_thread, watch: *mut cq_watch) -> u32;
    pub fn cq_unwatch_thread(thread: *mut cq_thread) -> u32;
    pub fn cq_watch_stops(service: *mut cq_service, watch: *mut cq_watch) -> u32;
    pub fn cq_next_wanted(watch: *mut cq_watch, threads: *mut u32, room: usize, count: *mut u64) -> u32;
    pub fn cq_wait_next_wanted(
        watch: *mut cq_watch,
        timeout_ns: i64,
        threads: *mut u32,
        room: usize,
        count: *mut u64,
    ) -> u32;
    pub fn cq_watch_fd(watch: *mut cq_watch, fd: *mut i32) -> u32;
}
