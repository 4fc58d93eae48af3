/* cebdyraq_codes.c: the names and the texts of the codes. Made from the headers by ci/generate.py. Do not edit. */
#include "cebdyraq.h"

const char *cq_code_name(uint32_t code) {
    switch (code) {
    case CQ_OK: return "CQ_OK";
    case CQ_INVALID_THREAD: return "CQ_INVALID_THREAD";
    case CQ_THREAD_NOT_SUSPENDED: return "CQ_THREAD_NOT_SUSPENDED";
    case CQ_THREAD_SUSPENDED: return "CQ_THREAD_SUSPENDED";
    case CQ_THREAD_NOT_ALIVE: return "CQ_THREAD_NOT_ALIVE";
    case CQ_INVALID_CLASS: return "CQ_INVALID_CLASS";
    case CQ_INVALID_METHODID: return "CQ_INVALID_METHODID";
    case CQ_INVALID_LOCATION: return "CQ_INVALID_LOCATION";
    case CQ_NO_MORE_FRAMES: return "CQ_NO_MORE_FRAMES";
    case CQ_OPAQUE_FRAME: return "CQ_OPAQUE_FRAME";
    case CQ_DUPLICATE: return "CQ_DUPLICATE";
    case CQ_NOT_FOUND: return "CQ_NOT_FOUND";
    case CQ_NOT_AVAILABLE: return "CQ_NOT_AVAILABLE";
    case CQ_MUST_POSSESS_CAPABILITY: return "CQ_MUST_POSSESS_CAPABILITY";
    case CQ_ABSENT_INFORMATION: return "CQ_ABSENT_INFORMATION";
    case CQ_ILLEGAL_ARGUMENT: return "CQ_ILLEGAL_ARGUMENT";
    case CQ_NATIVE_METHOD: return "CQ_NATIVE_METHOD";
    case CQ_OUT_OF_MEMORY: return "CQ_OUT_OF_MEMORY";
    case CQ_OVERFLOW: return "CQ_OVERFLOW";
    case CQ_NO_FRAME: return "CQ_NO_FRAME";
    case CQ_NOT_JAVA_FRAME: return "CQ_NOT_JAVA_FRAME";
    case CQ_NOT_RUNNING: return "CQ_NOT_RUNNING";
    case CQ_NOT_SAFE: return "CQ_NOT_SAFE";
    case CQ_BARRED: return "CQ_BARRED";
    case CQ_NO_NATIVE_FRAME: return "CQ_NO_NATIVE_FRAME";
    case CQ_OWN_SPENT: return "CQ_OWN_SPENT";
    case CQ_CALLS_SPENT: return "CQ_CALLS_SPENT";
    case CQ_NOT_NEW: return "CQ_NOT_NEW";
    case CQ_ALREADY_STOPPED: return "CQ_ALREADY_STOPPED";
    case CQ_STILL_RUNNING: return "CQ_STILL_RUNNING";
    case CQ_TIMED_OUT: return "CQ_TIMED_OUT";
    case CQ_BUSY: return "CQ_BUSY";
    case CQ_FULL: return "CQ_FULL";
    case CQ_HELD: return "CQ_HELD";
    case CQ_WAITING: return "CQ_WAITING";
    case CQ_NONE: return "CQ_NONE";
    case CQ_MISUSED: return "CQ_MISUSED";
    case CQ_POPPED: return "CQ_POPPED";
    case CQ_SYSTEM: return "CQ_SYSTEM";
    default: return "unknown";
    }
}

const char *cq_code_text(uint32_t code) {
    switch (code) {
    case CQ_OK: return "it is done, or the answer is there";
    case CQ_INVALID_THREAD: return "there is no thread of this number, or the environment has not met it";
    case CQ_THREAD_NOT_SUSPENDED: return "a resumption or a pop, and the thread is not suspended; or the end of a stop, and it does not stop for the environment";
    case CQ_THREAD_SUSPENDED: return "a suspension, and the thread is suspended";
    case CQ_THREAD_NOT_ALIVE: return "the thread has not started, or has ended";
    case CQ_INVALID_CLASS: return "no class of this number was defined";
    case CQ_INVALID_METHODID: return "no method of this number was defined";
    case CQ_INVALID_LOCATION: return "there can be no breakpoint at this location of the method";
    case CQ_NO_MORE_FRAMES: return "there is no frame at this depth, or there are fewer than two for a pop";
    case CQ_OPAQUE_FRAME: return "a pop, and one of the two newest frames is native";
    case CQ_DUPLICATE: return "the environment has this breakpoint, or asked for this pop, before";
    case CQ_NOT_FOUND: return "the environment has no such breakpoint";
    case CQ_NOT_AVAILABLE: return "a capability that cannot be had";
    case CQ_MUST_POSSESS_CAPABILITY: return "the call needs a capability that the environment does not have";
    case CQ_ABSENT_INFORMATION: return "the class has no source file, or the method no lines";
    case CQ_ILLEGAL_ARGUMENT: return "an argument is out of its range";
    case CQ_NATIVE_METHOD: return "a native method has no lines";
    case CQ_OUT_OF_MEMORY: return "there is no memory for it";
    case CQ_OVERFLOW: return "the stack has as many frames as the service's depth";
    case CQ_NO_FRAME: return "a step needs a frame, and there is none";
    case CQ_NOT_JAVA_FRAME: return "a new location for a native frame";
    case CQ_NOT_RUNNING: return "the thread does not run";
    case CQ_NOT_SAFE: return "a return of a thread that is not native, blocked or held";
    case CQ_BARRED: return "the thread is suspended or stopped, and may not start or return";
    case CQ_NO_NATIVE_FRAME: return "a hand-over to native code, and the newest frame is not native";
    case CQ_OWN_SPENT: return "the thread has spent its 2^59 steps";
    case CQ_CALLS_SPENT: return "the environment has spent its 2^52 calls at the thread";
    case CQ_NOT_NEW: return "a start of a thread that has started";
    case CQ_ALREADY_STOPPED: return "another environment's trace has stopped the thread: call again later";
    case CQ_STILL_RUNNING: return "a thread of the trace has not come to its next poll: call again later";
    case CQ_TIMED_OUT: return "the time is over";
    case CQ_BUSY: return "another thread uses it at this moment: call again";
    case CQ_FULL: return "a bound other than memory leaves no room for it: the window, envs, the 65,536 threads that an environment may have met, or a count that no process reaches";
    case CQ_HELD: return "the thread is held at its poll, and returns by cq_back";
    case CQ_WAITING: return "the call waits for the thread: collect its answer later";
    case CQ_NONE: return "there is nothing of the kind: no event, stop, trace, cancelled call, connection or question";
    case CQ_MISUSED: return "the handle is empty, of another kind, or full when an empty one is wanted. Or the environment gathers a trace, or has none to go on with";
    case CQ_POPPED: return "all frames are to be set, and frames were popped that the runtime has not taken note of (cq_take_pops)";
    case CQ_SYSTEM: return "the operating system refused; errno says why";
    default: return "there is no such code";
    }
}
