/* cebdyraq.h: threads of a runtime, inspected by agents while other threads run.
 *
 * A runtime makes one service. It attaches each of its threads to the service, and each agent attaches an environment. An
 * agent asks for one thread's state, stack and word, suspends it and resumes it, while the other threads run on. A running
 * thread owns its frames. It hands them over when it polls, goes into native code, blocks or ends, and the calls that wait for
 * it take place then (JEP 312, thread-local handshakes). A function that is named after one of JVM TI 11 does what JVM TI 11
 * says.
 *
 * COMPILING
 *
 *     cc program.c $(pkg-config --cflags --libs cebdyraq)
 *
 * HANDLES
 *
 * A cq_service, cq_thread or cq_env is memory of the caller's. It starts as zeros, which is an empty handle. A function
 * that makes something fills an empty handle. The function that ends it empties the handle again.
 *
 * NO FUNCTION WAITS
 *
 * Each function returns at once. CQ_BUSY means that another thread of the operating system uses the same thread or the list
 * of threads at this moment: call again. CQ_WAITING means that the call was posted at a running thread: collect its answer
 * later. cebdyraq_wait.h has the same functions as ones that wait asleep.
 *
 * CODES
 *
 * A function returns CQ_OK, or a code of its list that fits. If several fit, it is the first of the list, except that
 * CQ_BUSY may come before any of them. Codes below 200 are errors of JVM TI 11, with its numbers. cq_code_name and cq_code_text put a
 * code into words.
 *
 * With any code but CQ_OK, CQ_HELD and CQ_WAITING nothing has changed and nothing is written, unless the function says more.
 *
 * CQ_MISUSED 304 comes before all others, from every function that takes a handle: the handle is empty or of another kind,
 * or it is an environment that gathers a trace. The lists name it only where it has a further reason.
 *
 * WHAT A CALLER OWES
 *
 * - A handle is zeros at first. From then on only this library reads or writes it, and nobody copies or moves it.
 * - A handle is used by one call at a time. It may go to another thread of the operating system, ordered by a lock, by the
 *   start or the join of a thread, or by a sequentially consistent atomic. So whoever holds what makes a thread stand still, such as
 *   an interpreter's lock, may hand over for it, and the thread itself may come back by cq_back.
 * - No pointer is NULL, not even one to no frames. Each leads to memory of the size that is given, which no other argument
 *   of the call leads to.
 * - No function is called from a signal handler, or in the child of a fork with a handle of the parent's. A child that makes a service of
 *   its own, from handles that are zeros, may.
 *
 * MEMORY OF THE RUNTIME
 *
 * At one thread, these have one order: its hand-overs, its cq_start and cq_back, and the calls of environments that reach it.
 * Each comes after the earlier ones as a C11 acquire comes after a release, for all memory of the process. So:
 *
 * - What a thread wrote before it handed over may be read once a call at it is answered that took place then or later.
 * - A suspended thread that is held at its poll (CQ_HELD) does nothing until its cq_back. Its memory may be read and written
 *   after the suspension is answered and before the thread is resumed. It finds what was written once its cq_back is done.
 * - A thread that was suspended in native code, or while it is blocked, goes on with that until its cq_back. Only what it wrote
 *   before it went there is ordered.
 * - A poll to which nobody calls, and cq_poll_clear, order nothing.
 *
 * LIMITS
 *
 *   threads attached to a service in its life       2^32 - 1. No number is used again
 *   threads that an environment has met at once     65,536. One that it has let go of does not count, and one that was
 *                                                   given back makes room, unless a call is out there
 *   environments of a service at once               `envs` of cq_make, at most 32
 *   frames of a thread                              `depth` of cq_make, at most 65,536
 *   calls of an environment that are out at a thread  `window` of cq_make, at most 1,024
 *   steps of a thread                               2^59
 *   calls of an environment at a thread             2^52
 *   events that a service keeps                     4,096
 *   classes of a service, and methods               2^32 - 1 of each. No number is used again
 */
#ifndef CEBDYRAQ_H
#define CEBDYRAQ_H

#include <stdbool.h>
#include <stddef.h>
#include <stdint.h>

/* The code is to be looked at. */
#ifdef __GNUC__
#define CQ_MUST_USE __attribute__((warn_unused_result))
#else
#define CQ_MUST_USE
#endif

#ifdef __cplusplus
extern "C" {
#endif

/* ------------------------------------------------------------------------------------------------------------------
 * Versions.
 */

/* The version of this header. */
#define CQ_VERSION_MAJOR 2
#define CQ_VERSION_MINOR 5
#define CQ_VERSION_PATCH 0

/* The version of the library that the program runs with, as major * 1,000,000 + minor * 1,000 + patch. */
uint32_t cq_version(void);

/* Whether that library has all that this header declares: it has the same major version, and no lower minor version. */
static inline bool cq_version_fits(void) {
    uint32_t version = cq_version() / 1000;
    return version / 1000 == CQ_VERSION_MAJOR && version >= CQ_VERSION_MAJOR * 1000 + CQ_VERSION_MINOR;
}

/* ------------------------------------------------------------------------------------------------------------------
 * Codes, bits and values.
 */

/* The codes. */
enum cq_code {
    CQ_OK = 0,                        /* it is done, or the answer is there */
    /* JVM TI 11's errors. */
    CQ_INVALID_THREAD = 10,           /* there is no thread of this number, or the environment has not met it */
    CQ_THREAD_NOT_SUSPENDED = 13,     /* a resumption or a pop, and the thread is not suspended; or the end of a stop, and it does
                                         not stop for the environment */
    CQ_THREAD_SUSPENDED = 14,         /* a suspension, and the thread is suspended */
    CQ_THREAD_NOT_ALIVE = 15,         /* the thread has not started, or has ended */
    CQ_INVALID_CLASS = 21,            /* no class of this number was defined */
    CQ_INVALID_METHODID = 23,         /* no method of this number was defined */
    CQ_INVALID_LOCATION = 24,         /* there can be no breakpoint at this location of the method */
    CQ_NO_MORE_FRAMES = 31,           /* there is no frame at this depth, or there are fewer than two for a pop */
    CQ_OPAQUE_FRAME = 32,             /* a pop, and one of the two newest frames is native */
    CQ_DUPLICATE = 40,                /* the environment has this breakpoint, or asked for this pop, before */
    CQ_NOT_FOUND = 41,                /* the environment has no such breakpoint */
    CQ_NOT_AVAILABLE = 98,            /* a capability that cannot be had */
    CQ_MUST_POSSESS_CAPABILITY = 99,  /* the call needs a capability that the environment does not have */
    CQ_ABSENT_INFORMATION = 101,      /* the class has no source file, or the method no lines */
    CQ_ILLEGAL_ARGUMENT = 103,        /* an argument is out of its range */
    CQ_NATIVE_METHOD = 104,           /* a native method has no lines */
    CQ_OUT_OF_MEMORY = 110,           /* there is no memory for it */
    /* This service's errors. */
    CQ_OVERFLOW = 201,                /* the stack has as many frames as the service's depth */
    CQ_NO_FRAME = 202,                /* a step needs a frame, and there is none */
    CQ_NOT_JAVA_FRAME = 203,          /* a new location for a native frame */
    CQ_NOT_RUNNING = 204,             /* the thread does not run */
    CQ_NOT_SAFE = 205,                /* a return of a thread that is not native, blocked or held */
    CQ_BARRED = 206,                  /* the thread is suspended or stopped, and may not start or return */
    CQ_NO_NATIVE_FRAME = 207,         /* a hand-over to native code, and the newest frame is not native */
    CQ_OWN_SPENT = 208,               /* the thread has spent its 2^59 steps */
    CQ_CALLS_SPENT = 209,             /* the environment has spent its 2^52 calls at the thread */
    CQ_NOT_NEW = 210,                 /* a start of a thread that has started */
    CQ_ALREADY_STOPPED = 211,         /* another environment's trace has stopped the thread: call again later */
    CQ_STILL_RUNNING = 213,           /* a thread of the trace has not come to its next poll: call again later */
    CQ_TIMED_OUT = 214,               /* the time is over */
    CQ_BUSY = 215,                    /* another thread uses it at this moment: call again */
    CQ_FULL = 216,                    /* a bound other than memory leaves no room for it: the window, `envs`, the 65,536
                                         threads that an environment may have met, or a count that no process reaches */
    CQ_HELD = 301,                    /* the thread is held at its poll, and returns by cq_back */
    CQ_WAITING = 302,                 /* the call waits for the thread: collect its answer later */
    CQ_NONE = 303,                    /* there is nothing of the kind: no event, stop, trace, cancelled call, connection or question */
    CQ_MISUSED = 304,                 /* the handle is empty, of another kind, or full when an empty one is wanted. Or the
                                         environment gathers a trace, or has none to go on with */
    CQ_POPPED = 305,                  /* all frames are to be set, and frames were popped that the runtime has not taken note
                                         of (cq_take_pops) */
    CQ_SYSTEM = 306                   /* the operating system refused; errno says why */
};

/* The name of a code, as in "CQ_BUSY". `code` is any number: if it is no code of this library, the name is "unknown". The text is
 * static: it never changes, and nobody frees it. Any thread may call this, at any time. Since 2.3. */
const char *cq_code_name(uint32_t code);

/* When a code comes, as in "the thread does not run": what stands beside it above, in one line. `code` is any number: if it is no code
 * of this library, the text is "there is no such code". It is static, and for any thread, as for cq_code_name. Since 2.3. */
const char *cq_code_text(uint32_t code);

/* Bits of GetThreadState (JVM TI 11). */
enum cq_state {
    CQ_STATE_ALIVE = 0x1,
    CQ_STATE_TERMINATED = 0x2,
    CQ_STATE_RUNNABLE = 0x4,
    CQ_STATE_WAITING_INDEFINITELY = 0x10,
    CQ_STATE_WAITING_WITH_TIMEOUT = 0x20,
    CQ_STATE_SLEEPING = 0x40,
    CQ_STATE_WAITING = 0x80,
    CQ_STATE_IN_OBJECT_WAIT = 0x100,
    CQ_STATE_PARKED = 0x200,
    CQ_STATE_BLOCKED_ON_MONITOR_ENTER = 0x400,
    CQ_STATE_SUSPENDED = 0x100000,
    CQ_STATE_IN_NATIVE = 0x400000
};

/* Capabilities, as a sum of bits (jvmtiCapabilities; the bits are this service's). */
enum cq_capability { CQ_CAN_SUSPEND = 1, CQ_CAN_POP_FRAME = 2 };

/* Why a thread blocks. */
enum cq_reason {
    CQ_MONITOR_ENTER = 0,
    CQ_OBJECT_WAIT = 1,
    CQ_TIMED_WAIT = 2,
    CQ_SLEEP = 3,
    CQ_PARK = 4,
    CQ_TIMED_PARK = 5
};

/* Events of a thread's life. */
enum cq_event_kind {
    CQ_THREAD_START = 0,
    CQ_THREAD_END = 1,
    CQ_CLASS_PREPARE = 2,
    CQ_THREAD_ATTACHED = 3,
    CQ_THREAD_DETACHED = 4
};

/* Kinds of stops. */
enum cq_stop_kind { CQ_BREAKPOINT = 0, CQ_SINGLE_STEP = 1, CQ_FRAME_POP = 2 };

/* A number that stands for all threads. */
#define CQ_ALL_THREADS UINT32_MAX

/* Why a thread stops, as a sum of bits. */
enum cq_stop_reason { CQ_STOP_BREAKPOINT = 1, CQ_STOP_SINGLE_STEP = 2, CQ_STOP_FRAME_POP = 4 };

/* Handles. Zeros at first, and then for this library alone. */
typedef struct { uint32_t kind; void *at; } cq_service;
typedef struct { uint32_t kind; void *at; } cq_thread;
typedef struct { uint32_t kind; void *at; } cq_env;

/* A frame: a method by a number of the runtime's, and a location in it from 0 to 2^32 - 1, or -1 if it is native. */
typedef struct { uint32_t method; int64_t location; } cq_frame;

/* The name of a call that waits. */
typedef struct { uint32_t env; uint32_t thread; uint64_t no; } cq_ticket;

/* What a call at a thread gives. Each function says which of these it writes. */
typedef struct {
    uint64_t number;
    cq_frame frame;
    cq_ticket ticket;
} cq_answer;

/* What is told of a thread (GetThreadInfo): the length of its name in bytes, and its priority. */
typedef struct { uint64_t name_length; int32_t priority; } cq_thread_info;

/* An event: its kind, from CQ_THREAD_START to CQ_THREAD_DETACHED; the thread's number, or with CQ_CLASS_PREPARE the class's; and how
 * many events of threads were lost before it, of whatever kind. */
typedef struct { uint32_t kind; uint32_t number; uint64_t lost; } cq_event;

/* A stop: the thread's number, where it is, and why it stops there. */
typedef struct { uint32_t thread; uint32_t method; int64_t location; uint32_t why; } cq_stop;

/* What a trace of several threads tells of one: its number, its state (GetThreadState), and how many frames there are. */
typedef struct { uint32_t thread; uint32_t state; uint64_t frame_count; } cq_stack_info;

/* ------------------------------------------------------------------------------------------------------------------
 * Memory. The functions of this header use malloc, realloc, free, memcpy, memmove, memset and strlen of the C library, and no
 * other function of it.
 */

/* Makes these functions the library's own in place of malloc, realloc and free. They keep to what C says of those, and each
 * thread that uses the library may call them. `allocate` and `resize` get sizes of at least one byte, return blocks that are
 * aligned to 16 bytes, and return NULL if there is no memory. None of them calls a function of this library.
 *
 * It is called before the first service is made, by one thread, or not at all. Each copy of the library that a process has
 * loaded has functions of its own.
 *
 *   CQ_MISUSED 304  the library has taken memory before */
uint32_t cq_set_heap(void *(*allocate)(size_t size), void *(*resize)(void *block, size_t size),
                     void (*release)(void *block)) CQ_MUST_USE;

/* ------------------------------------------------------------------------------------------------------------------
 * The service. It lives as long as a handle of it, a thread or an environment.
 */

/* Makes a service, and fills the handle `service`.
 *
 *   `depth`   how many frames a thread may have: 1 to 65,536
 *   `envs`    how many environments may be attached at once: 1 to 32
 *   `window`  how many calls an environment may have out at a thread, posted and not collected: 1 to 1,024
 *   `capabilities`  which its environments can have (GetPotentialCapabilities): a sum of CQ_CAN_SUSPEND and CQ_CAN_POP_FRAME, or 0.
 *             A runtime whose threads cannot go on without frames that were popped (cq_take_pops) leaves the second out
 *
 *   CQ_MISUSED 304           `service` is not empty
 *   CQ_ILLEGAL_ARGUMENT 103  one of the first three is out of its range
 *   CQ_NOT_AVAILABLE 98      there is no such capability
 *   CQ_OUT_OF_MEMORY 110     there is no memory for a service */
uint32_t cq_make(uint32_t depth, uint32_t envs, uint32_t window, uint32_t capabilities, cq_service *service) CQ_MUST_USE;

/* Fills `other` with one more handle of the same service, for another thread of the operating system.
 *
 *   CQ_MISUSED 304        also if `other` is not empty
 *   CQ_OUT_OF_MEMORY 110  there is no memory for a handle
 *   CQ_FULL 216           there are 2^63 handles of the service */
uint32_t cq_share(cq_service *service, cq_service *other) CQ_MUST_USE;

/* Frees a handle of the service, and empties it. */
uint32_t cq_free(cq_service *service);

/* Attaches a thread, which has not started, and fills the handle `thread`. Threads are numbered 0, 1, 2 and so on, and no
 * number is used again.
 *
 *   `name`      UTF-8, of `length` bytes. It is copied
 *   `priority`  any number. The service only keeps it, for cq_get_thread_info
 *
 *   CQ_MISUSED 304           also if `thread` is not empty
 *   CQ_ILLEGAL_ARGUMENT 103  the name is not UTF-8
 *   CQ_OUT_OF_MEMORY 110     there is no memory for a thread
 *   CQ_FULL 216              2^32 - 1 threads were attached, or threads and environments have come and gone 2^62 - 1 times
 *   CQ_BUSY 215              the list of threads is in use */
uint32_t cq_attach_thread(cq_service *service, const uint8_t *name, size_t length, int32_t priority,
                          cq_thread *thread) CQ_MUST_USE;

/* Attaches an environment, and fills the handle `env`. The environment has no capability, the word 0, and has met no thread.
 *
 *   CQ_MISUSED 304        also if `env` is not empty
 *   CQ_OUT_OF_MEMORY 110  there is no memory for an environment
 *   CQ_FULL 216           `envs` environments are attached, or threads and environments have come and gone 2^62 - 1 times
 *   CQ_BUSY 215           the list of threads is in use */
uint32_t cq_attach_environment(cq_service *service, cq_env *env) CQ_MUST_USE;

/* ------------------------------------------------------------------------------------------------------------------
 * A thread of the runtime. Its handle is used by whoever runs the thread: one thread of the operating system at a time. A runtime that
 * moves its threads between those hands the handle on with them (see what a caller owes).
 */

/* Writes the thread's number to `number`. */
uint32_t cq_thread_number(cq_thread *thread, uint32_t *number);

/* Starts the thread. It runs without frames, and is alive (GetThreadState, GetAllThreads). CQ_THREAD_START is told of it.
 *
 *   CQ_NOT_NEW 210  the thread has started before
 *   CQ_FULL 216     threads and environments have come and gone 2^62 - 1 times
 *   CQ_BARRED 206   a trace has stopped the thread: call again later
 *   CQ_BUSY 215     an environment uses the thread, or the list of threads is in use */
uint32_t cq_start(cq_thread *thread) CQ_MUST_USE;

/* Enters a method, at location 0. The method is any number of the runtime's.
 *
 *   CQ_NOT_RUNNING 204  the thread does not run
 *   CQ_OVERFLOW 201     the thread has as many frames as the service's depth
 *   CQ_OWN_SPENT 208    the thread has spent its 2^59 steps */
uint32_t cq_enter(cq_thread *thread, uint32_t method) CQ_MUST_USE;

/* Enters a native method, whose frame has the location -1. The codes are those of cq_enter. */
uint32_t cq_enter_native(cq_thread *thread, uint32_t method) CQ_MUST_USE;

/* Moves the newest frame to a location, 0 to 2^32 - 1.
 *
 *   CQ_NOT_RUNNING 204     the thread does not run
 *   CQ_NO_FRAME 202        there is no frame
 *   CQ_NOT_JAVA_FRAME 203  the newest frame is native
 *   CQ_OWN_SPENT 208       the thread has spent its 2^59 steps */
uint32_t cq_at(cq_thread *thread, uint32_t location) CQ_MUST_USE;

/* Leaves the newest frame.
 *
 *   CQ_NOT_RUNNING 204  the thread does not run
 *   CQ_NO_FRAME 202     there is no frame
 *   CQ_OWN_SPENT 208    the thread has spent its 2^59 steps */
uint32_t cq_leave(cq_thread *thread) CQ_MUST_USE;

/* Replaces all frames of the thread by these `count` frames, newest first. It is for a runtime that keeps a stack of its own,
 * and gives it only before the thread hands over. It costs a step for each frame that differs, and a look at each that stays.
 *
 * After a pop it is refused until the runtime has taken note by cq_take_pops: the whole stack would undo the pop.
 *
 *   CQ_NOT_RUNNING 204       the thread does not run
 *   CQ_OUT_OF_MEMORY 110     there is no memory to read the frames
 *   CQ_ILLEGAL_ARGUMENT 103  a location is below -1 or above 2^32 - 1
 *   CQ_POPPED 305            frames were popped, and cq_take_pops has not told them
 *   CQ_OVERFLOW 201          there are more frames than the service's depth
 *   CQ_OWN_SPENT 208         the thread has spent its 2^59 steps */
uint32_t cq_set_frames(cq_thread *thread, const cq_frame *frames, size_t count) CQ_MUST_USE;

/* cq_set_frames with the newest of these `count` frames: all, or as many as the service's depth if there are more. Writes to
 * `kept` how many that is, so the stack was cut if it is less than `count`. The frames behind them are not read.
 *
 * The codes are those of cq_set_frames. With any but CQ_OK nothing changes, and nothing is written. */
uint32_t cq_set_newest_frames(cq_thread *thread, const cq_frame *frames, size_t count, uint64_t *kept) CQ_MUST_USE;

/* Writes to `count` how many frames the thread has, 0 to the service's depth.
 *
 *   CQ_NOT_RUNNING 204  the thread does not run */
uint32_t cq_frame_count(cq_thread *thread, uint64_t *count) CQ_MUST_USE;

/* Writes to `count` how many frames were popped by cq_pop_frame since the last cq_take_pops, and takes note of them: from now on
 * they no longer count. It is 0 if none was popped. It works in each state of the thread.
 *
 * A runtime that keeps a stack of its own calls it each time cq_poll or cq_back, or its namesake in cebdyraq_wait.h, has
 * returned CQ_OK. It takes as many frames off the top of its stack, and goes on as PopFrame says: in the frame that is the newest
 * then, before the call that it had made. Only then does it give its stack again.
 *
 * Pops at a thread that is native, blocked or held count once it has returned. cq_enter, cq_at and cq_leave change the frames as
 * they are, without those that were popped. They are not refused, and change nothing of what is told here. */
uint32_t cq_take_pops(cq_thread *thread, uint64_t *count) CQ_MUST_USE;

/* Whether nobody calls for the thread (JEP 312). It is a call with some loads, of which one is atomic, and takes no lock. It is also
 * true of a thread that does not run, and of a handle that is misused. Compiled code may do with one load: cq_poll_word. A runtime that
 * cannot ask is told: cebdyraq_watch.h. */
bool cq_poll_clear(cq_thread *thread);

/* Writes to `word` where compiled code of the runtime may look in place of cq_poll_clear, and to `mask` which bits it looks at. While
 * one of them is set somebody calls for the thread, which then calls cq_poll:
 *
 *     if (__atomic_load_n(word, __ATOMIC_RELAXED) & mask) ..
 *
 * Any thread may read the word, by an atomic load, and none writes it. It may be read until the thread is given back
 * (cq_detach_thread), and stays where it is. Nothing is proved of what is found there: the library writes it whenever that
 * changes, in the same hold as it does what cq_poll_clear looks at. A look orders nothing.
 *
 *   CQ_NOT_RUNNING 204  the thread does not run. Nothing is written
 *
 * Since 2.1. */
uint32_t cq_poll_word(cq_thread *thread, const uint64_t **word, uint64_t *mask) CQ_MUST_USE;

/* Polls. If nobody calls for the thread, nothing happens. Otherwise the thread hands its frames over, and the calls that wait
 * for it take place. With CQ_OK it runs on, perhaps with fewer frames (cq_take_pops).
 *
 *   CQ_HELD 301         the thread has handed over and is suspended or stopped. It returns by cq_back
 *   CQ_NOT_RUNNING 204  the thread does not run
 *   CQ_BUSY 215         an environment uses the thread */
uint32_t cq_poll(cq_thread *thread) CQ_MUST_USE;

/* Goes into native code. The calls that wait take place, and later ones take place at once, until cq_back.
 *
 *   CQ_NOT_RUNNING 204      the thread does not run
 *   CQ_BUSY 215             an environment uses the thread
 *   CQ_NO_NATIVE_FRAME 207  the newest frame is not native, or there is none
 *   CQ_OWN_SPENT 208        the thread has spent its 2^59 steps */
uint32_t cq_native(cq_thread *thread) CQ_MUST_USE;

/* Blocks, for a reason from CQ_MONITOR_ENTER to CQ_TIMED_PARK. The calls that wait take place, and later ones take place at
 * once, until cq_back.
 *
 *   CQ_ILLEGAL_ARGUMENT 103  there is no such reason
 *   CQ_NOT_RUNNING 204       the thread does not run
 *   CQ_BUSY 215              an environment uses the thread
 *   CQ_OWN_SPENT 208         the thread has spent its 2^59 steps */
uint32_t cq_block(cq_thread *thread, uint32_t reason) CQ_MUST_USE;

/* Returns from native code, a block, or a poll at which the thread was held. The thread runs, perhaps with fewer frames
 * (cq_take_pops).
 *
 *   CQ_NOT_SAFE 205  the thread is none of these
 *   CQ_BARRED 206    the thread is suspended or stopped: call again later
 *   CQ_BUSY 215      an environment uses the thread */
uint32_t cq_back(cq_thread *thread) CQ_MUST_USE;

/* Ends the thread. The calls that wait for it take place, at a thread that is no longer alive. CQ_THREAD_END is told of it.
 *
 *   CQ_NOT_RUNNING 204  the thread does not run
 *   CQ_FULL 216         threads and environments have come and gone 2^62 - 1 times
 *   CQ_BUSY 215         an environment uses the thread, or the list of threads is in use */
uint32_t cq_end(cq_thread *thread) CQ_MUST_USE;

/* Gives a thread back that has ended or never started, and empties its handle. The thread's memory is freed once each
 * environment that has met it has let go of it.
 *
 *   CQ_MISUSED 304  also if the thread is alive
 *   CQ_FULL 216     threads and environments have come and gone 2^62 - 1 times
 *   CQ_BUSY 215     the list of threads is in use */
uint32_t cq_detach_thread(cq_thread *thread) CQ_MUST_USE;

/* ------------------------------------------------------------------------------------------------------------------
 * An agent's environment, and the list of threads.
 */

/* Meets the threads that were attached since the environment last met them. Its calls reach these from now on.
 *
 * If it has met 65,536 threads that it has not let go of, it first lets go of all that were given back and at which none of its
 * calls is out, as cq_let_go does. With a code other than CQ_OK it may have met some of the threads, and let go of some. The next
 * meeting has the others, and until then cq_has_news is true.
 *
 *   CQ_ILLEGAL_ARGUMENT 103  an earlier cq_dispose_environment has left some threads, so that there is no meeting any more
 *   CQ_OUT_OF_MEMORY 110     there is no memory to meet a thread
 *   CQ_FULL 216              it has met 65,536 threads that are there or at which its calls are out, or threads and
 *                            environments have come and gone 2^62 - 1 times
 *   CQ_BUSY 215              the list of threads is in use */
uint32_t cq_meet(cq_env *env) CQ_MUST_USE;

/* Whether threads have been attached, started, ended or been given back, environments have come or gone, another environment has met
 * threads or asked for other stops, or a stop has begun, was told or has ended, since the environment last looked at the list; or its
 * last cq_meet failed. It takes no lock. It is false of a handle that is misused. An environment that was just attached has looked, and
 * has met no thread: it meets once without news. */
bool cq_has_news(cq_env *env);

/* Lets go of a thread that was given back, so that its memory can be freed, and writes to `gone` whether it did. It does not
 * while the thread is there or a call is out at it, and not if it was let go of before, by a meeting too. The environment's word at
 * the thread is gone then, and a call there is CQ_THREAD_NOT_ALIVE. What traces have gathered stays.
 *
 *   CQ_BUSY 215  the list of threads is in use */
uint32_t cq_let_go(cq_env *env, uint32_t thread, bool *gone);

/* cq_let_go of each thread that the environment has met. With CQ_BUSY it has let go of some of them. Since 2.1.
 *
 *   CQ_BUSY 215  the list of threads is in use */
uint32_t cq_let_go_of_all(cq_env *env);

/* GetAllThreads. Writes the numbers of the threads that are alive, in rising order, as many as there is `room` for, and to `count`
 * how many there are. They have started and have not ended. The environment need not have met them: cq_meet has it meet all that
 * are attached, and CQ_THREAD_ATTACHED tells of each.
 *
 *   CQ_OUT_OF_MEMORY 110  there is no memory for the list
 *   CQ_BUSY 215           the list of threads is in use */
uint32_t cq_get_all_threads(cq_env *env, uint32_t *threads, size_t room, uint64_t *count) CQ_MUST_USE;

/* GetThreadInfo. Writes the thread's name, as many of its bytes as there is `room` for, and to `info` the length of the whole
 * name and the priority.
 *
 *   CQ_INVALID_THREAD 10    no thread has had this number
 *   CQ_THREAD_NOT_ALIVE 15  the thread was given back
 *   CQ_OUT_OF_MEMORY 110    there is no memory for the name
 *   CQ_BUSY 215             the list of threads is in use */
uint32_t cq_get_thread_info(cq_env *env, uint32_t thread, cq_thread_info *info, uint8_t *name, size_t room) CQ_MUST_USE;

/* ------------------------------------------------------------------------------------------------------------------
 * Calls at a thread.
 *
 * With CQ_OK the answer is there. With CQ_WAITING 302 the thread runs, and the call is posted: `answer->ticket` names it, for
 * cq_collect. It takes place when the thread next hands over.
 *
 *     at a thread that runs                               is
 *     cq_get_frame_count, cq_get_frame_location,          CQ_WAITING
 *     cq_get_stack_trace, cq_suspend_thread, cq_pop_frame
 *     cq_get_thread_state, cq_resume_thread,              answered at once
 *     cq_get_thread_local_storage,
 *     cq_set_thread_local_storage
 *
 * At any other thread each call is answered at once. No function gives CQ_WAITING but these five, cq_collect,
 * cq_collect_cancelled and cq_ensure_resumed.
 *
 * Calls that wait take place in the order in which they were posted. One that is answered at once takes place at once, also
 * while earlier ones wait. So a word that is set after a trace was posted is set before the trace is made.
 *
 * A thread that runs gets no answer from itself while it does not poll: it posts, polls, and collects.
 *
 * Each call may be refused before it reaches the thread. Then it costs nothing.
 *
 *   CQ_MUST_POSSESS_CAPABILITY 99  the environment has not the capability that the call needs
 *   CQ_INVALID_THREAD 10           no thread has had this number, or the environment has not met it
 *   CQ_THREAD_NOT_ALIVE 15         the environment has let go of the thread, or never met it before it was given back
 *   CQ_ILLEGAL_ARGUMENT 103        `depth` or `max_count` is negative
 *   CQ_CALLS_SPENT 209             the environment has spent its 2^52 calls at the thread
 *   CQ_FULL 216                    the call may wait, and `window` calls of the environment are out at the thread
 *   CQ_OUT_OF_MEMORY 110           there is no memory for the frames of a trace
 *   CQ_BUSY 215                    the thread itself or another environment uses the thread
 *
 * Otherwise it costs one call, whatever the answer. The answer may be one of the errors that each function lists.
 */

/* GetThreadState. Writes the bits CQ_STATE_.. of the thread to `answer->number`, also of one that is not alive. */
uint32_t cq_get_thread_state(cq_env *env, uint32_t thread, cq_answer *answer) CQ_MUST_USE;

/* GetFrameCount. Writes the number of frames, 0 to the service's depth, to `answer->number`.
 *
 *   CQ_WAITING 302          the thread runs, and the call is posted
 *   CQ_THREAD_NOT_ALIVE 15  the thread has not started, or has ended */
uint32_t cq_get_frame_count(cq_env *env, uint32_t thread, cq_answer *answer) CQ_MUST_USE;

/* GetFrameLocation. Writes the frame at a depth, 0 for the newest one, to `answer->frame`.
 *
 *   CQ_WAITING 302          the thread runs, and the call is posted
 *   CQ_THREAD_NOT_ALIVE 15  the thread has not started, or has ended
 *   CQ_NO_MORE_FRAMES 31    there is no frame at this depth */
uint32_t cq_get_frame_location(cq_env *env, uint32_t thread, int32_t depth, cq_answer *answer) CQ_MUST_USE;

/* GetStackTrace. It finds at most `max_count` frames, newest first, from the index `start` on. A negative `start` counts from
 * the oldest frame, which is -1. Writes as many frames as there is `room` for, and to `answer->number` how many it found. With
 * CQ_WAITING no frame is written: cq_collect gets room of its own.
 *
 *   CQ_WAITING 302           the thread runs, and the call is posted
 *   CQ_THREAD_NOT_ALIVE 15   the thread has not started, or has ended
 *   CQ_ILLEGAL_ARGUMENT 103  there is no frame at `start`, unless `start` is 0 and the stack is empty */
uint32_t cq_get_stack_trace(cq_env *env, uint32_t thread, int32_t start, int32_t max_count, cq_answer *answer,
                            cq_frame *frames, size_t room) CQ_MUST_USE;

/* SuspendThread, with CQ_CAN_SUSPEND. The thread stays at its next poll, and does not return from native code or a block, until
 * it is resumed. Suspensions do not nest, and any environment may end one.
 *
 *   CQ_WAITING 302          the thread runs, and the call is posted
 *   CQ_THREAD_NOT_ALIVE 15  the thread has not started, or has ended
 *   CQ_THREAD_SUSPENDED 14  the thread is suspended */
uint32_t cq_suspend_thread(cq_env *env, uint32_t thread, cq_answer *answer) CQ_MUST_USE;

/* ResumeThread, with CQ_CAN_SUSPEND. The thread may return by cq_back. While a suspension still waits for the thread, there is
 * nothing to resume: collect its answer first.
 *
 *   CQ_THREAD_NOT_ALIVE 15      the thread has not started, or has ended
 *   CQ_THREAD_NOT_SUSPENDED 13  the thread is not suspended */
uint32_t cq_resume_thread(cq_env *env, uint32_t thread, cq_answer *answer) CQ_MUST_USE;

/* PopFrame, with CQ_CAN_POP_FRAME. The newest frame goes, and its caller is the newest one, at the location where it was. The
 * runtime is told when the thread runs again (cq_take_pops).
 *
 *   CQ_WAITING 302              the thread runs, and the call is posted
 *   CQ_THREAD_NOT_ALIVE 15      the thread has not started, or has ended
 *   CQ_THREAD_NOT_SUSPENDED 13  the thread is not suspended
 *   CQ_NO_MORE_FRAMES 31        there are fewer than two frames
 *   CQ_OPAQUE_FRAME 32          one of the two newest frames is native */
uint32_t cq_pop_frame(cq_env *env, uint32_t thread, cq_answer *answer) CQ_MUST_USE;

/* GetThreadLocalStorage. Writes the environment's word at the thread, 0 at first, to `answer->number`.
 *
 *   CQ_THREAD_NOT_ALIVE 15  the thread has not started, or has ended */
uint32_t cq_get_thread_local_storage(cq_env *env, uint32_t thread, cq_answer *answer) CQ_MUST_USE;

/* SetThreadLocalStorage. Sets the environment's word at the thread to any 64 bits.
 *
 *   CQ_THREAD_NOT_ALIVE 15  the thread has not started, or has ended */
uint32_t cq_set_thread_local_storage(cq_env *env, uint32_t thread, uint64_t word, cq_answer *answer) CQ_MUST_USE;

/* ------------------------------------------------------------------------------------------------------------------
 * Calls that wait for a thread.
 */

/* The answer to a call that waits. It returns the code of the call, and writes what the call itself would have written, with
 * the frames that there is `room` for. Each answer is collected once.
 *
 *   CQ_WAITING 302  the answer is not there yet, or no call of this environment with this ticket is out. Nothing is written
 *   CQ_BUSY 215     the thread itself or another environment uses the thread */
uint32_t cq_collect(cq_env *env, const cq_ticket *ticket, cq_answer *answer, cq_frame *frames, size_t room) CQ_MUST_USE;

/* Cancels a call that is out: cq_collect never gives its answer. It may still take place, so a thread may be suspended. It keeps its
 * room in the window until cq_discard or cq_collect_cancelled. Nothing happens if no call with this ticket is out.
 *
 *   CQ_OUT_OF_MEMORY 110  there is no memory to note that the call was cancelled
 *   CQ_BUSY 215           the thread itself or another environment uses the thread */
uint32_t cq_cancel(cq_env *env, const cq_ticket *ticket);

/* Discards the answer to the call that the environment cancelled first at the thread, and writes to `discarded` whether it did. It
 * does not if that answer is not there yet, or no call was cancelled. Answers to calls of an environment of the same number that was
 * disposed of are discarded before it, and told to nobody.
 *
 *   CQ_BUSY 215  the thread itself or another environment uses the thread */
uint32_t cq_discard(cq_env *env, uint32_t thread, bool *discarded);

/* Discards the same answer, and tells it. It writes the call's ticket to `answer->ticket`, returns the code of the call, and
 * writes what the call itself would have written, with the frames that there is `room` for. So a caller learns whether a call
 * whose time was over has taken place after all. Since 2.2.
 *
 *   CQ_WAITING 302  the answer is not there yet. Nothing is written
 *   CQ_NONE 303     no call that the environment cancelled is out at the thread. Nothing is written
 *   CQ_BUSY 215     the thread itself or another environment uses the thread */
uint32_t cq_collect_cancelled(cq_env *env, uint32_t thread, cq_answer *answer, cq_frame *frames, size_t room) CQ_MUST_USE;

/* Takes back what the environment's suspensions did to a thread, and what cancelled ones would still do to it: for a
 * suspension whose time was over, after which cq_resume_thread gives CQ_THREAD_NOT_SUSPENDED at once. It needs CQ_CAN_SUSPEND.
 *
 * It discards the answers that are there at the thread, as cq_discard does. If no call that the environment cancelled there is out
 * then, it resumes the thread, which costs one call. With CQ_OK the thread is not suspended, whether it was before or not. A suspension
 * belongs to the thread, so this may end one that another environment made.
 *
 *   CQ_WAITING 302                 a cancelled call is out, and may yet suspend the thread: call again once the thread has
 *                                  handed over
 *   CQ_MUST_POSSESS_CAPABILITY 99  the environment has no CQ_CAN_SUSPEND
 *   CQ_INVALID_THREAD 10           the environment has not met the thread
 *   CQ_CALLS_SPENT 209             no call is left at the thread
 *   CQ_THREAD_NOT_ALIVE 15         the thread has not started, or has ended, or was let go of
 *   CQ_BUSY 215                    the thread itself or another environment uses the thread. Answers may have been discarded */
uint32_t cq_ensure_resumed(cq_env *env, uint32_t thread) CQ_MUST_USE;

/* Writes to `count` how many calls of the environment are out at the thread, also cancelled ones: 0 to the service's
 * window. It is 0 at a thread that the environment has not met. */
uint32_t cq_out_at(cq_env *env, uint32_t thread, uint32_t *count);

/* Writes to `number` which environment's trace has stopped the thread (cq_environment_number), and has not let it go. Until it
 * does, the thread's cq_start and cq_back are CQ_BARRED. It spends no call, and needs no capability. If that environment is lost,
 * cq_wait_end_environment ends what it has begun.
 *
 *   CQ_NONE 303              no trace has stopped the thread
 *   CQ_INVALID_THREAD 10     the environment `env` has not met the thread
 *   CQ_THREAD_NOT_ALIVE 15   it has let go of it, or not met one that was there once
 *   CQ_BUSY 215              the thread itself or another environment uses the thread */
uint32_t cq_stopper(cq_env *env, uint32_t thread, uint32_t *number) CQ_MUST_USE;

/* ------------------------------------------------------------------------------------------------------------------
 * Traces of several threads at one moment.
 *
 * They are GetAllStackTraces and GetThreadListStackTraces. A trace is begun, and gathered step by step. First each thread is
 * stopped, in the order of the numbers. Then each is seen standing, then each is read, and then each is let go. So all stand
 * before the first is read, and all are read before the first is let go.
 *
 * A thread that runs when it is stopped runs on to its next poll. There it is CQ_HELD. It may also go native, block or end.
 * Until a thread is let go, its cq_start and cq_back are CQ_BARRED. So go on with a trace until its end.
 *
 * While an environment gathers a trace, its other functions return CQ_MISUSED, also cq_dispose_environment. Afterwards it has
 * its words, its capabilities and its calls that are out as before.
 *
 * All memory is taken when the trace begins. A trace costs one call at each thread for the stop, and one for each read.
 */

/* Begins GetAllStackTraces, of all threads that the environment has met. `max_count` is how many frames of each it finds at
 * most, newest first, 0 or more. Only threads that are alive are told of, in the order of their numbers. Nothing is stopped
 * yet. What the environment's last trace has gathered is discarded.
 *
 *   CQ_ILLEGAL_ARGUMENT 103  `max_count` is negative
 *   CQ_CALLS_SPENT 209       fewer than two calls are left at a thread
 *   CQ_OUT_OF_MEMORY 110     there is no memory for the trace */
uint32_t cq_gather_all_stack_traces(cq_env *env, int32_t max_count) CQ_MUST_USE;

/* Begins GetThreadListStackTraces, of each of `count` threads, in their order. A thread that is named twice is stopped once and
 * read twice. One that is not alive has no frames. The rest is as for cq_gather_all_stack_traces.
 *
 *   CQ_INVALID_THREAD 10     the environment has not met one of the threads, or has let go of it
 *   CQ_ILLEGAL_ARGUMENT 103  `max_count` is negative
 *   CQ_OUT_OF_MEMORY 110     there is no memory for the trace. It may come before the two above
 *   CQ_CALLS_SPENT 209       fewer calls are left at a thread than its stop and its reads cost */
uint32_t cq_gather_thread_list_stack_traces(cq_env *env, const uint32_t *threads, size_t count,
                                            int32_t max_count) CQ_MUST_USE;

/* Goes on with the trace. It does one thing at one thread, or goes from one of the four parts to the next. It writes to `over`
 * whether the trace has come to its end. While it has not, call again.
 *
 *   CQ_MISUSED 304          also if the environment gathers no trace
 *   CQ_ALREADY_STOPPED 211  another environment's trace has stopped the next thread: call again later
 *   CQ_STILL_RUNNING 213    the next thread has not handed over since it was stopped: call again later
 *   CQ_BUSY 215             the next thread itself or another environment uses it */
uint32_t cq_gather_step(cq_env *env, bool *over) CQ_MUST_USE;

/* Gives the trace up if not all of its threads were seen standing yet. From then on each step lets a thread go that it has
 * stopped, until it is over. Otherwise nothing happens, and the trace goes on to its end.
 *
 *   CQ_MISUSED 304  also if the environment gathers no trace */
uint32_t cq_gather_give_up(cq_env *env) CQ_MUST_USE;

/* Writes to `count` of how many threads the environment's last trace tells. What it has gathered stays until the next one
 * begins, or the environment is disposed of.
 *
 *   CQ_NONE 303  no trace was made, or the last one was given up */
uint32_t cq_gathered(cq_env *env, uint64_t *count);

/* What the last trace tells of one thread, by an index from 0. Writes as many frames as there is `room` for, newest first, and
 * to `info` the thread's number, its state, and how many frames there are.
 *
 *   CQ_NONE 303              no trace was made, or the last one was given up
 *   CQ_ILLEGAL_ARGUMENT 103  the trace tells of no thread at this index */
uint32_t cq_gathered_stack(cq_env *env, uint64_t index, cq_stack_info *info, cq_frame *frames, size_t room) CQ_MUST_USE;

/* ------------------------------------------------------------------------------------------------------------------
 * What is the environment's own.
 */

/* Writes the environment's number to `number`: 0 to 31, and less than `envs` of cq_make. No two that are attached at once have
 * the same. */
uint32_t cq_environment_number(cq_env *env, uint32_t *number);

/* AddCapabilities: a sum of CQ_CAN_SUSPEND and CQ_CAN_POP_FRAME. It adds all of them, or none.
 *
 *   CQ_NOT_AVAILABLE 98  one of them cannot be had */
uint32_t cq_add_capabilities(cq_env *env, uint32_t capabilities) CQ_MUST_USE;

/* RelinquishCapabilities. One that the environment does not have is no error. Calls that were posted keep what they need. */
uint32_t cq_relinquish_capabilities(cq_env *env, uint32_t capabilities);

/* GetCapabilities. Writes those that the environment has. */
uint32_t cq_get_capabilities(cq_env *env, uint32_t *capabilities);

/* GetPotentialCapabilities. Writes those that can be had, which cq_make was given. */
uint32_t cq_get_potential_capabilities(cq_env *env, uint32_t *capabilities);

/* GetEnvironmentLocalStorage. Writes the environment's own word, 0 at first. */
uint32_t cq_get_environment_local_storage(cq_env *env, uint64_t *word);

/* SetEnvironmentLocalStorage. Sets the environment's own word to any 64 bits. */
uint32_t cq_set_environment_local_storage(cq_env *env, uint64_t word);

/* SetEventNotificationMode, of one kind of event, at all threads. An environment is told of each event of this kind that happens
 * from then on. What it was not told is never told once the kind is disabled.
 *
 *     CQ_THREAD_START     a thread has started (cq_start)
 *     CQ_THREAD_END       a thread has ended (cq_end)
 *     CQ_CLASS_PREPARE    a class was defined (cq_define_class), by a call that began after the kind was enabled
 *     CQ_THREAD_ATTACHED  a thread was attached (cq_attach_thread): no event of JVM TI
 *     CQ_THREAD_DETACHED  a thread was given back (cq_detach_thread), and can be let go: no event of JVM TI
 *
 *   CQ_ILLEGAL_ARGUMENT 103  there is no such kind
 *   CQ_BUSY 215              the list of threads is in use */
uint32_t cq_set_event_notification_mode(cq_env *env, bool enabled, uint32_t kind) CQ_MUST_USE;

/* Writes the next event to `event`: the first that happened since the last one that was told, of the kinds that are enabled. All
 * environments are told events of threads in one order. For one thread it is attached, start, end, detached. The service
 * keeps the last 4,096 events of threads. Classes come in the order of their numbers, after the events of threads that are there, and
 * none is lost.
 *
 *   CQ_NONE 303  there is no event, or all kinds are disabled
 *   CQ_BUSY 215  the list of threads is in use */
uint32_t cq_next_event(cq_env *env, cq_event *event) CQ_MUST_USE;

/* DisposeEnvironment. The environment's words are 0 again, another may be attached, and its handle is empty. What its traces have
 * gathered is gone. A thread that it suspended stays suspended. No thread is suspended and no frame is popped by it any more:
 * if it has can_suspend or can_pop_frame, or had them and gave them up, it is not disposed of before all its calls have taken place.
 * The calls of any other environment only read: those that are out are cancelled. The next environment of its number is told nothing of
 * them. Until the thread has answered them they take room of its window, so their number is given last.
 *
 * With one of these codes the environment stays. With CQ_BUSY because of a call that is out, nothing has changed but that its calls
 * are cancelled: take a suspension back by cq_ensure_resumed, or call again once the thread has handed over or ended. In the
 * other cases it may have left some of its threads, and can only be disposed of: call again.
 *
 *   CQ_OUT_OF_MEMORY 110  there is no memory to cancel a call
 *   CQ_FULL 216           threads and environments have come and gone 2^62 - 1 times
 *   CQ_BUSY 215           the environment has or had one of these capabilities, and a call of it is out at a thread that runs and has
 *                         not handed over since; or a thread or the list of threads is in use */
uint32_t cq_dispose_environment(cq_env *env) CQ_MUST_USE;

/* ------------------------------------------------------------------------------------------------------------------
 * Classes and methods.
 *
 * A runtime defines a class with its methods, and from then on each environment of the service is told of it. A class is a Java
 * class, or whatever of a program comes at once, as a chunk, a module or a file. Classes are numbered 0, 1, 2 and so on, and so
 * are the methods of all classes together. These are the numbers of cq_enter and of frames. No number is used again, and what it
 * names never changes. A runtime that learns of a method late defines one more class with the same signature. A frame may also
 * name a method that was never defined.
 *
 * These functions ask no thread, and use no list of threads. They change nothing but that a class is defined.
 *
 * A text is UTF-8, and no 0 is at its end. What a function tells it writes as far as there is `room`, with the whole length. A
 * caller may ask again with more room, and is told the same.
 *
 *     cq_define_class, cq_define_class_strings            a handle of the service
 *     cq_get_loaded_classes                               all classes
 *     cq_get_class_signature, cq_get_source_file_name,    a class
 *     cq_get_class_methods
 *     cq_get_method_name, cq_get_method_declaring_class,  a method
 *     cq_is_method_native, cq_get_line_number_table
 */

/* What is known of a method's lines. */
enum cq_lines_kind {
    CQ_LINES_ABSENT = 0,     /* nothing */
    CQ_LINES_LOCATIONS = 1,  /* a location is its line */
    CQ_LINES_TABLE = 2,      /* there is a table */
    CQ_LINES_NATIVE = 3      /* the method is native, and has no lines */
};

/* An entry of a table of lines (jvmtiLineNumberEntry): from this location on, up to that of the next entry, a method is at this
 * line. */
typedef struct { uint32_t start_location; uint32_t line_number; } cq_line_entry;

/* A part of a text, in bytes, or of a list of line entries: where it starts, from 0, and how long it is. */
typedef struct { size_t start; size_t length; } cq_range;

/* A class for cq_define_class: its signature (JVM TI 11), as in `Ljava/lang/Object;`, and the name of its source file, as parts
 * of a text. A name of no bytes is no name. Two classes may have the same signature. */
typedef struct { cq_range signature; cq_range source_file; } cq_class_ranges;

/* A method for cq_define_class: its name and its signature (JVM TI 11), as in `(I)V`, as parts of the text. With CQ_LINES_TABLE
 * `lines` is its part of the line entries, and otherwise nothing reads it. The first line is that at which the method is
 * defined, or 0 if it is not known. */
typedef struct {
    cq_range name;
    cq_range signature;
    cq_range lines;
    uint32_t lines_kind;
    uint32_t first_line;
} cq_method_ranges;

/* A method for cq_define_class_strings: the same as strings that end with a 0, and with `line_count` line entries of its own.
 * NULL is the empty signature, or no lines. */
typedef struct {
    const char *name;
    const char *signature;
    const cq_line_entry *lines;
    size_t line_count;
    uint32_t lines_kind;
    uint32_t first_line;
} cq_method_strings;

/* What is told of a method's name (GetMethodName): the lengths of the name and of the signature in bytes, and the line at which
 * the method is defined. */
typedef struct { uint64_t name_length; uint64_t signature_length; uint32_t first_line; } cq_method_name;

/* Defines a class with `count` methods. Writes the number of the class to `class_no`, and to `first_method` that of its first
 * method, which the others follow. If it has no method, that is the number of the next method of any class.
 *
 *   `text`     all names and signatures, in any order. Parts of it may overlap
 *   `entries`  the line entries of all tables. The same holds of them
 *
 * All is copied.
 *
 *   CQ_ILLEGAL_ARGUMENT 103  a range does not lie within the text or the entries, its part of the text is not UTF-8, or there
 *                            is no such kind of lines
 *   CQ_OUT_OF_MEMORY 110     there is no memory for the class. It may come before the one above
 *   CQ_FULL 216              there would be 2^32 classes, or 2^32 methods
 *   CQ_BUSY 215              other threads of the operating system defined classes again and again at this moment */
uint32_t cq_define_class(cq_service *service, const uint8_t *text, size_t text_length, const cq_class_ranges *class_ranges,
                         const cq_method_ranges *methods, size_t count, const cq_line_entry *entries, size_t entry_count,
                         uint32_t *class_no, uint32_t *first_method) CQ_MUST_USE;

/* Defines a class of strings that end with a 0, by cq_define_class. It takes memory to bring them together, and gives
 * it back. `source_file` may be NULL, and so may be `methods` if `count` is 0. The codes are those of cq_define_class. */
uint32_t cq_define_class_strings(cq_service *service, const char *signature, const char *source_file,
                                 const cq_method_strings *methods, size_t count, uint32_t *class_no,
                                 uint32_t *first_method) CQ_MUST_USE;

/* GetLoadedClasses. Writes the numbers of all classes, in rising order, as many as there is `room` for, and to `count` how many
 * there are.
 *
 *   CQ_OUT_OF_MEMORY 110  there is no memory for the list */
uint32_t cq_get_loaded_classes(cq_env *env, uint32_t *classes, size_t room, uint64_t *count) CQ_MUST_USE;

/* GetClassSignature. Writes the class's signature, as many of its bytes as there is `room` for, and to `length` how long it is.
 *
 *   CQ_INVALID_CLASS 21   no class of this number was defined
 *   CQ_OUT_OF_MEMORY 110  there is no memory for the text
 *   CQ_BUSY 215           the class is just being defined, and nobody has its number yet */
uint32_t cq_get_class_signature(cq_env *env, uint32_t class_no, uint8_t *text, size_t room, uint64_t *length) CQ_MUST_USE;

/* GetSourceFileName. Writes the name of the class's source file, as many of its bytes as there is `room` for, and to `length`
 * how long it is.
 *
 *   CQ_INVALID_CLASS 21        no class of this number was defined
 *   CQ_ABSENT_INFORMATION 101  the class was defined without a source file
 *   CQ_OUT_OF_MEMORY 110       there is no memory for the text
 *   CQ_BUSY 215                the class is just being defined, and nobody has its number yet */
uint32_t cq_get_source_file_name(cq_env *env, uint32_t class_no, uint8_t *text, size_t room, uint64_t *length) CQ_MUST_USE;

/* GetClassMethods. Writes the numbers of the class's methods, in the order in which they were given, as many as there is `room`
 * for, and to `count` how many there are.
 *
 *   CQ_INVALID_CLASS 21   no class of this number was defined
 *   CQ_OUT_OF_MEMORY 110  there is no memory for the list
 *   CQ_BUSY 215           the class is just being defined, and nobody has its number yet */
uint32_t cq_get_class_methods(cq_env *env, uint32_t class_no, uint32_t *methods, size_t room, uint64_t *count) CQ_MUST_USE;

/* GetMethodName. Writes the method's name and its signature, as many bytes of each as there is room for, and to `info` the
 * length of each and the line at which the method is defined.
 *
 *   CQ_INVALID_METHODID 23  no method of this number was defined
 *   CQ_OUT_OF_MEMORY 110    there is no memory for the texts
 *   CQ_BUSY 215             its class is just being defined, and nobody has the number yet */
uint32_t cq_get_method_name(cq_env *env, uint32_t method, cq_method_name *info, uint8_t *name, size_t name_room,
                            uint8_t *signature, size_t signature_room) CQ_MUST_USE;

/* GetMethodDeclaringClass. Writes the number of the method's class to `class_no`.
 *
 *   CQ_INVALID_METHODID 23  no method of this number was defined
 *   CQ_BUSY 215             its class is just being defined, and nobody has the number yet */
uint32_t cq_get_method_declaring_class(cq_env *env, uint32_t method, uint32_t *class_no) CQ_MUST_USE;

/* IsMethodNative. Writes to `native` whether the method is native.
 *
 *   CQ_INVALID_METHODID 23  no method of this number was defined
 *   CQ_BUSY 215             its class is just being defined, and nobody has the number yet */
uint32_t cq_is_method_native(cq_env *env, uint32_t method, bool *native) CQ_MUST_USE;

/* GetLineNumberTable. Writes CQ_LINES_LOCATIONS or CQ_LINES_TABLE to `kind`, the entries of the table, as many as there is `room`
 * for, and to `count` how many there are. Where locations are lines there is no entry.
 *
 *   CQ_INVALID_METHODID 23     no method of this number was defined
 *   CQ_NATIVE_METHOD 104       the method is native
 *   CQ_ABSENT_INFORMATION 101  the method was defined without lines
 *   CQ_OUT_OF_MEMORY 110       there is no memory for the table
 *   CQ_BUSY 215                its class is just being defined, and nobody has the number yet */
uint32_t cq_get_line_number_table(cq_env *env, uint32_t method, uint32_t *kind, cq_line_entry *entries, size_t room,
                                  uint64_t *count) CQ_MUST_USE;

/* ------------------------------------------------------------------------------------------------------------------
 * Breakpoints, single steps and the ends of frames (JVM TI 11), and the threads that stop for them.
 *
 * An environment says of which kinds of stops it is told. Its breakpoints and its other wishes are its own: no other environment
 * sees or changes them, and they end with it. A thread that reaches what an environment wants to be told of stops there, for each
 * such environment, until all of them have ended its stop. It may be suspended meanwhile, by whomever, and then stays suspended.
 *
 * A runtime asks by cq_may_stop, which takes no lock, wherever a thread may stop: at the begin of each line, say. If that is true,
 * it says by cq_reached where the thread is. If the thread is to stop, it gives its frames, blocks (cq_block, with CQ_PARK), and
 * asks by cq_is_stopped until it no longer stops. Then it returns by cq_back. With cebdyraq_wait.h:
 *
 *     bool stops = false;
 *     if (cq_may_stop(&thread) && cq_wait_reached(&thread, &signal, method, line, &stops) == CQ_OK && stops) {
 *         give_frames();                       // cq_set_frames, if the runtime keeps a stack of its own
 *         code = cq_wait_stop(&thread, &signal);
 *     }
 *
 * A breakpoint anywhere makes cq_may_stop true everywhere. A runtime for which a look at each line is dear asks by cq_may_stop_in
 * whether a thread may stop in the methods that it runs, again when cq_stops_version is another, and looks at no line where it may not.
 *
 * A method is stopped in by its number (cq_define_class).
 */

/* Whether the thread may have to stop at what it reaches next. It takes no lock. It is false only if no environment was told of any
 * kind of stop when it looked. It may be true though none is, as after any thread or environment has come or gone: cq_reached tells.
 * False for a handle that is misused. */
bool cq_may_stop(cq_thread *thread);

/* A number that grows whenever something about stops changes, and also when a thread or an environment comes, goes or meets others. It
 * takes no lock. 0 for a handle that is misused. Since 2.4. */
uint64_t cq_stops_version(cq_thread *thread);

/* Writes to `may` whether the thread may have to stop in one of `count` methods, from the number `first` on: an environment that is told
 * of breakpoints at the thread has one there, or one is told of its single steps, or one is told of its frame pops and has asked for one.
 * If it is false, no cq_reached and no cq_leaves in these methods stops the thread while cq_stops_version is what it was before the call.
 *
 *   CQ_FULL 216  threads and environments have come and gone, or threads have stopped, 2^62 - 1 times
 *   CQ_BUSY 215  the list of threads is in use
 *
 * Since 2.4. */
uint32_t cq_may_stop_in(cq_thread *thread, uint32_t first, uint32_t count, bool *may) CQ_MUST_USE;

/* Says that the thread is at this location of this method, and writes to `stops` whether it has to stop there.
 *
 * A debugger's step out of a method ends at the first location that its caller reaches. So a runtime that says where each line begins
 * also says, after a call has returned, where the caller goes on in the middle of a line.
 *
 *   CQ_OUT_OF_MEMORY 110  there is no memory for a stop. The thread does not stop
 *   CQ_FULL 216           threads and environments have come and gone, or threads have stopped, 2^62 - 1 times
 *   CQ_BUSY 215           the list of threads is in use */
uint32_t cq_reached(cq_thread *thread, uint32_t method, uint32_t location, bool *stops) CQ_MUST_USE;

/* Says that the thread is about to leave its newest frame, at this location of this method, and that it has `frames` frames
 * with that one. The codes are those of cq_reached. */
uint32_t cq_leaves(cq_thread *thread, uint32_t method, uint32_t location, uint32_t frames, bool *stops) CQ_MUST_USE;

/* Writes to `stops` whether the thread still has to stop where it is. The codes are those of cq_reached, but for CQ_OUT_OF_MEMORY. */
uint32_t cq_is_stopped(cq_thread *thread, bool *stops) CQ_MUST_USE;

/* SetBreakpoint. Threads stop there for the environment once it is told of breakpoints (cq_set_stop_notification_mode).
 *
 *   CQ_INVALID_METHODID 23  no method of this number was defined
 *   CQ_INVALID_LOCATION 24  the method is native, or its table of lines has no entry that begins at this location
 *   CQ_DUPLICATE 40         the environment has a breakpoint there
 *   CQ_OUT_OF_MEMORY 110    there is no memory for it
 *   CQ_FULL 216             as for cq_reached
 *   CQ_BUSY 215             the list of threads is in use, or the method is just being defined */
uint32_t cq_set_breakpoint(cq_env *env, uint32_t method, uint32_t location) CQ_MUST_USE;

/* ClearBreakpoint.
 *
 *   CQ_INVALID_METHODID 23  no method of this number was defined
 *   CQ_INVALID_LOCATION 24  as for cq_set_breakpoint
 *   CQ_NOT_FOUND 41         the environment has no breakpoint there
 *   CQ_OUT_OF_MEMORY 110, CQ_FULL 216, CQ_BUSY 215 as for cq_set_breakpoint */
uint32_t cq_clear_breakpoint(cq_env *env, uint32_t method, uint32_t location) CQ_MUST_USE;

/* SetEventNotificationMode, of CQ_BREAKPOINT, CQ_SINGLE_STEP or CQ_FRAME_POP, at one thread or at CQ_ALL_THREADS. An environment is
 * told of a kind at a thread if it is enabled for that thread or for all.
 *
 *   CQ_ILLEGAL_ARGUMENT 103  there is no such kind
 *   CQ_OUT_OF_MEMORY 110, CQ_FULL 216, CQ_BUSY 215 as for cq_reached */
uint32_t cq_set_stop_notification_mode(cq_env *env, bool enabled, uint32_t kind, uint32_t thread) CQ_MUST_USE;

/* NotifyFramePop: the environment is told once, when the thread is about to leave a frame and has at most `frames` frames with
 * it. It is the frame that is `frames` from the oldest, which is 1: with n frames, the one at depth d has the number n - d.
 *
 *   CQ_DUPLICATE 40  the environment has asked for it
 *   CQ_OUT_OF_MEMORY 110, CQ_FULL 216, CQ_BUSY 215 as for cq_reached */
uint32_t cq_notify_frame_pop(cq_env *env, uint32_t thread, uint32_t frames) CQ_MUST_USE;

/* Writes the stop to `stop` that has waited longest for the environment and that it was not told, if there is one. The thread
 * stops until cq_end_stop.
 *
 *   CQ_NONE 303  there is none
 *   CQ_FULL 216  as for cq_reached
 *   CQ_BUSY 215  the list of threads is in use */
uint32_t cq_next_stop(cq_env *env, cq_stop *stop) CQ_MUST_USE;

/* Ends the stop of a thread for the environment, once cq_next_stop has told it.
 *
 *   CQ_THREAD_NOT_SUSPENDED 13  there is no stop of this thread that the environment was told
 *   CQ_FULL 216, CQ_BUSY 215    as for cq_next_stop */
uint32_t cq_end_stop(cq_env *env, uint32_t thread) CQ_MUST_USE;

#ifdef __cplusplus
}
#endif

#endif
