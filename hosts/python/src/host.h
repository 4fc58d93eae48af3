/* host.h: what the parts of the host for CPython 3.11 share.
 *
 * The GIL is the safe point. A thread that does not hold it stands between two instructions, or is in C code that leaves its frames
 * alone. So a watcher takes the GIL when somebody calls for a thread, and hands over for all threads that are wanted. A script pays
 * nothing while nobody asks.
 *
 * The GIL guards everything here, unless a comment says otherwise. */
#ifndef CEBDYRAQ_HOST_H
#define CEBDYRAQ_HOST_H

#define PY_SSIZE_T_CLEAN
#define Py_BUILD_CORE_MODULE 1
#include <Python.h>
#include "internal/pycore_frame.h"
#include "internal/pycore_interp.h"
#include "internal/pycore_pystate.h"
#include "internal/pycore_runtime.h"

#include <cebdyraq_serve.h>
#include <cebdyraq_watch.h>
#include <pthread.h>
#include <stdatomic.h>

#if PY_VERSION_HEX < 0x030B0000 || PY_VERSION_HEX >= 0x030C0000
#error "this host is for CPython 3.11"
#endif

enum { DEPTH = 4096, ENVIRONMENTS = 8, WINDOW = 64 };
enum { CALM = 256 };   /* methods in which a traced thread need not say where it is; a power of two */
enum { HIDDEN = -1 };  /* in place of a method: a frame that is not shown */

/* What the library was told of a thread. */
enum mode {
    RUNS,   /* it runs; the watcher hands over for it */
    AWAY,   /* the watcher has blocked it; it comes back at its next instruction */
    HELD,   /* the watcher has polled for it, and it was held; it comes back at its next instruction */
    WAITS   /* it waits in the library itself, without the GIL; nobody else uses its handle */
};

/* A method in which a thread did not have to stop, and the version of the stops by which that is so. */
struct calm {
    uint32_t method;
    uint64_t version;
};

/* A thread that is inspected. */
struct thread {
    cq_thread handle;
    uint32_t number;
    PyThreadState *state;
    int syscall;           /* /proc/self/task/TID/syscall, or -1 */
    enum mode mode;
    bool on_top;           /* its newest frame is one of C, which Python does not have */
    bool trapped;          /* its trace function is that of traps.c, and was `before` */
    Py_tracefunc before;
    PyFrameObject *frame;  /* the frame whose instructions are traced, or NULL */
    char frame_before;     /* whether they were before */
    struct calm calm[CALM];
};

struct host {
    cq_service service;
    cq_signal signal;
    cq_server http, debugger;
    cq_watch watch;        /* tells which threads are wanted, and that what somebody asks about stops has changed */
    bool is_made, debugs;
    _Atomic bool off;      /* not started, ended, or in the child of a fork: the library is not called */
    bool tracing;          /* each thread is traced, for breakpoints and steps */
    struct thread **threads;
    size_t count, room;
};

extern struct host host;
extern _Thread_local struct thread *own_thread;  /* of this thread of the operating system, or NULL */

/* module.c: says on standard error that a call of the library was refused. */
void refused(const char *call, uint32_t code);

/* threads.c: threads that come and go. */
int threads_init(void);
void thread_begin(const char *name, size_t length);
void thread_end(void);
void thread_come_back(struct thread *t);
/* Blocks this thread, and waits without the GIL until `wait` returns. */
void thread_wait(uint32_t (*wait)(void));
PyObject *threads_start_new(PyObject *module, PyObject *arguments);

/* traps.c: a trace function that meets a thread at its next instruction, line, call or return. */
void trap_set(struct thread *t, bool at_once);
void trap_lift(struct thread *t);

/* watch.c: the watcher. */
uint32_t watch_open(void);            /* before the first thread begins */
int watch_start(bool debugs);
void watch_end(void);                 /* without the GIL */
void watch_close(void);               /* once no thread begins any more */
bool watch_asks(struct thread *t);    /* whether the thread may have to stop at what it reaches next */

/* classes.c: files as classes, and code objects as methods. */
int classes_init(void);
int64_t method_of(PyCodeObject *code);        /* defines it if need be; HIDDEN for a frame that is not shown */
PyCodeObject *code_of(uint32_t method);       /* borrowed; NULL if it is gone */
void define_file(PyObject *codes);            /* a class of a list of code objects of one file */
void define_tree(PyCodeObject *code);         /* a class of a code object and all within it */
uint32_t native_method(const char *name);     /* a method of the class `native`; the name is a literal */

/* frames.c: the frames of a thread that does not run Python, or of this one.
 *
 * Location 2n is the begin of line n, where it may have a breakpoint. 2n + 1 is another place in the line, as behind a call. */
static inline uint32_t location_of(int line, bool at_begin) { return line > 0 ? 2 * (uint32_t)line + !at_begin : 0; }
int line_in(PyCodeObject *code, int line);                                  /* the line, or the first one where there is none */
void give_frames(struct thread *t, const char *native, bool at_begin);      /* `native`: a function of C on top, or NULL */
uint32_t count_frames(PyThreadState *state);
_PyInterpreterFrame *frame_at(PyThreadState *state, uint32_t depth);

/* place.c: where a thread is that does not hold the GIL. */
struct place {
    bool runs;           /* it runs Python, or is about to */
    bool is_native;      /* in C code, and not asleep */
    uint32_t reason;     /* of cq_block, for one that is asleep */
    const char *name;    /* of the function of C */
};
struct place place_of(struct thread *t, PyThreadState *holder);  /* `holder` held the GIL when the watcher asked for it */

/* variables.c */
extern const cq_variables host_variables;

#endif
