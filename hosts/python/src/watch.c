/* watch.c: see host.h. The watcher sleeps until the library tells it that a thread is wanted, or that stops are. */
#include "host.h"

#include <errno.h>
#include <poll.h>
#include <sched.h>
#include <signal.h>
#include <sys/eventfd.h>
#include <unistd.h>

static pthread_t watcher;
static bool watches, asks;
static int news = -1, end = -1;  /* what the watcher sleeps on */

bool watch_asks(struct thread *t) { return asks && cq_may_stop(&t->handle); }

/* Hands over for a thread that is wanted. An environment that uses it now is about to let it go. */
static void hand_over(struct thread *t, PyThreadState *holder) {
    if (t->mode == WAITS) return;
    if (t->mode != RUNS) {  /* a trace function of the script's may have taken the trap's place */
        trap_set(t, true);
        return;
    }
    if (cq_poll_clear(&t->handle)) return;
    struct place place = place_of(t, holder);
    give_frames(t, place.runs ? NULL : place.name, false);
    uint32_t code;
    do code = place.runs ? cq_poll(&t->handle) : place.is_native ? cq_native(&t->handle) : cq_block(&t->handle, place.reason);
    while (code == CQ_BUSY && sched_yield() == 0);
    if (code == CQ_HELD) t->mode = HELD;
    else if (code == CQ_OK && !place.runs) t->mode = AWAY;
    else if (code != CQ_OK) refused("a hand-over", code);
    if (t->mode != RUNS) trap_set(t, true);
}

/* Whether somebody asks for a stop anywhere. A thread that waits in the library asks by itself when it goes on. */
static bool is_stop_asked(void) {
    bool may = false;
    for (size_t i = 0; asks && i < host.count && !may; i++) {
        struct thread *t = host.threads[i];
        if (t->mode == WAITS) continue;
        uint32_t code;
        do code = cq_may_stop_in(&t->handle, 0, UINT32_MAX, &may); while (code == CQ_BUSY && sched_yield() == 0);
    }
    return may;
}

/* Takes the GIL when its holder next looks whether it has to give it up, and not only after the switch interval. Gives the holder. */
static PyThreadState *take_gil(PyThreadState *own) {
    struct _gil_runtime_state *gil = &_PyRuntime.ceval.gil;
    bool is_held = _Py_atomic_load_relaxed(&gil->locked);
    PyThreadState *holder = is_held ? (PyThreadState *)_Py_atomic_load_relaxed(&gil->last_holder) : NULL;
    _Py_atomic_store_relaxed(&own->interp->ceval.gil_drop_request, 1);
    _Py_atomic_store_relaxed(&own->interp->ceval.eval_breaker, 1);
    PyEval_RestoreThread(own);
    return holder;
}

static void trace_all(bool tracing) {
    host.tracing = tracing;
    for (size_t i = 0; i < host.count; i++) {
        if (tracing) trap_set(host.threads[i], false);
        else if (host.threads[i]->mode == RUNS) trap_lift(host.threads[i]);
    }
}

/* Takes all that is told. `stops` is set if what somebody asks about stops has changed. */
static bool is_any_told(bool *stops) {
    uint32_t told[64];
    uint64_t count;
    bool any = false;
    while (cq_next_wanted(&host.watch, told, sizeof told / sizeof *told, &count) == CQ_OK)
        for (uint64_t i = 0; i < count; i++) {
            any = true;
            *stops |= told[i] == CQ_ALL_THREADS;
        }
    return any;
}

static void *watch(void *interpreter) {
    PyThreadState *own = PyThreadState_New(interpreter);  /* made here: it has the identity of the thread that makes it */
    if (own == NULL) return NULL;
    struct pollfd wakes[2] = {{.fd = news, .events = POLLIN}, {.fd = end, .events = POLLIN}};
    while (!(wakes[1].revents & POLLIN)) {
        bool stops = false;
        if (!is_any_told(&stops)) {
            poll(wakes, 2, -1);
            continue;
        }
        PyThreadState *holder = take_gil(own);
        for (size_t i = 0; i < host.count; i++) hand_over(host.threads[i], holder);
        bool asked = stops ? is_stop_asked() : host.tracing;
        if (asked != host.tracing) trace_all(asked);
        cq_wake(&host.signal);
        PyEval_SaveThread();
    }
    PyEval_RestoreThread(own);
    PyThreadState_Clear(own);
    PyThreadState_DeleteCurrent();
    return NULL;
}

uint32_t watch_open(void) {
    uint32_t code = cq_open_watch(&host.watch);
    if (code == CQ_OK) do code = cq_watch_stops(&host.service, &host.watch); while (code == CQ_BUSY);
    return code == CQ_OK ? cq_watch_fd(&host.watch, &news) : code;
}

int watch_start(bool debugs) {
    end = eventfd(0, EFD_CLOEXEC);
    if (end < 0) {
        PyErr_SetFromErrno(PyExc_OSError);
        return -1;
    }
    asks = debugs;
    sigset_t all, old;
    sigfillset(&all);
    pthread_sigmask(SIG_SETMASK, &all, &old);
    watches = pthread_create(&watcher, NULL, watch, PyInterpreterState_Get()) == 0;
    pthread_sigmask(SIG_SETMASK, &old, NULL);
    if (watches) pthread_setname_np(watcher, "cq-watcher");
    if (!watches) PyErr_SetString(PyExc_RuntimeError, "no thread for the watcher");
    return watches ? 0 : -1;
}

void watch_end(void) {
    if (watches && write(end, &(uint64_t){1}, sizeof(uint64_t)) == sizeof(uint64_t)) pthread_join(watcher, NULL);
    watches = asks = false;
    close(end);
}

void watch_close(void) {
    uint32_t code = cq_close_watch(&host.watch);
    if (code != CQ_OK) refused("cq_close_watch", code);
}
