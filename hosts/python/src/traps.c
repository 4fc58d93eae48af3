/* traps.c: see host.h. */
#include "host.h"

static int trap(PyObject *object, PyFrameObject *frame, int what, PyObject *argument);

/* Traces the instructions of a frame, whose reference it takes. */
static void trace_instructions(struct thread *t, PyFrameObject *frame) {
    t->frame = frame;
    if (frame == NULL) return;
    t->frame_before = frame->f_trace_opcodes;
    frame->f_trace_opcodes = 1;
}

static void lift_instructions(struct thread *t) {
    if (t->frame == NULL) return;
    t->frame->f_trace_opcodes = t->frame_before;
    Py_CLEAR(t->frame);
}

/* `at_once`: before the next instruction, and not only at the next line. Making a frame object collects no garbage: a finalizer would
 * let other threads run. */
void trap_set(struct thread *t, bool at_once) {
    PyThreadState *state = t->state;
    if (state->c_tracefunc != trap) {
        t->before = state->c_tracefunc;  /* its object stays in c_traceobj */
        state->c_tracefunc = trap;
        t->trapped = true;
    }
    if (at_once && t->frame == NULL) {
        int collects = PyGC_Disable();
        trace_instructions(t, PyThreadState_GetFrame(state));
        if (collects) PyGC_Enable();
    }
    _PyThreadState_UpdateTracingState(state);
}

void trap_lift(struct thread *t) {
    lift_instructions(t);
    if (t->trapped && t->state->c_tracefunc == trap) t->state->c_tracefunc = t->before;
    t->trapped = false;
    t->before = NULL;
    _PyThreadState_UpdateTracingState(t->state);
}

/* Whether the thread may have to stop in this method. The version is read before it asks, so that what changes meanwhile is asked later. */
static bool may_stop_in(struct thread *t, uint32_t method) {
    struct calm *calm = &t->calm[method & (CALM - 1)];
    uint64_t version = cq_stops_version(&t->handle);
    bool may = true;
    if (calm->method == method && calm->version == version) return false;
    if (cq_may_stop_in(&t->handle, method, 1, &may) != CQ_OK || may) return true;
    *calm = (struct calm){method, version};
    return false;
}

/* Stands at a stop until all who stopped it let it go on. */
static void stand(struct thread *t, bool at_begin) {
    give_frames(t, NULL, at_begin);
    t->mode = WAITS;
    uint32_t code;
    Py_BEGIN_ALLOW_THREADS
    code = cq_wait_stop(&t->handle, &host.signal);
    Py_END_ALLOW_THREADS
    if (code != CQ_OK) refused("cq_wait_stop", code);
    t->mode = RUNS;
}

/* Says what the thread has reached, and stops there if it has to. Behind a return it is met in the caller before the next instruction,
 * where a step out of the method ends. */
static void reach(struct thread *t, PyFrameObject *frame, int what) {
    if (what == PyTrace_EXCEPTION || !watch_asks(t)) return;
    PyCodeObject *code = frame->f_frame->f_code;
    int64_t method = method_of(code);
    if (method == HIDDEN || !may_stop_in(t, (uint32_t)method)) return;
    bool at_begin = what == PyTrace_CALL || what == PyTrace_LINE, stops = false;
    uint32_t at = location_of(line_in(code, PyFrame_GetLineNumber(frame)), at_begin);
    uint32_t result = what == PyTrace_RETURN
        ? cq_wait_leaves(&t->handle, &host.signal, (uint32_t)method, at, count_frames(t->state), &stops)
        : cq_wait_reached(&t->handle, &host.signal, (uint32_t)method, at, &stops);
    if (result != CQ_OK) refused("cq_wait_reached", result);
    else if (stops) stand(t, at_begin);
    if (what == PyTrace_RETURN) trace_instructions(t, PyFrame_GetBack(frame));
}

static int trap(PyObject *object, PyFrameObject *frame, int what, PyObject *argument) {
    struct thread *t = own_thread;
    if (t == NULL) return 0;
    Py_tracefunc before = t->before;
    bool was_asked = what != PyTrace_OPCODE || frame != t->frame || t->frame_before;
    if (host.off) {
        trap_lift(t);
    } else {
        thread_come_back(t);
        lift_instructions(t);
        reach(t, frame, what);
        if (!host.tracing && !watch_asks(t)) trap_lift(t);
    }
    return before != NULL && was_asked ? before(object, frame, what, argument) : 0;
}
