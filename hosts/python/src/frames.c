/* frames.c: see host.h. */
#include "host.h"

static _PyInterpreterFrame *complete(_PyInterpreterFrame *frame) {
    while (frame != NULL && _PyFrame_IsIncomplete(frame)) frame = frame->previous;
    return frame;
}

static _PyInterpreterFrame *newest(PyThreadState *state) { return complete(state->cframe->current_frame); }

static _PyInterpreterFrame *caller(_PyInterpreterFrame *frame) { return complete(frame->previous); }

int line_in(PyCodeObject *code, int line) { return line > 0 ? line : code->co_firstlineno > 0 ? code->co_firstlineno : 1; }

static int line_of(_PyInterpreterFrame *frame) {
    int instruction = _PyInterpreterFrame_LASTI(frame) * (int)sizeof(_Py_CODEUNIT);
    return line_in(frame->f_code, PyCode_Addr2Line(frame->f_code, instruction));
}

/* Gives the newest DEPTH frames. A method may be defined meanwhile, so no garbage is collected: a finalizer would let others run. */
void give_frames(struct thread *t, const char *native, bool at_begin) {
    static cq_frame shown[DEPTH];
    size_t count = 0;
    int collects = PyGC_Disable();
    t->on_top = native != NULL;
    if (native != NULL) shown[count++] = (cq_frame){native_method(native), -1};
    for (_PyInterpreterFrame *frame = newest(t->state); frame != NULL && count < DEPTH; frame = caller(frame)) {
        int64_t method = method_of(frame->f_code);
        if (method != HIDDEN) shown[count++] = (cq_frame){(uint32_t)method, location_of(line_of(frame), at_begin)};
        at_begin = false;
    }
    if (collects) PyGC_Enable();
    uint32_t code = cq_set_frames(&t->handle, shown, count);
    if (code != CQ_OK) refused("cq_set_frames", code);
}

uint32_t count_frames(PyThreadState *state) {
    uint32_t count = 0;
    for (_PyInterpreterFrame *frame = newest(state); frame != NULL && count < DEPTH; frame = caller(frame))
        count += method_of(frame->f_code) != HIDDEN;
    return count;
}

_PyInterpreterFrame *frame_at(PyThreadState *state, uint32_t depth) {
    for (_PyInterpreterFrame *frame = newest(state); frame != NULL; frame = caller(frame))
        if (method_of(frame->f_code) != HIDDEN && depth-- == 0) return frame;
    return NULL;
}
