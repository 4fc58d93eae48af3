/* threads.c: see host.h. */
#include "host.h"

#include <unistd.h>

enum { NORMAL_PRIORITY = 5 };

_Thread_local struct thread *own_thread;
static PyObject *start_new_thread;  /* that of _thread */

int threads_init(void) {
    PyObject *module = PyImport_ImportModule("_thread");
    start_new_thread = module != NULL ? PyObject_GetAttrString(module, "start_new_thread") : NULL;
    Py_XDECREF(module);
    return start_new_thread != NULL ? 0 : -1;
}

static bool add(struct thread *t) {
    if (host.count == host.room) {
        size_t room = host.room * 2 + 16;
        struct thread **more = realloc(host.threads, room * sizeof *more);
        if (more != NULL) {
            host.threads = more;
            host.room = room;
        }
    }
    bool has_room = host.count < host.room;
    if (has_room) host.threads[host.count++] = t;
    return has_room;
}

static void take_out(const struct thread *t) {
    for (size_t i = 0; i < host.count; i++)
        if (host.threads[i] == t) {
            host.threads[i] = host.threads[--host.count];
            break;
        }
}

/* Ends the thread for the library, and gives back what it has. */
static void let_go(struct thread *t) {
    uint32_t code = cq_wait_end(&t->handle, &host.signal);
    if (code == CQ_OK) code = cq_wait_detach_thread(&t->handle, &host.signal);
    if (code != CQ_OK) refused("the end of a thread", code);
    if (t->syscall >= 0) close(t->syscall);
    free(t);
}

/* Starts it. A trace that stops it may need the GIL for another thread, so it waits without. */
static uint32_t start(struct thread *t) {
    uint32_t code = cq_start(&t->handle);
    if (code == CQ_OK) {
        cq_wake(&host.signal);
        return code;
    }
    Py_BEGIN_ALLOW_THREADS
    code = cq_wait_start(&t->handle, &host.signal, -1);
    Py_END_ALLOW_THREADS
    return code;
}

/* Attaches and starts this thread. If it cannot be had, it runs and is not inspected. */
void thread_begin(const char *name, size_t length) {
    if (host.off || own_thread != NULL) return;
    struct thread *t = calloc(1, sizeof *t);
    if (t == NULL) return;
    t->syscall = -1;
    t->state = PyThreadState_Get();
    uint32_t code = cq_wait_attach_thread(&host.service, &host.signal, (const uint8_t *)name, length, NORMAL_PRIORITY, &t->handle);
    if (code != CQ_OK) {
        refused("cq_attach_thread", code);
        free(t);
        return;
    }
    code = start(t);
    if (code == CQ_OK) code = cq_thread_number(&t->handle, &t->number);
    if (code == CQ_OK) do code = cq_watch_thread(&t->handle, &host.watch); while (code == CQ_BUSY);
    if (code != CQ_OK || !add(t)) {
        refused("the start of a thread", code != CQ_OK ? code : CQ_OUT_OF_MEMORY);
        let_go(t);
        return;
    }
    own_thread = t;
    if (watch_asks(t)) trap_set(t, false);
}

void thread_end(void) {
    struct thread *t = own_thread;
    own_thread = NULL;
    if (t == NULL || host.off) return;
    thread_come_back(t);
    take_out(t);
    trap_lift(t);
    let_go(t);
}

/* What a debugger wants may have changed while it waited, and the watcher has not looked yet. */
void thread_come_back(struct thread *t) {
    if (t->mode == RUNS) return;
    uint32_t code = cq_back(&t->handle);
    if (code == CQ_BARRED || code == CQ_BUSY) {
        t->mode = WAITS;
        Py_BEGIN_ALLOW_THREADS
        code = cq_wait_back(&t->handle, &host.signal, -1);
        Py_END_ALLOW_THREADS
    }
    if (code != CQ_OK) refused("cq_back", code);
    t->mode = RUNS;
    if (watch_asks(t)) trap_set(t, false);
}

void thread_wait(uint32_t (*wait)(void)) {
    struct thread *t = own_thread;
    if (t == NULL || t->mode != RUNS) return;
    give_frames(t, NULL, false);
    uint32_t code = cq_wait_block(&t->handle, &host.signal, CQ_PARK);
    if (code != CQ_OK) {
        refused("cq_block", code);
        return;
    }
    t->mode = WAITS;
    Py_BEGIN_ALLOW_THREADS
    code = wait();
    Py_END_ALLOW_THREADS
    if (code != CQ_OK) refused("a wait for the debugger", code);
    t->mode = AWAY;
    thread_come_back(t);
}

/* The name of the threading.Thread whose method the function is, or NULL. A new reference. */
static PyObject *name_of(PyObject *function) {
    PyObject *owner = PyMethod_Check(function) ? PyMethod_GET_SELF(function) : NULL;
    PyObject *name = owner != NULL ? PyObject_GetAttrString(owner, "name") : NULL;
    if (name != NULL && !PyUnicode_Check(name)) Py_CLEAR(name);
    PyErr_Clear();
    return name;
}

static void begin_named(PyObject *function) {
    PyObject *name = name_of(function);
    Py_ssize_t length = 0;
    const char *text = name != NULL ? PyUnicode_AsUTF8AndSize(name, &length) : NULL;
    PyErr_Clear();
    if (text != NULL) thread_begin(text, (size_t)length);
    else thread_begin("thread", 6);
    Py_XDECREF(name);
}

/* What a thread runs: `self` is (function, arguments, keywords). It ends as one of _thread does. */
static PyObject *run(PyObject *self, PyObject *none) {
    (void)none;
    PyObject *function = PyTuple_GET_ITEM(self, 0), *keywords = PyTuple_GET_ITEM(self, 2);
    begin_named(function);
    PyObject *result = PyObject_Call(function, PyTuple_GET_ITEM(self, 1), keywords == Py_None ? NULL : keywords);
    if (result == NULL) {
        if (PyErr_ExceptionMatches(PyExc_SystemExit)) PyErr_Clear();
        else _PyErr_WriteUnraisableMsg("in thread started by", function);
        result = Py_NewRef(Py_None);
    }
    thread_end();
    return result;
}

static PyMethodDef run_method = {"run", run, METH_NOARGS, NULL};

/* _thread.start_new_thread, which says itself what does not fit. */
PyObject *threads_start_new(PyObject *module, PyObject *arguments) {
    (void)module;
    PyObject *function, *positional, *keywords = Py_None;
    if (!PyArg_UnpackTuple(arguments, "start_new_thread", 2, 3, &function, &positional, &keywords)) return NULL;
    bool fits = PyCallable_Check(function) && PyTuple_Check(positional) && (keywords == Py_None || PyDict_Check(keywords));
    if (host.off || !fits) return PyObject_Call(start_new_thread, arguments, NULL);
    PyObject *self = PyTuple_Pack(3, function, positional, keywords);
    PyObject *runner = self != NULL ? PyCFunction_New(&run_method, self) : NULL;
    PyObject *result = runner != NULL ? PyObject_CallFunction(start_new_thread, "O()", runner) : NULL;
    Py_XDECREF(runner);
    Py_XDECREF(self);
    return result;
}
