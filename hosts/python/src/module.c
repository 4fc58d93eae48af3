/* module.c: the module cebdyraq._host. It starts and ends the inspection of this process's threads. */
#include "host.h"

struct host host = {.off = true};

void refused(const char *call, uint32_t code) { fprintf(stderr, "cebdyraq: %s: %s\n", call, cq_code_name(code)); }

/* ---- Classes that come. */

static uint32_t tell_classes(void) { return cq_server_tell_classes(&host.debugger); }

/* Before a module of a file runs, the debugger that waits for its class is told. */
static int audit(const char *event, PyObject *arguments, void *data) {
    (void)data;
    if (event[0] != 'e' || strcmp(event, "exec") != 0 || host.off || !host.debugs) return 0;
    PyObject *code = PyTuple_Check(arguments) && PyTuple_GET_SIZE(arguments) > 0 ? PyTuple_GET_ITEM(arguments, 0) : NULL;
    if (code == NULL || !PyCode_Check(code)) return 0;
    const char *file = PyUnicode_AsUTF8(((PyCodeObject *)code)->co_filename);
    if (file == NULL) {
        PyErr_Clear();
    } else if (file[0] != '<') {
        define_tree((PyCodeObject *)code);
        thread_wait(tell_classes);
    }
    return 0;
}

static PyObject *define(PyObject *module, PyObject *codes) {
    (void)module;
    bool fits = PyList_Check(codes);
    for (Py_ssize_t i = 0; fits && i < PyList_GET_SIZE(codes); i++) fits = PyCode_Check(PyList_GET_ITEM(codes, i));
    if (!fits) {
        PyErr_SetString(PyExc_TypeError, "define() takes a list of code objects");
        return NULL;
    }
    if (!host.off) define_file(codes);
    Py_RETURN_NONE;
}

/* ---- Start. */

static void in_child(void) { host.off = true; }

static PyObject *fail(const char *call, uint32_t code) {
    if (code == CQ_SYSTEM) return PyErr_SetFromErrno(PyExc_OSError);
    return PyErr_Format(PyExc_RuntimeError, "%s: %s", call, cq_code_name(code));
}

/* Opens the doors for which there is an address. `ports` gets where they listen. */
static const char *open_doors(const char *program, const char *path, const char *serve, const char *debug, bool suspend,
                              uint16_t ports[2], uint32_t *code) {
    if (serve != NULL) {
        if ((*code = cq_serve(&host.http, &host.service, &host.signal, serve, program)) != CQ_OK) return "cq_serve";
        if ((*code = cq_server_port(&host.http, &ports[0])) != CQ_OK) return "cq_server_port";
    }
    if (debug != NULL) {
        if ((*code = cq_server_variables(&host.debugger, &host_variables)) != CQ_OK) return "cq_server_variables";
        if ((*code = cq_server_starts_suspended(&host.debugger, suspend)) != CQ_OK) return "cq_server_starts_suspended";
        *code = cq_debug_listen(&host.debugger, &host.service, &host.signal, debug, program, path);
        if (*code != CQ_OK) return "cq_debug_listen";
        if ((*code = cq_server_port(&host.debugger, &ports[1])) != CQ_OK) return "cq_server_port";
        host.debugs = true;
    }
    return NULL;
}

/* start(program, path, serve, debug, suspend): the ports of the two doors, 0 for one that is not open, or at a Unix socket. */
static PyObject *start(PyObject *module, PyObject *arguments) {
    (void)module;
    const char *program, *path, *serve, *debug;
    int suspend;
    uint16_t ports[2] = {0, 0};
    uint32_t code;
    if (!PyArg_ParseTuple(arguments, "sszzp", &program, &path, &serve, &debug, &suspend)) return NULL;
    if (host.is_made) return fail("it was started before", CQ_MISUSED);
    if ((code = cq_make(DEPTH, ENVIRONMENTS, WINDOW, CQ_CAN_SUSPEND, &host.service)) != CQ_OK) return fail("cq_make", code);
    host.is_made = true;
    if ((code = watch_open()) != CQ_OK) return fail("cq_open_watch", code);
    if (classes_init() < 0 || PySys_AddAuditHook(audit, NULL) < 0) return NULL;
    if (pthread_atfork(NULL, NULL, in_child) != 0) return PyErr_NoMemory();
    host.off = false;
    thread_begin("MainThread", 10);
    if (own_thread == NULL) return PyErr_NoMemory();
    if (watch_start(debug != NULL) < 0) return NULL;
    const char *call = open_doors(program, path, serve, debug, suspend, ports, &code);
    PyObject *result = call != NULL ? fail(call, code) : Py_BuildValue("HH", ports[0], ports[1]);
    return result;
}

static uint32_t await_resumption(void) { return cq_server_await_resumption(&host.debugger); }

static PyObject *await_debugger(PyObject *module, PyObject *none) {
    (void)module, (void)none;
    if (!host.off && host.debugs) thread_wait(await_resumption);
    Py_RETURN_NONE;
}

/* ---- End. */

static uint32_t end_servers(void) {
    cq_serve_end(&host.debugger);
    cq_serve_end(&host.http);
    return CQ_OK;
}

/* Threads that are daemons run on, and are not inspected any more. */
static PyObject *end(PyObject *module, PyObject *none) {
    (void)module, (void)none;
    if (host.off) Py_RETURN_NONE;
    if (own_thread != NULL) thread_come_back(own_thread);
    thread_wait(end_servers);
    Py_BEGIN_ALLOW_THREADS
    watch_end();
    Py_END_ALLOW_THREADS
    thread_end();
    host.off = true;
    watch_close();
    for (size_t i = 0; i < host.count; i++) trap_lift(host.threads[i]);
    Py_RETURN_NONE;
}

static PyMethodDef methods[] = {
    {"start", start, METH_VARARGS, "start(program, path, serve, debug, suspend)\n\nOpens the doors, and gives their ports."},
    {"await_debugger", await_debugger, METH_NOARGS, "Sleeps until the first debugger has resumed the threads."},
    {"end", end, METH_NOARGS, "Closes the doors, and inspects nothing any more."},
    {"define", define, METH_O, "Defines the code objects of one file."},
    {"start_new_thread", threads_start_new, METH_VARARGS, "_thread.start_new_thread, for threads that are inspected."},
    {NULL, NULL, 0, NULL},
};

static PyModuleDef definition = {PyModuleDef_HEAD_INIT, .m_name = "cebdyraq._host", .m_size = -1, .m_methods = methods};

PyMODINIT_FUNC PyInit__host(void) { return threads_init() < 0 ? NULL : PyModule_Create(&definition); }
