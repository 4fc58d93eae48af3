/* variables.c: the variables of a frame, for a debugger. No code of the script runs, so an object of a class that the script has made
 * is shown by its attributes. */
#include "host.h"

enum { MOST_ENTRIES = 100, MOST_CHARACTERS = 200 };

static bool is_of_module(PyCodeObject *code) { return !(code->co_flags & CO_OPTIMIZED); }

static PyObject *names_of(PyCodeObject *code) { return is_of_module(code) ? code->co_names : code->co_localsplusnames; }

/* Tells the names. A variable is visible at each location of its method. */
static uint32_t of_method(void *context, uint32_t method, cq_teller *teller) {
    (void)context;
    PyGILState_STATE gil = PyGILState_Ensure();
    PyCodeObject *code = code_of(method);
    PyObject *names = code == NULL ? NULL : names_of(code);
    for (Py_ssize_t i = 0; names != NULL && i < PyTuple_GET_SIZE(names); i++) {
        Py_ssize_t length;
        const char *name = PyUnicode_AsUTF8AndSize(PyTuple_GET_ITEM(names, i), &length);
        if (name == NULL) PyErr_Clear();
        else cq_tell_variable(teller, (const uint8_t *)name, (size_t)length, (uint32_t)i, 0, INT32_MAX);
    }
    PyGILState_Release(gil);
    return code == NULL ? CQ_ABSENT_INFORMATION : CQ_OK;
}

static bool is_plain(PyObject *value) {
    return value == Py_None || PyBool_Check(value) || PyLong_CheckExact(value) || PyFloat_CheckExact(value) || PyUnicode_CheckExact(value)
        || PyBytes_CheckExact(value);
}

/* A short text of a value: a new reference, or NULL. */
static PyObject *brief(PyObject *value) {
    PyObject *text = is_plain(value) ? PyObject_Repr(value)
        : PyType_Check(value) ? PyUnicode_FromFormat("<class %s>", ((PyTypeObject *)value)->tp_name)
        : PyUnicode_FromFormat("<%s at %p>", Py_TYPE(value)->tp_name, value);
    if (text != NULL && PyUnicode_GET_LENGTH(text) > MOST_CHARACTERS) Py_SETREF(text, PyUnicode_Substring(text, 0, MOST_CHARACTERS));
    PyErr_Clear();
    return text;
}

/* Its bytes, or NULL. They are the object's. */
static const uint8_t *utf8_of(PyObject *text, size_t *length) {
    Py_ssize_t count = 0;
    const char *bytes = text == NULL ? NULL : PyUnicode_AsUTF8AndSize(text, &count);
    PyErr_Clear();
    *length = (size_t)count;
    return (const uint8_t *)bytes;
}

static void tell_text(cq_teller *teller, uint32_t slot, PyObject *text) {
    size_t length;
    const uint8_t *bytes = utf8_of(text, &length);
    if (bytes != NULL) cq_tell_text(teller, slot, bytes, length);
    else cq_tell_text(teller, slot, (const uint8_t *)"?", 1);
}

/* `key = value`, or the value alone. */
static void tell_entry(cq_teller *teller, PyObject *key, PyObject *value) {
    PyObject *right = brief(value), *left = key == NULL ? NULL : PyUnicode_CheckExact(key) ? Py_NewRef(key) : brief(key);
    PyObject *text = right == NULL ? NULL : left == NULL ? Py_NewRef(right) : PyUnicode_FromFormat("%U = %U", left, right);
    size_t length;
    const uint8_t *bytes = utf8_of(text, &length);
    if (bytes != NULL) cq_tell_entry(teller, bytes, length);
    Py_XDECREF(right);
    Py_XDECREF(left);
    Py_XDECREF(text);
}

static void tell_dict(cq_teller *teller, PyObject *dict) {
    PyObject *key, *value;
    Py_ssize_t at = 0;
    for (int i = 0; i < MOST_ENTRIES && PyDict_Next(dict, &at, &key, &value); i++) tell_entry(teller, key, value);
}

static void tell_sequence(cq_teller *teller, PyObject *sequence) {
    Py_ssize_t count = PySequence_Fast_GET_SIZE(sequence);
    for (Py_ssize_t i = 0; i < count && i < MOST_ENTRIES; i++) tell_entry(teller, NULL, PySequence_Fast_GET_ITEM(sequence, i));
}

/* The attributes of an object of a class that the script has made, or NULL. */
static PyObject *attributes_of(PyObject *value) {
    bool is_made = (Py_TYPE(value)->tp_flags & Py_TPFLAGS_HEAPTYPE) && !PyType_Check(value);
    PyObject **dict = is_made ? _PyObject_GetDictPtr(value) : NULL;
    return dict != NULL ? *dict : NULL;
}

/* Tells a value as a table: a dict, a list, a tuple, or an object with attributes. False if it is none of these. */
static bool tell_table(cq_teller *teller, uint32_t slot, PyObject *value) {
    bool is_dict = PyDict_CheckExact(value), is_sequence = PyList_CheckExact(value) || PyTuple_CheckExact(value);
    PyObject *attributes = is_dict || is_sequence ? NULL : attributes_of(value);
    if (!is_dict && !is_sequence && attributes == NULL) return false;
    cq_tell_table(teller, slot);
    if (attributes != NULL) tell_entry(teller, NULL, value);
    if (is_sequence) tell_sequence(teller, value);
    else tell_dict(teller, is_dict ? value : attributes);
    return true;
}

/* Tells a value that JDWP has a type for. False if it has none. */
static bool tell_plain(cq_teller *teller, uint32_t slot, PyObject *value) {
    int overflows = 0;
    int64_t integer = PyLong_CheckExact(value) ? PyLong_AsLongLongAndOverflow(value, &overflows) : 0;
    if (value == Py_None) cq_tell_nil(teller, slot);
    else if (PyBool_Check(value)) cq_tell_boolean(teller, slot, value == Py_True);
    else if (PyFloat_CheckExact(value)) cq_tell_number(teller, slot, PyFloat_AS_DOUBLE(value));
    else if (PyLong_CheckExact(value) && !overflows) cq_tell_integer(teller, slot, integer);
    else if (PyUnicode_CheckExact(value)) tell_text(teller, slot, value);
    else return false;
    return true;
}

static void tell(cq_teller *teller, uint32_t slot, PyObject *value) {
    if (value == NULL) cq_tell_text(teller, slot, (const uint8_t *)"(unset)", 7);
    else if (!tell_plain(teller, slot, value) && !tell_table(teller, slot, value)) {
        PyObject *text = brief(value);
        tell_text(teller, slot, text);
        Py_XDECREF(text);
    }
}

/* A variable's value, borrowed. NULL if it has none yet. */
static PyObject *value_of(_PyInterpreterFrame *frame, PyCodeObject *code, Py_ssize_t i) {
    if (is_of_module(code)) {
        bool has_dict = frame->f_locals != NULL && PyDict_CheckExact(frame->f_locals);
        return has_dict ? PyDict_GetItem(frame->f_locals, PyTuple_GET_ITEM(code->co_names, i)) : NULL;
    }
    PyObject *value = frame->localsplus[i];
    bool has_cell = PyBytes_AS_STRING(code->co_localspluskinds)[i] & (CO_FAST_CELL | CO_FAST_FREE);
    return has_cell && value != NULL && PyCell_Check(value) ? PyCell_GET(value) : value;
}

static uint32_t tell_frame(struct thread *t, uint32_t depth, cq_teller *teller) {
    if (t->on_top && depth-- == 0) return CQ_ABSENT_INFORMATION;
    _PyInterpreterFrame *frame = frame_at(t->state, depth);
    if (frame == NULL) return CQ_ABSENT_INFORMATION;
    Py_ssize_t count = PyTuple_GET_SIZE(names_of(frame->f_code));
    for (Py_ssize_t slot = 0; slot < count; slot++) tell(teller, (uint32_t)slot, value_of(frame, frame->f_code, slot));
    return CQ_OK;
}

/* Tells the values of a thread that stands. */
static uint32_t of_frame(void *context, uint32_t number, uint32_t depth, cq_teller *teller) {
    (void)context;
    uint32_t code = CQ_THREAD_NOT_SUSPENDED;
    PyGILState_STATE gil = PyGILState_Ensure();
    int collects = PyGC_Disable();
    for (size_t i = 0; i < host.count; i++) {
        struct thread *t = host.threads[i];
        if (t->number == number && t->mode != RUNS) code = tell_frame(t, depth, teller);
    }
    if (collects) PyGC_Enable();
    PyGILState_Release(gil);
    return code;
}

const cq_variables host_variables = {NULL, of_method, of_frame};
