/* classes.c: see host.h. A code object keeps the number of its method in its co_extra. */
#include "host.h"

#include <limits.h>
#include <unistd.h>

struct method {
    int64_t number;      /* or HIDDEN */
    PyCodeObject *code;  /* borrowed: the method is forgotten with it */
};

static Py_ssize_t extra;
static struct method **methods;  /* by number; NULL for those that are gone */
static size_t methods_room;

static void forget(void *at) {
    struct method *method = at;
    if (method->number >= 0 && (size_t)method->number < methods_room) methods[method->number] = NULL;
    free(method);
}

int classes_init(void) {
    extra = _PyEval_RequestCodeExtraIndex(forget);
    if (extra >= 0) return 0;
    PyErr_SetString(PyExc_RuntimeError, "this interpreter has no room in its code objects");
    return -1;
}

static struct method *known(PyCodeObject *code) {
    void *at = NULL;
    if (_PyCode_GetExtra((PyObject *)code, extra, &at) < 0) PyErr_Clear();
    return at;
}

static bool make_room(int64_t number) {
    if (number < 0 || (size_t)number < methods_room) return true;
    size_t room = ((size_t)number + 1) * 2;
    struct method **more = realloc(methods, room * sizeof *more);
    if (more == NULL) return false;
    memset(more + methods_room, 0, (room - methods_room) * sizeof *more);
    methods = more;
    methods_room = room;
    return true;
}

/* Without memory the code object stays unknown, and is defined once more when it is met again. */
static void remember(PyCodeObject *code, int64_t number) {
    struct method *method = make_room(number) ? malloc(sizeof *method) : NULL;
    if (method == NULL) return;
    *method = (struct method){number, code};
    if (_PyCode_SetExtra((PyObject *)code, extra, method) < 0) {
        PyErr_Clear();
        free(method);
    } else if (number >= 0) {
        methods[number] = method;
    }
}

PyCodeObject *code_of(uint32_t method) {
    return method < methods_room && methods[method] != NULL ? methods[method]->code : NULL;
}

/* ---- The text of a class. */

struct text {
    char *at;
    size_t length, room;
    bool failed;
};

static cq_range put(struct text *text, const char *bytes, size_t length) {
    cq_range range = {text->length, length};
    if (text->length + length > text->room) {
        size_t room = (text->length + length) * 2 + 256;
        char *more = realloc(text->at, room);
        if (more == NULL) {
            text->failed = true;
            return (cq_range){0, 0};
        }
        text->at = more;
        text->room = room;
    }
    memcpy(text->at + text->length, bytes, length);
    text->length += length;
    return range;
}

static cq_range put_unicode(struct text *text, PyObject *unicode) {
    PyObject *bytes = PyUnicode_AsEncodedString(unicode, "utf-8", "replace");
    if (bytes == NULL) {
        PyErr_Clear();
        return put(text, "?", 1);
    }
    cq_range range = put(text, PyBytes_AS_STRING(bytes), (size_t)PyBytes_GET_SIZE(bytes));
    Py_DECREF(bytes);
    return range;
}

/* How many bytes of an absolute name the longest entry of sys.path takes that leads to it, with its slash. */
static size_t path_before(const char *file) {
    PyObject *path = PySys_GetObject("path");
    size_t best = 0;
    for (Py_ssize_t i = 0; path != NULL && PyList_Check(path) && i < PyList_GET_SIZE(path); i++) {
        PyObject *entry = PyList_GET_ITEM(path, i);
        const char *at = PyUnicode_Check(entry) ? PyUnicode_AsUTF8(entry) : NULL;
        PyErr_Clear();
        size_t length = at != NULL ? strlen(at) : 0;
        while (length > 0 && at[length - 1] == '/') length--;
        if (length >= best && length > 0 && strncmp(file, at, length) == 0 && file[length] == '/') best = length + 1;
    }
    return best;
}

/* A file's name below the longest entry of sys.path that leads to it, as `json/decoder.py`. */
static const char *below_path(const char *file) {
    static char absolute[2 * PATH_MAX + 2];
    char here[PATH_MAX];
    if (file[0] != '/' && file[0] != '<' && getcwd(here, sizeof here) != NULL) {
        snprintf(absolute, sizeof absolute, "%s/%s", here, strncmp(file, "./", 2) == 0 ? file + 2 : file);
        file = absolute;
    }
    file += path_before(file);
    while (*file == '/') file++;
    return file;
}

static bool is_plain(char c) {
    return (c >= '0' && c <= '9') || (c >= 'a' && c <= 'z') || (c >= 'A' && c <= 'Z') || c == '_' || c == '/' || (c & 0x80);
}

/* `json/decoder.py` as the signature `Ljson/decoder;`, and `<frozen os>` as `Lfrozen/os;`. */
static cq_range put_signature(struct text *text, const char *file) {
    size_t length = strlen(file);
    bool is_frozen = file[0] == '<';
    if (length > 3 && strcmp(file + length - 3, ".py") == 0) length -= 3;
    cq_range range = put(text, "L", 1);
    for (size_t i = 0; i < length; i++) {
        char c = file[i];
        if (c == '<' || c == '>') continue;
        c = c == ' ' || (c == '.' && is_frozen) ? '/' : is_plain(c) ? c : '_';
        put(text, &c, 1);
    }
    put(text, ";", 1);
    range.length = text->length - range.start;
    return range;
}

/* ---- The lines of a method. The table has each line that has code, once. */

struct lines {
    cq_line_entry *at;
    size_t count, room;
    bool failed;
};

static int by_line(const void *a, const void *b) {
    uint32_t x = ((const cq_line_entry *)a)->line_number, y = ((const cq_line_entry *)b)->line_number;
    return (x > y) - (x < y);
}

static void put_line(struct lines *lines, int line) {
    if (lines->count == lines->room) {
        size_t room = lines->room * 2 + 64;
        cq_line_entry *more = realloc(lines->at, room * sizeof *more);
        if (more == NULL) {
            lines->failed = true;
            return;
        }
        lines->at = more;
        lines->room = room;
    }
    lines->at[lines->count++] = (cq_line_entry){location_of(line, true), (uint32_t)line};
}

static cq_range put_lines(struct lines *lines, PyCodeObject *code) {
    size_t start = lines->count, to = start;
    PyObject *ranges = PyObject_CallMethod((PyObject *)code, "co_lines", NULL), *range;
    put_line(lines, line_in(code, 0));
    while (ranges != NULL && (range = PyIter_Next(ranges)) != NULL) {
        PyObject *line = PyTuple_GET_ITEM(range, 2);
        if (line != Py_None && PyLong_AsLong(line) > 0) put_line(lines, (int)PyLong_AsLong(line));
        Py_DECREF(range);
    }
    Py_XDECREF(ranges);
    PyErr_Clear();
    if (lines->count > start) qsort(lines->at + start, lines->count - start, sizeof *lines->at, by_line);
    for (size_t i = start; i < lines->count; i++)
        if (i == start || lines->at[i].line_number != lines->at[to - 1].line_number) lines->at[to++] = lines->at[i];
    lines->count = to;
    return (cq_range){start, to - start};
}

/* ---- Definitions. */

static bool ends_with(const char *text, const char *end) {
    size_t length = strlen(text), of_end = strlen(end);
    return length >= of_end && strcmp(text + length - of_end, end) == 0;
}

/* The launcher and what it calls. */
static bool is_hidden(PyCodeObject *code) {
    const char *file = PyUnicode_AsUTF8(code->co_filename);
    PyErr_Clear();
    return file != NULL
        && (strcmp(file, "<frozen runpy>") == 0 || ends_with(file, "/cebdyraq/__main__.py") || ends_with(file, "/cebdyraq/host.py"));
}

static PyCodeObject *code_at(PyObject *codes, Py_ssize_t i) { return (PyCodeObject *)PyList_GET_ITEM(codes, i); }

static void put_method(struct text *text, struct lines *lines, PyCodeObject *code, cq_method_ranges *to) {
    to->name = put_unicode(text, code->co_qualname);
    to->signature = put(text, "()V", 3);
    to->lines = put_lines(lines, code);
    to->lines_kind = CQ_LINES_TABLE;
    to->first_line = (uint32_t)line_in(code, 0);
}

static void put_class(struct text *text, PyCodeObject *code, cq_class_ranges *to) {
    const char *file = PyUnicode_AsUTF8(code->co_filename);
    PyErr_Clear();
    const char *name = below_path(file != NULL ? file : "<unnamed>");
    to->signature = put_signature(text, name);
    if (name[0] != '<') to->source_file = put(text, name, strlen(name));
}

void define_file(PyObject *codes) {
    Py_ssize_t count = PyList_GET_SIZE(codes);
    bool hidden = count > 0 && is_hidden(code_at(codes, 0));
    for (Py_ssize_t i = 0; hidden && i < count; i++) remember(code_at(codes, i), HIDDEN);
    if (hidden || count == 0) return;
    struct text text = {0};
    struct lines lines = {0};
    cq_class_ranges class_ranges = {0};
    cq_method_ranges *ranges = calloc((size_t)count, sizeof *ranges);
    put_class(&text, code_at(codes, 0), &class_ranges);
    for (Py_ssize_t i = 0; ranges != NULL && i < count; i++) put_method(&text, &lines, code_at(codes, i), &ranges[i]);
    uint32_t number, first, code = CQ_OUT_OF_MEMORY;
    if (ranges != NULL && !text.failed && !lines.failed) {
        do code = cq_define_class(&host.service, (const uint8_t *)text.at, text.length, &class_ranges, ranges, (size_t)count, lines.at,
                                  lines.count, &number, &first);
        while (code == CQ_BUSY);
    }
    for (Py_ssize_t i = 0; code == CQ_OK && i < count; i++) remember(code_at(codes, i), (int64_t)first + i);
    if (code == CQ_OK) cq_wake(&host.signal);
    else refused("cq_define_class", code);
    free(ranges);
    free(text.at);
    free(lines.at);
}

/* Adds a code object and all within it to a list, but for those that are known. */
static int gather(PyCodeObject *code, PyObject *codes) {
    if (known(code) == NULL && PyList_Append(codes, (PyObject *)code) < 0) return -1;
    for (Py_ssize_t i = 0; i < PyTuple_GET_SIZE(code->co_consts); i++) {
        PyObject *inner = PyTuple_GET_ITEM(code->co_consts, i);
        if (PyCode_Check(inner) && gather((PyCodeObject *)inner, codes) < 0) return -1;
    }
    return 0;
}

void define_tree(PyCodeObject *code) {
    PyObject *codes = PyList_New(0);
    if (codes == NULL || gather(code, codes) < 0) PyErr_Clear();
    else define_file(codes);
    Py_XDECREF(codes);
}

int64_t method_of(PyCodeObject *code) {
    if (known(code) == NULL) define_tree(code);
    struct method *method = known(code);
    return method != NULL ? method->number : HIDDEN;
}

uint32_t native_method(const char *name) {
    enum { MOST = 64 };
    static struct { const char *name; uint32_t method; } natives[MOST];
    static int count;
    for (int i = 0; i < count; i++)
        if (strcmp(natives[i].name, name) == 0) return natives[i].method;
    cq_method_strings method = {name, "()V", NULL, 0, CQ_LINES_NATIVE, 0};
    uint32_t number, first = UINT32_MAX, code;
    do code = cq_define_class_strings(&host.service, "Lnative;", NULL, &method, 1, &number, &first);
    while (code == CQ_BUSY);
    if (code != CQ_OK) refused("cq_define_class_strings", code);
    else if (count < MOST) {
        natives[count].name = name;
        natives[count++].method = first;
    }
    return first;
}
