/* classes.c: classes that a runtime defines, and what an environment is told of them. */
#include "classes.h"

/* A class in parts. "fib" and "(n)" lie within one text, and both tables within one list. */
static const char TEXT[] = "Lfib;fib.javafib(n)main()V\xc3\xa9";
static const cq_line_entry ENTRIES[] = { { 0, 3 }, { 4, 5 }, { 9, 4 } };
static const cq_class_ranges FIB = { { 0, 5 }, { 5, 8 } };
static const cq_method_ranges FIB_METHODS[] = {
    { { 13, 3 }, { 16, 3 }, { 0, 2 }, CQ_LINES_TABLE, 3 },
    { { 19, 4 }, { 23, 3 }, { 1, 2 }, CQ_LINES_TABLE, 4 },
    { { 26, 2 }, { 0, 0 }, { 99, 99 }, CQ_LINES_NATIVE, 0 },
};

static void define_fib(world *w, uint32_t class_no, uint32_t first_method) {
    uint32_t c = 77, f = 77;
    OK(cq_define_class(&w->service, (const uint8_t *)TEXT, sizeof TEXT - 1, &FIB, FIB_METHODS, 3, ENTRIES, 3, &c, &f));
    SAME(c, class_no);
    SAME(f, first_method);
}

/* A class of strings: its lines are locations, or are not known. */
static const cq_method_strings CHUNK[] = {
    { .name = "init", .lines_kind = CQ_LINES_LOCATIONS, .first_line = 1 },
    { .name = "", .signature = "()", .lines = ENTRIES, .line_count = 3, .lines_kind = CQ_LINES_TABLE, .first_line = 9 },
    { .name = "lost", .signature = "(a, b)" },
    { .name = "empty", .lines_kind = CQ_LINES_TABLE },
};

static void define_chunk(world *w, const char *file, uint32_t class_no, uint32_t first_method) {
    uint32_t c = 77, f = 77;
    OK(cq_define_class_strings(&w->service, "chunk", file, CHUNK, COUNT(CHUNK), &c, &f));
    SAME(c, class_no);
    SAME(f, first_method);
}

static void check_class(world *w, uint32_t class_no, const char *signature, const char *file) {
    uint8_t text[32];
    uint64_t length = 99;
    OK(cq_get_class_signature(&w->env, class_no, text, sizeof text, &length));
    check_text(text, length, signature);
    if (file == NULL) {
        length = 99;
        memset(text, 'x', sizeof text);
        SAME(cq_get_source_file_name(&w->env, class_no, text, sizeof text, &length), CQ_ABSENT_INFORMATION);
        SAME(length, 99);
        SAME(text[0], 'x');
        return;
    }
    OK(cq_get_source_file_name(&w->env, class_no, text, sizeof text, &length));
    check_text(text, length, file);
}

static void check_methods(world *w, uint32_t class_no, uint32_t first, uint32_t wanted) {
    uint32_t methods[8], class_found = 99;
    uint64_t count = 99;
    OK(cq_get_class_methods(&w->env, class_no, methods, COUNT(methods), &count));
    SAME(count, wanted);
    for (uint32_t i = 0; i < wanted; i++) {
        SAME(methods[i], first + i);
        OK(cq_get_method_declaring_class(&w->env, first + i, &class_found));
        SAME(class_found, class_no);
    }
}

static void check_method(world *w, uint32_t method, const char *name, const char *signature, uint32_t line) {
    uint8_t name_text[16], signature_text[16];
    cq_method_name info = { 99, 99, 99 };
    OK(cq_get_method_name(&w->env, method, &info, name_text, sizeof name_text, signature_text, sizeof signature_text));
    check_text(name_text, info.name_length, name);
    check_text(signature_text, info.signature_length, signature);
    SAME(info.first_line, line);
}

static void check_native(world *w, uint32_t method, bool wanted) {
    bool native = !wanted;
    OK(cq_is_method_native(&w->env, method, &native));
    SAME(native, wanted);
}

/* The method has these lines, of which the first is the entry of this number. */
static void check_lines(world *w, uint32_t method, uint32_t wanted_kind, size_t first, uint64_t wanted) {
    cq_line_entry entries[4];
    uint32_t kind = 99;
    uint64_t count = 99;
    OK(cq_get_line_number_table(&w->env, method, &kind, entries, COUNT(entries), &count));
    SAME(kind, wanted_kind);
    SAME(count, wanted);
    for (uint64_t i = 0; i < wanted; i++) {
        SAME(entries[i].start_location, ENTRIES[first + i].start_location);
        SAME(entries[i].line_number, ENTRIES[first + i].line_number);
    }
}

static void check_no_lines(world *w, uint32_t method, uint32_t why) {
    cq_line_entry entries[1] = { { 7, 7 } };
    uint32_t kind = 99;
    uint64_t count = 99;
    SAME(cq_get_line_number_table(&w->env, method, &kind, entries, 1, &count), why);
    SAME(kind, 99);
    SAME(count, 99);
    SAME(entries[0].line_number, 7);
}

static void check_fib(world *w, uint32_t class_no, uint32_t first) {
    check_class(w, class_no, "Lfib;", "fib.java");
    check_methods(w, class_no, first, 3);
    check_method(w, first, "fib", "(n)", 3);
    check_method(w, first + 1, "main", "()V", 4);
    check_method(w, first + 2, "\xc3\xa9", "", 0);
    check_native(w, first, false);
    check_native(w, first + 2, true);
    check_lines(w, first, CQ_LINES_TABLE, 0, 2);
    check_lines(w, first + 1, CQ_LINES_TABLE, 1, 2);
    check_no_lines(w, first + 2, CQ_NATIVE_METHOD);
}

static void check_chunk(world *w, const char *file, uint32_t class_no, uint32_t first) {
    check_class(w, class_no, "chunk", file);
    check_methods(w, class_no, first, 4);
    check_method(w, first, "init", "", 1);
    check_method(w, first + 1, "", "()", 9);
    check_method(w, first + 2, "lost", "(a, b)", 0);
    check_native(w, first + 2, false);
    check_lines(w, first, CQ_LINES_LOCATIONS, 0, 0);
    check_lines(w, first + 1, CQ_LINES_TABLE, 0, 3);
    check_no_lines(w, first + 2, CQ_ABSENT_INFORMATION);
    check_lines(w, first + 3, CQ_LINES_TABLE, 0, 0);
}

static void check_numbers(world *w, uint64_t wanted) {
    uint32_t classes[8];
    uint64_t count = 99;
    OK(cq_get_loaded_classes(&w->env, classes, COUNT(classes), &count));
    SAME(count, wanted);
    for (uint32_t i = 0; i < wanted; i++) {
        SAME(classes[i], i);
    }
}

/* Nothing is told of numbers that nobody has. */
static void check_unknown(world *w, uint32_t class_no, uint32_t method) {
    uint8_t text[4] = "xyz";
    uint32_t number = 99, numbers[1] = { 99 };
    uint64_t length = 99;
    bool native = true;
    cq_method_name info = { 99, 99, 99 };
    SAME(cq_get_class_signature(&w->env, class_no, text, 4, &length), CQ_INVALID_CLASS);
    SAME(cq_get_source_file_name(&w->env, class_no, text, 4, &length), CQ_INVALID_CLASS);
    SAME(cq_get_class_methods(&w->env, class_no, numbers, 1, &length), CQ_INVALID_CLASS);
    SAME(cq_get_method_name(&w->env, method, &info, text, 4, text + 4, 0), CQ_INVALID_METHODID);
    SAME(cq_get_method_declaring_class(&w->env, method, &number), CQ_INVALID_METHODID);
    SAME(cq_is_method_native(&w->env, method, &native), CQ_INVALID_METHODID);
    check_no_lines(w, method, CQ_INVALID_METHODID);
    CHECK(strcmp((const char *)text, "xyz") == 0 && native);
    CHECK(number == 99 && numbers[0] == 99 && length == 99);
    CHECK(info.name_length == 99 && info.signature_length == 99 && info.first_line == 99);
}

/* Buffers that are too small hold the beginning, and nothing behind their end is written. */
static void check_small_buffers(world *w) {
    uint8_t text[8] = "xxxxxxx", other[8] = "yyyyyyy";
    uint32_t numbers[2] = { 99, 98 }, kind = 0;
    uint64_t length = 0;
    cq_method_name info = { 0, 0, 0 };
    cq_line_entry entries[2] = { { 7, 7 }, { 8, 8 } };
    OK(cq_get_class_signature(&w->env, 0, text, 3, &length));
    SAME(length, 5);
    CHECK(memcmp(text, "Lfixxxx", 7) == 0);
    OK(cq_get_source_file_name(&w->env, 0, text, 0, &length));
    SAME(length, 8);
    CHECK(memcmp(text, "Lfixxxx", 7) == 0);
    OK(cq_get_loaded_classes(&w->env, numbers, 1, &length));
    CHECK(length == 3 && numbers[0] == 0 && numbers[1] == 98);
    OK(cq_get_class_methods(&w->env, 1, numbers, 1, &length));
    CHECK(length == 4 && numbers[0] == 3 && numbers[1] == 98);
    OK(cq_get_method_name(&w->env, 1, &info, text, 2, other, 1));
    CHECK(info.name_length == 4 && info.signature_length == 3 && info.first_line == 4);
    CHECK(memcmp(text, "maixxxx", 7) == 0 && memcmp(other, "(yyyyyy", 7) == 0);
    OK(cq_get_line_number_table(&w->env, 1, &kind, entries, 1, &length));
    CHECK(kind == CQ_LINES_TABLE && length == 2 && entries[0].line_number == 5 && entries[1].line_number == 8);
}

/* Another class under the same signature, and methods that came late. What the first numbers name stays. */
static void define_again(world *w) {
    define_chunk(w, NULL, 2, 7);
    check_chunk(w, NULL, 2, 7);
    check_chunk(w, "chunk.lua", 1, 3);
    check_fib(w, 0, 0);
}

/* A class without methods has the number of the next one. */
static void define_empty(world *w) {
    uint32_t c = 77, f = 77;
    OK(cq_define_class_strings(&w->service, "", NULL, NULL, 0, &c, &f));
    CHECK(c == 3 && f == 11);
    check_class(w, 3, "", NULL);
    check_methods(w, 3, 11, 0);
    define_fib(w, 4, 11);
    check_fib(w, 4, 11);
}

/* All handles of a service, and environments that come later, are told of the same classes. */
static void check_others(world *w) {
    cq_service other = { 0 };
    cq_env late = { 0 };
    uint8_t text[8];
    uint64_t length = 0;
    uint32_t c = 77, f = 77;
    OK(cq_share(&w->service, &other));
    OK(cq_define_class_strings(&other, "late", NULL, NULL, 0, &c, &f));
    CHECK(c == 5 && f == 14);
    OK(cq_attach_environment(&other, &late));
    OK(cq_get_class_signature(&late, 5, text, sizeof text, &length));
    check_text(text, length, "late");
    check_class(w, 5, "late", NULL);
    OK(cq_dispose_environment(&late));
    OK(cq_free(&other));
}

/* A frame may name any number. */
static void check_frames(world *w) {
    cq_thread thread = { 0 };
    OK(cq_attach_thread(&w->service, (const uint8_t *)"t", 1, 5, &thread));
    OK(cq_start(&thread));
    OK(cq_enter(&thread, 4294967295u));
    check_unknown(w, 4294967295u, 4294967295u);
    OK(cq_leave(&thread));
    OK(cq_end(&thread));
    OK(cq_detach_thread(&thread));
}

int main(void) {
    world w = build();
    check_numbers(&w, 0);
    check_unknown(&w, 0, 0);
    define_fib(&w, 0, 0);
    check_fib(&w, 0, 0);
    check_unknown(&w, 1, 3);
    define_chunk(&w, "chunk.lua", 1, 3);
    define_again(&w);
    check_numbers(&w, 3);
    check_small_buffers(&w);
    define_empty(&w);
    check_others(&w);
    check_numbers(&w, 6);
    check_frames(&w);
    tear_down(&w);
    refuse_wrong_parts();
    refuse_wrong_handles();
    refuse_memory();
    define_in_threads();
    return 0;
}
