/* classes_wrong.c: parts that describe no class, handles that are misused, and memory that is refused. Nothing is defined. */
#include "classes.h"

/* All that a definition takes. What is right is here, and each row spoils one thing. */
typedef struct {
    uint8_t text[16];
    size_t text_length;
    cq_class_ranges class_ranges;
    cq_method_ranges methods[2];
    size_t count;
    cq_line_entry entries[2];
    size_t entry_count;
} parts;

static const parts RIGHT = {
    .text = { 'L', 'a', ';', 'a', '.', 'j', 'f', '(', ')', 'V', 0xc3, 0xa9 },
    .text_length = 12,
    .class_ranges = { { 0, 3 }, { 3, 3 } },
    .methods = { { { 6, 1 }, { 7, 3 }, { 0, 2 }, CQ_LINES_TABLE, 1 }, { { 10, 2 }, { 12, 0 }, { 2, 0 }, CQ_LINES_TABLE, 2 } },
    .count = 2,
    .entries = { { 0, 1 }, { 5, 2 } },
    .entry_count = 2,
};

static uint32_t define(cq_service *service, const parts *p, uint32_t *class_no, uint32_t *first_method) {
    return cq_define_class(service, p->text, p->text_length, &p->class_ranges, p->methods, p->count, p->entries,
                           p->entry_count, class_no, first_method);
}

/* Nothing is defined, and nothing is written. */
static void check_refused(const char *file, int line, const parts *p) {
    world w = build();
    uint32_t c = 77, f = 78;
    check_same(file, line, "the code", define(&w.service, p, &c, &f), CQ_ILLEGAL_ARGUMENT);
    CHECK(c == 77 && f == 78);
    SAME(class_count(&w), 0);
    OK(define(&w.service, &RIGHT, &c, &f));
    CHECK(c == 0 && f == 0);
    tear_down(&w);
}

/* It is refused with this spoilt. */
#define REFUSED(spoil) do { parts p = RIGHT; p.spoil; check_refused(__FILE__, __LINE__, &p); } while (0)

void refuse_wrong_parts(void) {
    REFUSED(text_length = 11);
    REFUSED(text_length = 0);
    REFUSED(entry_count = 1);
    REFUSED(class_ranges.signature.length = 13);
    REFUSED(class_ranges.signature.start = 13);
    REFUSED(class_ranges.signature.start = SIZE_MAX);
    REFUSED(class_ranges.signature.length = SIZE_MAX);
    REFUSED(class_ranges.source_file.start = 10);
    REFUSED(class_ranges.source_file.start = SIZE_MAX - 1);
    REFUSED(methods[0].name.start = 12);
    REFUSED(methods[0].name.length = SIZE_MAX - 5);
    REFUSED(methods[1].name.start = 11);
    REFUSED(methods[1].name.length = 1);
    REFUSED(methods[1].signature.start = 13);
    REFUSED(methods[0].signature.length = 4);
    REFUSED(methods[0].lines.length = 3);
    REFUSED(methods[0].lines.start = 1);
    REFUSED(methods[1].lines.start = 3);
    REFUSED(methods[1].lines.length = SIZE_MAX);
    REFUSED(methods[0].lines_kind = 4);
    REFUSED(methods[1].lines_kind = UINT32_MAX);
    REFUSED(text[1] = 0xff);
    REFUSED(text[4] = 0x80);
    REFUSED(text[6] = 0xed);
    REFUSED(text[9] = 0xc3);
    REFUSED(text[11] = 'a');
}

static const cq_method_strings STRINGS[] = {
    { .name = "f", .signature = "()V", .lines = RIGHT.entries, .line_count = 2, .lines_kind = CQ_LINES_TABLE },
    { .name = "g", .lines_kind = CQ_LINES_LOCATIONS },
};

static uint32_t define_strings(cq_service *service, uint32_t *c, uint32_t *f) {
    return cq_define_class_strings(service, "La;", "a.j", STRINGS, COUNT(STRINGS), c, f);
}

static void refuse_wrong_strings(world *w) {
    static const cq_method_strings wrong[] = { { .name = "\xff" }, { .name = "f", .lines_kind = 4 } };
    uint32_t c = 77, f = 78;
    SAME(cq_define_class_strings(&w->service, "\xed\xa0\x80", NULL, NULL, 0, &c, &f), CQ_ILLEGAL_ARGUMENT);
    SAME(cq_define_class_strings(&w->service, "a", "\x80", NULL, 0, &c, &f), CQ_ILLEGAL_ARGUMENT);
    for (size_t i = 0; i < COUNT(wrong); i++) {
        SAME(cq_define_class_strings(&w->service, "a", NULL, &wrong[i], 1, &c, &f), CQ_ILLEGAL_ARGUMENT);
    }
    CHECK(c == 77 && f == 78);
    SAME(class_count(w), 0);
}

/* What each reader gives, and that it writes nothing. */
static void check_readers_refuse(cq_env *env, uint32_t code) {
    uint8_t text[2] = "x";
    uint32_t number = 99, kind = 98;
    uint64_t length = 97;
    bool native = true;
    cq_method_name info = { 96, 95, 94 };
    cq_line_entry entry = { 93, 92 };
    SAME(cq_get_loaded_classes(env, &number, 1, &length), code);
    SAME(cq_get_class_signature(env, 0, text, 1, &length), code);
    SAME(cq_get_source_file_name(env, 0, text, 1, &length), code);
    SAME(cq_get_class_methods(env, 0, &number, 1, &length), code);
    SAME(cq_get_method_name(env, 0, &info, text, 1, text + 1, 1), code);
    SAME(cq_get_line_number_table(env, 0, &kind, &entry, 1, &length), code);
    CHECK(text[0] == 'x' && text[1] == 0 && number == 99 && kind == 98 && length == 97 && native);
    CHECK(info.name_length == 96 && info.signature_length == 95 && info.first_line == 94);
    CHECK(entry.start_location == 93 && entry.line_number == 92);
}

/* The two readers that take no memory. */
static void check_plain_readers(cq_env *env, uint32_t code) {
    uint32_t number = 99;
    bool native = true;
    SAME(cq_get_method_declaring_class(env, 0, &number), code);
    SAME(cq_is_method_native(env, 0, &native), code);
    SAME(number, code == CQ_OK ? 0 : 99);
    SAME(native, code != CQ_OK);
}

void refuse_wrong_handles(void) {
    world w = build();
    cq_service no_service = { 0 };
    cq_env no_env = { 0 };
    uint32_t c = 77, f = 78;
    refuse_wrong_strings(&w);
    SAME(define(&no_service, &RIGHT, &c, &f), CQ_MISUSED);
    SAME(define((cq_service *)(void *)&w.env, &RIGHT, &c, &f), CQ_MISUSED);
    SAME(define_strings(&no_service, &c, &f), CQ_MISUSED);
    SAME(define_strings((cq_service *)(void *)&w.env, &c, &f), CQ_MISUSED);
    CHECK(c == 77 && f == 78);
    OK(define(&w.service, &RIGHT, &c, &f));
    cq_env *wrong[] = { &no_env, (cq_env *)(void *)&w.service };
    for (size_t i = 0; i < COUNT(wrong); i++) {
        check_readers_refuse(wrong[i], CQ_MISUSED);
        check_plain_readers(wrong[i], CQ_MISUSED);
    }
    /* An environment that gathers a trace. */
    bool over = false;
    OK(cq_gather_all_stack_traces(&w.env, 1));
    check_readers_refuse(&w.env, CQ_MISUSED);
    check_plain_readers(&w.env, CQ_MISUSED);
    while (!over) OK(cq_gather_step(&w.env, &over));
    check_plain_readers(&w.env, CQ_OK);
    tear_down(&w);
}

typedef uint32_t definition(cq_service *service, uint32_t *c, uint32_t *f);

static uint32_t define_right(cq_service *service, uint32_t *c, uint32_t *f) { return define(service, &RIGHT, c, f); }

/* After no block, one block, two blocks and so on: nothing is defined until memory suffices. */
static void refuse_blocks(definition *call) {
    uint32_t code = CQ_OUT_OF_MEMORY;
    for (long blocks = 0; code != CQ_OK; blocks++) {
        world w = build();
        uint32_t c = 77, f = 78;
        heap_refuse_after(blocks);
        code = call(&w.service, &c, &f);
        heap_refuse_after(-1);
        CHECK(blocks > 0 || code != CQ_OK);
        CHECK(code == CQ_OK || (code == CQ_OUT_OF_MEMORY && c == 77 && f == 78));
        SAME(class_count(&w), code == CQ_OK);
        OK(call(&w.service, &c, &f));
        SAME(c, code == CQ_OK);
        SAME(f, code == CQ_OK ? 2 : 0);
        tear_down(&w);
    }
}

void refuse_memory(void) {
    refuse_blocks(define_right);
    refuse_blocks(define_strings);
    world w = build();
    uint32_t c = 77, f = 78;
    /* Wrong parts without memory: either code, and nothing is defined. A misused handle comes first. */
    parts p = RIGHT;
    p.methods[1].lines_kind = 4;
    cq_service no_service = { 0 };
    heap_refuse_after(0);
    SAME(define(&no_service, &RIGHT, &c, &f), CQ_MISUSED);
    SAME(define_strings(&no_service, &c, &f), CQ_MISUSED);
    uint32_t code = define(&w.service, &p, &c, &f);
    CHECK(code == CQ_OUT_OF_MEMORY || code == CQ_ILLEGAL_ARGUMENT);
    heap_refuse_after(-1);
    SAME(class_count(&w), 0);
    OK(define(&w.service, &RIGHT, &c, &f));
    heap_refuse_after(0);
    check_readers_refuse(&w.env, CQ_OUT_OF_MEMORY);
    check_plain_readers(&w.env, CQ_OK);
    heap_refuse_after(-1);
    tear_down(&w);
}
