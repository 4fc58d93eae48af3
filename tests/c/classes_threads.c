/* classes_threads.c: two threads define classes, each by a handle of its own, while a third reads them. */
#include "classes.h"

#include <pthread.h>
#include <stdatomic.h>

enum { EACH = 400, MOST_METHODS = 3 };

typedef struct {
    cq_service service;
    char letter;
    uint32_t classes[EACH], firsts[EACH];
} definer;

static atomic_uint at_work;

/* Class number `i` of a definer has one to three methods. */
static uint32_t methods_of(uint32_t i) { return 1 + i % MOST_METHODS; }

static void *define_all(void *given) {
    definer *d = given;
    for (uint32_t i = 0; i < EACH; i++) {
        char signature[16], names[MOST_METHODS][16];
        cq_method_strings methods[MOST_METHODS] = { { 0 } };
        snprintf(signature, sizeof signature, "%c%" PRIu32, d->letter, i);
        for (uint32_t m = 0; m < methods_of(i); m++) {
            snprintf(names[m], sizeof names[m], "%c%" PRIu32 ".%" PRIu32, d->letter, i, m);
            methods[m] = (cq_method_strings){ .name = names[m], .lines_kind = CQ_LINES_LOCATIONS, .first_line = i };
        }
        uint32_t code = CQ_BUSY;
        while (code == CQ_BUSY) {
            code = cq_define_class_strings(&d->service, signature, NULL, methods, methods_of(i), &d->classes[i], &d->firsts[i]);
        }
        OK(code);
    }
    atomic_fetch_sub(&at_work, 1);
    return NULL;
}

/* The method is number `m` of class `i` of a definer, and of this class. */
static void check_method(cq_env *env, uint32_t method, uint32_t class_no, char letter, uint32_t i, uint32_t m) {
    char wanted[16];
    uint8_t name[16], none[1];
    cq_method_name info;
    uint32_t found = 0;
    snprintf(wanted, sizeof wanted, "%c%" PRIu32 ".%" PRIu32, letter, i, m);
    OK(cq_get_method_name(env, method, &info, name, sizeof name, none, 0));
    check_text(name, info.name_length, wanted);
    SAME(info.first_line, i);
    OK(cq_get_method_declaring_class(env, method, &found));
    SAME(found, class_no);
}

/* What is told of a class is whole and of one definition. It gives whether it is told yet, and the first method. */
static bool is_told(cq_env *env, uint32_t class_no, uint32_t *first) {
    uint8_t text[16];
    uint32_t methods[MOST_METHODS];
    uint64_t length = 0, count = 0;
    uint32_t code = cq_get_class_signature(env, class_no, text, sizeof text - 1, &length);
    if (code == CQ_BUSY) {
        return false;
    }
    OK(code);
    CHECK(length < sizeof text && (text[0] == 'a' || text[0] == 'b'));
    text[length] = 0;
    uint32_t i = (uint32_t)strtoul((const char *)text + 1, NULL, 10);
    OK(cq_get_class_methods(env, class_no, methods, MOST_METHODS, &count));
    SAME(count, methods_of(i));
    *first = methods[0];
    for (uint32_t m = 0; m < count; m++) {
        SAME(methods[m], *first + m);
        check_method(env, methods[m], class_no, (char)text[0], i, m);
    }
    return true;
}

/* Reads the newest classes again and again. There are never fewer than before. */
static void read_meanwhile(world *w) {
    uint64_t before = 0;
    uint32_t first = 0;
    while (atomic_load(&at_work) > 0) {
        uint64_t count = class_count(w);
        CHECK(count >= before);
        for (uint64_t c = count > 4 ? count - 4 : 0; c < count; c++) {
            (void)is_told(&w->env, (uint32_t)c, &first);
        }
        before = count;
    }
}

/* Each definition had numbers of its own, and they name what was defined. */
static void check_all(world *w, const definer *d) {
    for (uint32_t i = 0; i < EACH; i++) {
        uint32_t first = 0;
        CHECK(is_told(&w->env, d->classes[i], &first));
        SAME(first, d->firsts[i]);
        check_method(&w->env, first, d->classes[i], d->letter, i, 0);
        CHECK(i == 0 || d->classes[i - 1] < d->classes[i]);
    }
}

void define_in_threads(void) {
    static definer definers[2] = { { .letter = 'a' }, { .letter = 'b' } };
    pthread_t threads[2];
    world w = build();
    atomic_store(&at_work, 2);
    for (int i = 0; i < 2; i++) {
        OK(cq_share(&w.service, &definers[i].service));
    }
    for (int i = 0; i < 2; i++) {
        CHECK(pthread_create(&threads[i], NULL, define_all, &definers[i]) == 0);
    }
    read_meanwhile(&w);
    for (int i = 0; i < 2; i++) {
        CHECK(pthread_join(threads[i], NULL) == 0);
        check_all(&w, &definers[i]);
        OK(cq_free(&definers[i].service));
    }
    SAME(class_count(&w), 2 * EACH);
    tear_down(&w);
}
