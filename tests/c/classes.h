/* classes.h: a service with an environment, and classes of it (classes.c, classes_wrong.c, classes_threads.c). */
#ifndef CLASSES_H
#define CLASSES_H

#include "check.h"
#include "counted_heap.h"

#define COUNT(array) (sizeof(array) / sizeof *(array))

typedef struct {
    cq_service service;
    cq_env env;
} world;

static inline world build(void) {
    world w = { 0 };
    OK(cq_make(4, 2, 2, CQ_CAN_SUSPEND | CQ_CAN_POP_FRAME, &w.service));
    OK(cq_attach_environment(&w.service, &w.env));
    return w;
}

static inline void tear_down(world *w) {
    OK(cq_dispose_environment(&w->env));
    OK(cq_free(&w->service));
    SAME(heap_blocks(), 0);
}

/* How many classes there are. */
static inline uint64_t class_count(world *w) {
    uint32_t none[1];
    uint64_t count = 0;
    OK(cq_get_loaded_classes(&w->env, none, 0, &count));
    return count;
}

/* The text is this one, of `length` bytes. */
static inline void check_text(const uint8_t *text, uint64_t length, const char *wanted) {
    SAME(length, strlen(wanted));
    CHECK(memcmp(text, wanted, length) == 0);
}

void refuse_wrong_parts(void);
void refuse_wrong_handles(void);
void refuse_memory(void);
void define_in_threads(void);

#endif
