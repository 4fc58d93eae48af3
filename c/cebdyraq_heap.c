/* cebdyraq_heap.c: how the library gets memory, over malloc, realloc and free or over the functions of cq_set_heap.
 *
 * `align` is a divisor of 16, and malloc keeps to that. A block of no bytes takes `align` bytes. The three functions that
 * begin with rattle_ are called by the proved half. They are hidden in libcebdyraq.a and libcebdyraq.so. */
#include "cebdyraq.h"
#include "cebdyraq_heap.h"

#include <stdlib.h>

static _Alignas(16) char nothing[16];
static bool taken;  /* whether memory was taken */
static void *(*allocate_block)(size_t size) = malloc;
static void *(*resize_block)(void *block, size_t size) = realloc;
static void (*release_block)(void *block) = free;

uint32_t cq_set_heap(void *(*allocate)(size_t size), void *(*resize)(void *block, size_t size),
                     void (*release)(void *block)) {
    if (__atomic_load_n(&taken, __ATOMIC_RELAXED)) {
        return CQ_MISUSED;
    }
    allocate_block = allocate;
    resize_block = resize;
    release_block = release;
    return CQ_OK;
}

static tried answer(void *block) {
    return block != NULL ? (tried){ true, block } : (tried){ false, nothing };
}

/* It is written once, so that threads that take memory do not share a line that changes. */
static void note_taken(void) {
    if (!__atomic_load_n(&taken, __ATOMIC_RELAXED)) {
        __atomic_store_n(&taken, true, __ATOMIC_RELAXED);
    }
}

tried rattle_alloc(size_t size, size_t align) {
    note_taken();
    return answer(allocate_block(size != 0 ? size : align));
}

/* When there is no memory, the block is as it was. */
tried rattle_realloc(void *block, size_t kept, size_t size, size_t align) {
    (void)kept;
    return answer(resize_block(block, size != 0 ? size : align));
}

void rattle_dealloc(void *block) {
    release_block(block);
}
