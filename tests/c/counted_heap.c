/* counted_heap.c: see counted_heap.h. It is linked in place of cebdyraq_heap.c, which it takes in. */
#include "counted_heap.h"

#include <stdatomic.h>
#include <stdbool.h>
#include <stdlib.h>

static atomic_long left = -1, blocks, refusals;

void heap_refuse_after(long more) { atomic_store(&left, more); }
long heap_blocks(void) { return atomic_load(&blocks); }
long heap_refusals(void) { return atomic_load(&refusals); }

static bool is_refused(void) {
    if (atomic_load(&left) < 0) {
        return false;
    }
    if (atomic_load(&left) == 0) {
        atomic_fetch_add(&refusals, 1);
        return true;
    }
    atomic_fetch_sub(&left, 1);
    return false;
}

static void *counted_malloc(size_t size) {
    void *block = is_refused() ? NULL : malloc(size);
    if (block != NULL) {
        atomic_fetch_add(&blocks, 1);
    }
    return block;
}

static void *counted_realloc(void *block, size_t size) {
    return is_refused() ? NULL : realloc(block, size);
}

static void counted_free(void *block) {
    atomic_fetch_sub(&blocks, 1);
    free(block);
}

#define malloc counted_malloc
#define realloc counted_realloc
#define free counted_free
#include "../../c/cebdyraq_heap.c"
