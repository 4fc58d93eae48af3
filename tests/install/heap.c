/* heap.c: the functions of cq_set_heap get each call for memory, may refuse it, and are set at first or never. */
#include <cebdyraq.h>

#include <stdint.h>
#include <stdio.h>
#include <stdlib.h>

static long blocks, least = 1;
static int refuses;

static void *checked(void *block, size_t size) {
    least = size < 1 || (uintptr_t)block % 16 != 0 ? 0 : least;
    return block;
}

static void *allocate(size_t size) {
    if (refuses) return NULL;
    blocks++;
    return checked(malloc(size), size);
}

static void *resize(void *block, size_t size) { return refuses ? NULL : checked(realloc(block, size), size); }

static void release(void *block) {
    blocks--;
    free(block);
}

#define EXPECT(what) do { if (!(what)) { fprintf(stderr, "not so: %s\n", #what); return 1; } } while (0)

int main(void) {
    cq_service service = { 0 };
    EXPECT(cq_set_heap(allocate, resize, release) == CQ_OK);
    refuses = 1;
    EXPECT(cq_make(4, 1, 1, CQ_CAN_SUSPEND | CQ_CAN_POP_FRAME, &service) == CQ_OUT_OF_MEMORY);
    EXPECT(blocks == 0);
    EXPECT(cq_set_heap(malloc, realloc, free) == CQ_MISUSED);
    refuses = 0;
    EXPECT(cq_make(4, 1, 1, CQ_CAN_SUSPEND | CQ_CAN_POP_FRAME, &service) == CQ_OK);
    EXPECT(blocks > 0 && least == 1);
    EXPECT(cq_free(&service) == CQ_OK);
    EXPECT(blocks == 0);
    return 0;
}
