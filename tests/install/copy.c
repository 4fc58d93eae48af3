/* copy.c: the use of one copy of the library in a process that has two. COPY begins the names of its functions. */
#include "copy.h"

#include <cebdyraq_wait.h>
#include <stdlib.h>

#define JOINED(one, two) one##two
#define NAMED(one, two) JOINED(one, two)

static cq_service service;
static cq_thread thread;
static cq_env env;
static cq_signal sleepers;
static long blocks, taken;

static void *allocate(size_t size) {
    void *block = malloc(size);
    blocks += block != NULL;
    taken++;
    return block;
}

static void release(void *block) {
    blocks -= block != NULL;
    free(block);
}

/* Makes a service with one thread, which is in native code, and an environment that has met it. */
int NAMED(COPY, begin)(unsigned method) {
    return cq_set_heap(allocate, realloc, release) || cq_make(4, 1, 1, CQ_CAN_SUSPEND | CQ_CAN_POP_FRAME, &service)
        || cq_attach_thread(&service, (const uint8_t *)"", 0, 5, &thread) || cq_start(&thread)
        || cq_enter_native(&thread, method) || cq_wait_native(&thread, &sleepers)
        || cq_wait_attach_environment(&service, &sleepers, &env) || cq_wait_meet(&env, &sleepers);
}

/* The method that the thread is in, or 0. */
unsigned NAMED(COPY, method)(void) {
    cq_frame frame;
    return cq_wait_get_frame_location(&env, &sleepers, 0, 0, -1, &frame) ? 0 : frame.method;
}

int NAMED(COPY, end)(void) {
    return cq_wait_dispose_environment(&env, &sleepers) || cq_back(&thread) || cq_end(&thread) || cq_detach_thread(&thread)
        || cq_free(&service);
}

long NAMED(COPY, blocks)(void) { return blocks; }
long NAMED(COPY, taken)(void) { return taken; }
