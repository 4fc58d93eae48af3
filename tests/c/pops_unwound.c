/* pops_unwound.c: a runtime with a stack of its own, on a thread of the operating system, and an agent that pops its frames. */
#define _POSIX_C_SOURCE 200809L
#include "pops.h"

#include <pthread.h>
#include <sched.h>
#include <stdatomic.h>

enum { FRAMES = 4, FOR_EVER = -1 };

static cq_signal signal_of_all;
static cq_frame own[FRAMES];    /* the oldest first */
static size_t depth;
static atomic_bool may_end;

static void show_stack(void) {
    cq_frame shown[FRAMES];
    for (size_t i = 0; i < depth; i++) shown[i] = own[depth - 1 - i];
    OK(cq_set_frames(&thread, shown, depth));
}

static void unwind(void) {
    uint64_t count = pops();
    CHECK(count < depth);
    depth -= count;
}

static void safe_point(void) {
    if (cq_poll_clear(&thread)) return;
    show_stack();
    OK(cq_wait_poll(&thread, &signal_of_all));
    unwind();
}

static void sleep_a_little(void) {
    show_stack();
    OK(cq_wait_block(&thread, &signal_of_all, CQ_SLEEP));
    sched_yield();
    OK(cq_wait_back(&thread, &signal_of_all, FOR_EVER));
    unwind();
}

static void *run(void *unused) {
    OK(cq_wait_start(&thread, &signal_of_all, FOR_EVER));
    for (uint32_t i = 0; i < FRAMES; i++) own[depth++] = (cq_frame){ i + 1, i };
    for (int i = 0; !atomic_load(&may_end); i++) {
        safe_point();
        if (i % 8 == 0) sleep_a_little();
    }
    OK(cq_wait_end(&thread, &signal_of_all));
    return unused;
}

static uint32_t seen(void) {
    uint32_t count = 0;
    OK(cq_wait_get_frame_count(&env, &signal_of_all, 0, FOR_EVER, &count));
    return count;
}

void unwind_own_stack(void) {
    pthread_t id;
    uint32_t state = 0;
    begin();
    SAME(pthread_create(&id, NULL, run, NULL), 0);
    while (!(state & CQ_STATE_ALIVE)) OK(cq_wait_get_thread_state(&env, &signal_of_all, 0, FOR_EVER, &state));
    while (seen() != FRAMES) sched_yield();
    for (uint32_t left = FRAMES - 1; left > 0; left--) {
        OK(cq_wait_suspend_thread(&env, &signal_of_all, 0, FOR_EVER));
        OK(cq_wait_pop_frame(&env, &signal_of_all, 0, FOR_EVER));
        SAME(seen(), left);
        OK(cq_wait_resume_thread(&env, &signal_of_all, 0, FOR_EVER));
        SAME(seen(), left);
        SAME(seen(), left);
    }
    atomic_store(&may_end, true);
    SAME(pthread_join(id, NULL), 0);
    SAME(depth, 1);
    SAME(pops(), 0);
    finish();
}
