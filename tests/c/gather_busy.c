/* gather_busy.c: a trace whose time is over while threads are used by others. It takes in cebdyraq_wait.c. From a certain step
 * on, steps find their thread in use: until the time is over, and some more times. */
#define _GNU_SOURCE
#include "check.h"

enum { THREADS = 3, MOST_STEPS = 20, MORE = 30 };

static const int64_t MILLISECOND = 1000000;

static cq_signal signal_of_all;
static cq_service service;
static cq_thread threads[THREADS];
static cq_env env;
static uint32_t steps_left;    /* until the first that finds its thread in use */
static bool is_in_time;
static uint32_t more_left;     /* times that a thread is in use after that */

static uint32_t busy_gather_step(cq_env *of, bool *over) {
    if (steps_left > 0) {
        steps_left--;
    } else if (is_in_time) {
        return CQ_BUSY;
    } else if (more_left > 0) {
        more_left--;
        return CQ_BUSY;
    }
    return cq_gather_step(of, over);
}

static uint32_t late_gather_give_up(cq_env *of) {
    is_in_time = false;
    return cq_gather_give_up(of);
}

#define cq_gather_step busy_gather_step
#define cq_gather_give_up late_gather_give_up
#include "../../c/cebdyraq_wait.c"

static void set_up(void) {
    OK(cq_make(4, 1, 4, CQ_CAN_SUSPEND | CQ_CAN_POP_FRAME, &service));
    OK(cq_attach_environment(&service, &env));
    for (uint32_t i = 0; i < THREADS; i++) {
        OK(cq_attach_thread(&service, (const uint8_t *)"", 0, 5, &threads[i]));
        OK(cq_start(&threads[i]));
        OK(cq_enter_native(&threads[i], i));
        OK(cq_native(&threads[i]));
    }
    OK(cq_meet(&env));
}

static void tear_down(void) {
    for (uint32_t i = 0; i < THREADS; i++) {
        OK(cq_end(&threads[i]));
        OK(cq_detach_thread(&threads[i]));
    }
    OK(cq_dispose_environment(&env));
    OK(cq_free(&service));
}

/* All threads are let go. What was told is there if the code says so. */
static void check_after(uint32_t code, uint64_t count) {
    cq_stack_info info;
    cq_frame frame;
    uint64_t told = 77;
    SAME(cq_gathered(&env, &told), code == CQ_OK ? CQ_OK : CQ_NONE);
    SAME(count, code == CQ_OK ? THREADS : 77);
    for (uint32_t i = 0; i < THREADS; i++) {
        if (code == CQ_OK) {
            OK(cq_gathered_stack(&env, i, &info, &frame, 1));
            SAME(info.thread, i);
            SAME(frame.method, i);
        }
        OK(cq_back(&threads[i]));
        OK(cq_native(&threads[i]));
    }
}

/* A thread is in use after so many steps, for longer than the trace may wait. It gives the code. */
static uint32_t trace(uint32_t steps, int64_t timeout_ns) {
    uint64_t count = 77;
    steps_left = steps;
    is_in_time = timeout_ns >= 0;
    more_left = MORE;
    uint32_t code = cq_wait_get_all_stack_traces(&env, &signal_of_all, 4, timeout_ns, &count);
    CHECK(more_left == 0 || (more_left == MORE && steps > 6));
    check_after(code, count);
    return code;
}

/* Before all of three threads were seen standing, which takes six steps and one between, the trace is given up. Later it comes
 * to its end. Without a limit of time it always does. */
int main(void) {
    set_up();
    for (uint32_t steps = 0; steps < MOST_STEPS; steps++) {
        uint32_t code = trace(steps, MILLISECOND);
        CHECK(code == CQ_OK || code == CQ_TIMED_OUT);
        CHECK(steps >= 6 || code == CQ_TIMED_OUT);
        CHECK(steps <= 7 || code == CQ_OK);
        SAME(trace(steps, 0), code);
        OK(trace(steps, -1));
    }
    for (uint32_t i = 0; i < THREADS; i++) OK(cq_back(&threads[i]));
    tear_down();
    SAME(signal_of_all.threads.sleepers, 0);
    SAME(signal_of_all.agents.sleepers, 0);
    return 0;
}
