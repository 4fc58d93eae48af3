/* scenarios.c: see scenarios.h. */
#include "scenarios.h"
#include "calls.h"

#include <string.h>

extern const chapter calls_at_threads, traces, stops, news, serving;
const chapter *const chapters[] = { &calls_at_threads, &traces, &stops, &news, &serving };

cq_service service;
cq_signal the_signal;
cq_thread t0, t1;
cq_env a, b, c;
uint32_t the_window;

void forget_service(void) {
    memset(&service, 0, sizeof service);
    memset(&the_signal, 0, sizeof the_signal);
    memset(&t0, 0, sizeof t0);
    memset(&t1, 0, sizeof t1);
    memset(&a, 0, sizeof a);
    memset(&b, 0, sizeof b);
    memset(&c, 0, sizeof c);
}

void may_give(const char *what, uint32_t code, uint32_t this, uint32_t other) {
    if (code != CQ_OK && code != this && code != other) fail_with(what, code);
}

void check_time(int64_t began, int64_t least) {
    if (time_ns - began < least) fail("a time-out comes too early");
}

bool was_over(const char *what, uint32_t code, int64_t began, int64_t least, uint32_t other) {
    may_give(what, code, CQ_TIMED_OUT, other);
    if (code == CQ_TIMED_OUT) check_time(began, least);
    return code == CQ_TIMED_OUT;
}

void nap(void) {
    static const uint32_t nothing;
    step("nap");
    sleep_at(&nothing, 1, time_ns + 50000);
}

void make(uint32_t window, int threads, int environments) {
    static cq_thread *const all_threads[] = { &t0, &t1 };
    static cq_env *const all_environments[] = { &a, &b, &c };
    uint32_t both = CQ_CAN_SUSPEND | CQ_CAN_POP_FRAME;
    the_window = window;
    OK(cq_make(8, 4, window, both, &service));
    for (int i = 0; i < threads; i++) OK(cq_attach_thread(&service, (const uint8_t *)"t", 1, 0, all_threads[i]));
    for (int i = 0; i < environments; i++) {
        OK(cq_attach_environment(&service, all_environments[i]));
        OK(cq_add_capabilities(all_environments[i], both));
    }
    for (int i = 0; i < environments; i++) OK(cq_meet(all_environments[i]));
}

void let_run(cq_thread *thread) {
    OK(cq_start(thread));
    OK(cq_enter(thread, 1));
}

void make_one(void) {
    make(2, 1, 2);
    let_run(&t0);
}

void make_two(void) {
    make(2, 2, 2);
    let_run(&t0);
    let_run(&t1);
}

static void poll_and_end(cq_thread *thread) {
    OK(cq_wait_poll(thread, &the_signal));
    OK(cq_wait_end(thread, &the_signal));
}

void poll_and_end_0(void) { poll_and_end(&t0); }
void poll_and_end_1(void) { poll_and_end(&t1); }

static void poll_go_native_and_end(cq_thread *thread) {
    OK(cq_wait_poll(thread, &the_signal));
    OK(cq_enter_native(thread, 2));
    OK(cq_wait_native(thread, &the_signal));
    OK(cq_wait_back(thread, &the_signal, FOREVER_NS));
    OK(cq_wait_end(thread, &the_signal));
}

void poll_go_native_and_end_0(void) { poll_go_native_and_end(&t0); }
void poll_go_native_and_end_1(void) { poll_go_native_and_end(&t1); }

void start_end_and_go_0(void) {
    OK(cq_wait_start(&t0, &the_signal, FOREVER_NS));
    OK(cq_wait_end(&t0, &the_signal));
    OK(cq_wait_detach_thread(&t0, &the_signal));
}
