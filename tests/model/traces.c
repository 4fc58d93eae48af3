/* traces.c: traces of several threads at once, and environments whose user is lost. */
#include "calls.h"
#include "scenarios.h"

/* Two traces at once, of lists in opposite order. */
static void gather(cq_env *env, uint32_t first, int64_t time) {
    uint32_t list[2] = { first, 1 - first };
    uint64_t count;
    OK_OR(time < 0 ? CQ_OK : CQ_TIMED_OUT,
          cq_wait_get_thread_list_stack_traces(env, &the_signal, list, 2, 4, time, &count));
}

static void gather_a(void) { gather(&a, 0, FOREVER_NS); }
static void gather_b(void) { gather(&b, 1, FOREVER_NS); }
static void gather_in_time_a(void) { gather(&a, 0, 100000); }

static void gather_all_a(void) {
    uint64_t count;
    OK(cq_wait_get_all_stack_traces(&a, &the_signal, 4, FOREVER_NS, &count));
}

static void gather_all_in_time_a(void) {
    uint64_t count;
    int64_t began = time_ns;
    uint32_t code = cq_wait_get_all_stack_traces(&a, &the_signal, 4, 100000, &count);
    if (was_over("cq_wait_get_all_stack_traces", code, began, 100000, CQ_OK)) gather_all_a();
}

/* Threads that start while they are stopped. */
static void make_fresh(void) {
    make(2, 2, 2);
    let_run(&t1);
}

static void start_in_time_0(void) {
    int64_t began = time_ns;
    uint32_t code = cq_wait_start(&t0, &the_signal, 100000);
    if (was_over("cq_wait_start", code, began, 100000, CQ_OK)) OK(cq_wait_start(&t0, &the_signal, FOREVER_NS));
    OK(cq_wait_end(&t0, &the_signal));
}

/* Threads that stand, and do nothing further. */
static void make_standing(void) {
    make_two();
    OK(cq_block(&t0, CQ_PARK));
    OK(cq_block(&t1, CQ_PARK));
}

/* A trace in the middle of which its environment's user was lost. */
static void begin_to_gather(cq_env *env, size_t count) {
    static const uint32_t list[2] = { 0, 1 };
    bool over;
    OK(cq_gather_thread_list_stack_traces(env, list, count, 4));
    OK(cq_gather_step(env, &over));
}

static void make_lost(void) {
    make_two();
    begin_to_gather(&a, 2);
}

static void end_a(void) { OK(cq_wait_end_environment(&a, &the_signal, FOREVER_NS)); }

/* The same environment has a call out at a thread that does nothing further, so it cannot be disposed of. */
static void make_lost_with_a_call(void) {
    cq_answer answer;
    make_two();
    if (cq_suspend_thread(&a, 1, &answer) != CQ_WAITING) fail("the suspension is not out");
    begin_to_gather(&a, 1);
}

static void end_in_time_a(void) {
    int64_t began = time_ns;
    uint32_t code = cq_wait_end_environment(&a, &the_signal, 120000);
    if (code != CQ_TIMED_OUT) fail_with("cq_wait_end_environment", code);
    check_time(began, 120000);
}

/* Functions of cebdyraq.h, and cq_wake after them. */
static void gather_by_steps_b(void) {
    static const uint32_t list[2] = { 0, 1 };
    bool over = false;
    OK(cq_gather_thread_list_stack_traces(&b, list, 2, 4));
    while (!over) {
        if (cq_gather_step(&b, &over) != CQ_OK) nap();
    }
    cq_wake(&the_signal);
}

static void poll_and_end_by_tries_0(void) {
    uint32_t code;
    while ((code = cq_poll(&t0)) == CQ_BUSY) nap();
    cq_wake(&the_signal);
    if (code == CQ_HELD) OK(cq_wait_back(&t0, &the_signal, FOREVER_NS));
    while (cq_end(&t0) == CQ_BUSY) nap();
    cq_wake(&the_signal);
}

static const scenario all[] = {
    { "gathers", make_two, { gather_a, gather_b, poll_and_end_0, poll_and_end_1 }, { "agent a", "agent b", "thread 0", "thread 1" } },
    { "gathers_in_time", make_two, { gather_in_time_a, gather_b, poll_and_end_0, poll_and_end_1 },
      { "agent a", "agent b", "thread 0", "thread 1" } },
    { "gathers_all", make_two, { gather_all_a, gather_b, poll_and_end_0, poll_and_end_1 }, { "agent a", "agent b", "thread 0", "thread 1" } },
    { "gathers_all_in_time", make_two, { gather_all_in_time_a, poll_and_end_0, poll_and_end_1 }, { "agent a", "thread 0", "thread 1" } },
    { "starts", make_fresh, { gather_a, start_end_and_go_0, poll_and_end_1 }, { "agent a", "thread 0", "thread 1" } },
    { "starts_in_time", make_fresh, { gather_a, start_in_time_0, poll_and_end_1 }, { "agent a", "thread 0", "thread 1" } },
    { "standing", make_standing, { gather_a, gather_b }, { "agent a", "agent b" } },
    { "lost", make_lost, { end_a, gather_b, poll_and_end_0, poll_and_end_1 }, { "caller", "agent b", "thread 0", "thread 1" } },
    { "lost_with_a_call", make_lost_with_a_call, { end_in_time_a, poll_and_end_0 }, { "caller", "thread 0" } },
    { "tries", make_two, { gather_a, gather_by_steps_b, poll_and_end_by_tries_0, poll_and_end_1 },
      { "agent a", "agent b", "thread 0", "thread 1" } },
};
const chapter traces = { all, sizeof all / sizeof *all, false };
