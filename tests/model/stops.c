/* stops.c: threads that stop for environments. */
#include "calls.h"
#include "scenarios.h"

static void ask_for_steps(cq_env *env) { OK(cq_set_stop_notification_mode(env, true, CQ_SINGLE_STEP, CQ_ALL_THREADS)); }

/* A thread stops for two environments: one ends the stop, and the other is disposed of. */
static void make_both_told(void) {
    make_one();
    ask_for_steps(&a);
    ask_for_steps(&b);
}

static void take_stop_a(void) {
    cq_stop stop;
    OK(cq_wait_next_stop(&a, &the_signal, FOREVER_NS, &stop));
    OK(cq_wait_end_stop(&a, &the_signal, stop.thread));
}

static void dispose_b(void) { OK(cq_wait_dispose_environment(&b, &the_signal)); }

static void stop_and_end_0(void) {
    bool stops = false;
    OK(cq_wait_reached(&t0, &the_signal, 1, 0, &stops));
    if (stops) OK(cq_wait_stop(&t0, &the_signal));
    OK(cq_wait_end(&t0, &the_signal));
}

/* The stop is there once it is reached, however the thread waits. */
static void make_told(void) {
    make(2, 1, 2);
    let_run(&t0);
    ask_for_steps(&a);
}

static void next_stop_a(void) {
    cq_stop stop;
    OK(cq_wait_next_stop(&a, &the_signal, FOREVER_NS, &stop));
}

static void next_stop_in_time_a(void) {
    cq_stop stop;
    int64_t began = time_ns;
    uint32_t code = cq_wait_next_stop(&a, &the_signal, 60000, &stop);
    if (was_over("cq_wait_next_stop", code, began, 60000, CQ_OK)) next_stop_a();
}

static void reach_and_block_0(void) {
    bool stops = false;
    OK(cq_wait_reached(&t0, &the_signal, 1, 0, &stops));
    OK(cq_wait_block(&t0, &the_signal, CQ_PARK));
}

static void make_told_of_ends(void) {
    make(2, 1, 1);
    let_run(&t0);
    OK(cq_set_stop_notification_mode(&a, true, CQ_FRAME_POP, CQ_ALL_THREADS));
    OK(cq_notify_frame_pop(&a, 0, 1));
}

static void leave_and_block_0(void) {
    bool stops = false;
    OK(cq_wait_leaves(&t0, &the_signal, 1, 0, 1, &stops));
    OK(cq_wait_block(&t0, &the_signal, CQ_PARK));
}

/* Each of these is news to another environment, which has looked and takes one look in each wait. */
static void await_news_b(void) {
    size_t which;
    cq_answer answer;
    cq_frame frame;
    uint32_t code = cq_wait_any(&b, &the_signal, NULL, 0, FOREVER_NS, &which, &answer, &frame, 0);
    if (code != CQ_NONE) fail_with("cq_wait_any", code);
}

static void make_looked(void) {
    make_told();
    OK(cq_meet(&b));
}

static void make_stopped(void) {
    bool stops = false;
    make_told();
    OK(cq_reached(&t0, 1, 0, &stops));
    OK(cq_meet(&b));
}

static void make_stopped_and_told(void) {
    cq_stop stop;
    make_stopped();
    OK(cq_next_stop(&a, &stop));
    OK(cq_meet(&b));
}

static void end_stop_a(void) { OK(cq_wait_end_stop(&a, &the_signal, 0)); }

static void ask_for_stops_a(void) {
    uint32_t code;
    while ((code = cq_set_stop_notification_mode(&a, true, CQ_BREAKPOINT, 0)) == CQ_BUSY) nap();
    OK(code);
    cq_wake(&the_signal);
}

static const scenario all[] = {
    { "stops", make_both_told, { take_stop_a, dispose_b, stop_and_end_0 }, { "agent a", "agent b", "thread 0" } },
    { "reached", make_told, { next_stop_a, reach_and_block_0 }, { "agent a", "thread 0" } },
    { "reached_in_time", make_told, { next_stop_in_time_a, reach_and_block_0 }, { "agent a", "thread 0" } },
    { "leaves", make_told_of_ends, { next_stop_a, leave_and_block_0 }, { "agent a", "thread 0" } },
    { "reached_is_news", make_looked, { await_news_b, reach_and_block_0 }, { "agent b", "thread 0" } },
    { "told_is_news", make_stopped, { await_news_b, next_stop_a }, { "agent b", "agent a" } },
    { "ended_is_news", make_stopped_and_told, { await_news_b, end_stop_a }, { "agent b", "agent a" } },
    { "asked_for_is_news", make_looked, { await_news_b, ask_for_stops_a }, { "agent b", "agent a" } },
};
const chapter stops = { all, sizeof all / sizeof *all, false };
