/* bench.c: what some calls cost, in nanoseconds. It is no test.
 *
 *     bench [ROUNDS]
 *
 * Everything is measured TURNS times, each time over so many rounds. It tells the least and the middle of these.
 */
#define _POSIX_C_SOURCE 200809L
#include "check.h"

#include <time.h>

enum { FRAMES = 32, OTHERS = 16, TURNS = 11, CALLS = 16 };

static cq_service service;
static cq_thread thread;
static cq_env env;
static cq_answer answer;
static cq_frame frames[FRAMES];
static uint64_t rounds = 1000000;

static double now_ns(void) {
    struct timespec now;
    clock_gettime(CLOCK_MONOTONIC, &now);
    return (double)now.tv_sec * 1e9 + (double)now.tv_nsec;
}

/* What was measured of one call: a number of nanoseconds for each turn. */
typedef struct {
    const char *what;
    double each[TURNS];
    uint64_t turns;
} measured;

static measured calls[CALLS];

static void note(const char *what, double ns) {
    measured *call = calls;
    while (call->what != NULL && strcmp(call->what, what) != 0) call++;
    call->what = what;
    call->each[call->turns++] = ns / (double)rounds;
}

static int in_order(const void *one, const void *other) {
    double a = *(const double *)one, b = *(const double *)other;
    return (a > b) - (a < b);
}

static void tell_all(void) {
    printf("%-44s %8s %8s\n", "nanoseconds", "least", "middle");
    for (measured *call = calls; call->what != NULL; call++) {
        qsort(call->each, call->turns, sizeof call->each[0], in_order);
        printf("%-44s %8.1f %8.1f\n", call->what, call->each[0], call->each[call->turns / 2]);
    }
}

static void poll_clear(void) {
    uint64_t clear = 0;
    double began = now_ns();
    for (uint64_t i = 0; i < rounds; i++) clear += cq_poll_clear(&thread);
    note("cq_poll_clear", now_ns() - began);
    SAME(clear, rounds);
}

static void enter_and_leave(void) {
    double began = now_ns();
    for (uint64_t i = 0; i < rounds; i++) {
        OK(cq_enter(&thread, 1));
        OK(cq_leave(&thread));
    }
    note("cq_enter and cq_leave", now_ns() - began);
}

static void poll(void) {
    double began = now_ns();
    for (uint64_t i = 0; i < rounds; i++) OK(cq_poll(&thread));
    note("cq_poll, and nobody calls", now_ns() - began);
}

static void native_and_back(void) {
    OK(cq_enter_native(&thread, 1));
    double began = now_ns();
    for (uint64_t i = 0; i < rounds; i++) {
        OK(cq_native(&thread));
        OK(cq_back(&thread));
    }
    note("cq_native and cq_back", now_ns() - began);
}

static void state(void) {
    OK(cq_native(&thread));
    double began = now_ns();
    for (uint64_t i = 0; i < rounds; i++) OK(cq_get_thread_state(&env, 0, &answer));
    note("cq_get_thread_state at a native thread", now_ns() - began);
    OK(cq_back(&thread));
    OK(cq_leave(&thread));
}

static void trace(void) {
    double posts = 0, polls = 0, collects = 0;
    for (uint32_t i = 0; i < FRAMES; i++) OK(cq_enter(&thread, i));
    for (uint64_t i = 0; i < rounds; i++) {
        double began = now_ns();
        SAME(cq_get_stack_trace(&env, 0, 0, FRAMES, &answer, frames, FRAMES), CQ_WAITING);
        double posted = now_ns();
        OK(cq_poll(&thread));
        double polled = now_ns();
        OK(cq_collect(&env, &answer.ticket, &answer, frames, FRAMES));
        posts += posted - began;
        polls += polled - posted;
        collects += now_ns() - polled;
        SAME(answer.number, FRAMES);
    }
    note("a trace of 32 frames: the post", posts);
    note("a trace of 32 frames: the poll", polls);
    note("a trace of 32 frames: the collection", collects);
}

static void set_frames(void) {
    double began = now_ns();
    for (uint64_t i = 0; i < rounds; i++) {
        frames[0].location = (int64_t)(i % 100);
        frames[1].location = (int64_t)(i % 50);
        OK(cq_set_frames(&thread, frames, FRAMES));
    }
    note("cq_set_frames, 2 of 32 frames differ", now_ns() - began);
    OK(cq_set_frames(&thread, frames, 0));
}

static void set_steps(bool enabled) {
    OK(cq_set_stop_notification_mode(&env, enabled, CQ_SINGLE_STEP, 1));
}

/* What a runtime asks at each line: with nobody told of stops, with somebody told of another thread's, and at a stop. */
static void stops(void) {
    uint64_t may = 0;
    bool told = false;
    cq_stop at;
    OK(cq_reached(&thread, 1, 1, &told));
    double began = now_ns();
    for (uint64_t i = 0; i < rounds; i++) may += cq_may_stop(&thread);
    note("cq_may_stop, nobody is told of stops", now_ns() - began);
    SAME(may, 0);
    set_steps(true);
    began = now_ns();
    for (uint64_t i = 0; i < rounds; i++) OK(cq_reached(&thread, 1, 1, &told));
    note("cq_reached, and the thread does not stop", now_ns() - began);
    OK(cq_set_stop_notification_mode(&env, true, CQ_SINGLE_STEP, 0));
    began = now_ns();
    for (uint64_t i = 0; i < rounds; i++) {
        OK(cq_reached(&thread, 1, 1, &told));
        OK(cq_next_stop(&env, &at));
        OK(cq_end_stop(&env, 0));
    }
    note("a stop: reached, told and ended", now_ns() - began);
    OK(cq_set_stop_notification_mode(&env, false, CQ_SINGLE_STEP, 0));
    set_steps(false);
}

static cq_thread others[OTHERS];
static uint32_t numbers[OTHERS];

static void set_up_others(void) {
    for (uint32_t i = 0; i < OTHERS; i++) {
        OK(cq_attach_thread(&service, (const uint8_t *)"other", 5, 5, &others[i]));
        OK(cq_thread_number(&others[i], &numbers[i]));
        OK(cq_start(&others[i]));
        for (uint32_t k = 1; k < FRAMES; k++) OK(cq_enter(&others[i], k));
        OK(cq_enter_native(&others[i], 0));
        OK(cq_native(&others[i]));
    }
    OK(cq_meet(&env));
}

static void traces(void) {
    uint64_t times = rounds / OTHERS + 1;
    cq_stack_info info;
    set_up_others();
    double began = now_ns();
    for (uint64_t i = 0; i < times; i++) {
        OK(cq_gather_thread_list_stack_traces(&env, numbers, OTHERS, FRAMES));
        for (bool over = false; !over;) OK(cq_gather_step(&env, &over));
        for (uint64_t k = 0; k < OTHERS; k++) OK(cq_gathered_stack(&env, k, &info, frames, FRAMES));
        SAME(info.frame_count, FRAMES);
    }
    note("a trace of 16 native threads of 32 frames", (now_ns() - began) * (double)rounds / (double)times);
    for (uint32_t i = 0; i < OTHERS; i++) {
        OK(cq_back(&others[i]));
        OK(cq_end(&others[i]));
        OK(cq_detach_thread(&others[i]));
        bool gone;
        OK(cq_let_go(&env, numbers[i], &gone));
    }
}

static void turn(void) {
    poll_clear();
    enter_and_leave();
    poll();
    native_and_back();
    state();
    trace();
    set_frames();
    stops();
    traces();
}

int main(int count, char **words) {
    if (count > 1) rounds = strtoull(words[1], NULL, 0);
    OK(cq_make(64, 1, 8, CQ_CAN_SUSPEND | CQ_CAN_POP_FRAME, &service));
    OK(cq_attach_thread(&service, (const uint8_t *)"main", 4, 5, &thread));
    OK(cq_attach_environment(&service, &env));
    OK(cq_meet(&env));
    OK(cq_start(&thread));
    for (int i = 0; i < TURNS; i++) turn();
    tell_all();
    OK(cq_end(&thread));
    OK(cq_detach_thread(&thread));
    OK(cq_dispose_environment(&env));
    OK(cq_free(&service));
    return 0;
}
