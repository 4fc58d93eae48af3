/* stops_threads.c: threads that stop while agents look at them (cq_wait_reached). */
#define _POSIX_C_SOURCE 200809L
#include "stops.h"

#include <pthread.h>
#include <time.h>

enum { LAST = 5, MANY = 200 };

static cq_signal signal_of_all;
static uint32_t at;    /* the line that the first thread has gone past */

static uint32_t line_now(void) { return __atomic_load_n(&at, __ATOMIC_SEQ_CST); }

/* A thread that has to stop at this line. */
static void stop_at(cq_thread *thread, uint32_t line) {
    cq_frame frame = { LINES, line };
    OK(cq_set_frames(thread, &frame, 1));
    OK(cq_wait_stop(thread, &signal_of_all));
}

static void go_to(cq_thread *thread, uint32_t line) {
    bool stops = false;
    if (cq_may_stop(thread)) OK(cq_wait_reached(thread, &signal_of_all, LINES, line, &stops));
    if (stops) stop_at(thread, line);
}

static void *runs(void *unused) {
    OK(cq_wait_start(&first, &signal_of_all, -1));
    for (uint32_t line = 1; line <= LAST; line++) {
        go_to(&first, line);
        __atomic_store_n(&at, line, __ATOMIC_SEQ_CST);
    }
    bool stops = false;
    OK(cq_wait_leaves(&first, &signal_of_all, LINES, LAST, 1, &stops));
    if (stops) stop_at(&first, LAST);
    OK(cq_wait_end(&first, &signal_of_all));
    return unused;
}

static void nap(void) {
    struct timespec time = { 0, 20000000 };
    nanosleep(&time, NULL);
}

static void check_stop(cq_env *by, uint32_t line, uint32_t why) {
    cq_stop stop;
    OK(cq_wait_next_stop(by, &signal_of_all, -1, &stop));
    SAME(stop.thread, 0);
    SAME(stop.method, LINES);
    SAME(stop.location, line);
    SAME(stop.why, why);
}

/* The thread stands at this line. Its stack is read at once. */
static void check_stands(uint32_t line, bool is_suspended) {
    cq_frame frame;
    uint32_t count, state;
    OK(cq_wait_get_stack_trace(&env, &signal_of_all, 0, 0, 10, -1, &frame, 1, &count));
    SAME(count, 1);
    SAME(frame.location, line);
    OK(cq_wait_get_thread_state(&env, &signal_of_all, 0, -1, &state));
    CHECK(state & CQ_STATE_PARKED);
    SAME((state & CQ_STATE_SUSPENDED) != 0, is_suspended);
    SAME(line_now(), line - 1);
}

static void meet(cq_env *by) {
    OK(cq_wait_meet(by, &signal_of_all));
    OK(cq_add_capabilities(by, CQ_CAN_SUSPEND));
}

/* A breakpoint, a suspension at it, steps, and the end of a frame. */
static void check_one(void) {
    begin();
    meet(&env);
    meet(&other);
    OK(cq_set_breakpoint(&env, LINES, 2));
    OK(cq_set_stop_notification_mode(&env, true, CQ_BREAKPOINT, CQ_ALL_THREADS));
    OK(cq_set_stop_notification_mode(&env, true, CQ_FRAME_POP, 0));
    pthread_t id;
    SAME(pthread_create(&id, NULL, runs, NULL), 0);
    check_stop(&env, 2, CQ_STOP_BREAKPOINT);
    check_stands(2, false);
    OK(cq_wait_suspend_thread(&other, &signal_of_all, 0, -1));
    check_stands(2, true);
    OK(cq_set_stop_notification_mode(&env, true, CQ_SINGLE_STEP, 0));
    OK(cq_wait_end_stop(&env, &signal_of_all, 0));
    nap();
    check_stands(2, true);
    OK(cq_wait_resume_thread(&other, &signal_of_all, 0, -1));
    check_stop(&env, 3, CQ_STOP_SINGLE_STEP);
    check_stands(3, false);
    cq_stop none;
    SAME(cq_wait_next_stop(&env, &signal_of_all, 1000000, &none), CQ_TIMED_OUT);
    OK(cq_set_stop_notification_mode(&env, false, CQ_SINGLE_STEP, 0));
    OK(cq_notify_frame_pop(&env, 0, 1));
    OK(cq_wait_end_stop(&env, &signal_of_all, 0));
    check_stop(&env, LAST, CQ_STOP_FRAME_POP);
    SAME(line_now(), LAST);
    OK(cq_wait_end_stop(&env, &signal_of_all, 0));
    SAME(pthread_join(id, NULL), 0);
    finish();
}

/* A thread at a stop goes on once its environment is disposed of. */
static void check_disposed(void) {
    begin();
    OK(cq_set_stop_notification_mode(&other, true, CQ_SINGLE_STEP, CQ_ALL_THREADS));
    pthread_t id;
    SAME(pthread_create(&id, NULL, runs, NULL), 0);
    check_stop(&other, 1, CQ_STOP_SINGLE_STEP);
    OK(cq_wait_dispose_environment(&other, &signal_of_all));
    SAME(pthread_join(id, NULL), 0);
    SAME(line_now(), LAST);
    finish();
}

static void *steps(void *with) {
    cq_thread *thread = with;
    OK(cq_wait_start(thread, &signal_of_all, -1));
    for (uint32_t line = 1; line <= MANY; line++) go_to(thread, line);
    OK(cq_wait_end(thread, &signal_of_all));
    return NULL;
}

static void *agent(void *with) {
    cq_env *by = with;
    uint32_t last[2] = { 0, 0 };
    for (int i = 0; i < 2 * MANY; i++) {
        cq_stop stop;
        OK(cq_wait_next_stop(by, &signal_of_all, -1, &stop));
        SAME(stop.why, CQ_STOP_SINGLE_STEP);
        SAME(stop.location, ++last[stop.thread]);
        OK(cq_wait_end_stop(by, &signal_of_all, stop.thread));
    }
    return NULL;
}

/* Two threads stop at each line for two agents, and each agent is told each line once, in order. */
static void check_many(void) {
    begin();
    OK(cq_set_stop_notification_mode(&env, true, CQ_SINGLE_STEP, CQ_ALL_THREADS));
    OK(cq_set_stop_notification_mode(&other, true, CQ_SINGLE_STEP, CQ_ALL_THREADS));
    pthread_t ids[4];
    SAME(pthread_create(&ids[0], NULL, agent, &env), 0);
    SAME(pthread_create(&ids[1], NULL, agent, &other), 0);
    SAME(pthread_create(&ids[2], NULL, steps, &first), 0);
    SAME(pthread_create(&ids[3], NULL, steps, &second), 0);
    for (int i = 0; i < 4; i++) SAME(pthread_join(ids[i], NULL), 0);
    finish();
}

void check_threads(void) {
    check_one();
    check_disposed();
    check_many();
}
