/* wait.c: who waits sleeps, is woken, and is not woken too early. */
#define _GNU_SOURCE
#include "wait.h"

#include <sys/resource.h>
#include <time.h>

cq_signal signal_of_all;
cq_service service;
cq_thread thread;
cq_env env;
atomic_int at;
static int64_t time_used;     /* of the processor, while the thread was held */
static long sleeps;           /* how often it slept meanwhile */

static int64_t read_clock(clockid_t clock) {
    struct timespec now;
    SAME(clock_gettime(clock, &now), 0);
    return (int64_t)now.tv_sec * SECOND + now.tv_nsec;
}

int64_t now_ns(void) { return read_clock(CLOCK_MONOTONIC); }

static long sleeps_so_far(void) {
    struct rusage used;
    SAME(getrusage(RUSAGE_THREAD, &used), 0);
    return used.ru_nvcsw;
}

void rest(int64_t time) {
    struct timespec left = { .tv_sec = time / SECOND, .tv_nsec = time % SECOND };
    while (nanosleep(&left, &left) != 0) { }
}

void await(int wanted) {
    while (atomic_load(&at) < wanted) {
        rest(MILLISECOND);
    }
}

pthread_t run(void *(*body)(void *)) {
    pthread_t id;
    atomic_store(&at, 0);
    SAME(pthread_create(&id, NULL, body, NULL), 0);
    return id;
}

void join(pthread_t id) { SAME(pthread_join(id, NULL), 0); }

static void set_up(void) {
    OK(cq_make(8, 2, WINDOW, CQ_CAN_SUSPEND | CQ_CAN_POP_FRAME, &service));
    OK(cq_wait_attach_thread(&service, &signal_of_all, (const uint8_t *)"main", 4, 5, &thread));
    OK(cq_wait_attach_environment(&service, &signal_of_all, &env));
    OK(cq_wait_meet(&env, &signal_of_all));
    OK(cq_add_capabilities(&env, CQ_CAN_SUSPEND));
    OK(cq_wait_start(&thread, &signal_of_all, -1));
}

static void tear_down(void) {
    OK(cq_wait_end(&thread, &signal_of_all));
    OK(cq_wait_detach_thread(&thread, &signal_of_all));
    OK(cq_wait_dispose_environment(&env, &signal_of_all));
    OK(cq_free(&service));
    SAME(signal_of_all.threads.sleepers, 0);
    SAME(signal_of_all.agents.sleepers, 0);
}

/* Polls until it was held once. */
static void *poll_until_held(void *unused) {
    while (cq_poll_clear(&thread)) {
        rest(MILLISECOND / 10);
    }
    int64_t before = read_clock(CLOCK_THREAD_CPUTIME_ID);
    long slept = sleeps_so_far();
    OK(cq_wait_poll(&thread, &signal_of_all));
    sleeps = sleeps_so_far() - slept;
    time_used = read_clock(CLOCK_THREAD_CPUTIME_ID) - before;
    atomic_store(&at, 1);
    return unused;
}

/* Another thread hands over for its count, this often. It runs and is asked on this thread of the operating system. */
static void another_hands_over(int times) {
    cq_thread second = { 0, NULL };
    uint32_t number;
    OK(cq_wait_attach_thread(&service, &signal_of_all, (const uint8_t *)"", 0, 5, &second));
    OK(cq_thread_number(&second, &number));
    OK(cq_wait_meet(&env, &signal_of_all));
    OK(cq_wait_start(&second, &signal_of_all, -1));
    for (int i = 0; i < times; i++) {
        cq_answer answer;
        cq_frame frame;
        SAME(cq_get_frame_count(&env, number, &answer), CQ_WAITING);
        cq_ticket ticket = answer.ticket;
        OK(cq_wait_poll(&second, &signal_of_all));
        OK(cq_collect(&env, &ticket, &answer, &frame, 1));
        rest(MILLISECOND / 10);
    }
    OK(cq_wait_end(&second, &signal_of_all));
    OK(cq_wait_detach_thread(&second, &signal_of_all));
}

/* A suspended thread sleeps: in a second it takes less than 50 ms of a processor, and it wakes a few times at most, though
 * another hands over 500 times. A resumption wakes it. */
static void suspended_thread_sleeps(void) {
    pthread_t id = run(poll_until_held);
    OK(cq_wait_suspend_thread(&env, &signal_of_all, 0, -1));
    another_hands_over(500);
    rest(SECOND);
    SAME(atomic_load(&at), 0);
    int64_t before = now_ns();
    OK(cq_wait_resume_thread(&env, &signal_of_all, 0, -1));
    join(id);
    CHECK(now_ns() - before < LONG);
    SAME(atomic_load(&at), 1);
    CHECK(time_used < 50 * MILLISECOND);
    CHECK(sleeps < 20);
}

/* The thread runs and does not poll, so that no answer comes. A call whose time is over is cancelled. */
static void time_outs_are_not_early(void) {
    static const int64_t times[] = { 0, 10000, MILLISECOND, 60 * MILLISECOND };
    cq_ticket none = { 0, 0, 1000000 };
    cq_answer answer;
    cq_frame frame;
    cq_event event;
    uint32_t count = 77;
    for (size_t i = 0; i < 4; i++) {
        int64_t before = now_ns();
        SAME(cq_wait_get_frame_count(&env, &signal_of_all, 0, times[i], &count), CQ_TIMED_OUT);
        CHECK(now_ns() - before >= times[i]);
        SAME(count, 77);
        OK(cq_out_at(&env, 0, &count));
        SAME(count, 1);
        CHECK(!cq_poll_clear(&thread));
        OK(cq_wait_poll(&thread, &signal_of_all));
        bool discarded = false;
        OK(cq_wait_discard(&env, &signal_of_all, 0, &discarded));
        CHECK(discarded);
        before = now_ns();
        SAME(cq_wait_next_event(&env, &signal_of_all, times[i], &event), CQ_TIMED_OUT);
        CHECK(now_ns() - before >= times[i]);
        before = now_ns();
        SAME(cq_wait_collect(&env, &signal_of_all, &none, times[i], &answer, &frame, 1), CQ_TIMED_OUT);
        CHECK(now_ns() - before >= times[i]);
        count = 77;
    }
}

/* A suspension whose time was over still takes place, and then the return of the thread is not waited for any longer.
 */
static void suspension_that_is_cancelled(void) {
    uint32_t state;
    SAME(cq_wait_suspend_thread(&env, &signal_of_all, 0, MILLISECOND), CQ_TIMED_OUT);
    SAME(cq_poll(&thread), CQ_HELD);
    cq_wake(&signal_of_all);
    int64_t before = now_ns();
    SAME(cq_wait_back(&thread, &signal_of_all, 20 * MILLISECOND), CQ_TIMED_OUT);
    CHECK(now_ns() - before >= 20 * MILLISECOND);
    OK(cq_wait_get_thread_state(&env, &signal_of_all, 0, -1, &state));
    SAME(state, 0x100005);
    OK(cq_wait_resume_thread(&env, &signal_of_all, 0, -1));
    OK(cq_wait_back(&thread, &signal_of_all, -1));
}

/* Each waits for ever for something, and is woken. */

static void *wait_for_event(void *unused) {
    cq_event event;
    atomic_store(&at, 1);
    OK(cq_wait_next_event(&env, &signal_of_all, -1, &event));
    SAME(event.kind, CQ_THREAD_ATTACHED);
    SAME(event.number, 2);
    return unused;
}

static void event_wakes(void) {
    cq_thread second = { 0, NULL };
    OK(cq_wait_set_event_notification_mode(&env, &signal_of_all, true, CQ_THREAD_ATTACHED));
    pthread_t id = run(wait_for_event);
    await(1);
    rest(20 * MILLISECOND);
    OK(cq_wait_attach_thread(&service, &signal_of_all, (const uint8_t *)"", 0, 5, &second));
    join(id);
    OK(cq_wait_detach_thread(&second, &signal_of_all));
}

static void *wait_for_count(void *unused) {
    uint32_t count = 77;
    atomic_store(&at, 1);
    OK(cq_wait_get_frame_count(&env, &signal_of_all, 0, -1, &count));
    SAME(count, 1);
    return unused;
}

/* An answer comes when the thread goes into native code. */
static void hand_over_wakes(void) {
    OK(cq_enter_native(&thread, 1));
    pthread_t id = run(wait_for_count);
    await(1);
    rest(20 * MILLISECOND);
    OK(cq_wait_native(&thread, &signal_of_all));
    join(id);
    OK(cq_wait_back(&thread, &signal_of_all, -1));
}

static void *wait_for_lists(void *unused) {
    const uint32_t threads[] = { 0, 0, 9 };
    uint32_t codes[3] = { 77, 77, 77 };
    OK(cq_wait_suspend_thread_list(&env, &signal_of_all, threads, 3, -1, codes));
    SAME(codes[0], CQ_OK);
    SAME(codes[1], CQ_THREAD_SUSPENDED);
    SAME(codes[2], CQ_INVALID_THREAD);
    atomic_store(&at, 1);
    rest(20 * MILLISECOND);
    OK(cq_wait_resume_thread_list(&env, &signal_of_all, threads, 3, -1, codes));
    SAME(codes[0], CQ_OK);
    SAME(codes[1], CQ_THREAD_NOT_SUSPENDED);
    SAME(codes[2], CQ_INVALID_THREAD);
    return unused;
}

static void lists(void) {
    const uint32_t threads[] = { 0, 0 };
    uint32_t codes[2] = { 77, 77 };
    pthread_t id = run(wait_for_lists);
    while (atomic_load(&at) == 0) {
        OK(cq_wait_poll(&thread, &signal_of_all));
    }
    join(id);
    OK(cq_wait_poll(&thread, &signal_of_all));
    int64_t before = now_ns();
    OK(cq_wait_suspend_thread_list(&env, &signal_of_all, threads, 2, 5 * MILLISECOND, codes));
    CHECK(now_ns() - before >= 5 * MILLISECOND);
    SAME(codes[0], CQ_TIMED_OUT);
    SAME(codes[1], CQ_TIMED_OUT);
    SAME(cq_poll(&thread), CQ_HELD);
    OK(cq_wait_resume_thread(&env, &signal_of_all, 0, -1));
    OK(cq_wait_back(&thread, &signal_of_all, -1));
}

static uint32_t both[2];

static void *suspend_both(void *unused) {
    uint32_t codes[2] = { 77, 77 };
    OK(cq_wait_suspend_thread_list(&env, &signal_of_all, both, 2, -1, codes));
    SAME(codes[0], CQ_OK);
    SAME(codes[1], CQ_OK);
    OK(cq_wait_resume_thread_list(&env, &signal_of_all, both, 2, -1, codes));
    SAME(codes[0], CQ_OK);
    SAME(codes[1], CQ_OK);
    return unused;
}

/* A list is posted at its second thread before the first one has polled. */
static void list_is_posted_before_it_waits(void) {
    cq_thread second = { 0, NULL };
    OK(cq_wait_attach_thread(&service, &signal_of_all, (const uint8_t *)"", 0, 5, &second));
    OK(cq_thread_number(&second, &both[1]));
    OK(cq_wait_meet(&env, &signal_of_all));
    OK(cq_wait_start(&second, &signal_of_all, -1));
    pthread_t id = run(suspend_both);
    int64_t end = now_ns() + LONG;
    while (cq_poll_clear(&second)) {
        CHECK(now_ns() < end);
        rest(MILLISECOND);
    }
    SAME(cq_poll(&second), CQ_HELD);
    SAME(cq_poll(&thread), CQ_HELD);
    cq_wake(&signal_of_all);
    OK(cq_wait_back(&second, &signal_of_all, -1));
    OK(cq_wait_back(&thread, &signal_of_all, -1));
    join(id);
    OK(cq_wait_end(&second, &signal_of_all));
    OK(cq_wait_detach_thread(&second, &signal_of_all));
}

/* Without the capability a list is refused as a whole, and no code is written. */
static void list_without_capability(void) {
    uint32_t codes[1] = { 77 };
    OK(cq_relinquish_capabilities(&env, CQ_CAN_SUSPEND));
    SAME(cq_wait_suspend_thread_list(&env, &signal_of_all, both, 1, -1, codes), CQ_MUST_POSSESS_CAPABILITY);
    SAME(cq_wait_resume_thread_list(&env, &signal_of_all, both, 0, -1, codes), CQ_MUST_POSSESS_CAPABILITY);
    SAME(codes[0], 77);
}

int main(void) {
    set_up();
    suspended_thread_sleeps();
    time_outs_are_not_early();
    suspension_that_is_cancelled();
    event_wakes();
    hand_over_wakes();
    lists();
    list_is_posted_before_it_waits();
    list_without_capability();
    OK(cq_add_capabilities(&env, CQ_CAN_SUSPEND));
    OK(cq_leave(&thread));
    waits_for_any();
    full_windows();
    cancelled_calls();
    crowds();
    suspensions_taken_back();
    environments_disposed_of();
    news();
    tear_down();
    return 0;
}
