/* gather_waits.c: traces of several threads by the calls that wait, of threads that run.
 *
 *     gather_waits [ROUNDS]
 *
 * ROUNDS is how many traces each of two agents makes at once. */
#define _POSIX_C_SOURCE 200809L
#include "check.h"

#include <pthread.h>
#include <sched.h>
#include <stdatomic.h>
#include <time.h>

enum { WORKERS = 3, DEPTH = 4 };

static const int64_t MILLISECOND = 1000000, SECOND = 1000000000;

/* A wait that is ended by a wake-up ends long before this. */
static const int64_t LONG = 60 * (int64_t)1000000000;

static cq_signal signal_of_all;
static cq_service service;
static cq_thread threads[WORKERS];
static cq_env env, other;
static pthread_t ids[WORKERS];
static atomic_bool is_over;
static atomic_int at;                          /* how far the other thread of the operating system is */
static int64_t time_used;                      /* of the processor, while it waited */
static atomic_uint rounds_of[WORKERS];         /* how often each has come out of its poll */
static atomic_uint generations[WORKERS];
static uint32_t trace_rounds = 3000;

static int64_t read_clock(clockid_t clock) {
    struct timespec now;
    SAME(clock_gettime(clock, &now), 0);
    return (int64_t)now.tv_sec * SECOND + now.tv_nsec;
}

static int64_t now_ns(void) { return read_clock(CLOCK_MONOTONIC); }

static void rest(int64_t time) {
    struct timespec left = { .tv_sec = time / SECOND, .tv_nsec = time % SECOND };
    while (nanosleep(&left, &left) != 0) { }
}

static pthread_t run(void *(*body)(void *), void *given) {
    pthread_t id;
    SAME(pthread_create(&id, NULL, body, given), 0);
    return id;
}

static void join(pthread_t id) { SAME(pthread_join(id, NULL), 0); }

static void await(int wanted) {
    while (atomic_load(&at) < wanted) rest(MILLISECOND);
}

static void set_up(void) {
    OK(cq_make(DEPTH, 2, 4, CQ_CAN_SUSPEND | CQ_CAN_POP_FRAME, &service));
    OK(cq_wait_attach_environment(&service, &signal_of_all, &env));
    OK(cq_wait_attach_environment(&service, &signal_of_all, &other));
    for (uint32_t i = 0; i < WORKERS; i++) {
        OK(cq_wait_attach_thread(&service, &signal_of_all, (const uint8_t *)"", 0, 5, &threads[i]));
    }
    OK(cq_wait_meet(&env, &signal_of_all));
    OK(cq_wait_meet(&other, &signal_of_all));
    atomic_store(&is_over, false);
    atomic_store(&at, 0);
}

static void tear_down(void) {
    for (uint32_t i = 0; i < WORKERS; i++) {
        OK(cq_wait_detach_thread(&threads[i], &signal_of_all));
        atomic_store(&generations[i], 0);
    }
    OK(cq_wait_dispose_environment(&env, &signal_of_all));
    OK(cq_wait_dispose_environment(&other, &signal_of_all));
    OK(cq_free(&service));
    SAME(signal_of_all.threads.sleepers, 0);
    SAME(signal_of_all.agents.sleepers, 0);
}

static uint32_t number_of(const cq_thread *thread) { return (uint32_t)(thread - threads); }

static void check_told(cq_env *e, uint64_t index, uint32_t thread, uint32_t state, const cq_frame *wanted, size_t count) {
    cq_frame frames[DEPTH];
    cq_stack_info info;
    OK(cq_gathered_stack(e, index, &info, frames, DEPTH));
    SAME(info.thread, thread);
    SAME(info.state, state);
    SAME(info.frame_count, count);
    for (size_t i = 0; i < count; i++) {
        SAME(frames[i].method, wanted[i].method);
        SAME(frames[i].location, wanted[i].location);
    }
}

static void check_none(cq_env *e) {
    uint64_t count = 77;
    SAME(cq_gathered(e, &count), CQ_NONE);
    SAME(count, 77);
}

/* It polls all the time, with as many frames as its number says, and one more. */
static void *poller(void *given) {
    cq_thread *thread = given;
    uint32_t number = number_of(thread);
    OK(cq_wait_start(thread, &signal_of_all, -1));
    for (uint32_t i = 0; i <= number; i++) OK(cq_enter(thread, 10 * number + i));
    while (!atomic_load(&is_over)) {
        OK(cq_wait_poll(thread, &signal_of_all));
        atomic_fetch_add(&rounds_of[number], 1);
        sched_yield();
    }
    OK(cq_wait_end(thread, &signal_of_all));
    return NULL;
}

static void await_rounds(uint32_t number) {
    uint32_t before = atomic_load(&rounds_of[number]);
    int64_t end = now_ns() + LONG;
    while (atomic_load(&rounds_of[number]) < before + 2) {
        CHECK(now_ns() < end);
        sched_yield();
    }
}

static void start_pollers(uint32_t count) {
    for (uint32_t i = 0; i < count; i++) {
        ids[i] = run(poller, &threads[i]);
        await_rounds(i);
    }
}

static void join_pollers(uint32_t count) {
    atomic_store(&is_over, true);
    for (uint32_t i = 0; i < count; i++) join(ids[i]);
}

/* Two threads that run, and one that has not started. Afterwards both run on. */
static void two_threads(void) {
    static const uint32_t list[] = { 1, 2, 0, 1 };
    uint64_t count = 77;
    set_up();
    start_pollers(2);
    OK(cq_wait_get_all_stack_traces(&env, &signal_of_all, DEPTH, -1, &count));
    SAME(count, 2);
    check_told(&env, 0, 0, 0x5, (const cq_frame[]){ { 0, 0 } }, 1);
    check_told(&env, 1, 1, 0x5, (const cq_frame[]){ { 11, 0 }, { 10, 0 } }, 2);
    OK(cq_wait_get_thread_list_stack_traces(&env, &signal_of_all, list, 4, 1, LONG, &count));
    SAME(count, 4);
    check_told(&env, 0, 1, 0x5, (const cq_frame[]){ { 11, 0 } }, 1);
    check_told(&env, 1, 2, 0, NULL, 0);
    check_told(&env, 2, 0, 0x5, (const cq_frame[]){ { 0, 0 } }, 1);
    check_told(&env, 3, 1, 0x5, (const cq_frame[]){ { 11, 0 } }, 1);
    await_rounds(0);
    await_rounds(1);
    join_pollers(2);
    tear_down();
}

/* Refusals come at once, and nothing was begun. */
static void refusals(void) {
    uint64_t count = 77;
    set_up();
    SAME(cq_wait_get_all_stack_traces(&env, &signal_of_all, -1, -1, &count), CQ_ILLEGAL_ARGUMENT);
    SAME(cq_wait_get_thread_list_stack_traces(&env, &signal_of_all, (const uint32_t[]){ 9 }, 1, 1, -1, &count),
         CQ_INVALID_THREAD);
    SAME(cq_wait_get_thread_list_stack_traces(&env, &signal_of_all, (const uint32_t[]){ 0 }, 1, -1, -1, &count),
         CQ_ILLEGAL_ARGUMENT);
    SAME(cq_wait_get_all_stack_traces(&(cq_env){ 0, NULL }, &signal_of_all, 1, -1, &count), CQ_MISUSED);
    check_none(&env);
    OK(cq_gather_all_stack_traces(&env, 1));
    SAME(cq_wait_get_all_stack_traces(&env, &signal_of_all, 1, -1, &count), CQ_MISUSED);
    SAME(cq_wait_get_thread_list_stack_traces(&env, &signal_of_all, (const uint32_t[]){ 0 }, 1, 1, -1, &count), CQ_MISUSED);
    SAME(count, 77);
    for (bool over = false; !over;) OK(cq_gather_step(&env, &over));
    OK(cq_wait_get_all_stack_traces(&env, &signal_of_all, 1, 0, &count));
    SAME(count, 0);
    tear_down();
}

/* A thread that never polls. The trace is given up, not too early, and the other thread runs on. So does this one. */
static void time_outs(void) {
    static const int64_t times[] = { 0, 10000, MILLISECOND, 60 * MILLISECOND };
    uint64_t count = 77;
    set_up();
    start_pollers(1);
    OK(cq_wait_start(&threads[1], &signal_of_all, -1));
    for (size_t i = 0; i < 4; i++) {
        int64_t before = now_ns();
        SAME(cq_wait_get_all_stack_traces(&env, &signal_of_all, DEPTH, times[i], &count), CQ_TIMED_OUT);
        CHECK(now_ns() - before >= times[i]);
        SAME(count, 77);
        check_none(&env);
        await_rounds(0);
        CHECK(cq_poll_clear(&threads[1]));
        OK(cq_poll(&threads[1]));
    }
    OK(cq_enter_native(&threads[1], 6));
    OK(cq_wait_native(&threads[1], &signal_of_all));
    OK(cq_wait_get_thread_list_stack_traces(&env, &signal_of_all, (const uint32_t[]){ 1, 2 }, 2, DEPTH, 0, &count));
    SAME(count, 2);
    check_told(&env, 0, 1, 0x400005, (const cq_frame[]){ { 6, -1 } }, 1);
    OK(cq_wait_back(&threads[1], &signal_of_all, -1));
    OK(cq_wait_end(&threads[1], &signal_of_all));
    join_pollers(1);
    tear_down();
}

/* A wait that is tested sleeps, and takes less than 50 ms of a processor meanwhile. */
static void *wait_for_trace(void *unused) {
    uint64_t count = 77;
    int64_t before = read_clock(CLOCK_THREAD_CPUTIME_ID);
    atomic_store(&at, 1);
    OK(cq_wait_get_thread_list_stack_traces(&env, &signal_of_all, (const uint32_t[]){ 0, 1 }, 2, DEPTH, -1, &count));
    time_used = read_clock(CLOCK_THREAD_CPUTIME_ID) - before;
    SAME(count, 2);
    atomic_store(&at, 2);
    return unused;
}

/* Joins one who waited, and was woken just now. */
static void join_woken(pthread_t id) {
    int64_t before = now_ns();
    join(id);
    CHECK(now_ns() - before < LONG);
    CHECK(time_used < 50 * MILLISECOND);
}

static void hand_over(int how) {
    switch (how) {
    case 0: OK(cq_wait_poll(&threads[0], &signal_of_all)); break;
    case 1: OK(cq_wait_native(&threads[0], &signal_of_all)); break;
    case 2: OK(cq_wait_block(&threads[0], &signal_of_all, CQ_PARK)); break;
    default: OK(cq_wait_end(&threads[0], &signal_of_all)); break;
    }
}

/* A trace sleeps while a thread runs on. It is woken when the thread polls, goes native, blocks or ends. */
static void hand_over_wakes(void) {
    static const uint32_t states[] = { 0x5, 0x400005, 0x291, 0x2 };
    set_up();
    OK(cq_wait_start(&threads[0], &signal_of_all, -1));
    OK(cq_enter_native(&threads[0], 1));
    for (int how = 0; how < 4; how++) {
        atomic_store(&at, 0);
        pthread_t id = run(wait_for_trace, NULL);
        await(1);
        while (cq_poll_clear(&threads[0])) rest(MILLISECOND);
        rest(200 * MILLISECOND);
        hand_over(how);
        if (how == 1 || how == 2) OK(cq_wait_back(&threads[0], &signal_of_all, -1));
        join_woken(id);
        check_told(&env, 0, 0, states[how], &(const cq_frame){ 1, -1 }, how < 3 ? 1 : 0);
    }
    tear_down();
}

static void *start_and_end(void *unused) {
    int64_t before = read_clock(CLOCK_THREAD_CPUTIME_ID);
    atomic_store(&at, 1);
    OK(cq_wait_start(&threads[0], &signal_of_all, -1));
    time_used = read_clock(CLOCK_THREAD_CPUTIME_ID) - before;
    OK(cq_wait_end(&threads[0], &signal_of_all));
    return unused;
}

static void *poll_once(void *unused) {
    atomic_store(&at, 1);
    while (cq_poll_clear(&threads[1])) rest(MILLISECOND);
    int64_t before = read_clock(CLOCK_THREAD_CPUTIME_ID);
    OK(cq_wait_poll(&threads[1], &signal_of_all));
    time_used = read_clock(CLOCK_THREAD_CPUTIME_ID) - before;
    return unused;
}

/* Gathers by hand as far as it can. */
static uint32_t go_on(cq_env *e) {
    bool over = false;
    uint32_t code = CQ_OK;
    while (!over && (code == CQ_OK || code == CQ_BUSY)) code = cq_gather_step(e, &over);
    return code;
}

/* A trace by hand. A thread that wants to start, one that is held, and the trace of another environment sleep until it is
 * over. */
static void end_of_a_trace_wakes(void) {
    void *(*const bodies[])(void *) = { start_and_end, poll_once, wait_for_trace };
    set_up();
    OK(cq_wait_start(&threads[1], &signal_of_all, -1));
    for (int i = 0; i < 3; i++) {
        atomic_store(&at, 0);
        OK(cq_gather_thread_list_stack_traces(&other, (const uint32_t[]){ 0, 1 }, 2, DEPTH));
        SAME(go_on(&other), CQ_STILL_RUNNING);
        pthread_t id = run(bodies[i], NULL);
        await(1);
        rest(200 * MILLISECOND);
        if (i != 1) SAME(cq_poll(&threads[1]), CQ_HELD);
        while (go_on(&other) == CQ_STILL_RUNNING) rest(MILLISECOND);
        cq_wake(&signal_of_all);
        if (i != 1) OK(cq_wait_back(&threads[1], &signal_of_all, -1));
        while (i == 2 && atomic_load(&at) < 2) {
            OK(cq_wait_poll(&threads[1], &signal_of_all));
            rest(MILLISECOND);
        }
        join_woken(id);
    }
    check_told(&env, 0, 0, 0x2, NULL, 0);
    check_told(&env, 1, 1, 0x5, NULL, 0);
    OK(cq_wait_end(&threads[1], &signal_of_all));
    tear_down();
}

static void *give_up_soon(void *unused) {
    uint64_t count = 77;
    atomic_store(&at, 1);
    SAME(cq_wait_get_all_stack_traces(&other, &signal_of_all, DEPTH, 300 * MILLISECOND, &count), CQ_TIMED_OUT);
    return unused;
}

/* A trace that is given up wakes another, which has met a thread that it had stopped. */
static void giving_up_wakes(void) {
    set_up();
    OK(cq_wait_start(&threads[1], &signal_of_all, -1));
    pthread_t first = run(give_up_soon, NULL);
    while (cq_poll_clear(&threads[1])) rest(MILLISECOND);
    pthread_t second = run(wait_for_trace, NULL);
    join(first);
    while (cq_poll_clear(&threads[1])) rest(MILLISECOND);
    OK(cq_wait_poll(&threads[1], &signal_of_all));
    join_woken(second);
    check_none(&other);
    OK(cq_wait_end(&threads[1], &signal_of_all));
    tear_down();
}

/* Threads in step. Each goes to the next generation when all others are at most one behind. So at any one moment no two are
 * further than one apart. A thread has 1, 2 or 3 frames, and all are at the location of its generation. */

static bool is_one_behind(uint32_t generation) {
    for (uint32_t i = 0; i < WORKERS; i++) {
        if (atomic_load(&generations[i]) < generation) return true;
    }
    return false;
}

static void *walk_in_step(void *given) {
    cq_thread *thread = given;
    uint32_t number = number_of(thread);
    OK(cq_wait_start(thread, &signal_of_all, -1));
    for (uint32_t generation = 1; !atomic_load(&is_over); generation++) {
        cq_frame frames[3] = { { number, generation }, { number, generation }, { number, generation } };
        OK(cq_set_frames(thread, frames, 1 + generation % 3));
        atomic_store(&generations[number], generation);
        while (is_one_behind(generation) && !atomic_load(&is_over)) {
            OK(cq_wait_poll(thread, &signal_of_all));
            sched_yield();
        }
        OK(cq_wait_poll(thread, &signal_of_all));
    }
    OK(cq_wait_end(thread, &signal_of_all));
    return NULL;
}

/* The generation that a trace tells of a thread. */
static int64_t generation_told(cq_env *e, uint32_t thread) {
    cq_frame frames[DEPTH];
    cq_stack_info info;
    OK(cq_gathered_stack(e, thread, &info, frames, DEPTH));
    SAME(info.thread, thread);
    SAME(info.state, 0x5);
    SAME(info.frame_count, 1 + frames[0].location % 3);
    for (uint64_t i = 0; i < info.frame_count; i++) {
        SAME(frames[i].method, thread);
        SAME(frames[i].location, frames[0].location);
    }
    return frames[0].location;
}

/* Traces of all threads, each of another moment. */
static void *trace_in_turn(void *given) {
    for (uint32_t round = 0; round < trace_rounds; round++) {
        int64_t least = INT64_MAX, most = 0;
        uint64_t count = 77;
        OK(cq_wait_get_all_stack_traces(given, &signal_of_all, DEPTH, -1, &count));
        SAME(count, WORKERS);
        for (uint32_t i = 0; i < WORKERS; i++) {
            int64_t generation = generation_told(given, i);
            least = generation < least ? generation : least;
            most = generation > most ? generation : most;
        }
        CHECK(most - least <= 1);
        while (atomic_load(&generations[0]) <= most) sched_yield();
    }
    return NULL;
}

/* Traces one after the other are of different moments. This shows that the threads do go on. */
static void trace_one_by_one(void) {
    cq_frame first[DEPTH], last[DEPTH];
    uint32_t count;
    int64_t end = now_ns() + LONG;
    do {
        CHECK(now_ns() < end);
        OK(cq_wait_get_stack_trace(&env, &signal_of_all, 0, 0, DEPTH, -1, first, DEPTH, &count));
        rest(MILLISECOND);
        OK(cq_wait_get_stack_trace(&env, &signal_of_all, WORKERS - 1, 0, DEPTH, -1, last, DEPTH, &count));
    } while (last[0].location - first[0].location <= 1);
}

/* Two agents trace threads that go in step, both at once. */
static void one_moment(void) {
    set_up();
    for (uint32_t i = 0; i < WORKERS; i++) ids[i] = run(walk_in_step, &threads[i]);
    while (is_one_behind(2)) rest(MILLISECOND);
    pthread_t second = run(trace_in_turn, &other);
    trace_in_turn(&env);
    join(second);
    trace_one_by_one();
    join_pollers(WORKERS);
    tear_down();
}

int main(int count, char **words) {
    if (count > 1) trace_rounds = (uint32_t)strtoul(words[1], NULL, 0);
    two_threads();
    refusals();
    time_outs();
    hand_over_wakes();
    end_of_a_trace_wakes();
    giving_up_wakes();
    one_moment();
    return 0;
}
