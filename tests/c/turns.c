/* turns.c: a thread and an agent wait for each other in turn, and then two agents for each other. No wake-up is lost.
 *
 *     turns [TURNS]
 *
 * Each lets the other wait for about as long as one spins before it sleeps. slow_wait.c makes the going to sleep long,
 * so that many wake-ups come in it. One that is lost would be the end of it. */
#define _POSIX_C_SOURCE 200809L
#include "check.h"

#include <pthread.h>
#include <sched.h>
#include <stdatomic.h>
#include <time.h>

static cq_signal signal_of_all;
static cq_service service;
static cq_thread thread;
static cq_env env, other;
static atomic_bool is_over;
static atomic_int rounds;    /* how often the thread has come out of its poll */
static atomic_int turns_begun, gatherers_that_ended;    /* of the two agents together */
static int turns = 500;

static int64_t now_ns(void) {
    struct timespec now;
    clock_gettime(CLOCK_MONOTONIC, &now);
    return (int64_t)now.tv_sec * 1000000000 + now.tv_nsec;
}

static void dawdle(int turn) {
    int64_t end = now_ns() + 10000 + turn * (int64_t)7919 % 50000;
    while (now_ns() < end) { }
}

static void await(atomic_int *at, int least) {
    int64_t end = now_ns() + 20000000000;
    while (atomic_load(at) < least) {
        CHECK(now_ns() < end);
        sched_yield();
    }
}

/* The thread that was resumed, or let go by a trace, runs on. Nobody else would wake it. */
static void await_round(int before) { await(&rounds, before + 1); }

static void *agent(void *unused) {
    uint32_t count;
    uint64_t told;
    for (int i = 0; i < turns; i++) {
        OK(cq_wait_suspend_thread(&env, &signal_of_all, 0, -1));
        int before = atomic_load(&rounds);
        dawdle(i);
        OK(cq_wait_resume_thread(&env, &signal_of_all, 0, -1));
        await_round(before);
        OK(cq_wait_get_frame_count(&env, &signal_of_all, 0, -1, &count));
        SAME(count, 1);
        OK(cq_wait_get_all_stack_traces(&env, &signal_of_all, 8, -1, &told));
        SAME(told, 1);
        await_round(atomic_load(&rounds));
    }
    atomic_store(&is_over, true);
    return unused;
}

/* Two agents begin a trace at once in each turn. One of them meets the thread stopped, and only the other wakes it. */
static void *gatherer(void *given) {
    uint64_t told;
    for (int i = 1; i <= turns; i++) {
        atomic_fetch_add(&turns_begun, 1);
        await(&turns_begun, 2 * i);
        dawdle(given == &env ? i : 0);
        OK(cq_wait_get_all_stack_traces(given, &signal_of_all, 8, -1, &told));
        SAME(told, 1);
    }
    if (atomic_fetch_add(&gatherers_that_ended, 1) == 1) atomic_store(&is_over, true);
    return NULL;
}

/* It polls, and goes into native code now and then. That would wake an agent which has lost its wake-up to another. */
static void run(bool goes_native) {
    for (int i = 0; !atomic_load(&is_over); i++) {
        dawdle(i);
        if (goes_native && i % 4 == 0) {
            OK(cq_wait_native(&thread, &signal_of_all));
            dawdle(i);
            OK(cq_wait_back(&thread, &signal_of_all, -1));
        }
        OK(cq_wait_poll(&thread, &signal_of_all));
        atomic_fetch_add(&rounds, 1);
    }
}

int main(int count, char **words) {
    pthread_t id, second;
    if (count > 1) turns = atoi(words[1]);
    OK(cq_make(8, 2, 2, CQ_CAN_SUSPEND | CQ_CAN_POP_FRAME, &service));
    OK(cq_attach_thread(&service, (const uint8_t *)"main", 4, 5, &thread));
    OK(cq_attach_environment(&service, &env));
    OK(cq_attach_environment(&service, &other));
    OK(cq_add_capabilities(&env, CQ_CAN_SUSPEND));
    OK(cq_meet(&env));
    OK(cq_meet(&other));
    OK(cq_start(&thread));
    OK(cq_enter_native(&thread, 1));
    SAME(pthread_create(&id, NULL, agent, NULL), 0);
    run(true);
    SAME(pthread_join(id, NULL), 0);
    atomic_store(&is_over, false);
    SAME(pthread_create(&id, NULL, gatherer, &env), 0);
    SAME(pthread_create(&second, NULL, gatherer, &other), 0);
    run(false);
    SAME(pthread_join(id, NULL), 0);
    SAME(pthread_join(second, NULL), 0);
    OK(cq_wait_end(&thread, &signal_of_all));
    OK(cq_wait_detach_thread(&thread, &signal_of_all));
    OK(cq_wait_dispose_environment(&env, &signal_of_all));
    OK(cq_wait_dispose_environment(&other, &signal_of_all));
    OK(cq_free(&service));
    SAME(signal_of_all.threads.sleepers, 0);
    SAME(signal_of_all.agents.sleepers, 0);
    return 0;
}
