/* ordered.c: what threads and agents may do with memory that is not the library's, under the thread sanitizer.
 *
 *     ordered             agents read and write a thread's memory while it is suspended
 *     ordered race        it also does so while the thread runs, which the sanitizer has to report
 */
#include "check.h"

#include <pthread.h>
#include <sched.h>
#include <stdatomic.h>

enum { TIMES = 50 };

static cq_service service;
static cq_signal signal_of_all;
static cq_thread thread;
static cq_env env;
static atomic_bool over;
static atomic_uint turns;    /* of the thread. Neither is ordered */
static uint64_t counts[2];   /* plain memory: of the thread, and what the agent leaves there */

/* What it finds rises, since nobody else writes while the thread runs. */
static void *interpreter(void *unused) {
    uint64_t left = 0;
    OK(cq_wait_start(&thread, &signal_of_all, -1));
    while (!atomic_load_explicit(&over, memory_order_relaxed)) {
        counts[0]++;
        CHECK(counts[1] >= left);
        left = counts[1];
        atomic_fetch_add_explicit(&turns, 1, memory_order_relaxed);
        OK(cq_wait_poll(&thread, &signal_of_all));
    }
    OK(cq_wait_end(&thread, &signal_of_all));
    return unused;
}

__attribute__((noinline)) static uint64_t count(void) { return counts[0]; }

static void await_a_turn(void) {
    unsigned seen = atomic_load_explicit(&turns, memory_order_relaxed);
    while (atomic_load_explicit(&turns, memory_order_relaxed) == seen) sched_yield();
}

static void look(void) {
    OK(cq_wait_suspend_thread(&env, &signal_of_all, 0, -1));
    uint64_t before = count();
    counts[1]++;
    SAME(count(), before);
    OK(cq_wait_resume_thread(&env, &signal_of_all, 0, -1));
}

/* One agent leaves something in the memory of a thread that stays blocked, and resumes it. Then another one suspends it and finds that. */
static cq_thread still;       /* number 1 */
static cq_env other;
static atomic_bool is_left;   /* not ordered */
static uint64_t left_there;

static void *find(void *unused) {
    while (!atomic_load_explicit(&is_left, memory_order_relaxed)) sched_yield();
    OK(cq_wait_suspend_thread(&other, &signal_of_all, 1, -1));
    SAME(left_there, 1);
    OK(cq_wait_resume_thread(&other, &signal_of_all, 1, -1));
    return unused;
}

static void leave_and_find(void) {
    pthread_t finder;
    OK(cq_wait_attach_thread(&service, &signal_of_all, (const uint8_t *)"", 0, 5, &still));
    OK(cq_wait_attach_environment(&service, &signal_of_all, &other));
    OK(cq_wait_meet(&env, &signal_of_all));
    OK(cq_wait_meet(&other, &signal_of_all));
    OK(cq_add_capabilities(&other, CQ_CAN_SUSPEND));
    OK(cq_wait_start(&still, &signal_of_all, -1));
    OK(cq_wait_block(&still, &signal_of_all, CQ_PARK));
    SAME(pthread_create(&finder, NULL, find, NULL), 0);
    OK(cq_wait_suspend_thread(&env, &signal_of_all, 1, -1));
    left_there = 1;
    OK(cq_wait_resume_thread(&env, &signal_of_all, 1, -1));
    atomic_store_explicit(&is_left, true, memory_order_relaxed);
    SAME(pthread_join(finder, NULL), 0);
    OK(cq_wait_back(&still, &signal_of_all, -1));
    OK(cq_wait_end(&still, &signal_of_all));
    OK(cq_wait_detach_thread(&still, &signal_of_all));
    OK(cq_wait_dispose_environment(&other, &signal_of_all));
}

int main(int words, char **word) {
    pthread_t runtime;
    bool race = words > 1 && strcmp(word[1], "race") == 0;
    uint64_t seen = 0;
    OK(cq_make(8, 2, 8, CQ_CAN_SUSPEND | CQ_CAN_POP_FRAME, &service));
    OK(cq_wait_attach_thread(&service, &signal_of_all, (const uint8_t *)"", 0, 5, &thread));
    OK(cq_wait_attach_environment(&service, &signal_of_all, &env));
    OK(cq_wait_meet(&env, &signal_of_all));
    OK(cq_add_capabilities(&env, CQ_CAN_SUSPEND));
    SAME(pthread_create(&runtime, NULL, interpreter, NULL), 0);
    uint32_t state = 0;
    while (!(state & CQ_STATE_ALIVE)) OK(cq_wait_get_thread_state(&env, &signal_of_all, 0, -1, &state));
    for (int i = 0; i < TIMES; i++) {
        look();
        await_a_turn();
        if (race) seen += count();
    }
    atomic_store_explicit(&over, true, memory_order_relaxed);
    SAME(pthread_join(runtime, NULL), 0);
    SAME(counts[1], TIMES);
    CHECK(!race || seen > 0);
    leave_and_find();
    OK(cq_wait_detach_thread(&thread, &signal_of_all));
    OK(cq_wait_dispose_environment(&env, &signal_of_all));
    OK(cq_free(&service));
    return 0;
}
