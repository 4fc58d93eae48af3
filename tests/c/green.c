/* green.c: a runtime with many threads of its own over few of the operating system.
 *
 *     green [THREADS]
 *
 * Four carriers attach THREADS threads in turns, start each, let it enter a method of its own, and park it. Then an environment
 * tells the state of each and traces all at once. Then the carriers give the threads back, in three orders: the oldest first, the
 * newest first, and mixed. After each third the environment lets go of them, and the rest are told as before. */
#define _POSIX_C_SOURCE 200809L
#include "check.h"
#include "counted_heap.h"

#include <pthread.h>

enum { CARRIERS = 4, MOST_THREADS = 65536, PARKED = 0x291 };

typedef struct {
    uint32_t carrier;
    int third;
} task;

static cq_signal shared;
static cq_service services[CARRIERS];
static cq_env env;
static uint32_t threads = 4096;
static cq_thread given[MOST_THREADS];
static uint32_t numbers[MOST_THREADS];       /* the service's number of each */
static uint32_t method_of[MOST_THREADS];     /* by the service's number: the method that its thread entered */
static uint32_t told[MOST_THREADS];
static bool is_there[MOST_THREADS];          /* by the service's number */

static void *start_all(void *of) {
    const task *t = of;
    for (uint32_t i = t->carrier; i < threads; i += CARRIERS) {
        OK(cq_wait_attach_thread(&services[t->carrier], &shared, (const uint8_t *)"green", 5, 5, &given[i]));
        OK(cq_thread_number(&given[i], &numbers[i]));
        CHECK(numbers[i] < threads);
        method_of[numbers[i]] = i;
        is_there[numbers[i]] = true;
        OK(cq_wait_start(&given[i], &shared, -1));
        OK(cq_enter(&given[i], i));
        OK(cq_at(&given[i], i / 2));
        OK(cq_wait_block(&given[i], &shared, CQ_PARK));
    }
    return NULL;
}

/* The thread that is given back at this step of a third: the oldest that is left, the newest, or one somewhere between. */
static uint32_t chosen(int third, uint32_t first, uint32_t end, uint32_t step) {
    uint32_t count = end - first;
    switch (third) {
    case 0: return first + step;
    case 1: return end - 1 - step;
    default: return first + (uint32_t)((uint64_t)step * 100003 % count);
    }
}

static void *give_back(void *of) {
    const task *t = of;
    uint32_t first = (uint32_t)((uint64_t)threads * (uint32_t)t->third / 3);
    uint32_t end = (uint32_t)((uint64_t)threads * (uint32_t)(t->third + 1) / 3);
    for (uint32_t step = 0; step < end - first; step++) {
        uint32_t i = chosen(t->third, first, end, step);
        if (i % CARRIERS != t->carrier || given[i].kind == 0) continue;
        OK(cq_wait_back(&given[i], &shared, -1));
        OK(cq_leave(&given[i]));
        OK(cq_wait_end(&given[i], &shared));
        OK(cq_wait_detach_thread(&given[i], &shared));
        is_there[numbers[i]] = false;
    }
    return NULL;
}

static void on_all_carriers(void *(*body)(void *), int third) {
    pthread_t ids[CARRIERS];
    task tasks[CARRIERS];
    for (uint32_t i = 0; i < CARRIERS; i++) {
        tasks[i] = (task){ .carrier = i, .third = third };
        SAME(pthread_create(&ids[i], NULL, body, &tasks[i]), 0);
    }
    for (uint32_t i = 0; i < CARRIERS; i++) SAME(pthread_join(ids[i], NULL), 0);
}

static uint32_t count_there(void) {
    uint32_t count = 0;
    for (uint32_t number = 0; number < threads; number++) count += is_there[number];
    return count;
}

/* All that are there are told, in the order of their numbers, and each is parked in its own method. */
static void check_all(void) {
    uint64_t count = 0;
    OK(cq_wait_get_all_threads(&env, &shared, told, MOST_THREADS, &count));
    SAME(count, count_there());
    for (uint64_t i = 0; i < count; i++) {
        CHECK(is_there[told[i]] && (i == 0 || told[i - 1] < told[i]));
        uint32_t state = 0;
        OK(cq_wait_get_thread_state(&env, &shared, told[i], -1, &state));
        SAME(state, PARKED);
    }
    uint64_t traced = 0;
    OK(cq_wait_get_all_stack_traces(&env, &shared, 2, -1, &traced));
    SAME(traced, count);
    for (uint64_t i = 0; i < traced; i++) {
        cq_stack_info info;
        cq_frame frames[2];
        OK(cq_gathered_stack(&env, i, &info, frames, 2));
        SAME(info.thread, told[i]);
        SAME(info.state, PARKED);
        SAME(info.frame_count, 1);
        SAME(frames[0].method, method_of[info.thread]);
        SAME(frames[0].location, method_of[info.thread] / 2);
    }
}

/* One by one, or by one call after the last third. */
static void let_go(int third) {
    if (third == 2) OK(cq_wait_let_go_of_all(&env, &shared));
    for (uint32_t number = 0; number < threads; number++) {
        bool gone = false;
        if (!is_there[number]) OK(cq_wait_let_go(&env, &shared, number, &gone));
        CHECK(!gone || third < 2);
    }
}

int main(int count, char **words) {
    if (count > 1) threads = (uint32_t)strtoul(words[1], NULL, 10);
    CHECK(threads > 0 && threads <= MOST_THREADS);
    OK(cq_make(4, 1, 4, CQ_CAN_SUSPEND | CQ_CAN_POP_FRAME, &services[0]));
    for (uint32_t i = 1; i < CARRIERS; i++) OK(cq_share(&services[0], &services[i]));
    OK(cq_wait_attach_environment(&services[0], &shared, &env));
    on_all_carriers(start_all, 0);
    OK(cq_wait_meet(&env, &shared));
    check_all();
    for (int third = 0; third < 3; third++) {
        on_all_carriers(give_back, third);
        let_go(third);
        check_all();
    }
    SAME(count_there(), 0);
    OK(cq_wait_dispose_environment(&env, &shared));
    for (uint32_t i = 0; i < CARRIERS; i++) OK(cq_free(&services[i]));
    SAME(shared.threads.sleepers, 0);
    SAME(shared.agents.sleepers, 0);
    SAME(heap_blocks(), 0);
    return 0;
}
