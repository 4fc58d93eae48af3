/* gather_lost.c: an environment is lost in the middle of a trace, with its thread of the operating system. Another one learns which
 * it is (cq_stopper), and ends what it has begun (cq_wait_end_environment). */
#define _POSIX_C_SOURCE 200809L
#include "check.h"

#include <pthread.h>

enum { THREADS = 3 };

/* No wait here lasts as long. */
static const int64_t LONG = 60 * (int64_t)1000000000;

static cq_signal signal_of_all;
static cq_service service;
static cq_thread threads[THREADS];
static cq_env envs[3];          /* by the environment's number. The last one has met no thread */
static int steps;               /* how many steps the lost environment makes */

static uint32_t stopper(uint32_t thread) {
    uint32_t number = 77;
    uint32_t code = cq_stopper(&envs[0], thread, &number);
    if (code == CQ_NONE) {
        SAME(number, 77);
        return UINT32_MAX;
    }
    OK(code);
    return number;
}

static void set_up(uint32_t runs_from) {
    OK(cq_make(4, 3, 4, CQ_CAN_SUSPEND | CQ_CAN_POP_FRAME, &service));
    for (uint32_t i = 0; i < THREADS; i++) {
        OK(cq_attach_thread(&service, (const uint8_t *)"", 0, 5, &threads[i]));
        OK(cq_start(&threads[i]));
        OK(cq_enter(&threads[i], i));
        if (i < runs_from) OK(cq_block(&threads[i], CQ_PARK));
    }
    for (uint32_t i = 0; i < 3; i++) {
        uint32_t number = 77;
        OK(cq_attach_environment(&service, &envs[i]));
        OK(cq_environment_number(&envs[i], &number));
        SAME(number, i);
        if (i < 2) OK(cq_meet(&envs[i]));
    }
}

static void tear_down(void) {
    for (uint32_t i = 0; i < THREADS; i++) {
        OK(cq_end(&threads[i]));
        OK(cq_detach_thread(&threads[i]));
    }
    OK(cq_dispose_environment(&envs[0]));
    OK(cq_dispose_environment(&envs[2]));
    OK(cq_free(&service));
}

/* It begins a trace, makes some steps, and ends. */
static void *be_lost(void *unused) {
    bool over = false;
    (void)unused;
    OK(cq_gather_all_stack_traces(&envs[1], 8));
    for (int i = 0; i < steps; i++) {
        uint32_t code = cq_gather_step(&envs[1], &over);
        CHECK(code == CQ_OK || code == CQ_STILL_RUNNING);
        CHECK(!over);
    }
    return NULL;
}

static void lose(int after) {
    pthread_t id;
    steps = after;
    SAME(pthread_create(&id, NULL, be_lost, NULL), 0);
    SAME(pthread_join(id, NULL), 0);
}

/* No thread is stopped, and those that are blocked return. */
static void check_free(uint32_t runs_from) {
    for (uint32_t i = 0; i < THREADS; i++) {
        SAME(stopper(i), UINT32_MAX);
        if (i < runs_from) OK(cq_back(&threads[i]));
    }
}

/* It is lost with all threads stopped, of which none runs. */
static void is_lost_while_all_stand(void) {
    bool over = false;
    set_up(THREADS);
    SAME(stopper(0), UINT32_MAX);
    lose(THREADS);
    for (uint32_t i = 0; i < THREADS; i++) {
        SAME(stopper(i), 1);
        SAME(cq_back(&threads[i]), CQ_BARRED);
    }
    OK(cq_gather_all_stack_traces(&envs[0], 8));
    SAME(cq_gather_step(&envs[0], &over), CQ_ALREADY_STOPPED);
    OK(cq_gather_give_up(&envs[0]));
    while (!over) OK(cq_gather_step(&envs[0], &over));
    OK(cq_wait_end_environment(&envs[stopper(0)], &signal_of_all, LONG));
    SAME(envs[1].kind, 0);
    check_free(THREADS);
    tear_down();
}

/* It is lost while it waits for a thread that runs. */
static void is_lost_while_it_waits(void) {
    set_up(1);
    lose(THREADS + 3);
    SAME(stopper(2), 1);
    OK(cq_wait_end_environment(&envs[1], &signal_of_all, LONG));
    check_free(1);
    tear_down();
}

/* It is lost after all were seen standing, and before the last was let go. */
static void is_lost_while_it_reads(void) {
    for (int after = THREADS + THREADS + 1; after < 4 * THREADS; after++) {
        set_up(THREADS);
        lose(after);
        SAME(stopper(THREADS - 1), 1);
        OK(cq_wait_end_environment(&envs[1], &signal_of_all, LONG));
        check_free(THREADS);
        tear_down();
    }
}

/* One that gathers nothing is disposed of. */
static void gathers_nothing(void) {
    set_up(THREADS);
    OK(cq_wait_end_environment(&envs[1], &signal_of_all, LONG));
    SAME(envs[1].kind, 0);
    SAME(cq_wait_end_environment(&envs[1], &signal_of_all, LONG), CQ_MISUSED);
    check_free(THREADS);
    tear_down();
}

/* What is not told writes nothing. */
static void refusals(void) {
    uint32_t number = 77;
    set_up(THREADS);
    SAME(cq_stopper(&envs[0], THREADS, &number), CQ_INVALID_THREAD);
    SAME(cq_stopper(&envs[2], 0, &number), CQ_INVALID_THREAD);
    SAME(cq_stopper((cq_env *)(void *)&service, 0, &number), CQ_MISUSED);
    SAME(cq_environment_number((cq_env *)(void *)&service, &number), CQ_MISUSED);
    lose(1);
    SAME(cq_stopper(&envs[1], 0, &number), CQ_MISUSED);
    SAME(number, 77);
    SAME(stopper(0), 1);
    SAME(stopper(1), UINT32_MAX);
    OK(cq_wait_end_environment(&envs[1], &signal_of_all, LONG));
    check_free(THREADS);
    tear_down();
}

int main(void) {
    is_lost_while_all_stand();
    is_lost_while_it_waits();
    is_lost_while_it_reads();
    gathers_nothing();
    refusals();
    return 0;
}
