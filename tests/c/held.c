/* held.c: a call whose cancelled calls cannot be discarded for a while, since another holds their thread, does not sleep for a
 * hand-over that has happened already.
 *
 * It takes cebdyraq_wait.c in, with a cq_discard that is told CQ_BUSY for a time. */
#define _GNU_SOURCE
#include "check.h"

#include <time.h>

#define MILLISECOND 1000000
/* A caller that sleeps too long comes to its last try after this time. */
static const int64_t LATE = 5000 * (int64_t)MILLISECOND;
enum { CANCELLED = 3 };

static cq_service service;
static cq_signal signal_of_all;
static cq_thread thread;
static cq_env env;
static int64_t held_until;

static int64_t time_now(void) {
    struct timespec now;
    SAME(clock_gettime(CLOCK_MONOTONIC, &now), 0);
    return (int64_t)now.tv_sec * 1000 * MILLISECOND + now.tv_nsec;
}

static uint32_t discard_if_not_held(cq_env *of, uint32_t number, bool *discarded) {
    return time_now() < held_until ? CQ_BUSY : cq_discard(of, number, discarded);
}

#define cq_discard discard_if_not_held
#include "../../c/cebdyraq_wait.c"
#undef cq_discard

/* The thread runs. It hands over once the calls are cancelled, so their answers are there. */
static void hold_for(int64_t time) {
    OK(cq_wait_block(&thread, &signal_of_all, CQ_PARK));
    held_until = time_now() + time;
}

/* Nobody has slept until the last try. */
static void let_return(void) {
    OK(cq_wait_ensure_resumed(&env, &signal_of_all, 0, LATE));
    CHECK(time_now() - held_until < LATE / 2);
    OK(cq_wait_back(&thread, &signal_of_all, 0));
}

static void fill_the_window(void) {
    uint32_t count = 0;
    for (int i = 0; i < CANCELLED; i++) SAME(cq_wait_get_frame_count(&env, &signal_of_all, 0, 0, &count), CQ_TIMED_OUT);
}

static void call_at_a_full_window(void) {
    uint32_t count = 77;
    fill_the_window();
    hold_for(20 * MILLISECOND);
    OK(cq_wait_get_frame_count(&env, &signal_of_all, 0, LATE, &count));
    SAME(count, 1);
    let_return();
}

static void list_at_a_full_window(void) {
    uint32_t list[1] = { 0 }, codes[1] = { 77 };
    fill_the_window();
    hold_for(20 * MILLISECOND);
    OK(cq_wait_suspend_thread_list(&env, &signal_of_all, list, 1, LATE, codes));
    SAME(codes[0], CQ_OK);
    let_return();
}

/* Each of the cancelled suspensions has taken place, and the thread hands over no more. */
static void suspensions_are_taken_back(void) {
    for (int i = 0; i < CANCELLED; i++) SAME(cq_wait_suspend_thread(&env, &signal_of_all, 0, 0), CQ_TIMED_OUT);
    hold_for(20 * MILLISECOND);
    let_return();
}

int main(void) {
    OK(cq_make(8, 1, CANCELLED, CQ_CAN_SUSPEND, &service));
    OK(cq_wait_attach_thread(&service, &signal_of_all, (const uint8_t *)"", 0, 5, &thread));
    OK(cq_wait_attach_environment(&service, &signal_of_all, &env));
    OK(cq_wait_meet(&env, &signal_of_all));
    OK(cq_add_capabilities(&env, CQ_CAN_SUSPEND));
    OK(cq_wait_start(&thread, &signal_of_all, 0));
    OK(cq_enter(&thread, 1));
    call_at_a_full_window();
    list_at_a_full_window();
    suspensions_are_taken_back();
    OK(cq_wait_end(&thread, &signal_of_all));
    OK(cq_wait_detach_thread(&thread, &signal_of_all));
    OK(cq_wait_dispose_environment(&env, &signal_of_all));
    OK(cq_free(&service));
    return 0;
}
