/* wait_news.c: whatever is news of the list wakes environments that wait for news, and a stop those that wait for one. */
#include "wait.h"

static cq_env other;          /* is told of stops, and does what is news to `env` */
static bool stops;
static cq_stop stop;

/* A sleeper that nobody wakes finds what it waits for at its last try, after this time. */
static const int64_t LATE = 5 * (int64_t)SECOND;

static void *wait_for_news(void *unused) {
    size_t which = 77;
    cq_answer answer;
    cq_frame frame;
    int64_t before = now_ns();
    atomic_store(&at, 1);
    SAME(cq_wait_any(&env, &signal_of_all, NULL, 0, LATE, &which, &answer, &frame, 1), CQ_NONE);
    CHECK(now_ns() - before < LATE);
    return unused;
}

static void other_meets(void) { OK(cq_wait_meet(&other, &signal_of_all)); }

static void other_asks_for_stops(void) {
    OK(cq_set_stop_notification_mode(&other, true, CQ_SINGLE_STEP, 0));
    cq_wake(&signal_of_all);
}

static void thread_reaches_a_line(void) {
    OK(cq_wait_reached(&thread, &signal_of_all, 1, 7, &stops));
    CHECK(stops);
}

static void other_is_told_of_the_stop(void) { OK(cq_wait_next_stop(&other, &signal_of_all, 0, &stop)); }

static void other_ends_the_stop(void) { OK(cq_wait_end_stop(&other, &signal_of_all, 0)); }

/* The environment has looked, and sleeps while this is done. */
static void is_news(void (*done)(void)) {
    OK(cq_wait_meet(&env, &signal_of_all));
    CHECK(!cq_has_news(&env));
    pthread_t id = run(wait_for_news);
    await(1);
    rest(20 * MILLISECOND);
    done();
    join(id);
}

static void *wait_for_a_stop(void *unused) {
    int64_t before = now_ns();
    atomic_store(&at, 1);
    OK(cq_wait_next_stop(&other, &signal_of_all, LATE, &stop));
    CHECK(now_ns() - before < LATE);
    OK(cq_wait_end_stop(&other, &signal_of_all, 0));
    return unused;
}

/* A thread that stops by the functions that cebdyraq.h names, and not by cq_wait_stop. */
static void stop_in_another_way(bool leaves) {
    pthread_t id = run(wait_for_a_stop);
    await(1);
    rest(20 * MILLISECOND);
    if (leaves) {
        OK(cq_wait_leaves(&thread, &signal_of_all, 1, 8, 1, &stops));
    } else {
        OK(cq_wait_reached(&thread, &signal_of_all, 1, 8, &stops));
    }
    CHECK(stops);
    OK(cq_wait_block(&thread, &signal_of_all, CQ_PARK));
    join(id);
    OK(cq_is_stopped(&thread, &stops));
    CHECK(!stops);
    OK(cq_wait_back(&thread, &signal_of_all, 0));
}

void news(void) {
    OK(cq_enter(&thread, 1));
    OK(cq_wait_attach_environment(&service, &signal_of_all, &other));
    is_news(other_meets);
    is_news(other_asks_for_stops);
    is_news(thread_reaches_a_line);
    is_news(other_is_told_of_the_stop);
    is_news(other_ends_the_stop);
    stop_in_another_way(false);
    OK(cq_set_stop_notification_mode(&other, true, CQ_FRAME_POP, 0));
    OK(cq_notify_frame_pop(&other, 0, 1));
    stop_in_another_way(true);
    OK(cq_wait_dispose_environment(&other, &signal_of_all));
    OK(cq_wait_meet(&env, &signal_of_all));
    OK(cq_leave(&thread));
}
