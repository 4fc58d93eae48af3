/* wait_any.c: one wait for several calls, and for threads that come and go. */
#include "wait.h"

static cq_thread second;
static uint32_t numbers[2];
static cq_ticket tickets[2];
static size_t which;
static cq_answer answer;
static cq_frame frame;

static uint32_t any(size_t count, int64_t time) {
    return cq_wait_any(&env, &signal_of_all, tickets, count, time, &which, &answer, &frame, 1);
}

static void post_counts(void) {
    for (size_t i = 0; i < 2; i++) {
        SAME(cq_get_frame_count(&env, numbers[i], &answer), CQ_WAITING);
        tickets[i] = answer.ticket;
    }
}

/* The answer of either thread ends the wait, also if it is there before. */
static void takes_the_answer_that_is_there(void) {
    for (size_t i = 0; i < 2; i++) {
        post_counts();
        OK(cq_wait_poll(i == 0 ? &thread : &second, &signal_of_all));
        which = 77;
        OK(any(2, 0));
        SAME(which, i);
        SAME(answer.number, i);
        OK(cq_wait_poll(i == 0 ? &second : &thread, &signal_of_all));
        tickets[0] = tickets[1 - i];
        OK(any(1, 0));
        SAME(which, 0);
        SAME(answer.number, 1 - i);
    }
}

/* A refusal is an answer too. */
static void takes_a_refusal(void) {
    SAME(cq_get_frame_location(&env, 0, 0, &answer), CQ_WAITING);
    tickets[0] = answer.ticket;
    OK(cq_wait_poll(&thread, &signal_of_all));
    SAME(any(1, 0), CQ_NO_MORE_FRAMES);
    SAME(which, 0);
}

static void ends_with_its_time(void) {
    post_counts();
    which = 77;
    for (int64_t time = 0; time <= 5 * MILLISECOND; time += 5 * MILLISECOND) {
        int64_t before = now_ns();
        SAME(any(2, time), CQ_TIMED_OUT);
        CHECK(now_ns() - before >= time);
        SAME(any(0, time), CQ_TIMED_OUT);
        SAME(which, 77);
    }
    OK(cq_wait_poll(&thread, &signal_of_all));
    OK(cq_wait_poll(&second, &signal_of_all));
    OK(any(2, 0));
    tickets[0] = tickets[1];
    OK(any(1, 0));
}

static void *wait_for_any(void *unused) {
    atomic_store(&at, 1);
    OK(any(2, LONG));
    SAME(which, 1);
    SAME(answer.number, 1);
    atomic_store(&at, 2);
    return unused;
}

static void hand_over_wakes(void) {
    post_counts();
    pthread_t id = run(wait_for_any);
    await(1);
    rest(20 * MILLISECOND);
    SAME(atomic_load(&at), 1);
    OK(cq_wait_poll(&second, &signal_of_all));
    join(id);
    OK(cq_wait_poll(&thread, &signal_of_all));
    OK(any(1, 0));
}

static void *wait_for_news(void *unused) {
    atomic_store(&at, 1);
    which = 77;
    SAME(any(0, LONG), CQ_NONE);
    SAME(which, 77);
    atomic_store(&at, 2);
    return unused;
}

/* A thread that comes wakes it, and so does one that goes. It gives the same again until the environment looks. */
static void comings_and_goings_wake(void) {
    cq_thread third = { 0, NULL };
    cq_event event;
    for (uint32_t kind = CQ_THREAD_START; kind <= CQ_THREAD_DETACHED; kind++) {
        OK(cq_wait_set_event_notification_mode(&env, &signal_of_all, false, kind));
        OK(cq_wait_set_event_notification_mode(&env, &signal_of_all, kind >= CQ_THREAD_ATTACHED, kind));
    }
    for (uint32_t kind = CQ_THREAD_ATTACHED; kind <= CQ_THREAD_DETACHED; kind++) {
        pthread_t id = run(wait_for_news);
        await(1);
        rest(20 * MILLISECOND);
        SAME(atomic_load(&at), 1);
        if (kind == CQ_THREAD_ATTACHED) {
            OK(cq_wait_attach_thread(&service, &signal_of_all, (const uint8_t *)"", 0, 5, &third));
        } else {
            OK(cq_wait_detach_thread(&third, &signal_of_all));
        }
        join(id);
        SAME(any(0, LONG), CQ_NONE);
        OK(cq_next_event(&env, &event));
        SAME(event.kind, kind);
        SAME(any(0, 0), CQ_TIMED_OUT);
    }
    OK(cq_wait_set_event_notification_mode(&env, &signal_of_all, false, CQ_THREAD_ATTACHED));
    OK(cq_wait_set_event_notification_mode(&env, &signal_of_all, false, CQ_THREAD_DETACHED));
}

/* An answer comes before the news. */
static void answer_comes_first(void) {
    cq_thread third = { 0, NULL };
    post_counts();
    OK(cq_wait_poll(&second, &signal_of_all));
    OK(cq_wait_attach_thread(&service, &signal_of_all, (const uint8_t *)"", 0, 5, &third));
    OK(any(2, LONG));
    SAME(which, 1);
    SAME(any(1, LONG), CQ_NONE);
    OK(cq_wait_poll(&thread, &signal_of_all));
    OK(any(1, LONG));
    OK(cq_wait_detach_thread(&third, &signal_of_all));
    OK(cq_wait_meet(&env, &signal_of_all));
}

void waits_for_any(void) {
    cq_env none = { 0, NULL };
    OK(cq_wait_attach_thread(&service, &signal_of_all, (const uint8_t *)"", 0, 5, &second));
    OK(cq_thread_number(&second, &numbers[1]));
    OK(cq_wait_meet(&env, &signal_of_all));
    OK(cq_wait_start(&second, &signal_of_all, -1));
    OK(cq_enter(&second, 1));
    OK(cq_meet(&env));
    SAME(cq_wait_any(&none, &signal_of_all, tickets, 0, -1, &which, &answer, &frame, 1), CQ_MISUSED);
    takes_the_answer_that_is_there();
    takes_a_refusal();
    ends_with_its_time();
    hand_over_wakes();
    comings_and_goings_wake();
    answer_comes_first();
    OK(cq_wait_end(&second, &signal_of_all));
    OK(cq_wait_detach_thread(&second, &signal_of_all));
}
