/* wait_window.c: a call at a full window waits for a place. */
#include "wait.h"

static uint32_t out(void) {
    uint32_t count = 77;
    OK(cq_out_at(&env, 0, &count));
    return count;
}

static void discard_all(void) {
    bool discarded = true;
    while (discarded) OK(cq_wait_discard(&env, &signal_of_all, 0, &discarded));
    SAME(out(), 0);
}

/* The thread runs and does not poll meanwhile. */
static void cancel_a_window(void) {
    uint32_t count = 77;
    for (uint32_t i = 0; i < WINDOW; i++) {
        SAME(cq_wait_get_frame_count(&env, &signal_of_all, 0, 0, &count), CQ_TIMED_OUT);
    }
    SAME(out(), WINDOW);
}

static void *count_frames(void *unused) {
    uint32_t count = 77;
    atomic_store(&at, 1);
    OK(cq_wait_get_frame_count(&env, &signal_of_all, 0, LONG, &count));
    SAME(count, 1);
    atomic_store(&at, 2);
    return unused;
}

/* All calls of the window were cancelled. A further one waits until the thread polls, and is answered at the poll after that. */
static void call_waits_for_a_place(void) {
    for (int i = 0; i < 200; i++) {
        cancel_a_window();
        pthread_t id = run(count_frames);
        await(1);
        rest(MILLISECOND);
        SAME(atomic_load(&at), 1);
        while (atomic_load(&at) == 1) OK(cq_wait_poll(&thread, &signal_of_all));
        join(id);
        discard_all();
    }
}

/* No place comes in time. Nothing was posted. */
static void time_ends_without_a_place(void) {
    uint32_t count = 77;
    cancel_a_window();
    int64_t before = now_ns();
    SAME(cq_wait_get_frame_count(&env, &signal_of_all, 0, 5 * MILLISECOND, &count), CQ_TIMED_OUT);
    CHECK(now_ns() - before >= 5 * MILLISECOND);
    SAME(count, 77);
    SAME(out(), WINDOW);
    OK(cq_wait_get_thread_state(&env, &signal_of_all, 0, 0, &count));
    OK(cq_wait_poll(&thread, &signal_of_all));
    discard_all();
}

static void *suspend_often(void *unused) {
    uint32_t threads[3 * WINDOW] = { 0 };
    uint32_t codes[3 * WINDOW];
    OK(cq_wait_suspend_thread_list(&env, &signal_of_all, threads, 3 * WINDOW, LONG, codes));
    SAME(codes[0], CQ_OK);
    for (uint32_t i = 1; i < 3 * WINDOW; i++) SAME(codes[i], CQ_THREAD_SUSPENDED);
    atomic_store(&at, 1);
    OK(cq_wait_resume_thread(&env, &signal_of_all, 0, LONG));
    return unused;
}

/* A list names one thread more often than its window has places. */
static void list_is_longer_than_the_window(void) {
    pthread_t id = run(suspend_often);
    while (atomic_load(&at) == 0) OK(cq_wait_poll(&thread, &signal_of_all));
    join(id);
    OK(cq_wait_poll(&thread, &signal_of_all));
}

void full_windows(void) {
    OK(cq_enter(&thread, 1));
    call_waits_for_a_place();
    time_ends_without_a_place();
    list_is_longer_than_the_window();
    OK(cq_leave(&thread));
}
