/* wait_crowd.c: agents that wait for one thread sleep, though each meets the others' holds. */
#define _POSIX_C_SOURCE 200809L
#include "wait.h"

#include <time.h>

enum { CROWD = 4 };

static cq_service crowded;
static cq_thread worker;
static cq_env crowd[CROWD];
static _Atomic int64_t used;

static int64_t time_of_own(void) {
    struct timespec now;
    clock_gettime(CLOCK_THREAD_CPUTIME_ID, &now);
    return now.tv_sec * (int64_t)SECOND + now.tv_nsec;
}

static void *count_frames(void *own) {
    uint32_t count = 77;
    OK(cq_wait_get_frame_count(own, &signal_of_all, 0, LONG, &count));
    SAME(count, 0);
    atomic_fetch_add(&used, time_of_own());
    return NULL;
}

/* The thread does not poll for half a second. */
void crowds(void) {
    pthread_t ids[CROWD];
    OK(cq_make(8, CROWD, WINDOW, 0, &crowded));
    OK(cq_attach_thread(&crowded, (const uint8_t *)"", 0, 5, &worker));
    OK(cq_wait_start(&worker, &signal_of_all, -1));
    for (size_t i = 0; i < CROWD; i++) {
        OK(cq_attach_environment(&crowded, &crowd[i]));
        OK(cq_meet(&crowd[i]));
    }
    for (size_t i = 0; i < CROWD; i++) SAME(pthread_create(&ids[i], NULL, count_frames, &crowd[i]), 0);
    rest(SECOND / 2);
    OK(cq_wait_poll(&worker, &signal_of_all));
    for (size_t i = 0; i < CROWD; i++) pthread_join(ids[i], NULL);
    CHECK(atomic_load(&used) < 100 * MILLISECOND);
    OK(cq_wait_end(&worker, &signal_of_all));
    OK(cq_wait_detach_thread(&worker, &signal_of_all));
    for (size_t i = 0; i < CROWD; i++) OK(cq_wait_dispose_environment(&crowd[i], &signal_of_all));
    OK(cq_free(&crowded));
}
