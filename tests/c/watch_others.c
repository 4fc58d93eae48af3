/* watch_others.c: callers that sleep in a watch, file descriptors, and children of a fork. */
#define _GNU_SOURCE
#include "watch.h"

#include <errno.h>
#include <fcntl.h>
#include <poll.h>
#include <pthread.h>
#include <signal.h>
#include <sys/wait.h>
#include <time.h>
#include <unistd.h>

enum { MILLISECOND = 1000000 };
static const int64_t LONG = 20000 * (int64_t)MILLISECOND;

static int64_t now_ns(void) {
    struct timespec now;
    SAME(clock_gettime(CLOCK_MONOTONIC, &now), 0);
    return (int64_t)now.tv_sec * 1000 * MILLISECOND + now.tv_nsec;
}

static void nap(void) { nanosleep(&(struct timespec){ .tv_nsec = 20 * MILLISECOND }, NULL); }

/* ------------------------------------------------------------------------------------------------------------------
 * Sleep.
 */

static void has_a_deadline(void) {
    uint32_t told = 77;
    uint64_t count = 77;
    SAME(cq_wait_next_wanted(&watch, 0, &told, 1, &count), CQ_TIMED_OUT);
    int64_t began = now_ns();
    SAME(cq_wait_next_wanted(&watch, 30 * MILLISECOND, &told, 1, &count), CQ_TIMED_OUT);
    CHECK(now_ns() - began >= 30 * MILLISECOND);
    SAME(told, 77);
    SAME(count, 77);
    call(1);
    OK(cq_wait_next_wanted(&watch, INT64_MAX, &told, 1, &count));
    SAME(told, 1);
    SAME(count, 1);
    hand_over(1);
}

typedef struct { pthread_t id; uint32_t told; } sleeper;

static void *sleep_in_watch(void *of) {
    sleeper *one = of;
    uint64_t count = 0;
    int64_t began = now_ns();
    OK(cq_wait_next_wanted(&watch, LONG, &one->told, 1, &count));
    SAME(count, 1);
    CHECK(now_ns() - began < LONG / 2);
    return NULL;
}

static void begin_sleep(sleeper *one) {
    SAME(pthread_create(&one->id, NULL, sleep_in_watch, one), 0);
    nap();
}

static uint32_t told_after_sleep(sleeper *one) {
    SAME(pthread_join(one->id, NULL), 0);
    return one->told;
}

/* While somebody sleeps, the watch is not closed. */
static void by_a_call(void) {
    sleeper one;
    begin_sleep(&one);
    SAME(cq_close_watch(&watch), CQ_MISUSED);
    call(2);
    SAME(told_after_sleep(&one), 2);
    hand_over(2);
}

static void by_a_thread_that_is_watched(void) {
    sleeper one;
    OK(cq_unwatch_thread(&threads[0]));
    call(0);
    begin_sleep(&one);
    OK(cq_watch_thread(&threads[0], &watch));
    SAME(told_after_sleep(&one), 0);
    hand_over(0);
}

static void by_what_is_asked_about_stops(void) {
    sleeper one;
    OK(cq_watch_stops(&service, &watch));
    begin_sleep(&one);
    OK(cq_set_stop_notification_mode(&env, true, CQ_BREAKPOINT, CQ_ALL_THREADS));
    SAME(told_after_sleep(&one), CQ_ALL_THREADS);
    OK(cq_set_stop_notification_mode(&env, false, CQ_BREAKPOINT, CQ_ALL_THREADS));
    TELLS(&watch, CQ_ALL_THREADS);
}

static void each_is_told_another(void) {
    sleeper ones[3];
    bool seen[THREADS] = { false };
    for (int i = 0; i < 3; i++) begin_sleep(&ones[i]);
    for (uint32_t i = 0; i < THREADS; i++) call(i);
    for (int i = 0; i < 3; i++) seen[told_after_sleep(&ones[i])] = true;
    for (uint32_t i = 0; i < THREADS; i++) {
        CHECK(seen[i]);
        hand_over(i);
    }
}

/* A call for a thread of another watch ends no sleep. */
static void not_for_another_watch(void) {
    cq_watch second = { 0 };
    sleeper one;
    OK(cq_open_watch(&second));
    OK(cq_watch_thread(&threads[0], &second));
    begin_sleep(&one);
    call(0);
    nap();
    TELLS(&second, 0);
    SAME(pthread_tryjoin_np(one.id, NULL), EBUSY);
    call(1);
    SAME(told_after_sleep(&one), 1);
    OK(cq_watch_thread(&threads[0], &watch));
    TELLS(&watch, 0);
    OK(cq_close_watch(&second));
    hand_over(0);
    hand_over(1);
}

/* ------------------------------------------------------------------------------------------------------------------
 * File descriptors.
 */

static bool is_readable(int32_t fd, int milliseconds) {
    struct pollfd one = { .fd = fd, .events = POLLIN };
    int count = poll(&one, 1, milliseconds);
    CHECK(count == 0 || (count == 1 && one.revents == POLLIN));
    return count == 1;
}

static void tells_by_a_file(void) {
    int32_t fd = -1, again = -1;
    OK(cq_watch_fd(&watch, &fd));
    OK(cq_watch_fd(&watch, &again));
    SAME(fd, again);
    CHECK(fcntl(fd, F_GETFL) & O_NONBLOCK);
    CHECK(fcntl(fd, F_GETFD) & FD_CLOEXEC);
    CHECK(is_readable(fd, 0));
    tells_nothing(&watch);
    CHECK(!is_readable(fd, 0));
    for (uint32_t i = 0; i < 5; i++) {
        call(i % THREADS);
        CHECK(is_readable(fd, 0));
        TELLS(&watch, i % THREADS);
        CHECK(!is_readable(fd, 0));
        hand_over(i % THREADS);
        CHECK(!is_readable(fd, 0));
    }
    call(0);
    call(1);
    CHECK(is_readable(fd, 0));
    TELLS(&watch, 0, 1);
    hand_over(0);
    hand_over(1);
}

/* What is told before the descriptor is there, and what is told to somebody who sleeps. */
static void tells_all_by_a_file(void) {
    cq_watch second = { 0 };
    int32_t fd = -1;
    uint32_t told = 77;
    uint64_t count = 0;
    OK(cq_open_watch(&second));
    OK(cq_watch_thread(&threads[1], &second));
    call(1);
    OK(cq_watch_fd(&second, &fd));
    CHECK(is_readable(fd, 0));
    TELLS(&second, 1);
    hand_over(1);
    call(1);
    CHECK(is_readable(fd, 0));
    OK(cq_wait_next_wanted(&second, LONG, &told, 1, &count));
    SAME(told, 1);
    tells_nothing(&second);
    CHECK(!is_readable(fd, 0));
    hand_over(1);
    OK(cq_close_watch(&second));
    SAME(fcntl(fd, F_GETFD), -1);
    OK(cq_watch_thread(&threads[1], &watch));
}

static void *call_later(void *none) {
    (void)none;
    nap();
    call(2);
    return NULL;
}

static void wakes_who_polls(void) {
    pthread_t id;
    int32_t fd = -1;
    OK(cq_watch_fd(&watch, &fd));
    tells_nothing(&watch);
    SAME(pthread_create(&id, NULL, call_later, NULL), 0);
    CHECK(is_readable(fd, 20000));
    SAME(pthread_join(id, NULL), 0);
    TELLS(&watch, 2);
    hand_over(2);
}

/* ------------------------------------------------------------------------------------------------------------------
 * Children.
 */

/* No watch is open in a child, which opens its own. */
static bool begins_anew(int32_t fd) {
    static const cq_watch none;
    cq_service own = { 0 };
    cq_thread thread = { 0 };
    cq_env asks = { 0 };
    cq_answer answer;
    uint32_t told = 77;
    uint64_t count = 0;
    int32_t of_child = -1;
    if (memcmp(&watch, &none, sizeof watch) != 0 || fcntl(fd, F_GETFD) != -1) return false;
    if (cq_make(4, 1, 2, 0, &own) || cq_attach_thread(&own, (const uint8_t *)"", 0, 5, &thread) || cq_start(&thread)) return false;
    if (cq_attach_environment(&own, &asks) || cq_meet(&asks)) return false;
    if (cq_open_watch(&watch) || cq_watch_thread(&thread, &watch) || cq_watch_fd(&watch, &of_child)) return false;
    if (cq_next_wanted(&watch, &told, 1, &count) != CQ_NONE || is_readable(of_child, 0)) return false;
    if (cq_get_frame_count(&asks, 0, &answer) != CQ_WAITING || !is_readable(of_child, 0)) return false;
    if (cq_wait_next_wanted(&watch, LONG, &told, 1, &count) || told != 0) return false;
    return cq_close_watch(&watch) == CQ_OK;
}

/* A child that is killed in the end, so that nobody looks for leaks in its copy of the parent's memory. */
static pid_t forked(int32_t fd) {
    char found = 0;
    int ends[2];
    SAME(pipe(ends), 0);
    fflush(NULL);
    pid_t child = fork();
    CHECK(child >= 0);
    if (child == 0) {
        found = begins_anew(fd) ? 'y' : 'n';
        SAME(write(ends[1], &found, 1), 1);
        for (;;) pause();
    }
    close(ends[1]);
    SAME(read(ends[0], &found, 1), 1);
    SAME(found, 'y');
    close(ends[0]);
    return child;
}

/* The parent notices nothing. */
static void goes_on_after_a_fork(void) {
    sleeper one;
    int32_t fd = -1;
    OK(cq_watch_fd(&watch, &fd));
    tells_nothing(&watch);
    begin_sleep(&one);
    pid_t child = forked(fd);
    CHECK(!is_readable(fd, 0));
    call(0);
    SAME(told_after_sleep(&one), 0);
    CHECK(is_readable(fd, 0));
    tells_nothing(&watch);
    hand_over(0);
    call(1);
    TELLS(&watch, 1);
    hand_over(1);
    SAME(kill(child, SIGKILL), 0);
    SAME(waitpid(child, NULL, 0), child);
}

void wakes_others(void) {
    begin();
    has_a_deadline();
    by_a_call();
    by_a_thread_that_is_watched();
    by_what_is_asked_about_stops();
    each_is_told_another();
    not_for_another_watch();
    tells_by_a_file();
    tells_all_by_a_file();
    wakes_who_polls();
    goes_on_after_a_fork();
    end();
}
