/* watch_threads.c: threads that poll only when a watcher has told them to.
 *
 *     watch_threads [POSTS]
 *
 * Agents call for them in all ways: by calls that are collected later, by suspensions, and by traces, of which some are given up. Each
 * call is answered within LONG, far less than a watcher sleeps: otherwise a wake-up is lost. First two watchers sleep in one watch, then
 * one sleeps in poll, then each of two has a watch of its own. Each agent is alone at first, since the next call of another would wake a
 * watcher that was not woken, and then there are all of them. */
#define _GNU_SOURCE
#include "../../c/cebdyraq_watch.h"
#include "check.h"

#include <poll.h>
#include <pthread.h>
#include <sched.h>
#include <semaphore.h>
#include <time.h>

enum { THREADS = 16, WATCHES = 2, AGENTS = 4, TOGETHER = 8, METHOD = 7, VAIN = 40, ROOM = 3 };
static const int64_t SHORT = 1000000, LONG = 5000000000, LONGEST = 60000000000;

typedef struct { cq_watch watch; pthread_t id; } watcher;

struct runner {
    cq_thread handle;
    cq_watch *watch;
    sem_t request;
    bool is_requested;
    uint64_t requests, in_vain, polls;
    pthread_t id;
};

static cq_signal shared;
static cq_service service;
static cq_env envs[AGENTS];
static struct runner runners[THREADS];
static watcher watchers[WATCHES];
static uint64_t posts, wanted_posts = 2000;
static uint32_t ready;
static uint64_t tries;  /* of watchers */
static bool is_over;

static bool ends(void) { return __atomic_load_n(&is_over, __ATOMIC_SEQ_CST); }

static int64_t now_ns(void) {
    struct timespec now;
    SAME(clock_gettime(CLOCK_MONOTONIC, &now), 0);
    return (int64_t)now.tv_sec * 1000000000 + now.tv_nsec;
}

static void lost(const char *what, uint32_t thread) {
    fprintf(stderr, "LOST: %s at %u after %" PRIu64 " posts\n", what, thread, __atomic_load_n(&posts, __ATOMIC_SEQ_CST));
    fflush(NULL);
    _Exit(1);
}

/* ------------------------------------------------------------------------------------------------------------------
 * The runtime.
 */

static void request(struct runner *r) {
    if (!__atomic_exchange_n(&r->is_requested, true, __ATOMIC_SEQ_CST)) SAME(sem_post(&r->request), 0);
}

static bool await_request(struct runner *r) {
    while (sem_wait(&r->request) != 0) {
    }
    __atomic_store_n(&r->is_requested, false, __ATOMIC_SEQ_CST);
    return !ends();
}

/* Calls again while an environment uses the thread. */
static void settle(uint32_t (*call)(struct runner *r), struct runner *r) {
    uint32_t code;
    do code = call(r); while (code == CQ_BUSY);
    OK(code);
}

static uint32_t watch(struct runner *r) { return cq_watch_thread(&r->handle, r->watch); }
static uint32_t unwatch(struct runner *r) { return cq_unwatch_thread(&r->handle); }

/* Every other thread ends as it is, the others are watched by nobody any more. */
static void *run(void *of) {
    struct runner *r = of;
    OK(cq_wait_start(&r->handle, &shared, -1));
    OK(cq_enter(&r->handle, METHOD));
    settle(watch, r);
    __atomic_fetch_add(&ready, 1, __ATOMIC_SEQ_CST);
    while (await_request(r)) {
        r->requests++;
        if (cq_poll_clear(&r->handle)) r->in_vain++;
        OK(cq_wait_poll(&r->handle, &shared));
        __atomic_fetch_add(&r->polls, 1, __ATOMIC_SEQ_CST);
    }
    if ((r - runners) % 2) settle(unwatch, r);
    OK(cq_wait_end(&r->handle, &shared));
    OK(cq_wait_detach_thread(&r->handle, &shared));
    return NULL;
}

static void pass_on(const uint32_t *threads, uint64_t count) {
    CHECK(count > 0 && count <= ROOM);
    for (uint64_t i = 0; i < count; i++) request(&runners[threads[i] % THREADS]);
}

static void *watch_asleep(void *of) {
    watcher *w = of;
    uint32_t threads[ROOM];
    uint64_t count = 0;
    while (!ends()) {
        __atomic_fetch_add(&tries, 1, __ATOMIC_SEQ_CST);
        OK(cq_wait_next_wanted(&w->watch, LONGEST, threads, ROOM, &count));
        pass_on(threads, count);
    }
    return NULL;
}

static void *watch_in_poll(void *of) {
    watcher *w = of;
    struct pollfd at = { .events = POLLIN };
    uint32_t threads[ROOM], code;
    uint64_t count = 0;
    OK(cq_watch_fd(&w->watch, &at.fd));
    while (!ends()) {
        CHECK(poll(&at, 1, (int)(LONGEST / 1000000)) == 1);
        do {
            __atomic_fetch_add(&tries, 1, __ATOMIC_SEQ_CST);
            code = cq_next_wanted(&w->watch, threads, ROOM, &count);
            if (code == CQ_OK) pass_on(threads, count);
        } while (code == CQ_OK);
        SAME(code, CQ_NONE);
    }
    return NULL;
}

/* ------------------------------------------------------------------------------------------------------------------
 * Agents.
 */

static bool more(uint64_t count) { return __atomic_fetch_add(&posts, count, __ATOMIC_SEQ_CST) < wanted_posts; }

/* The first of those at which an agent's turn is. */
static uint32_t first_of(uint64_t turn) { return (uint32_t)(turn * TOGETHER % THREADS); }

/* Posts one call. The agent calls nothing more before the thread has polled, since that could also wake the watcher. */
static void post_one(cq_env *env, uint32_t thread) {
    struct runner *r = &runners[thread];
    uint64_t polls = __atomic_load_n(&r->polls, __ATOMIC_SEQ_CST);
    cq_answer answer;
    cq_frame frames[1];
    uint32_t code;
    while ((code = cq_get_frame_count(env, thread, &answer)) == CQ_BUSY) sched_yield();
    cq_ticket ticket = answer.ticket;
    for (int64_t began = now_ns(); code == CQ_WAITING || code == CQ_BUSY;) {
        if (now_ns() - began > LONG) lost("a call", thread);
        sched_yield();
        uint64_t now = __atomic_load_n(&r->polls, __ATOMIC_SEQ_CST);
        if (now != polls) code = cq_collect(env, &ticket, &answer, frames, 1);
        if (code == CQ_WAITING) polls = now;
    }
    OK(code);
}

/* A watcher that passes a call on comes to its next try. The next call finds it there, each time a little further on. */
static void *count_one(void *of) {
    for (uint64_t turn = 0; more(1); turn++) {
        uint64_t seen = __atomic_load_n(&tries, __ATOMIC_SEQ_CST);
        post_one(of, (uint32_t)(turn % THREADS));
        for (int64_t began = now_ns(); __atomic_load_n(&tries, __ATOMIC_SEQ_CST) == seen && now_ns() - began < SHORT;) {
        }
        for (volatile uint64_t left = turn % 256; left > 0; left--) {
        }
    }
    return NULL;
}

/* Several are posted before the first is collected. */
static void *count_several(void *of) {
    cq_env *env = of;
    for (uint64_t turn = 0; more(TOGETHER); turn++) {
        cq_ticket tickets[TOGETHER];
        uint32_t codes[TOGETHER];
        cq_answer answer;
        cq_frame frames[1];
        for (uint32_t i = 0; i < TOGETHER; i++) {
            while ((codes[i] = cq_get_frame_count(env, first_of(turn) + i, &answer)) == CQ_BUSY) sched_yield();
            tickets[i] = answer.ticket;
        }
        for (uint32_t i = 0; i < TOGETHER; i++) {
            if (codes[i] == CQ_WAITING) codes[i] = cq_wait_collect(env, &shared, &tickets[i], LONG, &answer, frames, 1);
            if (codes[i] == CQ_TIMED_OUT) lost("one of several counts", tickets[i].thread);
            OK(codes[i]);
        }
    }
    return NULL;
}

static void *suspend(void *of) {
    cq_env *env = of;
    for (uint64_t turn = 0; more(1); turn++) {
        uint32_t thread = (uint32_t)(turn * 7 % THREADS);
        uint32_t code = cq_wait_suspend_thread(env, &shared, thread, LONG);
        if (code == CQ_TIMED_OUT) lost("a suspension", thread);
        OK(code);
        OK(cq_wait_resume_thread(env, &shared, thread, LONG));
    }
    return NULL;
}

static void gather(cq_env *env, bool gives_up) {
    int64_t began = now_ns();
    bool is_done = false;
    for (uint64_t vain = 0; !is_done;) {
        uint32_t code = cq_gather_step(env, &is_done);
        if (code == CQ_OK) continue;
        CHECK(code == CQ_BUSY || code == CQ_STILL_RUNNING || code == CQ_ALREADY_STOPPED);
        if (++vain == VAIN && gives_up) OK(cq_gather_give_up(env));
        if (now_ns() - began > LONG) lost("a trace", 0);
        sched_yield();
    }
    cq_wake(&shared);
}

static void *trace(void *of) {
    cq_env *env = of;
    for (uint64_t turn = 0; more(TOGETHER); turn++) {
        uint32_t list[TOGETHER];
        for (uint32_t i = 0; i < TOGETHER; i++) list[i] = first_of(turn) + i;
        OK(cq_gather_thread_list_stack_traces(env, list, TOGETHER, 4));
        gather(env, turn % 4 == 0);
    }
    return NULL;
}

/* ------------------------------------------------------------------------------------------------------------------
 * A run.
 */

static void begin(int count) {
    __atomic_store_n(&is_over, false, __ATOMIC_SEQ_CST);
    ready = 0;
    OK(cq_make(8, AGENTS, 4 * TOGETHER, CQ_CAN_SUSPEND, &service));
    for (int i = 0; i < count; i++) OK(cq_open_watch(&watchers[i].watch));
    for (int i = 0; i < THREADS; i++) {
        runners[i] = (struct runner){ .watch = &watchers[i % count].watch };
        SAME(sem_init(&runners[i].request, 0, 0), 0);
        OK(cq_attach_thread(&service, (const uint8_t *)"runner", 6, 5, &runners[i].handle));
    }
    for (int i = 0; i < AGENTS; i++) {
        OK(cq_wait_attach_environment(&service, &shared, &envs[i]));
        OK(cq_wait_meet(&envs[i], &shared));
        OK(cq_add_capabilities(&envs[i], CQ_CAN_SUSPEND));
    }
}

/* Threads become wanted, each once, until all watchers have noticed. */
static void end_watchers(int count) {
    int64_t began = now_ns();
    uint32_t next = 0;
    __atomic_store_n(&is_over, true, __ATOMIC_SEQ_CST);
    for (int i = 0; i < count; i++) {
        while (pthread_tryjoin_np(watchers[i].id, NULL) != 0) {
            cq_answer answer;
            if (next < THREADS && cq_get_frame_count(&envs[0], next, &answer) != CQ_BUSY) next++;
            if (now_ns() - began > LONG) lost("a watcher", (uint32_t)i);
            nanosleep(&(struct timespec){ .tv_nsec = 1000000 }, NULL);
        }
    }
}

static void end(int count) {
    for (int i = 0; i < THREADS; i++) {
        request(&runners[i]);
        SAME(pthread_join(runners[i].id, NULL), 0);
        SAME(sem_destroy(&runners[i].request), 0);
        CHECK(runners[i].requests > 0 && runners[i].in_vain <= runners[i].requests);
    }
    for (int i = 0; i < AGENTS; i++) OK(cq_wait_dispose_environment(&envs[i], &shared));
    for (int i = 0; i < count; i++) OK(cq_close_watch(&watchers[i].watch));
    OK(cq_free(&service));
}

static void *(*const agents[AGENTS])(void *) = { count_one, count_several, suspend, trace };

/* Some of the agents go on beside each other. */
static void inspect(int first, int count) {
    pthread_t ids[AGENTS];
    __atomic_store_n(&posts, 0, __ATOMIC_SEQ_CST);
    for (int i = first; i < first + count; i++) SAME(pthread_create(&ids[i], NULL, agents[i], &envs[i]), 0);
    for (int i = first; i < first + count; i++) SAME(pthread_join(ids[i], NULL), 0);
}

/* The watchers sleep in so many watches, and some of them in poll. */
static void go_on(int watches, int asleep, int in_poll) {
    begin(watches);
    for (int i = 0; i < asleep + in_poll; i++) {
        watcher *w = &watchers[i % watches];
        SAME(pthread_create(&watchers[i].id, NULL, i < asleep ? watch_asleep : watch_in_poll, w), 0);
    }
    for (int i = 0; i < THREADS; i++) SAME(pthread_create(&runners[i].id, NULL, run, &runners[i]), 0);
    while (__atomic_load_n(&ready, __ATOMIC_SEQ_CST) < THREADS) sched_yield();
    for (int i = 0; i < AGENTS; i++) inspect(i, 1);
    inspect(0, AGENTS);
    end_watchers(asleep + in_poll);
    end(watches);
}

int main(int count, char **words) {
    if (count > 1) wanted_posts = strtoull(words[1], NULL, 10);
    go_on(1, 2, 0);
    go_on(1, 0, 1);
    go_on(2, 2, 0);
    go_on(2, 1, 1);
}
