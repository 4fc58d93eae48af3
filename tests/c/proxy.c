/* proxy.c: threads of an interpreter with one lock, for which a watcher hands over.
 *
 *     proxy [ROUNDS]
 *
 * A thread holds the lock while it runs, and never polls. The watcher reads the poll words of all threads without the lock. If somebody
 * calls for one, it takes the lock and hands over for each that is wanted. A thread that was held comes back by itself. Beside them an
 * agent reads stacks, suspends and resumes, ROUNDS times, and reads the memory of the thread that stands. */
#define _POSIX_C_SOURCE 200809L
#include "check.h"

#include <pthread.h>
#include <sched.h>
#include <time.h>

enum { THREADS = 3 };

struct runner {
    cq_thread handle;
    const uint64_t *word;
    uint64_t mask;
    bool is_held;     /* under the lock, as is what follows */
    uint64_t steps;   /* also read by the agent while the thread stands */
    uint64_t held;    /* how often it came back */
};

static cq_signal shared;
static cq_service service, service_of_agent;
static cq_env env;
static struct runner runners[THREADS];
static pthread_mutex_t lock = PTHREAD_MUTEX_INITIALIZER;
static uint32_t rounds = 3000;
static bool is_over;

/* The watcher hands over by a function of cebdyraq.h, so it tells the thread sanitizer itself that what threads did comes before what
 * the agent does after an answer. */
extern void __tsan_release(void *at) __attribute__((weak));

static void threads_did(void) {
    if (__tsan_release) __tsan_release(&shared.agents);
}

static bool ends(void) { return __atomic_load_n(&is_over, __ATOMIC_RELAXED); }

static bool is_called(const struct runner *runner) { return (__atomic_load_n(runner->word, __ATOMIC_RELAXED) & runner->mask) != 0; }

/* Waits without the lock, which the watcher may need for another thread. */
static void come_back(struct runner *runner) {
    pthread_mutex_unlock(&lock);
    OK(cq_wait_back(&runner->handle, &shared, -1));
    pthread_mutex_lock(&lock);
    runner->is_held = false;
    runner->held++;
}

static void *run(void *of) {
    struct runner *runner = of;
    while (!ends()) {
        pthread_mutex_lock(&lock);
        if (runner->is_held) come_back(runner);
        runner->steps++;
        pthread_mutex_unlock(&lock);
        sched_yield();
    }
    return NULL;
}

/* The stack is one frame, whose location is the number of steps. */
static void hand_over(struct runner *runner) {
    cq_frame frame = {7, (int64_t)(runner->steps & 0xffffff)};
    if (runner->is_held || !is_called(runner)) return;
    OK(cq_set_frames(&runner->handle, &frame, 1));
    threads_did();
    uint32_t code = cq_poll(&runner->handle);
    if (code == CQ_BUSY) return;
    CHECK(code == CQ_OK || code == CQ_HELD);
    runner->is_held = code == CQ_HELD;
    cq_wake(&shared);
}

static void *watch(void *none) {
    (void)none;
    while (!ends()) {
        bool called = false;
        for (int i = 0; i < THREADS; i++) called = called || is_called(&runners[i]);
        if (!called) {
            nanosleep(&(struct timespec){.tv_nsec = 50000}, NULL);
            continue;
        }
        pthread_mutex_lock(&lock);
        for (int i = 0; i < THREADS; i++) hand_over(&runners[i]);
        pthread_mutex_unlock(&lock);
    }
    return NULL;
}

/* Each call is answered, and a thread that was suspended takes no step. */
static void inspect(void) {
    uint64_t last[THREADS] = {0};
    for (uint32_t i = 0; i < rounds; i++) {
        uint32_t at = i % THREADS, count = 0;
        cq_frame frames[2];
        OK(cq_wait_get_stack_trace(&env, &shared, at, 0, 2, -1, frames, 2, &count));
        SAME(count, 1);
        SAME(frames[0].method, 7);
        CHECK((uint64_t)frames[0].location >= last[at]);
        OK(cq_wait_suspend_thread(&env, &shared, at, -1));
        uint64_t steps = runners[at].steps;
        CHECK(steps >= last[at]);
        OK(cq_wait_get_stack_trace(&env, &shared, at, 0, 2, -1, frames, 2, &count));
        SAME(frames[0].location, steps & 0xffffff);
        sched_yield();
        SAME(runners[at].steps, steps);
        OK(cq_wait_resume_thread(&env, &shared, at, -1));
        last[at] = steps;
    }
}

static void begin(struct runner *runner, pthread_t *id) {
    OK(cq_attach_thread(&service, (const uint8_t *)"runner", 6, 5, &runner->handle));
    OK(cq_start(&runner->handle));
    OK(cq_poll_word(&runner->handle, &runner->word, &runner->mask));
    SAME(pthread_create(id, NULL, run, runner), 0);
}

static void end(struct runner *runner, pthread_t id) {
    SAME(pthread_join(id, NULL), 0);
    if (runner->is_held) OK(cq_wait_back(&runner->handle, &shared, -1));
    OK(cq_wait_end(&runner->handle, &shared));
    CHECK(runner->held > 0);
}

int main(int count, char **words) {
    pthread_t ids[THREADS], watcher;
    if (count > 1) rounds = (uint32_t)strtoul(words[1], NULL, 10);
    OK(cq_make(2, 1, 2, CQ_CAN_SUSPEND, &service));
    OK(cq_share(&service, &service_of_agent));
    OK(cq_attach_environment(&service_of_agent, &env));
    OK(cq_add_capabilities(&env, CQ_CAN_SUSPEND));
    for (int i = 0; i < THREADS; i++) begin(&runners[i], &ids[i]);
    SAME(pthread_create(&watcher, NULL, watch, NULL), 0);
    OK(cq_wait_meet(&env, &shared));
    inspect();
    __atomic_store_n(&is_over, true, __ATOMIC_RELAXED);
    SAME(pthread_join(watcher, NULL), 0);
    for (int i = 0; i < THREADS; i++) end(&runners[i], ids[i]);
    for (int i = 0; i < THREADS; i++) OK(cq_wait_detach_thread(&runners[i].handle, &shared));
    OK(cq_wait_dispose_environment(&env, &shared));
    OK(cq_free(&service));
    OK(cq_free(&service_of_agent));
}
