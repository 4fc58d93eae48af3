/* bench_spin.c: whether it pays to spin before one sleeps. It is no test.
 *
 *     bench_spin PROCESSORS OTHERS POLL_NS
 *
 * On so many processors, a thread works and polls about every POLL_NS nanoseconds, and an agent asks it for its frames again and
 * again, with cq_wait_get_frame_count. So many OTHERS keep the processors busy meanwhile. For SECONDS it counts the answers, how
 * long the agent's processor was used for each, and how much the thread worked, beside how much it works with no agent.
 * cebdyraq_wait.c is compiled with another SPIN_NS in front of the library, so that one program spins and another does not.
 */
#define _GNU_SOURCE
#include "check.h"

#include <pthread.h>
#include <sched.h>
#include <stdatomic.h>
#include <time.h>

enum { SECONDS = 2, MOST_OTHERS = 64 };

static cq_signal shared;
static cq_service service;
static cq_thread thread;
static cq_env env;
static atomic_bool over;
static uint64_t steps_a_poll;
static uint64_t worked;

static double time_of(clockid_t clock) {
    struct timespec now;
    clock_gettime(clock, &now);
    return (double)now.tv_sec + (double)now.tv_nsec / 1e9;
}

static uint64_t work(uint64_t steps) {
    uint64_t x = 88172645463325252u;
    for (uint64_t i = 0; i < steps; i++) {
        x ^= x << 13;
        x ^= x >> 7;
        x ^= x << 17;
    }
    return x;
}

static void *run_thread(void *unused) {
    volatile uint64_t kept = 0;
    while (!atomic_load_explicit(&over, memory_order_relaxed)) {
        kept += work(steps_a_poll);
        worked++;
        if (!cq_poll_clear(&thread)) OK(cq_wait_poll(&thread, &shared));
    }
    OK(cq_wait_block(&thread, &shared, CQ_PARK));
    return unused;
}

static void *keep_busy(void *unused) {
    volatile uint64_t kept = 0;
    while (!atomic_load_explicit(&over, memory_order_relaxed)) kept += work(1000);
    return unused;
}

/* How many answers came, and the agent's time for them. */
static uint64_t ask(double seconds, double *used) {
    uint64_t answers = 0;
    double began = time_of(CLOCK_THREAD_CPUTIME_ID), end = time_of(CLOCK_MONOTONIC) + seconds;
    while (time_of(CLOCK_MONOTONIC) < end) {
        uint32_t count = 0;
        OK(cq_wait_get_frame_count(&env, &shared, 0, -1, &count));
        answers++;
    }
    *used = time_of(CLOCK_THREAD_CPUTIME_ID) - began;
    return answers;
}

static void rest(double seconds) {
    struct timespec time = { (time_t)seconds, (long)((seconds - (double)(time_t)seconds) * 1e9) };
    nanosleep(&time, NULL);
}

/* How often the thread polls in a second, while an agent asks or none does. */
static double polls(uint32_t others, bool asks, uint64_t *answers, double *used) {
    pthread_t ids[MOST_OTHERS + 1];
    atomic_store(&over, false);
    worked = 0;
    OK(cq_wait_back(&thread, &shared, -1));
    pthread_create(&ids[0], NULL, run_thread, NULL);
    for (uint32_t i = 0; i < others; i++) pthread_create(&ids[i + 1], NULL, keep_busy, NULL);
    double began = time_of(CLOCK_MONOTONIC);
    if (asks) *answers = ask(SECONDS, used);
    else rest(SECONDS);
    atomic_store(&over, true);
    double took = time_of(CLOCK_MONOTONIC) - began;
    for (uint32_t i = 0; i <= others; i++) pthread_join(ids[i], NULL);
    return (double)worked / took;
}

static void measure_step(double poll_ns) {
    double began = time_of(CLOCK_THREAD_CPUTIME_ID);
    volatile uint64_t kept = work(10000000);
    (void)kept;
    steps_a_poll = 1 + (uint64_t)(poll_ns * 10000000 / ((time_of(CLOCK_THREAD_CPUTIME_ID) - began) * 1e9));
}

int main(int count, char **words) {
    if (count != 4) return 2;
    uint32_t processors = (uint32_t)atoi(words[1]), others = (uint32_t)atoi(words[2]);
    CHECK(others <= MOST_OTHERS);
    cpu_set_t set;
    CPU_ZERO(&set);
    for (uint32_t i = 0; i < processors; i++) CPU_SET(i, &set);
    SAME(sched_setaffinity(0, sizeof set, &set), 0);
    measure_step(atof(words[3]));
    OK(cq_make(8, 1, 8, 0, &service));
    OK(cq_attach_environment(&service, &env));
    OK(cq_attach_thread(&service, (const uint8_t *)"", 0, 5, &thread));
    OK(cq_wait_start(&thread, &shared, -1));
    OK(cq_meet(&env));
    OK(cq_wait_block(&thread, &shared, CQ_PARK));
    uint64_t answers = 0;
    double used = 0;
    double alone = polls(others, false, &answers, &used), beside = polls(others, true, &answers, &used);
    printf("%" PRIu32 " processors, %" PRIu32 " others, a poll every %6s ns: %9.0f answers a second, %7.2f us of the agent each, the thread works at %3.0f %%\n",
           processors, others, words[3], (double)answers / SECONDS, used * 1e6 / (double)answers, 100 * beside / alone);
    return 0;
}
