/* slow_wait.c: cebdyraq_wait.c, and it is slow between a try and what comes after it, and slow to go to sleep. So a
 * wake-up that might be lost comes often.
 *
 * It is linked in place of cebdyraq_wait.c, which it takes in. */
#define _GNU_SOURCE
#include "../../c/cebdyraq.h"

#include <linux/futex.h>
#include <sys/syscall.h>
#include <time.h>
#include <unistd.h>

static int64_t time_now(void) {
    struct timespec now;
    clock_gettime(CLOCK_MONOTONIC, &now);
    return (int64_t)now.tv_sec * 1000000000 + now.tv_nsec;
}

static void be_slow(int64_t time) {
    int64_t end = time_now() + time;
    while (time_now() < end) { }
}

static uint32_t slow_back(cq_thread *thread) {
    uint32_t code = cq_back(thread);
    be_slow(5000);
    return code;
}

static uint32_t slow_collect(cq_env *env, const cq_ticket *ticket, cq_answer *answer, cq_frame *frames, size_t room) {
    uint32_t code = cq_collect(env, ticket, answer, frames, room);
    be_slow(5000);
    return code;
}

static uint32_t slow_gather_step(cq_env *env, bool *over) {
    uint32_t code = cq_gather_step(env, over);
    be_slow(5000);
    return code;
}

static long slow_syscall(long number, uint32_t *at, int what, uint32_t value, const void *until, void *none,
                         uint32_t bits) {
    if (what == FUTEX_WAIT_BITSET_PRIVATE) {
        be_slow(20000);
    }
    return syscall(number, at, what, value, until, none, bits);
}

#define cq_back slow_back
#define cq_collect slow_collect
#define cq_gather_step slow_gather_step
#define syscall slow_syscall
#include "../../c/cebdyraq_wait.c"
