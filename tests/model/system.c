/* system.c: see system.h. Memory is sequentially consistent, and each run has a heap and a clock of its own. */
#define _GNU_SOURCE
#include "system.h"
#include "calls.h"
#include "scenarios.h"

#include <errno.h>
#include <linux/futex.h>
#include <stdio.h>
#include <string.h>

#undef cq_out_at

uint32_t load_word(const uint32_t *at, const char *what) {
    step(what);
    return *at;
}

uint32_t add_to_word(uint32_t *at, uint32_t more, const char *what) {
    step(what);
    *at += more;
    return *at - more;
}

uint32_t subtract_from_word(uint32_t *at, uint32_t less, const char *what) {
    step(what);
    if (*at < less) fail("the count of sleepers falls below 0");
    *at -= less;
    return *at + less;
}

static long fail_as(int why) {
    errno = why;
    return -1;
}

static long wait_at(uint32_t *word, uint32_t value, const int64_t *until, uint32_t bits) {
    step("futex wait");
    if (*word != value) return fail_as(EAGAIN);
    if (((cq_sleepers *)word)->sleepers <= count_asleep(word)) fail("a sleeper is not counted");
    if (left.early_ends > 0 && choose(2) == 1) {
        left.early_ends--;
        return fail_as(EINTR);
    }
    return fail_as(sleep_at(word, bits, until ? until[0] * 1000000000 + until[1] : -1) ? ETIMEDOUT : EINTR);
}

long call_futex(uint32_t *word, int operation, uint32_t value, const int64_t *until, uint32_t bits) {
    if (bits == 0) fail("a futex call has no bits");
    if (operation == FUTEX_WAIT_BITSET_PRIVATE) return wait_at(word, value, until, bits);
    step("futex wake");
    if (operation != FUTEX_WAKE_BITSET_PRIVATE || value != INT32_MAX) fail("a futex call is none of the two");
    wake_at(word, bits);
    return 0;
}

int read_clock(clockid_t clock, struct timespec *at) {
    (void)clock;
    time_ns += tick_ns;
    *at = (struct timespec){ time_ns / 1000000000, time_ns % 1000000000 };
    return 0;
}

int read_affinity(pid_t process, size_t size, cpu_set_t *set) {
    (void)process;
    (void)size;
    CPU_ZERO(set);
    for (int i = 0; i < processors_there; i++) CPU_SET(i, set);
    return 0;
}

/* ------------------------------------------------------------------------------------------------------------------
 * CQ_BUSY.
 */

static bool chooses_busy(void) {
    if (left.busies == 0 || choose(2) == 0) return false;
    left.busies--;
    tell_step(".. is told CQ_BUSY");
    return true;
}

bool is_told_busy(const char *what) {
    step(what);
    return chooses_busy();
}

bool is_told_busy_unless_full(const char *what, cq_env *env, uint32_t thread) {
    uint32_t out = 0;
    step(what);
    return cq_out_at(env, thread, &out) == CQ_OK && out < the_window && chooses_busy();
}

/* ------------------------------------------------------------------------------------------------------------------
 * The heap. A block's size lies before it. No block is used again within a run.
 */

enum { BEFORE = 16, HEAP_SIZE = 1 << 23 };
static char heap[HEAP_SIZE] __attribute__((aligned(64)));
static size_t used;

static void *allocate(size_t size) {
    size_t whole = BEFORE + (size + 15) / 16 * 16;
    if (whole > HEAP_SIZE - used) return NULL;
    char *block = heap + used + BEFORE;
    *(size_t *)(block - BEFORE) = size;
    used += whole;
    return block;
}

static void *resize(void *block, size_t size) {
    size_t before = *(size_t *)((char *)block - BEFORE);
    void *made = size <= before ? block : allocate(size);
    return made == NULL || made == block ? made : memcpy(made, block, before);
}

static void release(void *block) { (void)block; }

void forget_heap(void) { used = 0; }

void use_heap(void) {
    if (cq_set_heap(allocate, resize, release) != CQ_OK) fail("the heap is not set");
}
