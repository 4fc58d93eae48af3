/* waits.c: cebdyraq_wait.c, or the file that WAITS_C names, with steps in place of what it calls. */
#define _GNU_SOURCE
#include "../../c/cebdyraq_wait.h"

#include <errno.h>
#include <linux/futex.h>
#include <sched.h>
#include <stdlib.h>
#include <sys/syscall.h>
#include <time.h>
#include <unistd.h>

#include "calls.h"
#include "system.h"

#define syscall(number, word, operation, value, until, none, bits) \
    call_futex((uint32_t *)(word), operation, value, (const int64_t *)(until), bits)
#define clock_gettime read_clock
#define sched_getaffinity read_affinity
#define __builtin_ia32_pause() ((void)0)

/* What the layer learns of its spins is relaxed and wakes nobody, so it is no step. */
#define __atomic_load_n(at, order) \
    ((order) == __ATOMIC_SEQ_CST ? load_word((const uint32_t *)(at), "load " #at) : (uint32_t)*(at))
#define __atomic_fetch_add(at, more, order) \
    ((order) == __ATOMIC_SEQ_CST ? add_to_word((uint32_t *)(at), more, "add to " #at) : (*(at) += (more)) - (more))
#define __atomic_fetch_sub(at, less, order) subtract_from_word((uint32_t *)(at), less, "subtract from " #at)
#define __atomic_store_n(at, value, order) (*(at) = (value))

#ifndef WAITS_C
#define WAITS_C "../../c/cebdyraq_wait.c"
#endif
#include WAITS_C

void forget_spins(void) { of_busy = of_threads = of_agents = (experience){ SPIN_NS, 0 }; }
