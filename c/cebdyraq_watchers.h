/* cebdyraq_watchers.h: what the calls of environments and doors share with cebdyraq_watch.c. It is not installed, and the shared library
 * exports none of it. */
#ifndef CEBDYRAQ_WATCHERS_H
#define CEBDYRAQ_WATCHERS_H

#include <stdint.h>

/* How many sleep in a watch, or have a file descriptor that waits for news, and what wakes them. There is such a function if there was
 * ever one of them. */
typedef struct { uint32_t count; void (*wake)(void); } watchers;
extern watchers cebdyraq_watchers __attribute__((visibility("hidden")));

/* After a call by which a thread may have become wanted. */
static inline void tell_watchers(void) {
    if (__builtin_expect(__atomic_load_n(&cebdyraq_watchers.count, __ATOMIC_SEQ_CST) != 0, 0)) {
        cebdyraq_watchers.wake();
    }
}

#endif
