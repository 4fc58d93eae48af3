/* check.h: what the test programs say when something is not as it should be. */
#ifndef CHECK_H
#define CHECK_H

#include "../../c/cebdyraq_wait.h"

#include <inttypes.h>
#include <stdio.h>
#include <stdlib.h>
#include <string.h>

static inline void check_failed(const char *file, int line, const char *what) {
    fprintf(stderr, "%s:%d: not so: %s\n", file, line, what);
    fflush(NULL);
    _Exit(1);
}

static inline void check_same(const char *file, int line, const char *what, uint64_t found, uint64_t wanted) {
    if (found == wanted) {
        return;
    }
    fprintf(stderr, "%s:%d: %s is %" PRIu64 " (0x%" PRIx64 "), and not %" PRIu64 " (0x%" PRIx64 ")\n", file, line, what,
            found, found, wanted, wanted);
    fflush(NULL);
    _Exit(1);
}

/* It holds. */
#define CHECK(what) ((what) ? (void)0 : check_failed(__FILE__, __LINE__, #what))
/* The two numbers are the same. */
#define SAME(found, wanted) check_same(__FILE__, __LINE__, #found, (uint64_t)(found), (uint64_t)(wanted))
/* The call succeeds. */
#define OK(call) SAME(call, CQ_OK)
/* The call may be refused. */
#define MAYBE(call) ((void)!(call))

#endif
