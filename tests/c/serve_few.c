/* serve_few.c: a process that may have few files open. */
#define _GNU_SOURCE
#include "served.h"

#include <errno.h>
#include <sys/resource.h>
#include <unistd.h>

enum { FEW = 24 };

static void allow(rlim_t files) {
    struct rlimit limit;
    SAME(getrlimit(RLIMIT_NOFILE, &limit), 0);
    limit.rlim_cur = files;
    SAME(setrlimit(RLIMIT_NOFILE, &limit), 0);
}

/* The lowest number that no file has. */
static int lowest_free(void) {
    int copy = dup(0);
    CHECK(copy >= 0);
    close(copy);
    return copy;
}

static void serves_with(rlim_t files) {
    answer got;
    allow(files);
    begin_served("127.0.0.1:0");
    for (int i = 0; i < 3; i++) {
        get(&server, "/", &got);
        SAME(got.status, 200);
        forget(&got);
    }
    end_served();
}

/* With room for the listener, the thread's waker and a connection, and no more, it does not begin. */
static void is_refused_with(int files) {
    cq_server other = { 0 };
    allow((rlim_t)files);
    uint32_t code = cq_serve(&other, &service, NULL, "127.0.0.1:0", "x");
    int why = errno;
    SAME(code, CQ_SYSTEM);
    SAME(why, EMFILE);
    OK(cq_serve_end(&other));
}

void serves_with_few_files(void) {
    struct rlimit limit;
    SAME(getrlimit(RLIMIT_NOFILE, &limit), 0);
    serves_with(FEW);
    allow(limit.rlim_cur);
    begin_served("127.0.0.1:0");
    int free = lowest_free();
    for (int more = 0; more < 4; more++) is_refused_with(free + more);
    allow(limit.rlim_cur);
    end_served();
}
