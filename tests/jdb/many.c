/* many.c: a thousand threads to which a debugger may attach.
 *
 * Four of them run and poll, each on a thread of the operating system. All others sleep. It tells its port on the first
 * line, and then obeys what it reads: "come" starts a thread of the name "late", "go" ends it, "define" defines a class.
 * The end of input ends it. */
#include <stdbool.h>
#include <stdio.h>
#include <stdlib.h>
#include <string.h>

#include <pthread.h>
#include <stdatomic.h>
#include <time.h>
#include <unistd.h>

#include "cebdyraq_serve.h"
#include "cebdyraq_wait.h"

enum { THREADS = 1000, RUNNING = 4, DEPTH = 2 };

static cq_service service;
static cq_signal signal;
static cq_server server;
static cq_thread threads[THREADS];
static cq_thread late;
static cq_frame stack[DEPTH];  /* newest first */
static atomic_bool over;

static void must(const char *what, uint32_t code) {
    if (code == CQ_OK)
        return;
    fprintf(stderr, "many: %s gives %u\n", what, code);
    exit(1);
}

/* Defines a class of a file, and gives its first method. */
static uint32_t define(const char *signature, const char *file, const cq_method_strings *methods, size_t count) {
    uint32_t class_no, first;
    must("a class", cq_define_class_strings(&service, signature, file, methods, count, &class_no, &first));
    return first;
}

static void define_stack(void) {
    const cq_method_strings methods[] = { { .name = "work", .lines_kind = CQ_LINES_LOCATIONS, .first_line = 10 },
                                          { .name = "rest", .lines_kind = CQ_LINES_LOCATIONS, .first_line = 20 } };
    uint32_t first = define("Lmany/Threads;", "many/threads.txt", methods, 2);
    stack[0] = (cq_frame){ first + 1, 21 };
    stack[1] = (cq_frame){ first, 11 };
}

static void start(cq_thread *thread, const char *name) {
    must("a thread", cq_wait_attach_thread(&service, &signal, (const uint8_t *)name, strlen(name), 5, thread));
    must("its start", cq_wait_start(thread, &signal, -1));
    must("its stack", cq_set_frames(thread, stack, DEPTH));
}

static void end(cq_thread *thread) {
    must("an end", cq_wait_end(thread, &signal));
    must("a detachment", cq_wait_detach_thread(thread, &signal));
}

/* A thread that runs, and polls each millisecond. It goes on without the frames that were popped. */
static void *run(void *arg) {
    const struct timespec millisecond = { 0, 1000000 };
    uint64_t popped;
    while (!atomic_load(&over)) {
        must("a poll", cq_wait_poll(arg, &signal));
        must("pops", cq_take_pops(arg, &popped));
        nanosleep(&millisecond, NULL);
    }
    end(arg);
    return NULL;
}

static void start_all(pthread_t *running) {
    char name[16];
    for (size_t i = 0; i < THREADS; i++) {
        snprintf(name, sizeof name, "many-%zu", i);
        start(&threads[i], name);
        if (i >= RUNNING)
            must("a sleep", cq_wait_block(&threads[i], &signal, CQ_SLEEP));
        else if (pthread_create(&running[i], NULL, run, &threads[i]))
            exit(1);
    }
}

static void end_all(const pthread_t *running) {
    atomic_store(&over, true);
    for (size_t i = 0; i < RUNNING; i++)
        pthread_join(running[i], NULL);
    for (size_t i = RUNNING; i < THREADS; i++) {
        must("a return", cq_wait_back(&threads[i], &signal, -1));
        end(&threads[i]);
    }
}

static void obey(const char *line) {
    const cq_method_strings method = { .name = "unused", .lines_kind = CQ_LINES_LOCATIONS, .first_line = 1 };
    if (!strcmp(line, "come\n"))
        start(&late, "late");
    else if (!strcmp(line, "go\n"))
        end(&late);
    else if (!strcmp(line, "define\n"))
        define("Ldeep/late;", "deep/late.txt", &method, 1);
    else
        exit(1);
    puts("done");
}

/* Lets a debugger attach, and gives the port. */
static uint16_t listen_here(void) {
    char path[4096];
    uint16_t port;
    if (!getcwd(path, sizeof path))
        exit(1);
    must("pops", cq_server_pops_frames(&server, true));
    must("the debugger's door", cq_debug_listen(&server, &service, &signal, "127.0.0.1:0", "many", path));
    must("the port", cq_server_port(&server, &port));
    return port;
}

int main(void) {
    pthread_t running[RUNNING];
    char line[64];
    setvbuf(stdout, NULL, _IOLBF, 0);
    must("a service", cq_make(DEPTH, 1, 8, CQ_CAN_SUSPEND | CQ_CAN_POP_FRAME, &service));
    define_stack();
    start_all(running);
    printf("port %u\n", listen_here());
    while (fgets(line, sizeof line, stdin))
        obey(line);
    must("the server's end", cq_serve_end(&server));
    end_all(running);
    cq_free(&service);
    return 0;
}
