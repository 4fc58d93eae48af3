/* serve.c: a program that is served over HTTP. Its values are worked out from what its two threads do. */
#define _GNU_SOURCE
#include "served.h"

#include <errno.h>
#include <pthread.h>
#include <stdatomic.h>
#include <sys/socket.h>
#include <sys/stat.h>
#include <time.h>
#include <unistd.h>

cq_server server;
cq_service service;
cq_signal all_signal;
static cq_thread threads[2];
static pthread_t ids[2];
static atomic_bool over;
static uint32_t first_method;

/* ------------------------------------------------------------------------------------------------------------------
 * The runtime.
 */

static void define(void) {
    static const cq_line_entry lines[] = { { 0, 10 }, { 5, 12 } };
    static const cq_method_strings methods[] = {
        { .name = "outer", .signature = "()V", .lines = lines, .line_count = 2, .lines_kind = CQ_LINES_TABLE, .first_line = 9 },
        { .name = "inner", .lines_kind = CQ_LINES_LOCATIONS, .first_line = 20 },
        { .name = "sleep", .lines_kind = CQ_LINES_NATIVE },
    };
    uint32_t class_no = 0;
    OK(cq_define_class_strings(&service, "Work", "work.x", methods, 3, &class_no, &first_method));
}

/* Computes in `inner` at line 21, which `outer` calls at location 7, its line 12. */
static void *compute(void *unused) {
    cq_frame frames[] = { { first_method + 1, 21 }, { first_method, 7 } };
    OK(cq_wait_start(&threads[0], &all_signal, -1));
    while (!atomic_load(&over)) {
        if (!cq_poll_clear(&threads[0])) {
            OK(cq_set_frames(&threads[0], frames, 2));
            OK(cq_wait_poll(&threads[0], &all_signal));
        }
    }
    OK(cq_wait_end(&threads[0], &all_signal));
    return unused;
}

static void *doze(void *unused) {
    cq_frame frames[] = { { first_method + 2, -1 } };
    OK(cq_wait_start(&threads[1], &all_signal, -1));
    OK(cq_set_frames(&threads[1], frames, 1));
    OK(cq_wait_block(&threads[1], &all_signal, CQ_SLEEP));
    while (!atomic_load(&over)) {
        usleep(1000);
    }
    OK(cq_wait_back(&threads[1], &all_signal, -1));
    OK(cq_wait_end(&threads[1], &all_signal));
    return unused;
}

void begin_served(const char *address) {
    static void *(*const runs[])(void *) = { compute, doze };
    static const char *const names[] = { "computes \"all\"", "sleeps" };
    atomic_store(&over, false);
    OK(cq_make(16, 2, 4, CQ_CAN_SUSPEND | CQ_CAN_POP_FRAME, &service));
    define();
    for (size_t i = 0; i < 2; i++) {
        OK(cq_wait_attach_thread(&service, &all_signal, (const uint8_t *)names[i], strlen(names[i]), 5, &threads[i]));
        SAME(pthread_create(&ids[i], NULL, runs[i], NULL), 0);
    }
    OK(cq_serve(&server, &service, &all_signal, address, "serve test"));
}

void end_served(void) {
    atomic_store(&over, true);
    for (size_t i = 0; i < 2; i++) {
        pthread_join(ids[i], NULL);
        OK(cq_wait_detach_thread(&threads[i], &all_signal));
    }
    OK(cq_serve_end(&server));
    OK(cq_serve_end(&server));
    OK(cq_free(&service));
}

/* ------------------------------------------------------------------------------------------------------------------
 * What is served.
 */

static void await_threads(void) {
    answer got;
    for (int i = 0; i < 200; i++) {
        get(&server, "/threads", &got);
        SAME(got.status, 200);
        bool both = has_text(&got, "2 threads\n") && has_text(&got, "inner") && has_text(&got, "sleep ");
        forget(&got);
        if (both) {
            return;
        }
        usleep(10000);
    }
    CHECK(!"both threads are shown");
}

static void shows_stacks(void) {
    answer got;
    get(&server, "/threads", &got);
    CHECK(has_field(&got, "Content-Type: text/plain; charset=utf-8"));
    CHECK(has_field(&got, "X-Content-Type-Options: nosniff"));
    CHECK(has_text(&got, "\"computes \\\"all\\\"\" #0 prio=5 runnable\n    at inner (work.x:21)\n    at outer (work.x:12)\n\n"));
    CHECK(has_text(&got, "\"sleeps\" #1 prio=5 sleeping\n    at sleep (Native Method)\n\n"));
    forget(&got);
    get(&server, "/threads.json", &got);
    CHECK(has_field(&got, "Content-Type: application/json"));
    CHECK(has_text(&got, "\"count\":2"));
    CHECK(has_text(&got, "\"computes \\\"all\\\"\""));
    CHECK(has_text(&got, "\"sleeping\""));
    forget(&got);
    get(&server, "/debug/pprof/threads?debug=1", &got);
    SAME(got.status, 200);
    CHECK(has_text(&got, "threads profile: total 2\n"));
    forget(&got);
}

static void shows_what_there_is(void) {
    answer got;
    get(&server, "/", &got);
    SAME(got.status, 200);
    CHECK(has_text(&got, "/metrics"));
    CHECK(has_text(&got, "/debug/pprof/profile"));
    forget(&got);
}

/* The number behind a name in the body, or -1. */
static double number_of(const answer *got, const char *name) {
    const char *at = memmem(got->body, got->length, name, strlen(name));
    return at != NULL ? strtod(at + strlen(name), NULL) : -1;
}

static void counts(void) {
    answer got;
    usleep(300000);
    get(&server, "/metrics", &got);
    CHECK(has_field(&got, "Content-Type: text/plain; version=0.0.4; charset=utf-8"));
    SAME(number_of(&got, "\ncebdyraq_threads{state=\"runnable\"} "), 1);
    SAME(number_of(&got, "\ncebdyraq_threads{state=\"sleeping\"} "), 1);
    SAME(number_of(&got, "\ncebdyraq_threads{state=\"blocked\"} "), 0);
    SAME(number_of(&got, "\ncebdyraq_threads_attached_total "), 2);
    SAME(number_of(&got, "\ncebdyraq_threads_detached_total "), 0);
    CHECK(number_of(&got, "\ncebdyraq_handovers_total ") >= 1);
    CHECK(number_of(&got, "\ncebdyraq_http_requests_total{code=\"200\"} ") >= 4);
    CHECK(number_of(&got, "\ncebdyraq_thread_seconds_total{state=\"sleeping\"} ") > 0);
    CHECK(!has_text(&got, "\r"));
    SAME(got.body[got.length - 1], '\n');
    forget(&got);
}

/* ------------------------------------------------------------------------------------------------------------------
 * A profile, read as its format says.
 */

typedef struct { const uint8_t *at, *end; } reader;

static uint64_t varint(reader *r) {
    uint64_t value = 0;
    for (int shift = 0; r->at < r->end; shift += 7) {
        uint8_t byte = *r->at++;
        value |= (uint64_t)(byte & 127) << shift;
        if (byte < 128) {
            return value;
        }
    }
    CHECK(!"a varint ends");
    return 0;
}

/* The next field: its number, its value, or its bytes. */
static uint32_t field(reader *r, uint64_t *value, reader *bytes) {
    uint64_t key = varint(r);
    *value = varint(r);
    *bytes = (reader){ r->at, r->at };
    if ((key & 7) == 2) {
        CHECK(*value <= (uint64_t)(r->end - r->at));
        bytes->end = r->at += *value;
    } else {
        SAME(key & 7, 0);
    }
    return (uint32_t)(key >> 3);
}

/* The sum of the samples' counts. Each takes a period, in nanoseconds, or has no other value if that is 0. */
static uint64_t samples_in(const answer *got, uint64_t period) {
    reader all = { got->body, got->body + got->length }, one, values;
    uint64_t sum = 0, value;
    while (all.at < all.end) {
        if (field(&all, &value, &one) != 2) {
            continue;
        }
        while (one.at < one.end) {
            if (field(&one, &value, &values) == 2) {
                uint64_t count = varint(&values);
                sum += count;
                CHECK(period == 0 || varint(&values) == count * period);
                CHECK(values.at == values.end);
            }
        }
    }
    return sum;
}

static void profiles(void) {
    answer got;
    get(&server, "/debug/pprof/profile?seconds=1&rate=100", &got);
    SAME(got.status, 200);
    CHECK(has_field(&got, "Content-Type: application/octet-stream"));
    uint64_t samples = samples_in(&got, 10000000);
    SAME(samples, (uint64_t)number_of(&got, "thread_ticks="));
    SAME(samples, 2 * (uint64_t)number_of(&got, " ticks="));
    CHECK(samples >= 20 && samples <= 2 * 101);
    CHECK(has_text(&got, "inner") && has_text(&got, "work.x") && has_text(&got, "computes \"all\"") && has_text(&got, "serve test"));
    forget(&got);
    get(&server, "/debug/pprof/threads", &got);
    SAME(samples_in(&got, 0), 2);
    forget(&got);
}

/* ------------------------------------------------------------------------------------------------------------------
 * Connections.
 */

static void answers_in_order(void) {
    answer got;
    int socket = dial(&server);
    say(socket, "GET /threads HTTP/1.1\r\nHost: localhost\r\n\r\nHEAD / HTTP/1.1\r\nHost: localhost\r\n\r\n"
                "GET /nothing HTTP/1.1\r\nHost: localhost\r\n\r\nGET / HTTP/1.0\r\n\r\n");
    hear(socket, &got, false);
    SAME(got.status, 200);
    CHECK(has_text(&got, "2 threads\n"));
    forget(&got);
    hear(socket, &got, true);
    SAME(got.status, 200);
    forget(&got);
    hear(socket, &got, false);
    SAME(got.status, 404);
    forget(&got);
    hear(socket, &got, false);
    SAME(got.status, 200);
    CHECK(has_field(&got, "Connection: close"));
    forget(&got);
    CHECK(is_closed(socket));
    close(socket);
}

static uint64_t milliseconds(void) {
    struct timespec now;
    clock_gettime(CLOCK_MONOTONIC, &now);
    return (uint64_t)now.tv_sec * 1000 + (uint64_t)now.tv_nsec / 1000000;
}

/* A client that sends no more is answered at once, and one that vanishes leaves nothing behind. */
static void ends_a_profile_early(void) {
    answer got;
    int socket = dial(&server), other = dial(&server);
    uint64_t began = milliseconds();
    say(other, "GET /debug/pprof/profile?seconds=300 HTTP/1.1\r\nHost: localhost\r\n\r\n");
    say(socket, "GET /debug/pprof/profile?seconds=300 HTTP/1.1\r\nHost: localhost\r\n\r\n");
    usleep(200000);
    shutdown(socket, SHUT_WR);
    hear(socket, &got, false);
    SAME(got.status, 200);
    CHECK(samples_in(&got, 10000000) > 0);
    CHECK(milliseconds() - began < 8000);
    forget(&got);
    CHECK(is_closed(socket));
    close(socket);
    close(other);
}

/* A Unix socket is for this user alone, and goes with the server. One that a killed program left is taken over. */
static void serves_a_path(void) {
    static char address[80];
    struct stat file;
    answer got;
    snprintf(address, sizeof address, "unix:/tmp/cebdyraq-%d.sock", (int)getpid());
    server_path = address + 5;
    for (int i = 0; i < 2; i++) {
        begin_served(address);
        SAME(stat(server_path, &file), 0);
        SAME(file.st_mode & 0777, 0600);
        get(&server, "/", &got);
        SAME(got.status, 200);
        forget(&got);
        end_served();
        SAME(stat(server_path, &file) != 0 ? errno : 0, ENOENT);
    }
}

/* The file was removed, and another server listens at the path. It keeps its own file when the first one ends. */
static void leaves_the_path_to_a_successor(void) {
    static char address[80];
    cq_server successor = { 0 };
    answer got;
    snprintf(address, sizeof address, "unix:/tmp/cebdyraq-%d-next.sock", (int)getpid());
    server_path = address + 5;
    begin_served(address);
    SAME(unlink(server_path), 0);
    OK(cq_serve(&successor, &service, &all_signal, address, "serve test"));
    OK(cq_serve_end(&server));
    get(&successor, "/", &got);
    SAME(got.status, 200);
    forget(&got);
    OK(cq_serve_end(&successor));
    CHECK(access(server_path, F_OK) != 0);
    end_served();
}

static void refuses_addresses(void) {
    static const char *const wrong[] = { "", "6060", "127.0.0.1", "127.0.0.1:", "127.0.0.1:65536", "127.0.0.1:6060x", "0.0.0.0:0",
                                         "192.168.0.1:0", "localhost:-1", "[::1]", "unix:", "unix:/no/such/folder/at/all" };
    char address[32];
    uint16_t port = 7;
    cq_server other = { 0 };
    size_t count = sizeof wrong / sizeof *wrong;
    for (size_t i = 0; i < count; i++) {
        SAME(cq_serve(&other, &service, NULL, wrong[i], "x"), i + 1 < count ? CQ_ILLEGAL_ARGUMENT : CQ_SYSTEM);
        OK(cq_serve_end(&other));
    }
    SAME(cq_server_port(&other, &port), CQ_MISUSED);
    SAME(port, 7);
    OK(cq_server_port(&server, &port));
    snprintf(address, sizeof address, "127.0.0.1:%u", port);
    SAME(cq_serve(&other, &service, NULL, address, "x"), CQ_SYSTEM);
    SAME(errno, EADDRINUSE);
    SAME(cq_serve(&server, &service, NULL, "127.0.0.1:0", "x"), CQ_MISUSED);
    SAME(cq_serve(&other, &service, NULL, "127.0.0.1:0", "\xff"), CQ_ILLEGAL_ARGUMENT);
    cq_service none = { 0 };
    SAME(cq_serve(&other, &none, NULL, "127.0.0.1:0", "x"), CQ_MISUSED);
    cq_env envs[1] = { 0 };
    OK(cq_wait_attach_environment(&service, &all_signal, &envs[0]));
    SAME(cq_serve(&other, &service, NULL, "127.0.0.1:0", "x"), CQ_FULL);
    OK(cq_wait_dispose_environment(&envs[0], &all_signal));
}

/* With a word it leaves slow readers out: under valgrind their answers take minutes. */
int main(int words, char **unused) {
    (void)unused;
    begin_served("127.0.0.1:0");
    await_threads();
    shows_what_there_is();
    shows_stacks();
    counts();
    profiles();
    answers_in_order();
    ends_a_profile_early();
    refuses_addresses();
    refuses_what_is_wrong();
    keeps_its_bounds();
    if (words == 1) closes_slow_readers();
    end_served();
    forgets_in_a_child();
    serves_with_few_files();
    serves_a_path();
    leaves_the_path_to_a_successor();
    return 0;
}
