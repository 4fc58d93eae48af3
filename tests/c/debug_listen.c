/* debug_listen.c: a program that debuggers attach to over sockets, while its threads sleep, run and are suspended. */
#define _GNU_SOURCE
#include "debugged.h"

#include <errno.h>
#include <pthread.h>
#include <stdatomic.h>
#include <sys/socket.h>
#include <sys/stat.h>
#include <time.h>
#include <unistd.h>

#define WORKER "0000000000000001"
#define SLEEPER "0000000000000002"

cq_server debugged;
static cq_service service;
static cq_signal all_signal;
static cq_thread threads[2];
static pthread_t ids[2];
static atomic_bool over, is_busy, dozes;
static atomic_ulong turns, calls;

/* ------------------------------------------------------------------------------------------------------------------
 * The runtime.
 */

/* Takes turns, and polls after each, unless it is busy. */
static void *work(void *unused) {
    OK(cq_wait_start(&threads[0], &all_signal, -1));
    while (!atomic_load(&over)) {
        atomic_fetch_add(&turns, 1);
        usleep(200);
        if (!atomic_load(&is_busy)) {
            atomic_fetch_add(&calls, !cq_poll_clear(&threads[0]));
            OK(cq_wait_poll(&threads[0], &all_signal));
        }
    }
    OK(cq_wait_end(&threads[0], &all_signal));
    return unused;
}

static void *doze(void *unused) {
    OK(cq_wait_start(&threads[1], &all_signal, -1));
    OK(cq_wait_block(&threads[1], &all_signal, CQ_SLEEP));
    atomic_store(&dozes, true);
    while (!atomic_load(&over)) {
        usleep(1000);
    }
    OK(cq_wait_back(&threads[1], &all_signal, -1));
    OK(cq_wait_end(&threads[1], &all_signal));
    return unused;
}

static uint32_t listens(cq_server *at, const char *address) {
    return cq_debug_listen(at, &service, &all_signal, address, "listens", "/src");
}

static void await_sleeper(void) {
    for (int i = 0; i < 20000 && !atomic_load(&dozes); i++) {
        usleep(1000);
    }
    CHECK(atomic_load(&dozes));
}

void begin_debugged(const char *address) {
    static void *(*const runs[])(void *) = { work, doze };
    static const char *const names[] = { "worker", "sleeper" };
    atomic_store(&over, false);
    atomic_store(&dozes, false);
    OK(cq_make(8, 2, 4, CQ_CAN_SUSPEND | CQ_CAN_POP_FRAME, &service));
    for (size_t i = 0; i < 2; i++) {
        OK(cq_wait_attach_thread(&service, &all_signal, (const uint8_t *)names[i], strlen(names[i]), 5, &threads[i]));
        SAME(pthread_create(&ids[i], NULL, runs[i], NULL), 0);
    }
    await_worker();
    await_sleeper();
    OK(listens(&debugged, address));
}

static void end_threads(void) {
    atomic_store(&over, true);
    for (size_t i = 0; i < 2; i++) {
        pthread_join(ids[i], NULL);
        OK(cq_wait_detach_thread(&threads[i], &all_signal));
    }
    OK(cq_free(&service));
}

void end_debugged(void) {
    OK(cq_serve_end(&debugged));
    OK(cq_serve_end(&debugged));
    end_threads();
}

void await_worker(void) {
    unsigned long before = atomic_load(&turns);
    for (int i = 0; i < 20000; i++) {
        if (atomic_load(&turns) > before + 1) {
            return;
        }
        usleep(1000);
    }
    CHECK(!"the worker goes on");
}

unsigned long calls_for_worker(void) {
    return atomic_load(&calls);
}

/* The worker takes no turn for a while. */
static void check_stands(void) {
    unsigned long before = atomic_load(&turns);
    usleep(50000);
    SAME(atomic_load(&turns), before);
}

/* ------------------------------------------------------------------------------------------------------------------
 * A debugger.
 */

bool is_greeted(int socket) {
    char bytes[14];
    say(socket, HANDSHAKE);
    return recv(socket, bytes, 14, MSG_WAITALL) == 14 && !memcmp(bytes, HANDSHAKE, 14);
}

int attached(void) {
    int socket = dial(&debugged);
    CHECK(is_greeted(socket));
    return socket;
}

void asks_at(int socket, uint8_t set, uint8_t command, const char *data, uint16_t error, const char *reply) {
    static packet sent, wanted, found;
    static uint32_t request_id = 7;
    make_request(&sent, ++request_id, set, command, data);
    make_reply(&wanted, request_id, error, reply);
    SAME(send(socket, sent.bytes, sent.length, MSG_NOSIGNAL), sent.length);
    SAME(recv(socket, found.bytes, HEAD, MSG_WAITALL), HEAD);
    found.length = number_at(found.bytes, 4);
    CHECK(found.length >= HEAD && found.length <= LONGEST_PACKET);
    size_t rest = found.length - HEAD;
    SAME(rest == 0 ? 0 : recv(socket, found.bytes + HEAD, rest, MSG_WAITALL), rest);
    check_bytes(found.bytes, found.length, &wanted);
}

void hears_end(int socket, uint32_t number) {
    static packet wanted;
    uint8_t found[21];
    make_request(&wanted, number, 64, 100, "00 00000001 63 00000000");
    SAME(recv(socket, found, sizeof found, MSG_WAITALL), sizeof found);
    check_bytes(found, sizeof found, &wanted);
    CHECK(is_closed(socket));
}

/* A debugger attaches, and asks for what is the same each time. */
static void attaches(void) {
    int socket = attached();
    asks_at(socket, 1, 7, "", 0, "00000008 00000008 00000008 00000008 00000008");
    asks_at(socket, 1, 4, "", 0, "00000002" WORKER SLEEPER);
    asks_at(socket, 11, 1, SLEEPER, 0, "s:sleeper");
    asks_at(socket, 1, 13, "", 0, "s:/src 00000001 s:/src 00000000");
    asks_at(socket, 1, 6, "", 0, "");
    CHECK(is_closed(socket));
    close(socket);
}

/* ------------------------------------------------------------------------------------------------------------------
 * What is tested.
 */

uint64_t clock_ms(void) {
    struct timespec now;
    clock_gettime(CLOCK_MONOTONIC, &now);
    return (uint64_t)now.tv_sec * 1000 + (uint64_t)now.tv_nsec / 1000000;
}

static uint64_t processor_ms(void) {
    struct timespec used;
    clock_gettime(CLOCK_PROCESS_CPUTIME_ID, &used);
    return (uint64_t)used.tv_sec * 1000 + (uint64_t)used.tv_nsec / 1000000;
}

/* A second debugger is closed at once, and the first goes on. Nothing spins meanwhile. */
static void has_one_debugger(void) {
    int first = attached();
    for (int i = 0; i < 3; i++) {
        int second = dial(&debugged);
        CHECK(is_closed(second));
        close(second);
    }
    asks_at(first, 11, 2, WORKER, 0, "");
    uint64_t before = processor_ms();
    usleep(500000);
    CHECK(processor_ms() - before < 250);
    asks_at(first, 11, 3, WORKER, 0, "");
    close(first);
    attaches();
}

static void closes_what_is_no_debugger(void) {
    int socket = dial(&debugged);
    say(socket, "GET / HTTP/1.1\r\n\r\n");
    CHECK(is_closed(socket));
    close(socket);
    attaches();
}

/* One that does not greet is closed after two seconds, and another may attach. */
static void closes_one_that_does_not_greet(void) {
    int socket = dial(&debugged);
    uint64_t before = clock_ms();
    say(socket, "JDWP-Hand");
    CHECK(is_closed(socket));
    CHECK(clock_ms() - before >= 1900);
    close(socket);
    attaches();
}

/* Threads that sleep are woken once they are resumed. */
static void suspends_and_resumes(void) {
    int socket = attached();
    asks_at(socket, 1, 8, "", 0, "");
    check_stands();
    asks_at(socket, 11, 4, SLEEPER, 0, "00000002 00000001");
    asks_at(socket, 1, 9, "", 0, "");
    await_worker();
    asks_at(socket, 11, 2, WORKER, 0, "");
    asks_at(socket, 11, 7, WORKER, 0, "00000000");
    asks_at(socket, 11, 3, WORKER, 0, "");
    await_worker();
    close(socket);
}

/* A debugger that dies while all is suspended leaves all running, and another may attach. */
static void outlives_a_debugger(void) {
    int socket = attached();
    asks_at(socket, 1, 8, "", 0, "");
    check_stands();
    close(socket);
    await_worker();
    attaches();
}

/* The server ends while all is suspended, and all goes on. */
static void ends_while_all_stands(const char *address) {
    begin_debugged(address);
    int socket = attached();
    asks_at(socket, 1, 8, "", 0, "");
    asks_at(socket, 1, 8, "", 0, "");
    check_stands();
    OK(cq_serve_end(&debugged));
    await_worker();
    hears_end(socket, 0);
    close(socket);
    end_debugged();
}

static void *end_server(void *ended) {
    OK(cq_serve_end(&debugged));
    atomic_store((atomic_bool *)ended, true);
    return NULL;
}

/* The server ends while the worker has not polled since it was asked to stay. That waits for the poll, and undoes the suspension. */
static void ends_while_one_is_busy(void) {
    atomic_bool ended = false;
    pthread_t ender;
    begin_debugged("127.0.0.1:0");
    int socket = attached();
    atomic_store(&is_busy, true);
    await_worker();
    asks_at(socket, 11, 2, WORKER, 0, "");
    asks_at(socket, 11, 7, WORKER, 13, "");
    SAME(pthread_create(&ender, NULL, end_server, &ended), 0);
    hears_end(socket, 0);
    close(socket);
    usleep(50000);
    CHECK(!atomic_load(&ended));
    atomic_store(&is_busy, false);
    pthread_join(ender, NULL);
    await_worker();
    end_debugged();
}

static void refuses_addresses(void) {
    static const char *const wrong[] = { "", "5005", "127.0.0.1:", "0.0.0.0:0", "*:5005", "[::1]", "unix:", "unix:/no/such/folder/at/all" };
    char address[32];
    uint16_t port = 7;
    cq_server other = { 0 };
    cq_service none = { 0 };
    size_t count = sizeof wrong / sizeof *wrong;
    for (size_t i = 0; i < count; i++) {
        SAME(listens(&other, wrong[i]), i + 1 < count ? CQ_ILLEGAL_ARGUMENT : CQ_SYSTEM);
        OK(cq_serve_end(&other));
    }
    SAME(cq_server_port(&other, &port), CQ_MISUSED);
    SAME(port, 7);
    OK(cq_server_port(&debugged, &port));
    snprintf(address, sizeof address, "127.0.0.1:%u", port);
    SAME(listens(&other, address), CQ_SYSTEM);
    SAME(errno, EADDRINUSE);
    SAME(listens(&debugged, "127.0.0.1:0"), CQ_MISUSED);
    SAME(cq_debug_listen(&other, &service, NULL, "127.0.0.1:0", "\xff", "/src"), CQ_ILLEGAL_ARGUMENT);
    SAME(cq_debug_listen(&other, &service, NULL, "127.0.0.1:0", "listens", "/\xff"), CQ_ILLEGAL_ARGUMENT);
    SAME(cq_debug_listen(&other, &none, NULL, "127.0.0.1:0", "listens", "/src"), CQ_MISUSED);
}

/* HTTP is served beside it, with the one environment that is left. */
static void serves_beside_it(void) {
    cq_server http = { 0 }, other = { 0 };
    answer got;
    OK(cq_serve(&http, &service, &all_signal, "127.0.0.1:0", "listens"));
    SAME(listens(&other, "127.0.0.1:0"), CQ_FULL);
    int socket = attached();
    asks_at(socket, 1, 8, "", 0, "");
    get(&http, "/threads", &got);
    SAME(got.status, 200);
    CHECK(has_text(&got, "\"sleeper\" #1"));
    forget(&got);
    close(socket);
    await_worker();
    OK(cq_serve_end(&http));
}

/* A debugger that has sent a part of a packet, and closes, gives its place up to one that comes at once. */
static void gives_the_place_up(void) {
    for (int i = 0; i < 100; i++) {
        int first = attached();
        SAME(send(first, "\0\0\0\13\0\0", 6, MSG_NOSIGNAL), 6);
        close(first);
        close(attached());
    }
}

static void listens_at_a_path(void) {
    static char address[80];
    struct stat file;
    snprintf(address, sizeof address, "unix:/tmp/cebdyraq-debug-%d.sock", (int)getpid());
    server_path = address + 5;
    begin_debugged(address);
    SAME(stat(server_path, &file), 0);
    SAME(file.st_mode & 0777, 0600);
    attaches();
    end_debugged();
    SAME(stat(server_path, &file) != 0 ? errno : 0, ENOENT);
    ends_while_all_stands(address);
}

int main(void) {
    begin_debugged("127.0.0.1:0");
    attaches();
    has_one_debugger();
    closes_what_is_no_debugger();
    closes_one_that_does_not_greet();
    gives_the_place_up();
    suspends_and_resumes();
    outlives_a_debugger();
    refuses_addresses();
    serves_beside_it();
    end_debugged();
    ends_while_all_stands("localhost:0");
    ends_while_one_is_busy();
    listens_at_a_path();
    tells_variables();
    starts_suspended();
    tells_classes();
    tells_stops();
    tells_the_end();
    takes_own_users();
    return 0;
}
