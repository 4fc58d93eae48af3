/* debug_stops.c: a thread that stops at a breakpoint time and again, and wakes the servers that look for it. */
#define _GNU_SOURCE
#include "debugged.h"

#include <pthread.h>
#include <stdatomic.h>
#include <sys/socket.h>
#include <unistd.h>

enum { SERVERS = 2, COUNTED = 1000, TOLD = 100 };

static cq_server servers[SERVERS];
static cq_service service;
static cq_signal all_signal;
static cq_thread thread;
static pthread_t id;
static atomic_bool over;
static atomic_uint hits;  /* how often the thread was about to stop */

/* ------------------------------------------------------------------------------------------------------------------
 * The runtime.
 */

static void run_a_line(uint32_t line) {
    bool stops = false;
    OK(cq_at(&thread, line));
    OK(cq_wait_reached(&thread, &all_signal, 0, line, &stops));
    if (stops) {
        atomic_fetch_add(&hits, 1);
        OK(cq_wait_stop(&thread, &all_signal));
    }
    OK(cq_wait_poll(&thread, &all_signal));
}

static void *work(void *unused) {
    OK(cq_wait_start(&thread, &all_signal, -1));
    OK(cq_enter(&thread, 0));
    while (!atomic_load(&over)) {
        run_a_line(1);
        run_a_line(2);
    }
    OK(cq_wait_end(&thread, &all_signal));
    return unused;
}

static void begin(cq_signal *signal) {
    static const cq_method_strings method = { .name = "run", .signature = "", .lines_kind = CQ_LINES_LOCATIONS, .first_line = 1 };
    uint32_t class_no = 0, first = 0;
    atomic_store(&over, false);
    atomic_store(&hits, 0);
    OK(cq_make(8, 1 + SERVERS, 2, CQ_CAN_SUSPEND | CQ_CAN_POP_FRAME, &service));
    OK(cq_define_class_strings(&service, "La;", NULL, &method, 1, &class_no, &first));
    OK(cq_wait_attach_thread(&service, &all_signal, (const uint8_t *)"worker", 6, 5, &thread));
    for (size_t i = 0; i < SERVERS; i++) {
        OK(cq_debug_listen(&servers[i], &service, signal, "127.0.0.1:0", "tests", "/src"));
    }
    SAME(pthread_create(&id, NULL, work, NULL), 0);
}

static void finish(void) {
    atomic_store(&over, true);
    pthread_join(id, NULL);
    for (size_t i = 0; i < SERVERS; i++) {
        OK(cq_serve_end(&servers[i]));
    }
    OK(cq_wait_detach_thread(&thread, &all_signal));
    OK(cq_free(&service));
}

/* ------------------------------------------------------------------------------------------------------------------
 * Two debuggers.
 */

#define AT_1 "07 01 0000000400000000 0000000600000000 0000000000000001"
#define AT_2 "07 01 0000000400000000 0000000600000000 0000000000000002"
#define FIRST "0000000000000001"

static int attach(cq_server *to) {
    int socket = dial(to);
    CHECK(is_greeted(socket));
    return socket;
}

/* It reads its next event, of this number: the thread stopped at this line for the request 1. A thousand hits take long under valgrind. */
static void is_told(int socket, uint32_t number, unsigned line) {
    static packet wanted;
    uint8_t found[100];
    char data[120];
    ssize_t got = -1;
    snprintf(data, sizeof data, "01 00000001 02 00000001 " FIRST " 01 0000000400000000 0000000600000000 %016x", line);
    make_request(&wanted, number, 64, 100, data);
    CHECK(wanted.length <= sizeof found);
    for (int tries = 0; tries < 12 && got < 0; tries++) {
        got = recv(socket, found, wanted.length, MSG_WAITALL);
    }
    SAME(got, wanted.length);
    check_bytes(found, wanted.length, &wanted);
}

/* The breakpoint is told at its last hit that counts, where the thread stands. */
static void counts(int socket) {
    char asked[120];
    snprintf(asked, sizeof asked, "02 01 00000002 " AT_1 " 01 %08x", COUNTED);
    asks_at(socket, 15, 1, asked, 0, "00000001");
    is_told(socket, 0, 1);
    SAME(atomic_load(&hits), COUNTED);
    usleep(20000);
    SAME(atomic_load(&hits), COUNTED);
    asks_at(socket, 11, 3, FIRST, 0, "");
}

/* Each hit is told, and the thread stands until it is resumed. Then a server goes, at which the thread may be about to stop. */
static void tells_each(int socket) {
    unsigned before = atomic_load(&hits);
    asks_at(socket, 15, 1, "02 01 00000001 " AT_2, 0, "00000001");
    for (unsigned i = 0; i < TOLD; i++) {
        is_told(socket, i, 2);
        SAME(atomic_load(&hits), before + i + 1);
        asks_at(socket, 11, 3, FIRST, 0, "");
    }
}

static void stops_for(cq_signal *signal) {
    begin(signal);
    int counting = attach(&servers[0]), telling = attach(&servers[1]);
    counts(counting);
    tells_each(telling);
    close(telling);
    OK(cq_serve_end(&servers[1]));
    close(counting);
    finish();
}

void tells_stops(void) {
    stops_for(&all_signal);
}
