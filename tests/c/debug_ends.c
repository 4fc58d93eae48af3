/* debug_ends.c: debuggers that are there when the server ends: what they are told last, and how long that takes. */
#define _GNU_SOURCE
#include "debugged.h"

#include <sys/socket.h>
#include <unistd.h>

enum { SHORT = 100 };

static cq_server server;
static cq_service service;
static cq_signal all_signal;

static void begin(void) {
    OK(cq_make(8, 2, 4, CQ_CAN_SUSPEND | CQ_CAN_POP_FRAME, &service));
    OK(cq_debug_listen(&server, &service, &all_signal, "127.0.0.1:0", "tests", "/src"));
}

static void finish(void) {
    OK(cq_serve_end(&server));
    OK(cq_free(&service));
}

static int attach(void) {
    int socket = dial(&server);
    CHECK(is_greeted(socket));
    return socket;
}

/* A thread of the service that starts and ends at once. */
static void run_one(void) {
    cq_thread thread = { 0 };
    OK(cq_wait_attach_thread(&service, &all_signal, (const uint8_t *)"short", 5, 5, &thread));
    OK(cq_wait_start(&thread, &all_signal, -1));
    OK(cq_wait_end(&thread, &all_signal));
    OK(cq_wait_detach_thread(&thread, &all_signal));
}

/* The next packet of the debugger is this event. */
static void hears(int socket, uint32_t number, const char *data) {
    static packet wanted, found;
    make_request(&wanted, number, 64, 100, data);
    SAME(recv(socket, found.bytes, wanted.length, MSG_WAITALL), wanted.length);
    check_bytes(found.bytes, wanted.length, &wanted);
}

/* Threads that end just before the server does are told, and then the end: unasked, and to the request for it. */
static void tells_threads_before(void) {
    char data[80];
    begin();
    int socket = attach();
    asks_at(socket, 15, 1, "07 00 00000000", 0, "00000001");
    asks_at(socket, 15, 1, "63 02 00000000", 0, "00000002");
    usleep(20000);  /* the server's thread is at rest */
    for (uint32_t i = 0; i < SHORT; i++) {
        run_one();
    }
    OK(cq_serve_end(&server));
    for (uint32_t i = 0; i < SHORT; i++) {
        snprintf(data, sizeof data, "00 00000001 07 00000001 %016x", i + 1);
        hears(socket, i, data);
    }
    hears(socket, SHORT, "00 00000002 63 00000000 63 00000002");
    CHECK(is_closed(socket));
    close(socket);
    finish();
}

/* One that asked for nothing is told, and may have sent half a packet. One that has not greeted is not. */
static void tells_who_asked_for_nothing(void) {
    begin();
    int socket = attach();
    SAME(send(socket, "\0\0\0\13\0\0", 6, MSG_NOSIGNAL), 6);
    OK(cq_serve_end(&server));
    hears_end(socket, 0);
    close(socket);
    OK(cq_debug_listen(&server, &service, &all_signal, "127.0.0.1:0", "tests", "/src"));
    socket = dial(&server);
    say(socket, "JDWP-");
    usleep(20000);
    OK(cq_serve_end(&server));
    CHECK(is_closed(socket));
    close(socket);
    finish();
}

/* A debugger asks until nothing more is taken, and reads nothing. */
static void asks_without_reading(int socket) {
    static packet sent;
    make_request(&sent, 7, 1, 1, "");
    for (int quiet = 0; quiet < 50;) {
        ssize_t taken = send(socket, sent.bytes, sent.length, MSG_NOSIGNAL | MSG_DONTWAIT);
        quiet = taken == (ssize_t)sent.length ? 0 : quiet + 1;
        if (quiet) {
            usleep(1000);
        }
    }
}

/* The end does not wait for a debugger that does not read, nor for one that does not close its end. */
static void waits_for_none(void) {
    begin();
    int socket = attach();
    asks_without_reading(socket);
    uint64_t before = clock_ms();
    OK(cq_serve_end(&server));
    CHECK(clock_ms() - before < 1000);
    close(socket);
    OK(cq_debug_listen(&server, &service, &all_signal, "127.0.0.1:0", "tests", "/src"));
    socket = attach();
    before = clock_ms();
    OK(cq_serve_end(&server));
    CHECK(clock_ms() - before < 1000);
    close(socket);
    finish();
}

void tells_the_end(void) {
    tells_threads_before();
    tells_who_asked_for_nothing();
    waits_for_none();
}
