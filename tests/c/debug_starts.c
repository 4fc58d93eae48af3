/* debug_starts.c: a runtime that waits for its first debugger, which finds its thread suspended. */
#define _GNU_SOURCE
#include "debugged.h"

#include <pthread.h>
#include <semaphore.h>
#include <stdatomic.h>
#include <sys/socket.h>
#include <unistd.h>

static cq_server server;
static cq_service service;
static cq_signal all_signal;
static cq_thread thread;
static pthread_t id;
static sem_t stands, listening, over;
static atomic_bool began;

/* ------------------------------------------------------------------------------------------------------------------
 * The runtime.
 */

static void await(sem_t *what) {
    while (sem_wait(what)) {
    }
}

static void *work(void *unused) {
    OK(cq_wait_start(&thread, &all_signal, -1));
    OK(cq_wait_block(&thread, &all_signal, CQ_PARK));
    sem_post(&stands);
    await(&listening);
    OK(cq_server_await_resumption(&server));
    OK(cq_wait_back(&thread, &all_signal, -1));
    atomic_store(&began, true);
    OK(cq_wait_block(&thread, &all_signal, CQ_SLEEP));
    await(&over);
    OK(cq_wait_back(&thread, &all_signal, -1));
    OK(cq_wait_end(&thread, &all_signal));
    return unused;
}

static void begin(void) {
    atomic_store(&began, false);
    sem_init(&stands, 0, 0);
    sem_init(&listening, 0, 0);
    sem_init(&over, 0, 0);
    OK(cq_make(8, 2, 4, CQ_CAN_SUSPEND | CQ_CAN_POP_FRAME, &service));
    OK(cq_wait_attach_thread(&service, &all_signal, (const uint8_t *)"worker", 6, 5, &thread));
    SAME(pthread_create(&id, NULL, work, NULL), 0);
    await(&stands);
    OK(cq_server_starts_suspended(&server, true));
    OK(cq_debug_listen(&server, &service, &all_signal, "127.0.0.1:0", "tests", "/src"));
    sem_post(&listening);
}

static void finish(void) {
    sem_post(&over);
    pthread_join(id, NULL);
    OK(cq_serve_end(&server));
    OK(cq_wait_detach_thread(&thread, &all_signal));
    OK(cq_free(&service));
}

static void await_beginning(void) {
    for (int i = 0; i < 20000 && !atomic_load(&began); i++) {
        usleep(1000);
    }
    CHECK(atomic_load(&began));
}

/* ------------------------------------------------------------------------------------------------------------------
 * A debugger.
 */

/* A debugger that is told that the runtime begins. */
static int attach_first(void) {
    static packet wanted;
    uint8_t found[29];
    int socket = dial(&server);
    CHECK(is_greeted(socket));
    make_request(&wanted, 0, 64, 100, "02 00000001 5a 00000000 0000000000000001");
    SAME(recv(socket, found, sizeof found, MSG_WAITALL), sizeof found);
    check_bytes(found, sizeof found, &wanted);
    return socket;
}

static void begins_once_it_is_resumed(void) {
    begin();
    SAME(cq_server_starts_suspended(&server, false), CQ_MISUSED);
    int socket = attach_first();
    asks_at(socket, 11, 12, "0000000000000001", 0, "00000001");
    usleep(50000);
    CHECK(!atomic_load(&began));
    asks_at(socket, 1, 9, "", 0, "");
    await_beginning();
    close(socket);
    socket = dial(&server);
    CHECK(is_greeted(socket));
    asks_at(socket, 11, 12, "0000000000000001", 0, "00000000");
    close(socket);
    finish();
}

/* Two that do not greet come before it: one says nothing, and one says something else. */
static void begins_for_the_first_that_greets(void) {
    begin();
    close(dial(&server));
    int wrong = dial(&server);
    say(wrong, "JDWP-Handshook");
    CHECK(is_closed(wrong));
    close(wrong);
    int socket = attach_first();
    usleep(50000);
    CHECK(!atomic_load(&began));
    asks_at(socket, 1, 9, "", 0, "");
    await_beginning();
    close(socket);
    finish();
}

static void begins_once_the_debugger_has_gone(void) {
    begin();
    int socket = attach_first();
    usleep(50000);
    CHECK(!atomic_load(&began));
    close(socket);
    await_beginning();
    finish();
}

static void begins_once_the_server_has_ended(void) {
    begin();
    usleep(50000);
    CHECK(!atomic_load(&began));
    OK(cq_serve_end(&server));
    await_beginning();
    finish();
}

static void refuses_servers_for_others(void) {
    cq_server none = { 0 }, http = { 0 };
    SAME(cq_server_await_resumption(&none), CQ_MISUSED);
    OK(cq_make(8, 2, 4, CQ_CAN_SUSPEND | CQ_CAN_POP_FRAME, &service));
    OK(cq_serve(&http, &service, NULL, "127.0.0.1:0", "tests"));
    SAME(cq_server_await_resumption(&http), CQ_MISUSED);
    OK(cq_serve_end(&http));
    SAME(cq_debug_listen(&none, &service, NULL, "unix:/no/such/folder/at/all", "tests", "/src"), CQ_SYSTEM);
    SAME(cq_server_await_resumption(&none), CQ_MISUSED);
    OK(cq_free(&service));
}

void starts_suspended(void) {
    begins_once_it_is_resumed();
    begins_for_the_first_that_greets();
    begins_once_the_debugger_has_gone();
    begins_once_the_server_has_ended();
    refuses_servers_for_others();
}
