/* debug_variables.c: a server tells variables of a thread that holds a lock while it runs, and gives it up where it waits. */
#define _GNU_SOURCE
#include "debugged.h"

#include <pthread.h>
#include <stdatomic.h>
#include <sys/socket.h>
#include <unistd.h>

#define WORKER "0000000000000001"
#define CLASS "0000000400000000"
#define METHOD "0000000600000000"
#define NEWEST "0000000000000000"
#define SLOTS "00000002 00000000 4a 00000001 4a"
#define OBJECT "s:Ljava/lang/Object; "

enum { ROUNDS = 200 };

static cq_server server;
static cq_service service;
static cq_signal all_signal;
static cq_thread thread;
static pthread_t id;
static pthread_mutex_t lock = PTHREAD_MUTEX_INITIALIZER;
static atomic_bool has_begun, over;
static atomic_ulong told;
static struct { int64_t n, twice; } frame;  /* the worker's, under the lock */

/* ------------------------------------------------------------------------------------------------------------------
 * The runtime.
 */

static void poll_it(void) {
    static const cq_frame at = { 0, 5 };
    if (!cq_poll_clear(&thread)) {
        OK(cq_set_frames(&thread, &at, 1));
        pthread_mutex_unlock(&lock);
        OK(cq_wait_poll(&thread, &all_signal));
        pthread_mutex_lock(&lock);
    }
}

static void *work(void *unused) {
    pthread_mutex_lock(&lock);
    OK(cq_wait_start(&thread, &all_signal, -1));
    atomic_store(&has_begun, true);
    while (!atomic_load(&over)) {
        frame.n++;
        frame.twice = 2 * frame.n;
        poll_it();
    }
    OK(cq_wait_end(&thread, &all_signal));
    pthread_mutex_unlock(&lock);
    return unused;
}

static uint32_t of_method(void *context, uint32_t method, cq_teller *teller) {
    CHECK(context == &frame && method == 0);
    OK(cq_tell_variable(teller, (const uint8_t *)"n", 1, 0, 3, 4));
    return CQ_OK;
}

static uint32_t of_frame(void *context, uint32_t number, uint32_t depth, cq_teller *teller) {
    CHECK(context == &frame && number == 0 && depth == 0);
    if (pthread_mutex_trylock(&lock) != 0) {
        return CQ_THREAD_NOT_SUSPENDED;
    }
    SAME(frame.twice, 2 * frame.n);
    OK(cq_tell_integer(teller, 0, frame.n));
    OK(cq_tell_integer(teller, 1, frame.twice));
    atomic_fetch_add(&told, 1);
    pthread_mutex_unlock(&lock);
    return CQ_OK;
}

static void begin(void) {
    static const cq_method_strings methods[] = { { .name = "work", .lines_kind = CQ_LINES_LOCATIONS, .first_line = 3 } };
    uint32_t class_no = 0, first = 0;
    OK(cq_make(8, 2, 4, CQ_CAN_SUSPEND | CQ_CAN_POP_FRAME, &service));
    OK(cq_define_class_strings(&service, "Lwork;", "work.x", methods, 1, &class_no, &first));
    OK(cq_wait_attach_thread(&service, &all_signal, (const uint8_t *)"worker", 6, 5, &thread));
    atomic_store(&over, false);
    SAME(pthread_create(&id, NULL, work, NULL), 0);
    for (int i = 0; i < 20000 && !atomic_load(&has_begun); i++) {
        usleep(1000);
    }
    CHECK(atomic_load(&has_begun));
}

static void finish(void) {
    atomic_store(&over, true);
    pthread_join(id, NULL);
    OK(cq_wait_detach_thread(&thread, &all_signal));
    OK(cq_free(&service));
}

static void listen_now(void) {
    OK(cq_debug_listen(&server, &service, &all_signal, "127.0.0.1:0", "tests", "/src"));
}

/* ------------------------------------------------------------------------------------------------------------------
 * A debugger.
 */

static int attach(void) {
    int socket = dial(&server);
    CHECK(is_greeted(socket));
    return socket;
}

/* The values of the frame, which stands. */
static void shows_values(int socket) {
    char reply[64];
    pthread_mutex_lock(&lock);
    snprintf(reply, sizeof reply, "00000002 4a%016" PRIx64 " 4a%016" PRIx64, (uint64_t)frame.n, (uint64_t)frame.twice);
    pthread_mutex_unlock(&lock);
    asks_at(socket, 16, 1, WORKER NEWEST SLOTS, 0, reply);
}

/* The error of the values' reply. */
static uint32_t error_of_values(int socket) {
    static packet sent;
    uint8_t found[HEAD + 64];
    make_request(&sent, 7, 16, 1, WORKER NEWEST SLOTS);
    SAME(send(socket, sent.bytes, sent.length, MSG_NOSIGNAL), sent.length);
    SAME(recv(socket, found, HEAD, MSG_WAITALL), HEAD);
    ssize_t rest = (ssize_t)number_at(found, 4) - HEAD;
    CHECK(rest >= 0 && rest <= 64);
    SAME(rest == 0 ? 0 : recv(socket, found + HEAD, (size_t)rest, MSG_WAITALL), rest);
    return number_at(found + 9, 2);
}

/* ------------------------------------------------------------------------------------------------------------------
 * What is tested.
 */

static const cq_variables functions = { &frame, of_method, of_frame };

static void tells(void) {
    int socket = attach();
    asks_at(socket, 6, 5, CLASS METHOD, 0, "00000000 00000001 0000000000000003 s:n " OBJECT "00000000 00000004 00000000");
    asks_at(socket, 16, 1, WORKER NEWEST SLOTS, 13, "");
    asks_at(socket, 11, 2, WORKER, 0, "");
    shows_values(socket);
    pthread_mutex_lock(&lock);
    asks_at(socket, 16, 1, WORKER NEWEST SLOTS, 13, "");
    pthread_mutex_unlock(&lock);
    shows_values(socket);
    asks_at(socket, 11, 3, WORKER, 0, "");
    close(socket);
}

/* Another environment lets the worker go on, and holds it again, while the debugger asks. */
static void tells_while_another_resumes(void) {
    cq_env env = { 0 };
    int socket = attach();
    unsigned long before = atomic_load(&told);
    OK(cq_wait_attach_environment(&service, &all_signal, &env));
    OK(cq_add_capabilities(&env, CQ_CAN_SUSPEND));
    OK(cq_wait_meet(&env, &all_signal));
    asks_at(socket, 11, 2, WORKER, 0, "");
    for (int i = 0; i < ROUNDS; i++) {
        uint32_t error = error_of_values(socket);
        CHECK(error == 0 || error == 13);
        MAYBE(i % 2 == 0 ? cq_wait_resume_thread(&env, &all_signal, 0, -1) : cq_wait_suspend_thread(&env, &all_signal, 0, -1));
    }
    CHECK(atomic_load(&told) > before);
    OK(cq_wait_ensure_resumed(&env, &all_signal, 0, -1));
    OK(cq_wait_dispose_environment(&env, &all_signal));
    close(socket);
}

static void refuses_a_server_that_serves(void) {
    static const cq_variables others = { &server, of_method, of_frame };
    SAME(cq_server_variables(&server, &others), CQ_MISUSED);
}

/* Without functions a debugger is told that there are none. */
static void has_none(void) {
    listen_now();
    int socket = attach();
    asks_at(socket, 6, 5, CLASS METHOD, 101, "");
    close(socket);
    OK(cq_serve_end(&server));
}

void tells_variables(void) {
    begin();
    has_none();
    OK(cq_server_variables(&server, &functions));
    listen_now();
    refuses_a_server_that_serves();
    tells();
    tells_while_another_resumes();
    OK(cq_serve_end(&server));
    listen_now();
    tells();
    OK(cq_serve_end(&server));
    finish();
}
