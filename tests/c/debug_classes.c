/* debug_classes.c: threads that define a class, and run it once the debugger has been told of it. */
#define _GNU_SOURCE
#include "debugged.h"

#include <pthread.h>
#include <semaphore.h>
#include <stdatomic.h>
#include <sys/socket.h>
#include <unistd.h>

enum { WORKERS = 2, MANY = 5000 };

/* A thread that defines classes of a name, each time that it is told to. */
typedef struct {
    const char *name;
    cq_thread thread;
    cq_service service;
    pthread_t id;
    sem_t go;
    atomic_uint times;  /* how often it has gone on */
} worker;

static cq_server server;
static cq_service service;
static cq_signal all_signal;
static worker workers[WORKERS];
static atomic_bool over;
static atomic_uint count;
static atomic_bool together;  /* all define before one of them is told */
static pthread_barrier_t all_defined;
static sem_t inside, release, stands;

/* ------------------------------------------------------------------------------------------------------------------
 * The runtime.
 */

static void await(sem_t *what) {
    while (sem_wait(what)) {
    }
}

static void define(cq_service *in, const char *name, unsigned number, size_t methods) {
    cq_method_strings method = { .name = "run", .signature = "", .lines_kind = CQ_LINES_LOCATIONS, .first_line = 1 };
    uint32_t class_no = 0, first = 0, code = CQ_BUSY;
    char signature[32];
    snprintf(signature, sizeof signature, "L%s%u;", name, number);
    while (code == CQ_BUSY) {
        code = cq_define_class_strings(in, signature, NULL, &method, methods, &class_no, &first);
    }
    OK(code);
}

/* Defines classes, and goes on once the debugger has been told of them. */
static void load(worker *w) {
    for (unsigned i = 0; i < atomic_load(&count); i++) {
        define(&w->service, w->name, i, 0);
    }
    if (atomic_load(&together)) {
        pthread_barrier_wait(&all_defined);
    }
    OK(cq_wait_block(&w->thread, &all_signal, CQ_PARK));
    OK(cq_server_tell_classes(&server));
    OK(cq_wait_back(&w->thread, &all_signal, -1));
    atomic_fetch_add(&w->times, 1);
}

static void *work(void *of) {
    worker *w = of;
    OK(cq_wait_start(&w->thread, &all_signal, -1));
    for (;;) {
        OK(cq_wait_block(&w->thread, &all_signal, CQ_SLEEP));
        sem_post(&stands);
        await(&w->go);
        OK(cq_wait_back(&w->thread, &all_signal, -1));
        if (atomic_load(&over)) {
            break;
        }
        load(w);
    }
    OK(cq_wait_end(&w->thread, &all_signal));
    return NULL;
}

/* Stands still until it is released, and then knows no variables. */
static uint32_t stand(void *context, uint32_t method, cq_teller *teller) {
    (void)context, (void)method, (void)teller;
    sem_post(&inside);
    await(&release);
    return CQ_NONE;
}

static uint32_t know_none(void *context, uint32_t thread, uint32_t depth, cq_teller *teller) {
    (void)context, (void)thread, (void)depth, (void)teller;
    return CQ_NONE;
}

static void begin_worker(worker *w, const char *name) {
    w->name = name;
    atomic_store(&w->times, 0);
    sem_init(&w->go, 0, 0);
    OK(cq_share(&service, &w->service));
    OK(cq_wait_attach_thread(&service, &all_signal, (const uint8_t *)name, 1, 5, &w->thread));
    SAME(pthread_create(&w->id, NULL, work, w), 0);
}

/* Begins with a class that nobody was told of, number 0, and its method 0. Both workers have started: one that had not would not be
 * suspended with the others. */
static void begin(void) {
    static const char *const names[WORKERS] = { "a", "b" };
    cq_variables variables = { NULL, stand, know_none };
    atomic_store(&over, false);
    atomic_store(&count, 1);
    sem_init(&inside, 0, 0);
    sem_init(&release, 0, 0);
    sem_init(&stands, 0, 0);
    OK(cq_make(8, 2, 4, CQ_CAN_SUSPEND | CQ_CAN_POP_FRAME, &service));
    define(&service, "old", 0, 1);
    for (size_t i = 0; i < WORKERS; i++) {
        begin_worker(&workers[i], names[i]);
    }
    for (size_t i = 0; i < WORKERS; i++) {
        await(&stands);
    }
    OK(cq_server_variables(&server, &variables));
    OK(cq_debug_listen(&server, &service, &all_signal, "127.0.0.1:0", "tests", "/src"));
}

static void finish(void) {
    OK(cq_serve_end(&server));
    atomic_store(&over, true);
    for (size_t i = 0; i < WORKERS; i++) {
        sem_post(&workers[i].go);
        pthread_join(workers[i].id, NULL);
        OK(cq_wait_detach_thread(&workers[i].thread, &all_signal));
        OK(cq_free(&workers[i].service));
    }
    OK(cq_free(&service));
}

/* Waits until a worker has gone on so often. */
static void await_times(worker *w, unsigned times) {
    for (int i = 0; i < 20000 && atomic_load(&w->times) < times; i++) {
        usleep(1000);
    }
    SAME(atomic_load(&w->times), times);
}

/* ------------------------------------------------------------------------------------------------------------------
 * A debugger.
 */

#define ALL_CLASSES "08 02 00000000"
#define BREAKPOINT "02 02 00000001 07 01 0000000400000000 0000000600000000 0000000000000001"

/* A debugger that has asked for something (15/1). */
static int attach(const char *asked) {
    int socket = dial(&server);
    CHECK(is_greeted(socket));
    asks_at(socket, 15, 1, asked, 0, "00000001");
    return socket;
}

/* It reads its next event, of this number. Many classes take long under valgrind. */
static void is_told(int socket, uint32_t number, const char *data) {
    static packet wanted;
    uint8_t found[100];
    ssize_t got = -1;
    make_request(&wanted, number, 64, 100, data);
    CHECK(wanted.length <= sizeof found);
    for (int tries = 0; tries < 12 && got < 0; tries++) {
        got = recv(socket, found, wanted.length, MSG_WAITALL);
    }
    SAME(got, wanted.length);
    check_bytes(found, wanted.length, &wanted);
}

static void resume_all(int socket) {
    asks_at(socket, 1, 9, "", 0, "");
}

/* ------------------------------------------------------------------------------------------------------------------
 * What is tested.
 */

static void stays_until_it_is_resumed(void) {
    begin();
    int socket = attach(ALL_CLASSES);
    for (unsigned i = 0; i < 2; i++) {
        sem_post(&workers[0].go);
        is_told(socket, i, i == 0 ? "02 00000001 08 00000001 0000000000000001 01 0000000400000001 s:La0; 00000007"
                                  : "02 00000001 08 00000001 0000000000000001 01 0000000400000002 s:La0; 00000007");
        usleep(50000);
        SAME(atomic_load(&workers[0].times), i);
        resume_all(socket);
        await_times(&workers[0], i + 1);
    }
    close(socket);
    finish();
}

/* A debugger that goes lets it go on. */
static void stays_until_the_debugger_has_gone(void) {
    begin();
    int socket = attach(ALL_CLASSES);
    sem_post(&workers[0].go);
    is_told(socket, 0, "02 00000001 08 00000001 0000000000000001 01 0000000400000001 s:La0; 00000007");
    usleep(50000);
    SAME(atomic_load(&workers[0].times), 0);
    close(socket);
    await_times(&workers[0], 1);
    finish();
}

/* With a breakpoint the door never says that it has nothing to do soon. */
static void returns_while_there_is_a_breakpoint(void) {
    begin();
    int socket = attach(BREAKPOINT);
    for (unsigned i = 1; i <= 5; i++) {
        sem_post(&workers[0].go);
        await_times(&workers[0], i);
    }
    asks_at(socket, 15, 1, ALL_CLASSES, 0, "00000002");
    sem_post(&workers[0].go);
    is_told(socket, 0, "02 00000001 08 00000002 0000000000000001 01 0000000400000006 s:La0; 00000007");
    usleep(50000);
    SAME(atomic_load(&workers[0].times), 5);
    resume_all(socket);
    await_times(&workers[0], 6);
    close(socket);
    finish();
}

/* The last one of more classes than a tick tells is told too. */
static void tells_many(void) {
    begin();
    int socket = attach("08 02 00000001 05 s:a4999 ");
    atomic_store(&count, MANY);
    sem_post(&workers[0].go);
    is_told(socket, 0, "02 00000001 08 00000001 0000000000000001 01 0000000400001388 s:La4999; 00000007");
    usleep(50000);
    SAME(atomic_load(&workers[0].times), 0);
    resume_all(socket);
    await_times(&workers[0], 1);
    close(socket);
    finish();
}

/* Two at once, of whom neither goes on before the first event is answered. Once it is, all run on until they are suspended for the second
 * one. */
static void stay_both(void) {
    static const char *const tails[] = { "01 0000000400000001", "01 0000000400000002" };
    uint8_t found[11 + 1 + 4 + 1 + 4 + 8 + 9 + 4 + 4 + 4];
    packet tail;
    begin();
    pthread_barrier_init(&all_defined, NULL, WORKERS);
    atomic_store(&together, true);
    int socket = attach(ALL_CLASSES);
    for (size_t i = 0; i < WORKERS; i++) {
        sem_post(&workers[i].go);
    }
    for (size_t i = 0; i < WORKERS; i++) {
        SAME(recv(socket, found, sizeof found, MSG_WAITALL), sizeof found);
        tail.length = 0;
        add_data(&tail, tails[i]);
        check_bytes(found + 29, 9, &tail);
        usleep(50000);
        if (i == 0) {
            SAME(atomic_load(&workers[0].times) + atomic_load(&workers[1].times), 0);
        }
        resume_all(socket);
    }
    await_times(&workers[0], 1);
    await_times(&workers[1], 1);
    atomic_store(&together, false);
    pthread_barrier_destroy(&all_defined);
    close(socket);
    finish();
}

/* It does not wait for the server's thread, which sleeps up to 100 ms. */
static void returns_at_once_without_a_debugger(void) {
    begin();
    uint64_t before = clock_ms();
    for (int i = 0; i < 1000; i++) {
        OK(cq_server_tell_classes(&server));
    }
    CHECK(clock_ms() - before < 5000);
    OK(cq_serve_end(&server));
    OK(cq_server_tell_classes(&server));
    finish();
}

/* Debuggers that come and go meanwhile. */
static void returns_when_the_debugger_goes(void) {
    begin();
    for (unsigned i = 1; i <= 50; i++) {
        int socket = dial(&server);
        CHECK(i % 2 == 0 || is_greeted(socket));
        sem_post(&workers[0].go);
        usleep(i * 20);
        close(socket);
        await_times(&workers[0], i);
    }
    finish();
}

static void *end_server(void *ended) {
    OK(cq_serve_end(&server));
    atomic_store((atomic_bool *)ended, true);
    return NULL;
}

/* The server's thread is held up, so that it tells nothing and does not end. */
static void returns_when_the_server_ends(void) {
    static packet asked;
    atomic_bool ended = false;
    pthread_t ender;
    begin();
    int socket = dial(&server);
    CHECK(is_greeted(socket));
    make_request(&asked, 1, 6, 5, "0000000400000000 0000000600000000");
    SAME(send(socket, asked.bytes, asked.length, MSG_NOSIGNAL), asked.length);
    await(&inside);
    sem_post(&workers[0].go);
    usleep(50000);
    SAME(atomic_load(&workers[0].times), 0);
    SAME(pthread_create(&ender, NULL, end_server, &ended), 0);
    await_times(&workers[0], 1);
    CHECK(!atomic_load(&ended));
    sem_post(&release);
    pthread_join(ender, NULL);
    close(socket);
    finish();
}

static void refuses_servers_for_others(void) {
    cq_server none = { 0 }, http = { 0 };
    SAME(cq_server_tell_classes(&none), CQ_MISUSED);
    OK(cq_make(8, 2, 4, CQ_CAN_SUSPEND | CQ_CAN_POP_FRAME, &service));
    OK(cq_serve(&http, &service, NULL, "127.0.0.1:0", "tests"));
    SAME(cq_server_tell_classes(&http), CQ_MISUSED);
    OK(cq_serve_end(&http));
    SAME(cq_server_tell_classes(&http), CQ_MISUSED);
    SAME(cq_debug_listen(&none, &service, NULL, "unix:/no/such/folder/at/all", "tests", "/src"), CQ_SYSTEM);
    SAME(cq_server_tell_classes(&none), CQ_MISUSED);
    OK(cq_free(&service));
}

void tells_classes(void) {
    stays_until_it_is_resumed();
    stays_until_the_debugger_has_gone();
    returns_while_there_is_a_breakpoint();
    tells_many();
    stay_both();
    returns_at_once_without_a_debugger();
    returns_when_the_debugger_goes();
    returns_when_the_server_ends();
    refuses_servers_for_others();
}
