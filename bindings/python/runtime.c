/* runtime.c: a runtime for test.py. It has one thread, which is in method 2 of method 1 and polls, and then a native
 * method. */
#include <cebdyraq_wait.h>

#include <pthread.h>
#include <sched.h>

enum { MANY = 100 };

/* 70 bytes, more than the room with which the package begins to ask. */
#define LONG_NAME "0123456789012345678901234567890123456789012345678901234567890123456789"

static cq_service service, service_of_agents;
static cq_signal signal_of_all;
static cq_thread thread;
static pthread_t id;
static uint32_t phase;    /* 0: it polls, 1: it is in native code, 2: it ends */
static uint32_t reached;
static uint32_t failures;
static uint64_t popped;    /* how many pops the runtime was told of */

static void expect(uint32_t code) {
    if (code != CQ_OK) {
        __atomic_fetch_add(&failures, 1, __ATOMIC_SEQ_CST);
    }
}

static void reach(uint32_t where) { __atomic_store_n(&reached, where, __ATOMIC_SEQ_CST); }
static uint32_t wanted(void) { return __atomic_load_n(&phase, __ATOMIC_SEQ_CST); }

static void note_pops(void) {
    uint64_t count = 0;
    expect(cq_take_pops(&thread, &count));
    __atomic_fetch_add(&popped, count, __ATOMIC_SEQ_CST);
}

/* The thread is at line 8 of method 1, and stops there if an agent wants it to. */
static void look(void) {
    bool stops = false;
    if (cq_may_stop(&thread)) {
        expect(cq_wait_reached(&thread, &signal_of_all, 1, 8, &stops));
    }
    if (stops) {
        expect(cq_wait_stop(&thread, &signal_of_all));
    }
}

static void *body(void *unused) {
    expect(cq_wait_start(&thread, &signal_of_all, -1));
    expect(cq_enter(&thread, 1));
    expect(cq_at(&thread, 10));
    expect(cq_enter(&thread, 2));
    reach(1);
    while (wanted() == 0) {
        expect(cq_wait_poll(&thread, &signal_of_all));
        note_pops();
        look();
        sched_yield();
    }
    expect(cq_enter_native(&thread, 3));
    expect(cq_wait_native(&thread, &signal_of_all));
    reach(2);
    while (wanted() == 1) {
        sched_yield();
    }
    expect(cq_wait_back(&thread, &signal_of_all, -1));
    expect(cq_wait_end(&thread, &signal_of_all));
    expect(cq_wait_detach_thread(&thread, &signal_of_all));
    return unused;
}

static void await(uint32_t where) {
    while (__atomic_load_n(&reached, __ATOMIC_SEQ_CST) < where) {
        sched_yield();
    }
}

cq_service *runtime_service(void) { return &service_of_agents; }
cq_signal *runtime_signal(void) { return &signal_of_all; }

/* Class 0 has a method of each kind. Class 1 has many, with long names. */
static void define_classes(void) {
    static const cq_line_entry lines[] = { { 0, 3 }, { 4, 5 } };
    static const cq_method_strings methods[] = {
        { .name = "fib", .signature = "(I)I", .lines = lines, .line_count = 2, .lines_kind = CQ_LINES_TABLE, .first_line = 3 },
        { .name = "m\xC3\xA4in", .lines_kind = CQ_LINES_LOCATIONS, .first_line = 8 },
        { .name = "sleep", .signature = "()V", .lines_kind = CQ_LINES_NATIVE },
        { .name = "lost" },
    };
    static cq_method_strings many[MANY];
    uint32_t class_no, first;
    for (uint32_t i = 0; i < MANY; i++) {
        many[i] = (cq_method_strings){ .name = LONG_NAME, .signature = LONG_NAME, .first_line = i };
    }
    expect(cq_define_class_strings(&service, "Lfib;", "fib.java", methods, 4, &class_no, &first));
    expect(cq_define_class_strings(&service, "many", NULL, many, MANY, &class_no, &first));
}

/* One more class, which is number 2. */
void runtime_define_late(void) {
    uint32_t class_no, first;
    expect(cq_define_class_strings(&service, "Llate;", NULL, NULL, 0, &class_no, &first));
}

uint64_t runtime_pops(void) { return __atomic_load_n(&popped, __ATOMIC_SEQ_CST); }

void runtime_begin(void) {
    static const uint8_t name[] = "m\xC3\xA4in";
    expect(cq_make(16, 2, 4, CQ_CAN_SUSPEND | CQ_CAN_POP_FRAME, &service));
    expect(cq_share(&service, &service_of_agents));
    define_classes();
    expect(cq_wait_attach_thread(&service, &signal_of_all, name, 5, 7, &thread));
    __atomic_store_n(&phase, 0, __ATOMIC_SEQ_CST);
    __atomic_store_n(&popped, 0, __ATOMIC_SEQ_CST);
    reach(0);
    if (pthread_create(&id, NULL, body, NULL) != 0) {
        expect(CQ_MISUSED);
    }
    await(1);
}

void runtime_go_native(void) {
    __atomic_store_n(&phase, 1, __ATOMIC_SEQ_CST);
    await(2);
}

/* Ends the thread. It gives how many calls of the runtime failed. */
uint32_t runtime_end(void) {
    __atomic_store_n(&phase, 2, __ATOMIC_SEQ_CST);
    if (pthread_join(id, NULL) != 0) {
        expect(CQ_MISUSED);
    }
    expect(cq_free(&service_of_agents));
    expect(cq_free(&service));
    return __atomic_load_n(&failures, __ATOMIC_SEQ_CST);
}
