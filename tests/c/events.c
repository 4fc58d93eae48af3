/* events.c: which events an environment is told, by their kinds (JVM TI 11, SetEventNotificationMode), and which threads GetAllThreads
 * lists. */
#define _POSIX_C_SOURCE 200809L
#include "check.h"

#include <pthread.h>
#include <stdatomic.h>
#include <time.h>

enum { KINDS = CQ_THREAD_DETACHED + 1 };

/* A wait that is ended by a wake-up ends long before this. */
static const int64_t LONG = 60 * (int64_t)1000000000;

static cq_signal signal_of_all;
static cq_service service;
static cq_thread thread;
static cq_env env, other;

static void set_up(void) {
    OK(cq_make(4, 2, 4, CQ_CAN_SUSPEND | CQ_CAN_POP_FRAME, &service));
    OK(cq_attach_environment(&service, &env));
    OK(cq_attach_environment(&service, &other));
}

static void tear_down(void) {
    OK(cq_dispose_environment(&env));
    OK(cq_dispose_environment(&other));
    OK(cq_free(&service));
}

static void enable(cq_env *e, uint32_t kind) { OK(cq_set_event_notification_mode(e, true, kind)); }

static void attach(cq_thread *t) { OK(cq_attach_thread(&service, (const uint8_t *)"", 0, 5, t)); }

static uint32_t define(const char *signature) {
    uint32_t class_no = 77, first = 77;
    OK(cq_define_class_strings(&service, signature, NULL, NULL, 0, &class_no, &first));
    return class_no;
}

/* The next event is this one, and none was lost. */
static void told(cq_env *e, uint32_t kind, uint32_t number) {
    cq_event event = { 77, 77, 77 };
    OK(cq_next_event(e, &event));
    SAME(event.kind, kind);
    SAME(event.number, number);
    SAME(event.lost, 0);
}

/* There is none, and nothing is written. */
static void told_nothing(cq_env *e) {
    cq_event event = { 77, 78, 79 };
    SAME(cq_next_event(e, &event), CQ_NONE);
    SAME(event.kind, 77);
    SAME(event.number, 78);
    SAME(event.lost, 79);
}

/* How many threads are alive, and the first of them. */
static uint64_t alive(uint32_t *first) {
    uint64_t count = 77;
    *first = 77;
    OK(cq_get_all_threads(&env, first, 1, &count));
    return count;
}

/* The whole life of a thread, and a class. */
static void live(void) {
    uint32_t number, first;
    attach(&thread);
    OK(cq_thread_number(&thread, &number));
    SAME(alive(&first), 0);
    OK(cq_start(&thread));
    SAME(alive(&first), 1);
    SAME(first, number);
    OK(cq_end(&thread));
    SAME(alive(&first), 0);
    OK(cq_detach_thread(&thread));
    define("LLife;");
}

/* Each kind alone, for one environment and not for the other. */
static void each_kind_alone(void) {
    for (uint32_t kind = 0; kind < KINDS; kind++) {
        set_up();
        live();
        enable(&env, kind);
        told_nothing(&env);
        live();
        told(&env, kind, 1);
        told_nothing(&env);
        told_nothing(&other);
        OK(cq_set_event_notification_mode(&env, false, kind));
        live();
        told_nothing(&env);
        enable(&env, kind);
        told_nothing(&env);
        tear_down();
    }
}

/* All kinds: a thread's events in their order, then the classes. What two environments are told is the same. */
static void all_kinds(void) {
    set_up();
    for (uint32_t kind = 0; kind < KINDS; kind++) {
        enable(&env, kind);
        enable(&other, kind);
    }
    live();
    live();
    for (cq_env *e = &env; e != NULL; e = e == &env ? &other : NULL) {
        for (uint32_t number = 0; number < 2; number++) {
            told(e, CQ_THREAD_ATTACHED, number);
            told(e, CQ_THREAD_START, number);
            told(e, CQ_THREAD_END, number);
            told(e, CQ_THREAD_DETACHED, number);
        }
        told(e, CQ_CLASS_PREPARE, 0);
        told(e, CQ_CLASS_PREPARE, 1);
        told_nothing(e);
    }
    tear_down();
}

/* When a kind is enabled later, what happened before is not told, though another kind's is. */
static void kinds_at_different_moments(void) {
    cq_thread second = { 0, NULL };
    set_up();
    enable(&env, CQ_THREAD_DETACHED);
    attach(&thread);
    OK(cq_start(&thread));
    attach(&second);
    OK(cq_detach_thread(&second));
    enable(&env, CQ_THREAD_START);
    enable(&env, CQ_THREAD_ATTACHED);
    attach(&second);
    OK(cq_start(&second));
    told(&env, CQ_THREAD_DETACHED, 1);
    told(&env, CQ_THREAD_ATTACHED, 2);
    told(&env, CQ_THREAD_START, 2);
    told_nothing(&env);
    OK(cq_end(&second));
    OK(cq_end(&thread));
    OK(cq_detach_thread(&thread));
    enable(&env, CQ_THREAD_END);
    OK(cq_detach_thread(&second));
    told(&env, CQ_THREAD_DETACHED, 0);
    told(&env, CQ_THREAD_DETACHED, 2);
    told_nothing(&env);
    tear_down();
}

/* A start that is refused is not told, and neither is a second one or an end of a thread that does not run. */
static void refusals_are_not_told(void) {
    bool over = false;
    uint32_t first;
    set_up();
    for (uint32_t kind = 0; kind < KINDS; kind++) enable(&env, kind);
    attach(&thread);
    OK(cq_meet(&other));
    OK(cq_gather_all_stack_traces(&other, 4));
    OK(cq_gather_step(&other, &over));
    SAME(cq_start(&thread), CQ_BARRED);
    SAME(alive(&first), 0);
    OK(cq_gather_give_up(&other));
    while (!over) OK(cq_gather_step(&other, &over));
    SAME(cq_end(&thread), CQ_NOT_RUNNING);
    OK(cq_start(&thread));
    SAME(cq_start(&thread), CQ_NOT_NEW);
    OK(cq_block(&thread, CQ_PARK));
    SAME(alive(&first), 1);
    SAME(cq_end(&thread), CQ_NOT_RUNNING);
    OK(cq_back(&thread));
    told(&env, CQ_THREAD_ATTACHED, 0);
    told(&env, CQ_THREAD_START, 0);
    told_nothing(&env);
    OK(cq_end(&thread));
    SAME(cq_end(&thread), CQ_NOT_RUNNING);
    OK(cq_detach_thread(&thread));
    told(&env, CQ_THREAD_END, 0);
    told(&env, CQ_THREAD_DETACHED, 0);
    told_nothing(&env);
    tear_down();
}

/* There is no such kind: nothing changes. */
static void no_such_kind(void) {
    set_up();
    enable(&env, CQ_THREAD_START);
    SAME(cq_set_event_notification_mode(&env, false, KINDS), CQ_ILLEGAL_ARGUMENT);
    SAME(cq_set_event_notification_mode(&env, true, UINT32_MAX), CQ_ILLEGAL_ARGUMENT);
    SAME(cq_set_event_notification_mode((cq_env *)(void *)&service, true, CQ_THREAD_START), CQ_MISUSED);
    live();
    told(&env, CQ_THREAD_START, 0);
    told_nothing(&env);
    tear_down();
}

/* Each event wakes whoever waits for it. */
static atomic_uint awaited;

static void *await_all(void *unused) {
    static const uint32_t ORDER[] = { CQ_THREAD_ATTACHED, CQ_THREAD_START, CQ_CLASS_PREPARE, CQ_THREAD_END, CQ_THREAD_DETACHED };
    (void)unused;
    for (uint32_t i = 0; i < KINDS; i++) {
        cq_event event;
        atomic_store(&awaited, i);
        OK(cq_wait_next_event(&env, &signal_of_all, LONG, &event));
        SAME(event.kind, ORDER[i]);
    }
    atomic_store(&awaited, KINDS);
    return NULL;
}

/* It waits for this event, and by now asleep. */
static void is_awaited(uint32_t index) {
    struct timespec some = { .tv_nsec = 10000000 };
    while (atomic_load(&awaited) < index) { }
    nanosleep(&some, NULL);
    SAME(atomic_load(&awaited), index);
}

static void events_wake(void) {
    pthread_t id;
    set_up();
    for (uint32_t kind = 0; kind < KINDS; kind++) OK(cq_wait_set_event_notification_mode(&env, &signal_of_all, true, kind));
    SAME(pthread_create(&id, NULL, await_all, NULL), 0);
    is_awaited(0);
    OK(cq_wait_attach_thread(&service, &signal_of_all, (const uint8_t *)"", 0, 5, &thread));
    is_awaited(1);
    OK(cq_wait_start(&thread, &signal_of_all, LONG));
    is_awaited(2);
    define("LLife;");
    cq_wake(&signal_of_all);
    is_awaited(3);
    OK(cq_wait_end(&thread, &signal_of_all));
    is_awaited(4);
    OK(cq_wait_detach_thread(&thread, &signal_of_all));
    SAME(pthread_join(id, NULL), 0);
    SAME(atomic_load(&awaited), KINDS);
    tear_down();
}

int main(void) {
    each_kind_alone();
    all_kinds();
    kinds_at_different_moments();
    refusals_are_not_told();
    no_such_kind();
    events_wake();
    return 0;
}
