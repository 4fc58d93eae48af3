/* wait_dispose.c: no thread is suspended by an environment that was disposed of. */
#define _GNU_SOURCE
#include "wait.h"

#include <sys/resource.h>

static cq_env guest;

/* How often the calling thread has slept. */
static long sleeps_so_far(void) {
    struct rusage used;
    SAME(getrusage(RUSAGE_THREAD, &used), 0);
    return used.ru_nvcsw;
}

static uint32_t state_of(cq_env *by) {
    uint32_t state = 0;
    OK(cq_wait_get_thread_state(by, &signal_of_all, 0, LONG, &state));
    return state;
}

/* A guest that has met the thread, which runs, and has these capabilities. */
static void attach_guest(uint32_t capabilities) {
    OK(cq_wait_attach_environment(&service, &signal_of_all, &guest));
    OK(cq_wait_meet(&guest, &signal_of_all));
    OK(cq_add_capabilities(&guest, capabilities));
}

/* While its suspension is out, the guest stays, and goes on as before. It takes the suspension back, and is disposed of. */
static void stays_while_a_suspension_is_out(void) {
    attach_guest(CQ_CAN_SUSPEND);
    SAME(cq_wait_suspend_thread(&guest, &signal_of_all, 0, 0), CQ_TIMED_OUT);
    SAME(cq_dispose_environment(&guest), CQ_BUSY);
    SAME(cq_wait_dispose_environment_within(&guest, &signal_of_all, 0), CQ_TIMED_OUT);
    SAME(state_of(&guest) & CQ_STATE_SUSPENDED, 0);
    OK(cq_wait_block(&thread, &signal_of_all, CQ_OBJECT_WAIT));
    CHECK((state_of(&env) & CQ_STATE_SUSPENDED) != 0);
    OK(cq_wait_ensure_resumed(&guest, &signal_of_all, 0, 0));
    OK(cq_dispose_environment(&guest));
    OK(cq_wait_back(&thread, &signal_of_all, 0));
}

static void *dispose(void *unused) {
    atomic_store(&at, 1);
    OK(cq_wait_dispose_environment_within(&guest, &signal_of_all, LONG));
    CHECK((state_of(&env) & CQ_STATE_SUSPENDED) != 0);
    OK(cq_wait_resume_thread(&env, &signal_of_all, 0, LONG));
    return unused;
}

/* One that is waited for is disposed of once the thread has reached the suspension, and not before. What it suspended stays so
 * until another resumes it. */
static void waits_for_the_suspension(void) {
    for (int i = 0; i < 200; i++) {
        attach_guest(CQ_CAN_SUSPEND);
        SAME(cq_wait_suspend_thread(&guest, &signal_of_all, 0, 0), CQ_TIMED_OUT);
        pthread_t id = run(dispose);
        await(1);
        OK(cq_wait_poll(&thread, &signal_of_all));
        join(id);
        SAME(state_of(&env) & CQ_STATE_SUSPENDED, 0);
        OK(cq_wait_poll(&thread, &signal_of_all));
    }
}

/* It sleeps while it waits, and only looks now and then. */
static void sleeps_meanwhile(void) {
    attach_guest(CQ_CAN_SUSPEND);
    SAME(cq_wait_suspend_thread(&guest, &signal_of_all, 0, 0), CQ_TIMED_OUT);
    long before = sleeps_so_far();
    SAME(cq_wait_dispose_environment_within(&guest, &signal_of_all, 500 * MILLISECOND), CQ_TIMED_OUT);
    CHECK(sleeps_so_far() - before < 50);
    OK(cq_wait_block(&thread, &signal_of_all, CQ_OBJECT_WAIT));
    OK(cq_wait_ensure_resumed(&guest, &signal_of_all, 0, 0));
    OK(cq_wait_dispose_environment(&guest, &signal_of_all));
    OK(cq_wait_back(&thread, &signal_of_all, 0));
}

/* One that only reads is disposed of at once. */
static void a_reader_goes_at_once(void) {
    cq_frame frames[1];
    uint32_t count = 0;
    attach_guest(0);
    SAME(cq_wait_get_stack_trace(&guest, &signal_of_all, 0, 0, 1, 0, frames, 1, &count), CQ_TIMED_OUT);
    OK(cq_dispose_environment(&guest));
}

void environments_disposed_of(void) {
    stays_while_a_suspension_is_out();
    waits_for_the_suspension();
    sleeps_meanwhile();
    a_reader_goes_at_once();
}
