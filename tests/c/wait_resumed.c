/* wait_resumed.c: a suspension whose time was over is taken back, whenever it comes. */
#include "wait.h"

static bool is_suspended(void) {
    uint32_t state = 0;
    OK(cq_wait_get_thread_state(&env, &signal_of_all, 0, 0, &state));
    return (state & CQ_STATE_SUSPENDED) != 0;
}

/* The thread runs and does not poll meanwhile. So the suspension is still to come, and cannot be taken back yet. */
static void suspend_in_vain(void) {
    SAME(cq_wait_suspend_thread(&env, &signal_of_all, 0, 0), CQ_TIMED_OUT);
    SAME(cq_wait_resume_thread(&env, &signal_of_all, 0, LONG), CQ_THREAD_NOT_SUSPENDED);
    SAME(cq_ensure_resumed(&env, 0), CQ_WAITING);
    SAME(cq_wait_ensure_resumed(&env, &signal_of_all, 0, 0), CQ_TIMED_OUT);
}

static void *take_back(void *unused) {
    atomic_store(&at, 1);
    OK(cq_wait_ensure_resumed(&env, &signal_of_all, 0, LONG));
    return unused;
}

/* The thread is held at its poll until another thread of the operating system has taken the suspension back. */
static void comes_while_it_is_waited_for(void) {
    for (int i = 0; i < 200; i++) {
        suspend_in_vain();
        pthread_t id = run(take_back);
        await(1);
        OK(cq_wait_poll(&thread, &signal_of_all));
        join(id);
        CHECK(!is_suspended());
        OK(cq_wait_poll(&thread, &signal_of_all));
    }
}

/* Several suspensions were cancelled. The first suspends the thread, and all are taken back together. */
static void all_are_taken_back(void) {
    uint32_t out = 77;
    for (int i = 0; i < 3; i++) suspend_in_vain();
    OK(cq_wait_block(&thread, &signal_of_all, CQ_OBJECT_WAIT));
    CHECK(is_suspended());
    SAME(cq_wait_back(&thread, &signal_of_all, 0), CQ_TIMED_OUT);
    OK(cq_wait_ensure_resumed(&env, &signal_of_all, 0, 0));
    OK(cq_out_at(&env, 0, &out));
    SAME(out, 0);
    CHECK(!is_suspended());
    OK(cq_wait_back(&thread, &signal_of_all, 0));
}

/* A thread that is suspended as usual is resumed. One that is not suspended stays so. */
static void resumes_what_is_suspended(void) {
    OK(cq_wait_ensure_resumed(&env, &signal_of_all, 0, 0));
    OK(cq_wait_block(&thread, &signal_of_all, CQ_OBJECT_WAIT));
    OK(cq_wait_suspend_thread(&env, &signal_of_all, 0, 0));
    OK(cq_wait_ensure_resumed(&env, &signal_of_all, 0, 0));
    CHECK(!is_suspended());
    OK(cq_wait_back(&thread, &signal_of_all, 0));
    SAME(cq_wait_ensure_resumed(&env, &signal_of_all, UINT32_MAX, 0), CQ_INVALID_THREAD);
    OK(cq_relinquish_capabilities(&env, CQ_CAN_SUSPEND));
    SAME(cq_wait_ensure_resumed(&env, &signal_of_all, 0, 0), CQ_MUST_POSSESS_CAPABILITY);
    OK(cq_add_capabilities(&env, CQ_CAN_SUSPEND));
}

void suspensions_taken_back(void) {
    comes_while_it_is_waited_for();
    all_are_taken_back();
    resumes_what_is_suspended();
}
