/* pops.c: a runtime that keeps a stack of its own is told how many of its frames were popped, and does not undo a pop by
 * mistake (cq_take_pops). The rules of a pop are those of JVM TI 11, PopFrame. */
#define _POSIX_C_SOURCE 200809L
#include "counted_heap.h"
#include "pops.h"

cq_service service;
cq_thread thread;
cq_env env, other;

const cq_frame THREE[3] = { { 3, 30 }, { 2, 20 }, { 1, 10 } };
static const cq_frame FIVE[] = { { 5, 0 }, { 4, 0 }, { 3, 0 }, { 2, 0 }, { 1, 0 } };
static const cq_frame LOW = { 1, -2 };

void begin(void) {
    OK(cq_make(4, 2, 4, CQ_CAN_SUSPEND | CQ_CAN_POP_FRAME, &service));
    OK(cq_attach_thread(&service, (const uint8_t *)"main", 4, 5, &thread));
    OK(cq_attach_environment(&service, &env));
    OK(cq_attach_environment(&service, &other));
    OK(cq_add_capabilities(&env, CQ_CAN_SUSPEND | CQ_CAN_POP_FRAME));
    OK(cq_add_capabilities(&other, CQ_CAN_SUSPEND | CQ_CAN_POP_FRAME));
    OK(cq_meet(&env));
    OK(cq_meet(&other));
}

void finish(void) {
    OK(cq_detach_thread(&thread));
    OK(cq_dispose_environment(&env));
    OK(cq_dispose_environment(&other));
    OK(cq_free(&service));
    SAME(heap_blocks(), 0);
}

static void begin_with_three(void) {
    begin();
    OK(cq_start(&thread));
    OK(cq_set_frames(&thread, THREE, 3));
}

static void end_and_finish(void) {
    OK(cq_end(&thread));
    finish();
}

/* The calls of an agent at a thread that is safe are answered at once. */
static void suspend(cq_env *by) {
    cq_answer answer;
    OK(cq_suspend_thread(by, 0, &answer));
}

static void resume(cq_env *by) {
    cq_answer answer;
    OK(cq_resume_thread(by, 0, &answer));
}

static uint32_t pop(cq_env *by) {
    cq_answer answer;
    return cq_pop_frame(by, 0, &answer);
}

uint64_t pops(void) {
    uint64_t count = 77;
    OK(cq_take_pops(&thread, &count));
    return count;
}

static uint64_t count_of_frames(void) {
    uint64_t count = 77;
    OK(cq_frame_count(&thread, &count));
    return count;
}

/* The thread has the `count` oldest of three frames, as a trace shows. */
static void check_trace(uint64_t count) {
    cq_answer answer;
    cq_frame frames[4];
    uint32_t code = cq_get_stack_trace(&env, 0, 0, 4, &answer, frames, 4);
    if (code == CQ_WAITING) {
        cq_ticket ticket = answer.ticket;
        OK(cq_poll(&thread));
        code = cq_collect(&env, &ticket, &answer, frames, 4);
    }
    OK(code);
    SAME(answer.number, count);
    for (uint64_t i = 0; i < count; i++) {
        SAME(frames[i].method, THREE[3 - count + i].method);
        SAME(frames[i].location, THREE[3 - count + i].location);
    }
}

/* A running thread is suspended, and held at its poll. */
static void hold_at_a_poll(void) {
    cq_answer answer;
    cq_frame none;
    SAME(cq_suspend_thread(&env, 0, &answer), CQ_WAITING);
    cq_ticket ticket = answer.ticket;
    SAME(cq_poll(&thread), CQ_HELD);
    OK(cq_collect(&env, &ticket, &answer, &none, 0));
}

/* Two pops at a thread that is held at its poll. The whole stack would undo them, so it is refused until they are noted. */
static void pops_at_a_poll(void) {
    begin_with_three();
    hold_at_a_poll();
    OK(pop(&env));
    OK(pop(&env));
    SAME(pop(&env), CQ_NO_MORE_FRAMES);
    check_trace(1);
    SAME(pops(), 0);
    resume(&env);
    OK(cq_back(&thread));
    SAME(count_of_frames(), 1);
    SAME(cq_set_frames(&thread, THREE, 3), CQ_POPPED);
    SAME(cq_set_frames(&thread, &THREE[2], 1), CQ_POPPED);
    SAME(cq_set_frames(&thread, THREE, 0), CQ_POPPED);
    SAME(count_of_frames(), 1);
    check_trace(1);
    SAME(pops(), 2);
    SAME(pops(), 0);
    OK(cq_set_frames(&thread, &THREE[2], 1));
    check_trace(1);
    OK(cq_set_frames(&thread, THREE, 3));
    SAME(count_of_frames(), 3);
    check_trace(3);
    SAME(pops(), 0);
    end_and_finish();
}

/* A pop that waits takes place at the poll itself. */
static void pops_that_wait(void) {
    cq_answer suspended, popped;
    cq_frame none;
    begin_with_three();
    SAME(cq_suspend_thread(&env, 0, &suspended), CQ_WAITING);
    SAME(cq_pop_frame(&env, 0, &popped), CQ_WAITING);
    SAME(pops(), 0);
    SAME(cq_poll(&thread), CQ_HELD);
    OK(cq_collect(&env, &suspended.ticket, &suspended, &none, 0));
    OK(cq_collect(&env, &popped.ticket, &popped, &none, 0));
    SAME(cq_back(&thread), CQ_BARRED);
    SAME(pops(), 0);
    resume(&env);
    OK(cq_back(&thread));
    SAME(pops(), 1);
    check_trace(2);
    end_and_finish();
}

/* Two environments pop, at a thread that sleeps. */
static void pops_while_blocked(void) {
    begin_with_three();
    OK(cq_block(&thread, CQ_SLEEP));
    suspend(&env);
    OK(pop(&env));
    OK(pop(&other));
    SAME(cq_back(&thread), CQ_BARRED);
    resume(&other);
    SAME(cq_set_frames(&thread, THREE, 3), CQ_NOT_RUNNING);
    OK(cq_back(&thread));
    check_trace(1);
    SAME(pops(), 2);
    end_and_finish();
}

/* A native frame is not popped, and nor is its caller (CQ_OPAQUE_FRAME). */
static void no_pops_while_native(void) {
    begin_with_three();
    OK(cq_enter_native(&thread, 4));
    OK(cq_native(&thread));
    suspend(&env);
    SAME(pop(&env), CQ_OPAQUE_FRAME);
    resume(&env);
    OK(cq_back(&thread));
    SAME(pops(), 0);
    SAME(count_of_frames(), 4);
    OK(cq_leave(&thread));
    check_trace(3);
    end_and_finish();
}

/* Pops add up until they are noted, over hand-overs and the thread's end. */
static void pops_add_up(void) {
    begin_with_three();
    for (uint64_t left = 2; left > 0; left--) {
        OK(cq_block(&thread, CQ_PARK));
        suspend(&other);
        OK(pop(&env));
        resume(&env);
        OK(cq_back(&thread));
        SAME(count_of_frames(), left);
        OK(cq_poll(&thread));
    }
    OK(cq_block(&thread, CQ_PARK));
    OK(cq_back(&thread));
    OK(cq_end(&thread));
    SAME(pops(), 2);
    SAME(pops(), 0);
    finish();
}

/* Steps go on from the frames as they are, and are no pops. They do not take note of any. */
static void steps_are_not_refused(void) {
    begin_with_three();
    OK(cq_block(&thread, CQ_PARK));
    suspend(&env);
    OK(pop(&env));
    resume(&env);
    OK(cq_back(&thread));
    OK(cq_at(&thread, 21));
    OK(cq_leave(&thread));
    OK(cq_enter(&thread, 7));
    OK(cq_leave(&thread));
    check_trace(1);
    SAME(cq_set_frames(&thread, THREE, 3), CQ_POPPED);
    SAME(pops(), 1);
    SAME(pops(), 0);
    OK(cq_set_frames(&thread, THREE, 3));
    end_and_finish();
}

/* Neither hand-overs, nor traces, nor stacks that the runtime gives are pops. */
static void nothing_is_popped(void) {
    begin_with_three();
    check_trace(3);
    hold_at_a_poll();
    resume(&env);
    OK(cq_back(&thread));
    OK(cq_set_frames(&thread, &THREE[1], 2));
    check_trace(2);
    OK(cq_block(&thread, CQ_SLEEP));
    check_trace(2);
    OK(cq_back(&thread));
    OK(cq_leave(&thread));
    OK(cq_set_frames(&thread, THREE, 0));
    OK(cq_poll(&thread));
    SAME(count_of_frames(), 0);
    SAME(pops(), 0);
    end_and_finish();
}

/* The codes of cq_set_frames come in the order of its list. */
static void order_of_codes(void) {
    begin_with_three();
    OK(cq_block(&thread, CQ_SLEEP));
    suspend(&env);
    OK(pop(&env));
    resume(&env);
    OK(cq_back(&thread));
    SAME(cq_set_frames(&thread, &LOW, 1), CQ_ILLEGAL_ARGUMENT);
    SAME(cq_set_frames(&thread, FIVE, 5), CQ_POPPED);
    SAME(pops(), 1);
    SAME(cq_set_frames(&thread, FIVE, 5), CQ_OVERFLOW);
    check_trace(2);
    end_and_finish();
}

/* A runtime that cannot go on after a pop says so. Then nobody has the capability. */
static void cannot_be_had(void) {
    uint32_t found = 7;
    OK(cq_make(4, 1, 4, CQ_CAN_SUSPEND, &service));
    OK(cq_attach_thread(&service, (const uint8_t *)"main", 4, 5, &thread));
    OK(cq_attach_environment(&service, &env));
    OK(cq_meet(&env));
    OK(cq_get_potential_capabilities(&env, &found));
    SAME(found, CQ_CAN_SUSPEND);
    SAME(cq_add_capabilities(&env, CQ_CAN_SUSPEND | CQ_CAN_POP_FRAME), CQ_NOT_AVAILABLE);
    OK(cq_get_capabilities(&env, &found));
    SAME(found, 0);
    OK(cq_add_capabilities(&env, CQ_CAN_SUSPEND));
    SAME(cq_add_capabilities(&env, CQ_CAN_POP_FRAME), CQ_NOT_AVAILABLE);
    SAME(pop(&env), CQ_MUST_POSSESS_CAPABILITY);
    OK(cq_detach_thread(&thread));
    OK(cq_dispose_environment(&env));
    OK(cq_free(&service));
    SAME(heap_blocks(), 0);
}

/* What is misused or does not run writes nothing. */
static void misuse(void) {
    cq_thread none = { 0, NULL };
    uint64_t count = 77;
    begin();
    SAME(cq_take_pops(&none, &count), CQ_MISUSED);
    SAME(cq_frame_count(&none, &count), CQ_MISUSED);
    SAME(cq_take_pops((cq_thread *)(void *)&env, &count), CQ_MISUSED);
    SAME(cq_frame_count((cq_thread *)(void *)&service, &count), CQ_MISUSED);
    SAME(cq_frame_count(&thread, &count), CQ_NOT_RUNNING);
    SAME(pops(), 0);
    OK(cq_start(&thread));
    SAME(count_of_frames(), 0);
    OK(cq_block(&thread, CQ_PARK));
    SAME(cq_frame_count(&thread, &count), CQ_NOT_RUNNING);
    OK(cq_back(&thread));
    OK(cq_end(&thread));
    SAME(cq_frame_count(&thread, &count), CQ_NOT_RUNNING);
    SAME(pops(), 0);
    SAME(count, 77);
    finish();
    SAME(cq_take_pops(&thread, &count), CQ_MISUSED);
    SAME(count, 77);
}

int main(void) {
    pops_at_a_poll();
    pops_that_wait();
    pops_while_blocked();
    no_pops_while_native();
    pops_add_up();
    steps_are_not_refused();
    nothing_is_popped();
    order_of_codes();
    cannot_be_had();
    misuse();
    unwind_own_stack();
    return 0;
}
