/* successor.c: an environment finds nothing of what the last one of its number asked, and one that gave its capabilities up suspends
 * nobody once it is disposed of. */
#include "check.h"

static cq_service service;
static cq_thread thread;
static cq_env first;
static cq_env next;
static cq_answer answer;
static cq_frame frames[4];

/* A service for so many environments, and a thread that runs in method 7. */
static void make(uint32_t environments) {
    OK(cq_make(4, environments, 2, CQ_CAN_SUSPEND, &service));
    OK(cq_attach_thread(&service, (const uint8_t *)"main", 4, 5, &thread));
    OK(cq_start(&thread));
    OK(cq_enter(&thread, 7));
}

static void unmake(void) {
    OK(cq_end(&thread));
    OK(cq_detach_thread(&thread));
    OK(cq_free(&service));
}

static void attach(cq_env *env) {
    OK(cq_attach_environment(&service, env));
    OK(cq_meet(env));
}

static uint32_t out_at(cq_env *env) {
    uint32_t count = 9;
    OK(cq_out_at(env, 0, &count));
    return count;
}

/* The first asks for the thread's stack, and leaves before it is answered. The next has its number. */
static void ask_and_leave(void) {
    attach(&first);
    SAME(cq_get_stack_trace(&first, 0, 0, 4, &answer, frames, 4), CQ_WAITING);
    OK(cq_dispose_environment(&first));
    attach(&next);
}

static void nothing_is_told(void) {
    bool discarded = true;
    answer.number = 99;
    frames[0].method = 99;
    SAME(cq_collect_cancelled(&next, 0, &answer, frames, 4), CQ_NONE);
    OK(cq_discard(&next, 0, &discarded));
    CHECK(!discarded);
    SAME(answer.number, 99);
    SAME(frames[0].method, 99);
}

/* Neither before the thread answers nor after it. Then the window is whole again. */
static void a_former_answer_is_told_to_nobody(void) {
    make(1);
    ask_and_leave();
    SAME(out_at(&next), 1);
    nothing_is_told();
    SAME(cq_poll(&thread), CQ_OK);
    nothing_is_told();
    SAME(out_at(&next), 0);
    SAME(cq_get_frame_count(&next, 0, &answer), CQ_WAITING);
    cq_ticket own = answer.ticket;
    OK(cq_cancel(&next, &own));
    SAME(cq_collect_cancelled(&next, 0, &answer, frames, 4), CQ_WAITING);
    SAME(cq_poll(&thread), CQ_OK);
    OK(cq_collect_cancelled(&next, 0, &answer, frames, 4));
    SAME(answer.number, 1);
    SAME(answer.ticket.no, own.no);
    OK(cq_dispose_environment(&next));
    unmake();
}

/* An answer that is there when its environment leaves is thrown away. */
static void an_answer_that_is_there_goes(void) {
    make(1);
    attach(&first);
    SAME(cq_get_frame_count(&first, 0, &answer), CQ_WAITING);
    SAME(cq_poll(&thread), CQ_OK);
    OK(cq_dispose_environment(&first));
    attach(&next);
    SAME(out_at(&next), 0);
    nothing_is_told();
    OK(cq_dispose_environment(&next));
    unmake();
}

/* A number at which a call is out is given only if there is no other. */
static void a_number_with_a_call_out_comes_last(void) {
    cq_env last = { 0, NULL };
    uint32_t number = 9;
    make(2);
    ask_and_leave();
    OK(cq_environment_number(&next, &number));
    SAME(number, 1);
    SAME(out_at(&next), 0);
    attach(&last);
    OK(cq_environment_number(&last, &number));
    SAME(number, 0);
    SAME(out_at(&last), 1);
    OK(cq_dispose_environment(&last));
    OK(cq_dispose_environment(&next));
    unmake();
}

/* It stays until its suspension has taken place. */
static void one_that_gave_its_capability_up_stays(void) {
    make(1);
    attach(&first);
    OK(cq_add_capabilities(&first, CQ_CAN_SUSPEND));
    SAME(cq_suspend_thread(&first, 0, &answer), CQ_WAITING);
    OK(cq_relinquish_capabilities(&first, CQ_CAN_SUSPEND));
    SAME(cq_dispose_environment(&first), CQ_BUSY);
    SAME(cq_poll(&thread), CQ_HELD);
    OK(cq_dispose_environment(&first));
    attach(&next);
    OK(cq_add_capabilities(&next, CQ_CAN_SUSPEND));
    OK(cq_resume_thread(&next, 0, &answer));
    OK(cq_back(&thread));
    OK(cq_dispose_environment(&next));
    unmake();
}

/* One call discards all answers that are there. */
static void all_suspensions_are_taken_back_by_one_call(void) {
    make(1);
    attach(&first);
    OK(cq_add_capabilities(&first, CQ_CAN_SUSPEND));
    for (int i = 0; i < 2; i++) {
        SAME(cq_suspend_thread(&first, 0, &answer), CQ_WAITING);
        OK(cq_cancel(&first, &answer.ticket));
    }
    SAME(cq_ensure_resumed(&first, 0), CQ_WAITING);
    SAME(cq_poll(&thread), CQ_HELD);
    OK(cq_ensure_resumed(&first, 0));
    OK(cq_back(&thread));
    OK(cq_dispose_environment(&first));
    unmake();
}

int main(void) {
    a_former_answer_is_told_to_nobody();
    an_answer_that_is_there_goes();
    a_number_with_a_call_out_comes_last();
    one_that_gave_its_capability_up_stays();
    all_suspensions_are_taken_back_by_one_call();
    return 0;
}
