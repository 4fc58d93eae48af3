/* wait_cancelled.c: which call was cancelled, and what came of it. */
#include "wait.h"

static cq_answer answer;
static cq_frame frames[4];

static void mark(void) {
    answer = (cq_answer){ 77, { 78, 79 }, { 80, 81, 82 } };
    for (size_t i = 0; i < 4; i++) frames[i] = (cq_frame){ 83, 84 };
}

static bool is_same(cq_ticket one, cq_ticket other) {
    return one.env == other.env && one.thread == other.thread && one.no == other.no;
}

static void check_ticket(cq_ticket ticket) {
    CHECK(is_same(answer.ticket, ticket));
}

/* The number and the frames are as they were marked. */
static void check_unwritten(void) {
    SAME(answer.number, 77);
    SAME(answer.frame.method, 78);
    SAME(answer.frame.location, 79);
    for (size_t i = 0; i < 4; i++) {
        SAME(frames[i].method, 83);
        SAME(frames[i].location, 84);
    }
}

static uint32_t collect(uint32_t thread_no, size_t room) {
    mark();
    return cq_collect_cancelled(&env, thread_no, &answer, frames, room);
}

static uint32_t wait_to_collect(int64_t timeout_ns) {
    mark();
    return cq_wait_collect_cancelled(&env, &signal_of_all, 0, timeout_ns, &answer, frames, 4);
}

static void check_untouched(uint32_t code, uint32_t wanted) {
    SAME(code, wanted);
    check_ticket((cq_ticket){ 80, 81, 82 });
    check_unwritten();
}

static cq_ticket cancelled(uint32_t code) {
    SAME(code, CQ_WAITING);
    return answer.ticket;
}

/* Each is told once, in the order in which they were cancelled. The thread runs until it polls. */
static void tells_each_call_once(void) {
    static const cq_frame two[] = { { 9, 90 }, { 5, 50 } };
    OK(cq_set_frames(&thread, two, 2));
    cq_ticket count = cancelled(cq_get_frame_count(&env, 0, &answer));
    cq_ticket location = cancelled(cq_get_frame_location(&env, 0, 2, &answer));
    cq_ticket trace = cancelled(cq_get_stack_trace(&env, 0, 0, 8, &answer, frames, 4));
    cq_ticket kept = cancelled(cq_get_frame_count(&env, 0, &answer));
    OK(cq_cancel(&env, &trace));
    OK(cq_cancel(&env, &location));
    OK(cq_cancel(&env, &count));
    check_untouched(collect(0, 4), CQ_WAITING);
    check_untouched(wait_to_collect(0), CQ_TIMED_OUT);
    OK(cq_poll(&thread));
    check_untouched(collect(1, 4), CQ_NONE);
    OK(collect(0, 1));
    check_ticket(trace);
    SAME(answer.number, 2);
    SAME(frames[0].method, 9);
    SAME(frames[0].location, 90);
    SAME(frames[1].method, 83);
    SAME(collect(0, 4), CQ_NO_MORE_FRAMES);
    check_ticket(location);
    check_unwritten();
    OK(wait_to_collect(-1));
    check_ticket(count);
    SAME(answer.number, 2);
    check_untouched(collect(0, 4), CQ_NONE);
    check_untouched(wait_to_collect(-1), CQ_NONE);
    OK(cq_collect(&env, &kept, &answer, frames, 4));
    OK(cq_set_frames(&thread, two, 0));
}

/* A suspension whose time was over has suspended the thread all the same. */
static void tells_that_it_took_place(void) {
    SAME(cq_wait_suspend_thread(&env, &signal_of_all, 0, 0), CQ_TIMED_OUT);
    check_untouched(wait_to_collect(0), CQ_TIMED_OUT);
    SAME(cq_poll(&thread), CQ_HELD);
    OK(wait_to_collect(0));
    SAME(answer.ticket.thread, 0);
    check_unwritten();
    OK(cq_wait_resume_thread(&env, &signal_of_all, 0, 0));
    OK(cq_wait_back(&thread, &signal_of_all, 0));
}

/* The second of two suspensions is refused. */
static void tells_that_it_was_refused(void) {
    cq_ticket first = cancelled(cq_suspend_thread(&env, 0, &answer)), second = cancelled(cq_suspend_thread(&env, 0, &answer));
    OK(cq_cancel(&env, &first));
    OK(cq_cancel(&env, &second));
    SAME(cq_poll(&thread), CQ_HELD);
    OK(collect(0, 4));
    check_ticket(first);
    SAME(collect(0, 4), CQ_THREAD_SUSPENDED);
    check_ticket(second);
    OK(cq_wait_resume_thread(&env, &signal_of_all, 0, 0));
    OK(cq_wait_back(&thread, &signal_of_all, 0));
}

static void *wait_for_it(void *unused) {
    atomic_store(&at, 1);
    OK(wait_to_collect(LONG));
    SAME(answer.number, 0);
    return unused;
}

/* Whoever waits for it sleeps, and the poll wakes. */
static void poll_wakes(void) {
    uint32_t count = 77;
    SAME(cq_wait_get_frame_count(&env, &signal_of_all, 0, 0, &count), CQ_TIMED_OUT);
    pthread_t id = run(wait_for_it);
    await(1);
    rest(20 * MILLISECOND);
    int64_t before = now_ns();
    OK(cq_wait_poll(&thread, &signal_of_all));
    join(id);
    CHECK(now_ns() - before < LONG);
}

void cancelled_calls(void) {
    tells_each_call_once();
    tells_that_it_took_place();
    tells_that_it_was_refused();
    poll_wakes();
    check_untouched(collect(0, 4), CQ_NONE);
}
