/* debugger_suspends.c: suspensions and resumptions by a debugger, as the threads see them. */
#include "debugger.h"

/* Frames of the worker: `inner` at 11, and `outer` at 5, which called it. */
#define INNER_FRAME "0000000000000000 01" WORK "0000000600000001 000000000000000b"
#define OUTER_FRAME "0000000000000001 01" WORK "0000000600000000 0000000000000005"

/* The worker polls, and stays. */
static void hold(void) {
    SAME(cq_poll(&worker), CQ_HELD);
}

static void begin(void) {
    begin_runtime();
    open_debugger();
    attach();
}

/* Closes the door, which has resumed a thread this often, and has left none suspended. */
static void finish(uint64_t count) {
    SAME(resumptions(), count);
    close_debugger();
    OK(cq_poll(&worker));
    end_runtime();
}

static void shows_frames(void) {
    asks(11, 12, WORKER, 0, "00000001");
    asks(11, 4, WORKER, 0, "00000001 00000001");
    asks(11, 7, WORKER, 0, "00000002");
    asks(11, 6, WORKER "00000000 ffffffff", 0, "00000002" INNER_FRAME OUTER_FRAME);
    asks(11, 6, WORKER "00000000 00000001", 0, "00000001" INNER_FRAME);
    asks(11, 6, WORKER "00000001 ffffffff", 0, "00000001" OUTER_FRAME);
    asks(11, 6, WORKER "00000002 ffffffff", 0, "00000000");
    asks(11, 6, WORKER "00000002 00000001", 503, "");
    asks(11, 6, WORKER "00000001 00000002", 504, "");
}

/* A running thread is suspended when it polls. Then its frames are there, until it is resumed. */
static void suspends_one(void) {
    begin();
    ask(11, 2, WORKER);
    SAME(action_now(), CQ_DOOR_WAIT);
    CHECK(tick_after(500 * MILLISECOND) <= now + MILLISECOND);
    SAME(action_now(), CQ_DOOR_WAIT);
    hold();
    tick_after(MILLISECOND);
    replied(0, "");
    shows_frames();
    CHECK(!goes_on(&worker));
    SAME(resumptions(), 0);
    asks(11, 3, WORKER, 0, "");
    SAME(resumptions(), 1);
    CHECK(goes_on(&worker));
    asks(11, 3, WORKER, 0, "");
    asks(11, 4, WORKER, 0, "00000001 00000000");
    asks(11, 6, WORKER "00000000 ffffffff", 13, "");
    detach();
    finish(1);
}

/* Suspensions of a thread nest, and the thread is resumed once. */
static void nests(void) {
    begin();
    asks(11, 2, SLEEPER, 0, "");
    ask(1, 8, "");
    SAME(action_now(), CQ_DOOR_WAIT);
    hold();
    replied(0, "");
    asks(11, 12, SLEEPER, 0, "00000002");
    asks(11, 12, WORKER, 0, "00000001");
    asks(11, 4, SLEEPER, 0, "00000002 00000001");
    asks(1, 9, "", 0, "");
    CHECK(goes_on(&worker));
    CHECK(!goes_on(&sleeper));
    asks(11, 3, SLEEPER, 0, "");
    asks(11, 12, SLEEPER, 0, "00000000");
    CHECK(goes_on(&sleeper));
    OK(cq_block(&sleeper, CQ_SLEEP));
    detach();
    finish(2);
}

/* The reply comes after one second in any case. A suspension that is not wanted any more is undone when the thread has polled, and
 * keeps the door open until then. */
static void undoes_a_late_one(void) {
    begin();
    ask(11, 2, WORKER);
    SAME(action_now(), CQ_DOOR_WAIT);
    tick_after(SECOND - 1);
    SAME(action_now(), CQ_DOOR_WAIT);
    tick_after(1);
    replied(0, "");
    asks(11, 7, WORKER, 13, "");
    detach();
    CHECK(tick_after(SECOND) <= now + 10 * MILLISECOND);
    SAME(cq_close_door(&door), CQ_BUSY);
    hold();
    CHECK(!goes_on(&worker));
    SAME(cq_close_door(&door), CQ_BUSY);
    SAME(resumptions(), 0);
    tick_after(MILLISECOND);
    SAME(resumptions(), 1);
    CHECK(goes_on(&worker));
    finish(1);
}

/* All that a debugger has suspended goes on when it disconnects. */
static void lets_all_go(void) {
    begin();
    ask(1, 8, "");
    SAME(action_now(), CQ_DOOR_WAIT);
    hold();
    replied(0, "");
    asks(1, 8, "", 0, "");
    CHECK(!goes_on(&worker) && !goes_on(&sleeper));
    SAME(cq_close_door(&door), CQ_BUSY);
    detach();
    SAME(resumptions(), 2);
    CHECK(goes_on(&worker) && goes_on(&sleeper));
    OK(cq_block(&sleeper, CQ_SLEEP));
    finish(2);
}

/* The same when it disposes of its session, and when it sends no more. */
static void lets_all_go_at_an_end(void) {
    begin();
    asks(11, 2, SLEEPER, 0, "");
    ask(1, 6, "");
    replied(0, "");
    SAME(action_now(), CQ_DOOR_CLOSE);
    SAME(resumptions(), 1);
    CHECK(goes_on(&sleeper));
    OK(cq_block(&sleeper, CQ_SLEEP));
    detach();
    attach();
    asks(11, 2, SLEEPER, 0, "");
    OK(cq_door_end(&door, 0, now));
    SAME(action_now(), CQ_DOOR_CLOSE);
    SAME(resumptions(), 2);
    detach();
    finish(2);
}

/* A thread that another environment has suspended stays so, whatever the debugger does. */
static void leaves_what_is_anothers(void) {
    cq_env other = { 0 };
    cq_answer answer;
    begin();
    OK(cq_attach_environment(&service, &other));
    OK(cq_add_capabilities(&other, CQ_CAN_SUSPEND));
    OK(cq_meet(&other));
    OK(cq_suspend_thread(&other, 1, &answer));
    asks(11, 2, SLEEPER, 0, "");
    asks(11, 12, SLEEPER, 0, "00000001");
    asks(11, 3, SLEEPER, 0, "");
    asks(11, 2, SLEEPER, 0, "");
    detach();
    CHECK(!goes_on(&sleeper));
    OK(cq_resume_thread(&other, 1, &answer));
    OK(cq_dispose_environment(&other));
    finish(0);
}

void suspends(void) {
    suspends_one();
    nests();
    undoes_a_late_one();
    lets_all_go();
    lets_all_go_at_an_end();
    leaves_what_is_anothers();
}
