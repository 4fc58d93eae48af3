/* debugger_pops.c: a debugger pops frames of a runtime whose threads go on without them. */
#include "debugger.h"

#define FRAME(depth) WORKER "000000000000000" #depth
#define NO_POPS "0000000000000000 0000000000010000 0000000000000000 0000000000000000"
#define POPS "0000000000000000 0000010000010000 0000000000000000 0000000000000000"

/* Newest first: `inner` at 11, `outer` at 5, `inner` at 10, `outer` at 4. */
static const cq_frame FOUR[] = { { 1, 11 }, { 0, 5 }, { 1, 10 }, { 0, 4 } };

static uint64_t pops_taken(void) {
    uint64_t count = 77;
    OK(cq_take_pops(&worker, &count));
    return count;
}

/* The debugger suspends the worker, which has four frames. */
static void begin(void) {
    begin_runtime();
    open_debugger();
    attach();
    OK(cq_set_frames(&worker, FOUR, 4));
    ask(11, 2, WORKER);
    SAME(action_now(), CQ_DOOR_WAIT);
    SAME(cq_poll(&worker), CQ_HELD);
    tick_after(MILLISECOND);
    replied(0, "");
}

/* The debugger resumes it, and the runtime is told of so many pops. */
static void finish(uint64_t pops) {
    asks(11, 3, WORKER, 0, "");
    CHECK(goes_on(&worker));
    SAME(pops_taken(), pops);
    SAME(pops_taken(), 0);
    detach();
    close_debugger();
    end_runtime();
}

/* Frames are popped only if the runtime has said that its threads go on without. */
static void offers_pops(void) {
    begin();
    asks(1, 17, "", 0, NO_POPS);
    asks(16, 4, FRAME(0), 99, "");
    OK(cq_door_pops_frames(&door, true));
    asks(1, 17, "", 0, POPS);
    asks(1, 12, "", 0, "00000000000000");
    asks(16, 4, FRAME(0), 0, "");
    OK(cq_door_pops_frames(&door, false));
    asks(1, 17, "", 0, NO_POPS);
    asks(16, 4, FRAME(0), 99, "");
    finish(1);
}

/* A frame goes with all newer ones. The runtime drops as many when it goes on, and runs in their caller. */
static void pops_frames(void) {
    uint64_t count = 0;
    begin();
    OK(cq_door_pops_frames(&door, true));
    asks(16, 4, FRAME(1), 0, "");
    asks(11, 7, WORKER, 0, "00000002");
    asks(11, 6, WORKER "00000000 ffffffff", 0,
         "00000002 0000000000000000 01" WORK "0000000600000001 000000000000000a"
         "0000000000000001 01" WORK "0000000600000000 0000000000000004");
    asks(16, 4, FRAME(0), 0, "");
    asks(16, 4, FRAME(0), 31, "");
    asks(16, 4, FRAME(1), 30, "");
    finish(3);
    begin();
    OK(cq_door_pops_frames(&door, true));
    asks(16, 4, FRAME(2), 0, "");
    asks(11, 3, WORKER, 0, "");
    CHECK(goes_on(&worker));
    OK(cq_frame_count(&worker, &count));
    SAME(count, 1);
    SAME(cq_set_frames(&worker, FOUR + 3, 1), CQ_POPPED);
    SAME(pops_taken(), 3);
    OK(cq_set_frames(&worker, FOUR + 3, 1));
    detach();
    close_debugger();
    end_runtime();
}

/* With an error no frame goes. */
static void pops_none(void) {
    begin();
    OK(cq_door_pops_frames(&door, true));
    asks(16, 4, FRAME(3), 31, "");
    asks(16, 4, FRAME(4), 30, "");
    asks(16, 4, WORKER "0000000100000000", 30, "");
    asks(16, 4, WORKER "00000000ffffffff", 30, "");
    asks(16, 4, SLEEPER "0000000100000000", 13, "");
    asks(16, 4, NOBODY "0000000800000000", 13, "");
    asks(16, 4, "0000000000000000 0000000000000000", 10, "");
    asks(16, 4, WORKER, 103, "");
    asks(11, 2, SLEEPER, 0, "");
    asks(16, 4, SLEEPER "0000000100000000", 31, "");
    asks(11, 3, SLEEPER, 0, "");
    asks(11, 7, WORKER, 0, "00000004");
    finish(0);
}

/* A service whose environments cannot pop frames has no door that can. */
static void cannot_pop(void) {
    cq_service one = { 0 };
    cq_door other = { 0 };
    OK(cq_make(8, 1, 4, CQ_CAN_SUSPEND, &one));
    OK(cq_open_debugger(&one, (const uint8_t *)"tests", 5, (const uint8_t *)"/src", 4, 0, &other));
    SAME(cq_door_pops_frames(&other, true), CQ_NOT_AVAILABLE);
    OK(cq_door_pops_frames(&other, false));
    OK(cq_close_door(&other));
    OK(cq_free(&one));
}

void pops_for_debuggers(void) {
    offers_pops();
    pops_frames();
    pops_none();
    cannot_pop();
}
