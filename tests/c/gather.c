/* gather.c: traces of several threads, gathered by one thread of the operating system. What they have to tell follows from
 * what this program has its threads do, and from cebdyraq.h. */
#include "check.h"
#include "counted_heap.h"

enum { DEPTH = 4 };

/* The threads, by their numbers, and where they are. */
enum {
    NEW,
    RUNS,                /* in two methods */
    NATIVE,              /* in native code, called by a method */
    BLOCKED,             /* at a monitor, in a method */
    HELD,                /* suspended and held at a poll, in a method */
    SUSPENDED_NATIVE,    /* suspended in native code, called by a method */
    ENDED,
    GIVEN_BACK,
    LET_GO,              /* given back, and let go of by the environment */
    WAITED_FOR,          /* it runs without frames, and a call of the other environment waits for it */
    THREADS
};

static cq_service service;
static cq_thread threads[THREADS];
static cq_env env, other;
static cq_answer answer;
static cq_ticket ticket;    /* of the call that waits for WAITED_FOR */

static uint32_t state_of(uint32_t thread) {
    OK(cq_get_thread_state(&other, thread, &answer));
    return (uint32_t)answer.number;
}

static void set_up_threads(void) {
    bool gone = false;
    for (uint32_t i = 0; i < THREADS; i++) OK(cq_attach_thread(&service, (const uint8_t *)"", 0, 5, &threads[i]));
    for (uint32_t i = RUNS; i < THREADS; i++) OK(cq_start(&threads[i]));
    for (uint32_t i = RUNS; i <= SUSPENDED_NATIVE; i++) {
        OK(cq_enter(&threads[i], 10 * i));
        OK(cq_at(&threads[i], 100 * i));
    }
    OK(cq_enter(&threads[RUNS], 11));
    OK(cq_enter_native(&threads[NATIVE], 21));
    OK(cq_native(&threads[NATIVE]));
    OK(cq_block(&threads[BLOCKED], CQ_MONITOR_ENTER));
    OK(cq_enter_native(&threads[SUSPENDED_NATIVE], 51));
    OK(cq_native(&threads[SUSPENDED_NATIVE]));
    OK(cq_meet(&env));
    OK(cq_meet(&other));
    OK(cq_suspend_thread(&other, SUSPENDED_NATIVE, &answer));
    SAME(cq_suspend_thread(&other, HELD, &answer), CQ_WAITING);
    SAME(cq_poll(&threads[HELD]), CQ_HELD);
    ticket = answer.ticket;
    OK(cq_collect(&other, &ticket, &answer, &(cq_frame){ 0, 0 }, 0));
    for (uint32_t i = ENDED; i <= LET_GO; i++) OK(cq_end(&threads[i]));
    for (uint32_t i = GIVEN_BACK; i <= LET_GO; i++) OK(cq_detach_thread(&threads[i]));
    OK(cq_let_go(&env, LET_GO, &gone));
    CHECK(gone);
    SAME(cq_get_frame_count(&other, WAITED_FOR, &answer), CQ_WAITING);
    ticket = answer.ticket;
}

static void set_up(void) {
    OK(cq_make(DEPTH, 3, 4, CQ_CAN_SUSPEND | CQ_CAN_POP_FRAME, &service));
    OK(cq_attach_environment(&service, &env));
    OK(cq_attach_environment(&service, &other));
    OK(cq_add_capabilities(&other, CQ_CAN_SUSPEND));
    set_up_threads();
}

static void tear_down(void) {
    for (uint32_t i = 0; i < THREADS; i++) {
        if (threads[i].kind == 0) continue;
        MAYBE(cq_resume_thread(&other, i, &answer));
        MAYBE(cq_back(&threads[i]));
        MAYBE(cq_end(&threads[i]));
        OK(cq_detach_thread(&threads[i]));
    }
    OK(cq_dispose_environment(&env));
    OK(cq_dispose_environment(&other));
    OK(cq_free(&service));
    SAME(heap_blocks(), 0);
}

/* Steps until one does not succeed, or the trace is over. */
static uint32_t go_on(cq_env *e, bool *over) {
    uint32_t code = CQ_OK;
    *over = false;
    while (code == CQ_OK && !*over) code = cq_gather_step(e, over);
    return code;
}

static void finish(cq_env *e) {
    bool over;
    OK(go_on(e, &over));
    SAME(cq_gather_step(e, &over), CQ_MISUSED);
}

/* Stops all threads that it can, until one runs. */
static void stop_all(cq_env *e) {
    bool over = true;
    SAME(go_on(e, &over), CQ_STILL_RUNNING);
    over = true;
    SAME(cq_gather_step(e, &over), CQ_STILL_RUNNING);
    CHECK(over);
}

static void check_count(cq_env *e, uint64_t wanted) {
    static const cq_stack_info marks = { 77, 77, 77 };
    cq_stack_info info = marks;
    cq_frame frame = { 77, 78 };
    uint64_t count = 77;
    OK(cq_gathered(e, &count));
    SAME(count, wanted);
    SAME(cq_gathered_stack(e, wanted, &info, &frame, 1), CQ_ILLEGAL_ARGUMENT);
    SAME(cq_gathered_stack(e, UINT64_MAX, &info, &frame, 1), CQ_ILLEGAL_ARGUMENT);
    SAME(memcmp(&info, &marks, sizeof info), 0);
    SAME(frame.method, 77);
    SAME(frame.location, 78);
}

/* What a trace tells of a thread, also with less room than it wants. Frames without room are left alone. */
static void check_told(cq_env *e, uint64_t index, uint32_t thread, uint32_t state, const cq_frame *wanted, size_t count) {
    for (size_t room = 0; room <= DEPTH; room++) {
        cq_frame frames[DEPTH + 1];
        cq_stack_info info = { 77, 77, 77 };
        for (size_t i = 0; i <= DEPTH; i++) frames[i] = (cq_frame){ 77, 78 };
        OK(cq_gathered_stack(e, index, &info, frames, room));
        SAME(info.thread, thread);
        SAME(info.state, state);
        SAME(info.frame_count, count);
        for (size_t i = 0; i <= DEPTH; i++) {
            bool is_told = i < count && i < room;
            SAME(frames[i].method, is_told ? wanted[i].method : 77);
            SAME(frames[i].location, is_told ? wanted[i].location : 78);
        }
    }
}
#define TOLD(e, index, thread, state, ...) \
    check_told(e, index, thread, state, (const cq_frame[]){ __VA_ARGS__ }, \
               sizeof (const cq_frame[]){ __VA_ARGS__ } / sizeof(cq_frame))
#define TOLD_NONE(e, index, thread, state) check_told(e, index, thread, state, &(const cq_frame){ 0, 0 }, 0)

static void check_none(cq_env *e) {
    cq_stack_info info = { 77, 77, 77 };
    cq_frame frame = { 77, 78 };
    uint64_t count = 77;
    SAME(cq_gathered(e, &count), CQ_NONE);
    SAME(count, 77);
    SAME(cq_gathered_stack(e, 0, &info, &frame, 1), CQ_NONE);
    SAME(info.thread, 77);
    SAME(frame.method, 77);
}

/* Each thread goes on as soon as it may, and does something else then. It gives whether it went on. */
static bool goes_on(uint32_t thread) {
    uint32_t code = thread == NEW ? cq_start(&threads[thread]) : cq_back(&threads[thread]);
    if (code == CQ_BARRED) return false;
    OK(code);
    OK(cq_set_frames(&threads[thread], &(const cq_frame){ 99, 99 }, 1));
    return true;
}

/* All threads in all modes. None is read before all stand: HELD is resumed before that. None goes on before all were read:
 * SUSPENDED_NATIVE is resumed when the first goes on. Then they go on in the order of their numbers. */
static void all_threads(void) {
    static const uint32_t barred[] = { NEW, RUNS, NATIVE, BLOCKED, HELD, SUSPENDED_NATIVE, WAITED_FOR };
    size_t gone = 0;
    bool over = false;
    set_up();
    OK(cq_gather_all_stack_traces(&env, INT32_MAX));
    CHECK(cq_poll_clear(&threads[RUNS]));
    stop_all(&env);
    SAME(cq_start(&threads[NEW]), CQ_BARRED);
    CHECK(!cq_poll_clear(&threads[RUNS]));
    OK(cq_enter(&threads[RUNS], 12));
    SAME(cq_poll(&threads[RUNS]), CQ_HELD);
    SAME(cq_poll(&threads[RUNS]), CQ_NOT_RUNNING);
    SAME(state_of(RUNS), 0x5);
    OK(cq_get_frame_count(&other, RUNS, &answer));
    SAME(answer.number, 3);
    stop_all(&env);
    OK(cq_resume_thread(&other, HELD, &answer));
    OK(cq_enter_native(&threads[WAITED_FOR], 91));
    OK(cq_native(&threads[WAITED_FOR]));
    OK(cq_collect(&other, &ticket, &answer, &(cq_frame){ 0, 0 }, 0));
    SAME(answer.number, 1);
    while (!over) {
        for (size_t i = gone; i < 7; i++) CHECK(!goes_on(barred[i]));
        OK(cq_gather_step(&env, &over));
        if (gone < 7 && goes_on(barred[gone])) gone++;
        if (gone == 1 && state_of(SUSPENDED_NATIVE) == 0x500005) OK(cq_resume_thread(&other, SUSPENDED_NATIVE, &answer));
    }
    SAME(gone, 7);
    check_count(&env, 6);
    TOLD(&env, 0, RUNS, 0x5, { 12, 0 }, { 11, 0 }, { 10, 100 });
    TOLD(&env, 1, NATIVE, 0x400005, { 21, -1 }, { 20, 200 });
    TOLD(&env, 2, BLOCKED, 0x401, { 30, 300 });
    TOLD(&env, 3, HELD, 0x5, { 40, 400 });
    TOLD(&env, 4, SUSPENDED_NATIVE, 0x500005, { 51, -1 }, { 50, 500 });
    TOLD(&env, 5, WAITED_FOR, 0x400005, { 91, -1 });
    tear_down();
}

/* A thread that ends in the midst of a trace is not alive when it is read. */
static void all_that_are_alive(void) {
    set_up();
    OK(cq_gather_all_stack_traces(&env, 1));
    stop_all(&env);
    OK(cq_end(&threads[RUNS]));
    SAME(cq_start(&threads[NEW]), CQ_BARRED);
    stop_all(&env);
    OK(cq_block(&threads[WAITED_FOR], CQ_TIMED_PARK));
    finish(&env);
    check_count(&env, 5);
    TOLD(&env, 0, NATIVE, 0x400005, { 21, -1 });
    TOLD(&env, 1, BLOCKED, 0x401, { 30, 300 });
    TOLD(&env, 2, HELD, 0x100005, { 40, 400 });
    TOLD(&env, 3, SUSPENDED_NATIVE, 0x500005, { 51, -1 });
    TOLD_NONE(&env, 4, WAITED_FOR, 0x2A1);
    OK(cq_gather_all_stack_traces(&env, 0));
    finish(&env);
    check_count(&env, 5);
    TOLD_NONE(&env, 0, NATIVE, 0x400005);
    OK(cq_start(&threads[NEW]));
    tear_down();
}

/* A list tells of each element in its order. One that is named twice is told twice, and one that is not alive has no frames. */
static void lists(void) {
    static const uint32_t list[] = { NATIVE, RUNS, GIVEN_BACK, NEW, RUNS, ENDED, NATIVE, RUNS }, lost[] = { RUNS, LET_GO };
    set_up();
    SAME(cq_gather_thread_list_stack_traces(&env, lost, 2, 9), CQ_INVALID_THREAD);
    SAME(cq_gather_thread_list_stack_traces(&env, &(uint32_t){ THREADS }, 1, 9), CQ_INVALID_THREAD);
    OK(cq_gather_thread_list_stack_traces(&env, list, 8, 2));
    stop_all(&env);
    CHECK(!cq_poll_clear(&threads[RUNS]));
    OK(cq_back(&threads[BLOCKED]));
    OK(cq_block(&threads[BLOCKED], CQ_MONITOR_ENTER));
    OK(cq_enter(&threads[RUNS], 12));
    SAME(cq_poll(&threads[RUNS]), CQ_HELD);
    SAME(cq_start(&threads[NEW]), CQ_BARRED);
    finish(&env);
    check_count(&env, 8);
    TOLD(&env, 0, NATIVE, 0x400005, { 21, -1 }, { 20, 200 });
    TOLD_NONE(&env, 2, GIVEN_BACK, 0x2);
    TOLD_NONE(&env, 3, NEW, 0);
    TOLD_NONE(&env, 5, ENDED, 0x2);
    TOLD(&env, 6, NATIVE, 0x400005, { 21, -1 }, { 20, 200 });
    for (uint64_t i = 1; i < 8; i += 3) TOLD(&env, i, RUNS, 0x5, { 12, 0 }, { 11, 0 });
    OK(cq_back(&threads[RUNS]));
    OK(cq_start(&threads[NEW]));
    OK(cq_gather_thread_list_stack_traces(&env, list, 0, 9));
    finish(&env);
    check_count(&env, 0);
    tear_down();
}

/* What was gathered stays when the next trace is refused, goes when it begins, and is none when that is given up. */
static void results_stay(void) {
    static const uint32_t list[] = { NATIVE, BLOCKED, LET_GO };
    cq_env third = { 0, NULL };
    set_up();
    check_none(&env);
    OK(cq_attach_environment(&service, &third));
    OK(cq_gather_all_stack_traces(&third, 4));
    finish(&third);
    check_count(&third, 0);
    OK(cq_gather_thread_list_stack_traces(&env, list, 2, 4));
    finish(&env);
    for (int i = 0; i < 2; i++) {
        check_count(&env, 2);
        TOLD(&env, 0, NATIVE, 0x400005, { 21, -1 }, { 20, 200 });
        TOLD(&env, 1, BLOCKED, 0x401, { 30, 300 });
        SAME(cq_gather_thread_list_stack_traces(&env, list, 3, 4), CQ_INVALID_THREAD);
        SAME(cq_gather_all_stack_traces(&env, -1), CQ_ILLEGAL_ARGUMENT);
        OK(cq_back(&threads[NATIVE + i]));
        OK(cq_end(&threads[NATIVE + i]));
    }
    OK(cq_gather_all_stack_traces(&env, 4));
    OK(cq_gather_give_up(&env));
    finish(&env);
    check_none(&env);
    check_count(&third, 0);
    OK(cq_dispose_environment(&third));
    tear_down();
}

/* The suspension of the other environment and a call of its own wait for a thread that is stopped. Both take place at its
 * poll, and the suspension bars it after the trace. */
static void calls_wait_meanwhile(void) {
    cq_ticket own;
    uint32_t count = 7;
    set_up();
    SAME(cq_get_frame_location(&env, RUNS, 1, &answer), CQ_WAITING);
    own = answer.ticket;
    OK(cq_gather_thread_list_stack_traces(&env, (const uint32_t[]){ RUNS }, 1, 4));
    stop_all(&env);
    SAME(cq_suspend_thread(&other, RUNS, &answer), CQ_WAITING);
    SAME(cq_poll(&threads[RUNS]), CQ_HELD);
    finish(&env);
    TOLD(&env, 0, RUNS, 0x100005, { 11, 0 }, { 10, 100 });
    OK(cq_out_at(&env, RUNS, &count));
    SAME(count, 1);
    OK(cq_collect(&env, &own, &answer, &(cq_frame){ 0, 0 }, 0));
    SAME(answer.frame.method, 10);
    SAME(answer.frame.location, 100);
    SAME(cq_back(&threads[RUNS]), CQ_BARRED);
    OK(cq_resume_thread(&other, RUNS, &answer));
    OK(cq_back(&threads[RUNS]));
    tear_down();
}

/* A trace that is given up after so many steps. It gives whether it was given up, and not already over or gone too far. */
static bool is_given_up_after(uint32_t steps, uint64_t count) {
    uint32_t further = 0;
    uint64_t told;
    bool over = false;
    for (uint32_t i = 0; i < steps && !over; i++) OK(cq_gather_step(&env, &over));
    if (!over) OK(cq_gather_give_up(&env));
    for (; !over; further++) OK(cq_gather_step(&env, &over));
    if (cq_gathered(&env, &told) == CQ_OK) {
        SAME(told, count);
        return false;
    }
    check_none(&env);
    CHECK(further <= (steps < count ? steps : count) + 1);
    return true;
}

/* For three threads that stand, a trace has six steps until all were seen standing, and one more between stopping and seeing. */
static void give_up_at_any_step(void) {
    static const uint32_t list[] = { NATIVE, BLOCKED, HELD };
    set_up();
    for (uint32_t steps = 0; steps < 20; steps++) {
        OK(cq_gather_thread_list_stack_traces(&env, list, 3, 4));
        bool is_given_up = is_given_up_after(steps, 3);
        CHECK(steps >= 6 || is_given_up);
        CHECK(steps <= 8 || !is_given_up);
        OK(cq_back(&threads[BLOCKED]));
        OK(cq_block(&threads[BLOCKED], CQ_MONITOR_ENTER));
        SAME(cq_back(&threads[HELD]), CQ_BARRED);
    }
    OK(cq_resume_thread(&other, HELD, &answer));
    OK(cq_back(&threads[HELD]));
    tear_down();
}

/* A thread that runs is let go without having polled, and does not notice. One that was held goes on. */
static void give_up_while_one_runs(void) {
    set_up();
    OK(cq_gather_all_stack_traces(&env, 4));
    stop_all(&env);
    SAME(cq_poll(&threads[RUNS]), CQ_HELD);
    stop_all(&env);
    OK(cq_gather_give_up(&env));
    SAME(cq_back(&threads[RUNS]), CQ_BARRED);
    finish(&env);
    check_none(&env);
    OK(cq_back(&threads[RUNS]));
    OK(cq_start(&threads[NEW]));
    OK(cq_poll(&threads[WAITED_FOR]));
    CHECK(cq_poll_clear(&threads[WAITED_FOR]));
    OK(cq_back(&threads[NATIVE]));
    OK(cq_collect(&other, &ticket, &answer, &(cq_frame){ 0, 0 }, 0));
    SAME(answer.number, 0);
    tear_down();
}

/* Two environments gather at once. The second waits for each thread that the first has stopped, and for no other. */
static void two_at_once(void) {
    static const uint32_t first[] = { BLOCKED, HELD }, second[] = { HELD, NATIVE, HELD };
    bool over = true;
    set_up();
    OK(cq_gather_thread_list_stack_traces(&env, first, 2, 4));
    OK(cq_gather_thread_list_stack_traces(&other, second, 3, 1));
    OK(cq_gather_step(&env, &over));
    CHECK(!over);
    OK(cq_gather_step(&env, &over));
    CHECK(!over);
    SAME(go_on(&other, &over), CQ_ALREADY_STOPPED);
    SAME(cq_back(&threads[NATIVE]), CQ_BARRED);
    over = true;
    SAME(cq_gather_step(&other, &over), CQ_ALREADY_STOPPED);
    CHECK(over);
    OK(cq_gather_give_up(&env));
    finish(&env);
    finish(&other);
    check_none(&env);
    check_count(&other, 3);
    TOLD(&other, 0, HELD, 0x100005, { 40, 400 });
    TOLD(&other, 1, NATIVE, 0x400005, { 21, -1 });
    TOLD(&other, 2, HELD, 0x100005, { 40, 400 });
    OK(cq_back(&threads[NATIVE]));
    tear_down();
}

/* Two environments gather at once, in any order of their steps. Both come to their ends. */
static void two_in_any_order(void) {
    static const uint32_t list[] = { NATIVE, BLOCKED, HELD, SUSPENDED_NATIVE };
    uint32_t chance = 1, met = 0;
    set_up();
    for (int round = 0; round < 200; round++) {
        bool over[2] = { false, false };
        OK(cq_gather_thread_list_stack_traces(&env, list, 4, 4));
        OK(cq_gather_thread_list_stack_traces(&other, list, 4, 4));
        while (!over[0] || !over[1]) {
            chance = chance * 1103515245 + 12345;
            uint32_t which = over[0] ? 1 : over[1] ? 0 : chance >> 31;
            uint32_t code = cq_gather_step(which == 0 ? &env : &other, &over[which]);
            CHECK(code == CQ_OK || code == CQ_ALREADY_STOPPED);
            met += code == CQ_ALREADY_STOPPED;
        }
        for (int i = 0; i < 2; i++) {
            check_count(i == 0 ? &env : &other, 4);
            TOLD(i == 0 ? &env : &other, 3, SUSPENDED_NATIVE, 0x500005, { 51, -1 }, { 50, 500 });
        }
    }
    CHECK(met > 0);
    tear_down();
}

int main(void) {
    all_threads();
    all_that_are_alive();
    lists();
    results_stay();
    calls_wait_meanwhile();
    give_up_at_any_step();
    give_up_while_one_runs();
    two_at_once();
    two_in_any_order();
    return 0;
}
