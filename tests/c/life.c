/* The life of a service, told by one thread of the operating system. All expected values are those of JVM TI 11 and of
 * cebdyraq.h. */
#include "check.h"

static cq_service service;
static cq_thread thread;
static cq_env env;
static cq_answer answer;
static cq_frame frames[8];

/* The answer to a call at thread 0 that runs: it waits, the thread polls, and the answer is collected. */
static uint32_t after_a_poll(uint32_t code, uint32_t polled) {
    SAME(code, CQ_WAITING);
    cq_ticket ticket = answer.ticket;
    CHECK(!cq_poll_clear(&thread));
    SAME(cq_collect(&env, &ticket, &answer, frames, 8), CQ_WAITING);
    SAME(cq_poll(&thread), polled);
    CHECK(cq_poll_clear(&thread));
    code = cq_collect(&env, &ticket, &answer, frames, 8);
    cq_frame none;
    SAME(cq_collect(&env, &ticket, &answer, &none, 0), CQ_WAITING);
    return code;
}

static uint32_t state(void) {
    OK(cq_get_thread_state(&env, 0, &answer));
    return (uint32_t)answer.number;
}

static void check_frame(cq_frame frame, uint32_t method, int64_t location) {
    SAME(frame.method, method);
    SAME(frame.location, location);
}

static void make(void) {
    cq_service other = { 0, NULL };
    uint32_t number = 7;
    OK(cq_make(8, 2, 4, CQ_CAN_SUSPEND | CQ_CAN_POP_FRAME, &service));
    OK(cq_share(&service, &other));
    OK(cq_attach_thread(&other, (const uint8_t *)"main", 4, 5, &thread));
    OK(cq_thread_number(&thread, &number));
    SAME(number, 0);
    OK(cq_attach_environment(&other, &env));
    OK(cq_free(&other));
    SAME(cq_free(&other), CQ_MISUSED);
}

static void meet(void) {
    SAME(cq_get_thread_state(&env, 0, &answer), CQ_INVALID_THREAD);
    OK(cq_meet(&env));
    CHECK(!cq_has_news(&env));
    SAME(state(), 0);
    SAME(cq_get_frame_count(&env, 0, &answer), CQ_THREAD_NOT_ALIVE);
    SAME(cq_get_frame_count(&env, 1, &answer), CQ_INVALID_THREAD);
    OK(cq_start(&thread));
    SAME(cq_start(&thread), CQ_NOT_NEW);
    SAME(state(), 0x5);
}

static void steps(void) {
    OK(cq_enter(&thread, 10));
    OK(cq_at(&thread, UINT32_MAX));
    OK(cq_enter(&thread, 11));
    OK(cq_enter_native(&thread, 12));
    CHECK(cq_poll_clear(&thread));
    OK(after_a_poll(cq_get_frame_count(&env, 0, &answer), CQ_OK));
    SAME(answer.number, 3);
    OK(after_a_poll(cq_get_frame_location(&env, 0, 2, &answer), CQ_OK));
    check_frame(answer.frame, 10, UINT32_MAX);
    SAME(after_a_poll(cq_get_frame_location(&env, 0, 3, &answer), CQ_OK), CQ_NO_MORE_FRAMES);
    OK(after_a_poll(cq_get_stack_trace(&env, 0, 0, 8, &answer, frames, 8), CQ_OK));
    SAME(answer.number, 3);
    check_frame(frames[0], 12, -1);
    check_frame(frames[1], 11, 0);
    check_frame(frames[2], 10, UINT32_MAX);
    OK(cq_leave(&thread));
    OK(cq_leave(&thread));
    OK(after_a_poll(cq_get_frame_count(&env, 0, &answer), CQ_OK));
    SAME(answer.number, 1);
}

/* The parts of a trace: GetStackTrace counts a negative start from the oldest frame. */
static void parts_of_a_trace(void) {
    const cq_frame five[5] = { { 5, 50 }, { 4, 40 }, { 3, -1 }, { 2, 20 }, { 1, 10 } };
    OK(cq_set_frames(&thread, five, 5));
    OK(after_a_poll(cq_get_stack_trace(&env, 0, 1, 2, &answer, frames, 8), CQ_OK));
    SAME(answer.number, 2);
    check_frame(frames[0], 4, 40);
    check_frame(frames[1], 3, -1);
    OK(after_a_poll(cq_get_stack_trace(&env, 0, -2, 8, &answer, frames, 8), CQ_OK));
    SAME(answer.number, 2);
    check_frame(frames[0], 2, 20);
    check_frame(frames[1], 1, 10);
    OK(after_a_poll(cq_get_stack_trace(&env, 0, 4, 0, &answer, frames, 8), CQ_OK));
    SAME(answer.number, 0);
    SAME(after_a_poll(cq_get_stack_trace(&env, 0, 5, 1, &answer, frames, 8), CQ_OK), CQ_ILLEGAL_ARGUMENT);
    SAME(after_a_poll(cq_get_stack_trace(&env, 0, -6, 1, &answer, frames, 8), CQ_OK), CQ_ILLEGAL_ARGUMENT);
    OK(cq_set_frames(&thread, five, 0));
    OK(after_a_poll(cq_get_stack_trace(&env, 0, 0, 8, &answer, frames, 8), CQ_OK));
    SAME(answer.number, 0);
    OK(cq_set_frames(&thread, &five[1], 4));
}

/* The newest frames are shown, as many as the service's depth, and those behind them are not read: the last is none. */
static void deeper_than_the_depth(void) {
    const cq_frame ten[10] = { { 10, 0 }, { 9, 0 }, { 8, 0 }, { 7, 0 }, { 6, 0 }, { 5, 0 }, { 4, 0 }, { 3, 33 }, { 2, 0 }, { 1, -2 } };
    uint64_t kept = 77;
    SAME(cq_set_frames(&thread, &ten[1], 9), CQ_ILLEGAL_ARGUMENT);
    SAME(cq_set_frames(&thread, ten, 9), CQ_OVERFLOW);
    OK(cq_set_newest_frames(&thread, ten, 10, &kept));
    SAME(kept, 8);
    OK(after_a_poll(cq_get_stack_trace(&env, 0, 0, 8, &answer, frames, 8), CQ_OK));
    SAME(answer.number, 8);
    check_frame(frames[0], 10, 0);
    check_frame(frames[7], 3, 33);
    SAME(cq_set_newest_frames(&thread, &ten[8], 2, &kept), CQ_ILLEGAL_ARGUMENT);
    SAME(kept, 8);
    OK(cq_frame_count(&thread, &kept));
    SAME(kept, 8);
    OK(cq_set_newest_frames(&thread, ten, 3, &kept));
    SAME(kept, 3);
    OK(cq_set_newest_frames(&thread, ten, 0, &kept));
    SAME(kept, 0);
}

/* There is room for one frame, and the buffer behind it is left alone. */
static void room(void) {
    frames[1] = (cq_frame){ 77, 78 };
    OK(cq_enter_native(&thread, 6));
    OK(cq_native(&thread));
    SAME(state(), 0x400005);
    OK(cq_get_stack_trace(&env, 0, 0, 8, &answer, frames, 1));
    SAME(answer.number, 5);
    check_frame(frames[0], 6, -1);
    check_frame(frames[1], 77, 78);
    OK(cq_back(&thread));
    SAME(state(), 0x5);
    OK(cq_leave(&thread));
}

static void block(void) {
    static const uint32_t bits[] = {
        [CQ_MONITOR_ENTER] = 0x401, [CQ_OBJECT_WAIT] = 0x191, [CQ_TIMED_WAIT] = 0x1A1,
        [CQ_SLEEP] = 0xE1,          [CQ_PARK] = 0x291,        [CQ_TIMED_PARK] = 0x2A1,
    };
    for (uint32_t reason = CQ_MONITOR_ENTER; reason <= CQ_TIMED_PARK; reason++) {
        OK(cq_block(&thread, reason));
        SAME(state(), bits[reason]);
        OK(cq_get_frame_count(&env, 0, &answer));
        SAME(answer.number, 4);
        OK(cq_back(&thread));
    }
    SAME(cq_block(&thread, CQ_TIMED_PARK + 1), CQ_ILLEGAL_ARGUMENT);
}

static void capabilities(void) {
    uint32_t found = 7;
    OK(cq_get_potential_capabilities(&env, &found));
    SAME(found, CQ_CAN_SUSPEND | CQ_CAN_POP_FRAME);
    OK(cq_get_capabilities(&env, &found));
    SAME(found, 0);
    SAME(cq_suspend_thread(&env, 0, &answer), CQ_MUST_POSSESS_CAPABILITY);
    SAME(cq_add_capabilities(&env, CQ_CAN_SUSPEND | 4), CQ_NOT_AVAILABLE);
    OK(cq_add_capabilities(&env, CQ_CAN_SUSPEND));
    SAME(cq_pop_frame(&env, 0, &answer), CQ_MUST_POSSESS_CAPABILITY);
    OK(cq_add_capabilities(&env, CQ_CAN_POP_FRAME));
    OK(cq_get_capabilities(&env, &found));
    SAME(found, CQ_CAN_SUSPEND | CQ_CAN_POP_FRAME);
}

/* The stack is 4@40 3@-1 2@20 1@10, the newest first. */
static void suspend_and_pop(void) {
    SAME(cq_resume_thread(&env, 0, &answer), CQ_THREAD_NOT_SUSPENDED);
    OK(after_a_poll(cq_suspend_thread(&env, 0, &answer), CQ_HELD));
    SAME(state(), 0x100005);
    SAME(cq_back(&thread), CQ_BARRED);
    SAME(cq_poll(&thread), CQ_NOT_RUNNING);
    SAME(cq_suspend_thread(&env, 0, &answer), CQ_THREAD_SUSPENDED);
    SAME(cq_pop_frame(&env, 0, &answer), CQ_OPAQUE_FRAME);
    OK(cq_resume_thread(&env, 0, &answer));
    SAME(state(), 0x5);
    SAME(cq_poll(&thread), CQ_NOT_RUNNING);
    OK(cq_back(&thread));
    SAME(after_a_poll(cq_pop_frame(&env, 0, &answer), CQ_OK), CQ_THREAD_NOT_SUSPENDED);
    OK(cq_leave(&thread));
    OK(cq_leave(&thread));
    OK(cq_block(&thread, CQ_PARK));
    OK(cq_suspend_thread(&env, 0, &answer));
    SAME(state(), 0x100291);
    OK(cq_pop_frame(&env, 0, &answer));
    OK(cq_get_frame_location(&env, 0, 0, &answer));
    check_frame(answer.frame, 1, 10);
    SAME(cq_pop_frame(&env, 0, &answer), CQ_NO_MORE_FRAMES);
    OK(cq_resume_thread(&env, 0, &answer));
    OK(cq_back(&thread));
    OK(cq_relinquish_capabilities(&env, CQ_CAN_POP_FRAME));
    SAME(cq_pop_frame(&env, 0, &answer), CQ_MUST_POSSESS_CAPABILITY);
}

static void words(void) {
    uint64_t word = 7;
    OK(cq_get_thread_local_storage(&env, 0, &answer));
    SAME(answer.number, 0);
    OK(cq_set_thread_local_storage(&env, 0, UINT64_MAX, &answer));
    OK(cq_get_thread_local_storage(&env, 0, &answer));
    SAME(answer.number, UINT64_MAX);
    OK(cq_get_environment_local_storage(&env, &word));
    SAME(word, 0);
    OK(cq_set_environment_local_storage(&env, 1234567890123));
    OK(cq_get_environment_local_storage(&env, &word));
    SAME(word, 1234567890123);
}

/* Calls that are cancelled: they are out until their answers are discarded. */
static void cancel(void) {
    bool discarded = true;
    uint32_t count = 7;
    SAME(cq_get_frame_count(&env, 0, &answer), CQ_WAITING);
    cq_ticket ticket = answer.ticket;
    OK(cq_cancel(&env, &ticket));
    OK(cq_cancel(&env, &ticket));
    OK(cq_discard(&env, 0, &discarded));
    CHECK(!discarded);
    OK(cq_out_at(&env, 0, &count));
    SAME(count, 1);
    OK(cq_poll(&thread));
    SAME(cq_collect(&env, &ticket, &answer, frames, 8), CQ_WAITING);
    OK(cq_discard(&env, 0, &discarded));
    CHECK(discarded);
    OK(cq_out_at(&env, 0, &count));
    SAME(count, 0);
    OK(cq_discard(&env, 0, &discarded));
    CHECK(!discarded);
}

static void enable_attached_and_detached(bool enabled) {
    OK(cq_set_event_notification_mode(&env, enabled, CQ_THREAD_ATTACHED));
    OK(cq_set_event_notification_mode(&env, enabled, CQ_THREAD_DETACHED));
}

/* A second thread comes and goes without having started, and is told of. GetAllThreads does not list it. */
static void events(void) {
    static const uint8_t name[] = "f\xC3\xA4nf";
    cq_event event;
    cq_thread second = { 0, NULL };
    uint32_t threads[2] = { 9, 9 };
    uint64_t count = 9;
    cq_thread_info info;
    uint8_t letters[5] = { 0 };
    SAME(cq_next_event(&env, &event), CQ_NONE);
    enable_attached_and_detached(true);
    SAME(cq_next_event(&env, &event), CQ_NONE);
    OK(cq_attach_thread(&service, name, 5, -3, &second));
    CHECK(cq_has_news(&env));
    OK(cq_get_all_threads(&env, threads, 2, &count));
    SAME(count, 1);
    SAME(threads[0], 0);
    SAME(threads[1], 9);
    OK(cq_get_thread_info(&env, 1, &info, letters, 4));
    SAME(info.name_length, 5);
    SAME(info.priority, -3);
    SAME(memcmp(letters, "f\xC3\xA4n\0", 5), 0);
    SAME(cq_get_thread_info(&env, 2, &info, letters, 5), CQ_INVALID_THREAD);
    OK(cq_meet(&env));
    OK(cq_get_thread_state(&env, 1, &answer));
    SAME(answer.number, 0);
    OK(cq_detach_thread(&second));
    SAME(second.kind, 0);
    SAME(cq_get_thread_info(&env, 1, &info, letters, 5), CQ_THREAD_NOT_ALIVE);
    OK(cq_get_all_threads(&env, threads, 2, &count));
    SAME(count, 1);
    for (uint32_t kind = CQ_THREAD_ATTACHED; kind <= CQ_THREAD_DETACHED; kind++) {
        OK(cq_next_event(&env, &event));
        SAME(event.kind, kind);
        SAME(event.number, 1);
        SAME(event.lost, 0);
    }
    SAME(cq_next_event(&env, &event), CQ_NONE);
}

/* The service keeps the last 4,096 of 6,000 events. The environment is told that the others are lost. */
static void events_are_lost(void) {
    cq_event event;
    cq_thread comer = { 0, NULL };
    uint32_t number = 0;
    for (uint32_t i = 0; i < 3000; i++) {
        OK(cq_attach_thread(&service, (const uint8_t *)"", 0, 5, &comer));
        OK(cq_thread_number(&comer, &number));
        SAME(number, 2 + i);
        OK(cq_detach_thread(&comer));
    }
    for (uint32_t i = 6000 - 4096; i < 6000; i++) {
        OK(cq_next_event(&env, &event));
        SAME(event.kind, i % 2 == 0 ? CQ_THREAD_ATTACHED : CQ_THREAD_DETACHED);
        SAME(event.number, 2 + i / 2);
        SAME(event.lost, i == 6000 - 4096 ? 6000 - 4096 : 0);
    }
    SAME(cq_next_event(&env, &event), CQ_NONE);
    enable_attached_and_detached(false);
    OK(cq_attach_thread(&service, (const uint8_t *)"", 0, 5, &comer));
    SAME(cq_next_event(&env, &event), CQ_NONE);
    enable_attached_and_detached(true);
    SAME(cq_next_event(&env, &event), CQ_NONE);
    OK(cq_detach_thread(&comer));
    OK(cq_next_event(&env, &event));
    SAME(event.kind, CQ_THREAD_DETACHED);
    enable_attached_and_detached(false);
    OK(cq_set_event_notification_mode(&env, true, CQ_THREAD_END));
}

static void end(void) {
    bool gone = true;
    cq_event event;
    OK(cq_let_go(&env, 0, &gone));
    CHECK(!gone);
    OK(cq_let_go(&env, 1, &gone));
    CHECK(gone);
    OK(cq_let_go(&env, 1, &gone));
    CHECK(!gone);
    SAME(cq_get_thread_state(&env, 1, &answer), CQ_THREAD_NOT_ALIVE);
    SAME(cq_get_frame_count(&env, 0, &answer), CQ_WAITING);
    SAME(cq_detach_thread(&thread), CQ_MISUSED);
    OK(cq_end(&thread));
    SAME(cq_collect(&env, &answer.ticket, &answer, frames, 8), CQ_THREAD_NOT_ALIVE);
    SAME(state(), 0x2);
    OK(cq_detach_thread(&thread));
    SAME(cq_detach_thread(&thread), CQ_MISUSED);
    SAME(state(), 0x2);
    OK(cq_next_event(&env, &event));
    SAME(event.kind, CQ_THREAD_END);
    SAME(event.number, 0);
    SAME(cq_next_event(&env, &event), CQ_NONE);
}

/* The service lives as long as the environment, also when its own handle is freed. */
static void leave(void) {
    cq_env second = { 0, NULL }, third = { 0, NULL };
    OK(cq_attach_environment(&service, &second));
    SAME(cq_attach_environment(&service, &third), CQ_FULL);
    OK(cq_dispose_environment(&second));
    OK(cq_free(&service));
    OK(cq_meet(&env));
    OK(cq_dispose_environment(&env));
    SAME(cq_dispose_environment(&env), CQ_MISUSED);
}

int main(void) {
    make();
    meet();
    steps();
    deeper_than_the_depth();
    parts_of_a_trace();
    room();
    block();
    capabilities();
    suspend_and_pop();
    words();
    cancel();
    events();
    events_are_lost();
    end();
    leave();
    return 0;
}
