/* codes_threads.c: the refusals of the service's and the thread's functions. */
#include "codes.h"

static const uint8_t NAME[] = "name";

/* The service. */

static uint32_t make_over_service(world *w) { return cq_make(1, 1, 1, CQ_CAN_SUSPEND | CQ_CAN_POP_FRAME, &w->service); }
static uint32_t make_over_env(world *w) { return cq_make(1, 1, 1, CQ_CAN_SUSPEND | CQ_CAN_POP_FRAME, (cq_service *)(void *)&w->env); }
static uint32_t make_no_depth(world *w) { return cq_make(0, 1, 1, CQ_CAN_SUSPEND | CQ_CAN_POP_FRAME, &w->no_service); }
static uint32_t make_deep(world *w) { return cq_make(65537, 1, 1, CQ_CAN_SUSPEND | CQ_CAN_POP_FRAME, &w->no_service); }
static uint32_t make_no_envs(world *w) { return cq_make(1, 0, 1, CQ_CAN_SUSPEND | CQ_CAN_POP_FRAME, &w->no_service); }
static uint32_t make_many_envs(world *w) { return cq_make(1, 33, 1, CQ_CAN_SUSPEND | CQ_CAN_POP_FRAME, &w->no_service); }
static uint32_t make_no_window(world *w) { return cq_make(1, 1, 0, CQ_CAN_SUSPEND | CQ_CAN_POP_FRAME, &w->no_service); }
static uint32_t make_wide(world *w) { return cq_make(1, 1, 1025, CQ_CAN_SUSPEND | CQ_CAN_POP_FRAME, &w->no_service); }
/* CQ_MISUSED comes before the others. */
static uint32_t make_deep_over_service(world *w) { return cq_make(65537, 33, 0, CQ_CAN_SUSPEND | CQ_CAN_POP_FRAME, &w->service); }
static uint32_t make_with_tags(world *w) { return cq_make(1, 1, 1, 4, &w->no_service); }
/* CQ_ILLEGAL_ARGUMENT comes before CQ_NOT_AVAILABLE. */
static uint32_t make_deep_with_tags(world *w) { return cq_make(65537, 1, 1, 4, &w->no_service); }
static uint32_t make_with_tags_over_env(world *w) { return cq_make(1, 1, 1, 4, (cq_service *)(void *)&w->env); }

static uint32_t share_over_env(world *w) { return cq_share(&w->service, (cq_service *)(void *)&w->env); }
static uint32_t share_over_thread(world *w) { return cq_share(&w->service, (cq_service *)(void *)&w->thread); }
static uint32_t share_of_empty(world *w) { cq_service empty = { 0, NULL }; return cq_share(&empty, &w->no_service); }
static uint32_t share_of_env(world *w) { return cq_share((cq_service *)(void *)&w->env, &w->no_service); }

MISUSED_SERVICE(free_service, cq_free(h))
MISUSED_SERVICE(attach_thread, cq_attach_thread(h, NAME, 4, 5, &w->no_thread))
ON_SERVICE(attach_environment, cq_attach_environment(h, &w->no_env))

static uint32_t attach_over_thread(world *w) { return cq_attach_thread(&w->service, NAME, 4, 5, &w->thread); }
static uint32_t attach_over_service(world *w) {
    world other;
    build(&other, FRESH, 1);
    uint32_t code = cq_attach_thread(&w->service, NAME, 4, 5, (cq_thread *)(void *)&other.service);
    tear_down(&other);
    return code;
}
static uint32_t attach_bad_name(world *w) {
    return cq_attach_thread(&w->service, (const uint8_t *)"\xC3", 1, 5, &w->no_thread);
}
static uint32_t attach_surrogate(world *w) {
    return cq_attach_thread(&w->service, (const uint8_t *)"\xED\xA0\x80", 3, 5, &w->no_thread);
}
static uint32_t attach_bad_name_over_thread(world *w) {
    return cq_attach_thread(&w->service, (const uint8_t *)"\xFF", 1, 5, &w->thread);
}
static uint32_t attach_over_env(world *w) { return cq_attach_environment(&w->service, &w->env); }

const row SERVICE_ROWS[] = {
    { "cq_make", CQ_MISUSED, RUNS, make_over_service }, { "cq_make", CQ_MISUSED, RUNS, make_over_env },
    { "cq_make", CQ_MISUSED, RUNS, make_deep_over_service },
    { "cq_make", CQ_ILLEGAL_ARGUMENT, RUNS, make_no_depth }, { "cq_make", CQ_ILLEGAL_ARGUMENT, RUNS, make_deep },
    { "cq_make", CQ_ILLEGAL_ARGUMENT, RUNS, make_no_envs }, { "cq_make", CQ_ILLEGAL_ARGUMENT, RUNS, make_many_envs },
    { "cq_make", CQ_ILLEGAL_ARGUMENT, RUNS, make_no_window }, { "cq_make", CQ_ILLEGAL_ARGUMENT, RUNS, make_wide },
    { "cq_make", CQ_MISUSED, RUNS, make_with_tags_over_env },
    { "cq_make", CQ_ILLEGAL_ARGUMENT, RUNS, make_deep_with_tags },
    { "cq_make", CQ_NOT_AVAILABLE, RUNS, make_with_tags },
    { "cq_share", CQ_MISUSED, RUNS, share_over_env }, { "cq_share", CQ_MISUSED, RUNS, share_over_thread },
    { "cq_share", CQ_MISUSED, RUNS, share_of_empty }, { "cq_share", CQ_MISUSED, RUNS, share_of_env },
    { "cq_free", CQ_MISUSED, RUNS, free_service_empty }, { "cq_free", CQ_MISUSED, RUNS, free_service_wrong },
    MISUSES(attach_thread), { "cq_attach_thread", CQ_MISUSED, RUNS, attach_over_thread },
    { "cq_attach_thread", CQ_MISUSED, RUNS, attach_over_service },
    { "cq_attach_thread", CQ_MISUSED, RUNS, attach_bad_name_over_thread },
    { "cq_attach_thread", CQ_ILLEGAL_ARGUMENT, RUNS, attach_bad_name },
    { "cq_attach_thread", CQ_ILLEGAL_ARGUMENT, RUNS, attach_surrogate },
    MISUSES(attach_environment), { "cq_attach_environment", CQ_MISUSED, RUNS, attach_over_env },
    { "cq_attach_environment", CQ_FULL, RUNS, attach_environment },
};
const size_t SERVICE_ROW_COUNT = COUNT(SERVICE_ROWS);

/* The thread. */

static const cq_frame THREE[] = { { 1, 0 }, { 2, 0 }, { 3, 0 } };
static const cq_frame LOW[] = { { 1, 0 }, { 2, -2 } };
static const cq_frame HIGH[] = { { 1, (int64_t)UINT32_MAX + 1 }, { 2, 0 } };
static const cq_frame LOW_AND_MANY[] = { { 1, INT64_MIN }, { 2, 0 }, { 3, 0 } };

ON_THREAD(thread_number, cq_thread_number(h, &out.number))
ON_THREAD(start, cq_start(h))
ON_THREAD(enter, cq_enter(h, 9))
ON_THREAD(enter_native, cq_enter_native(h, 9))
ON_THREAD(at, cq_at(h, 9))
ON_THREAD(leave, cq_leave(h))
ON_THREAD(set_frames, cq_set_frames(h, THREE, 2))
ON_THREAD(set_newest_frames, cq_set_newest_frames(h, THREE, 2, &out.word))
ON_THREAD(frame_count, cq_frame_count(h, &out.word))
MISUSED_THREAD(take_pops, cq_take_pops(h, &out.word))
ON_THREAD(poll_word, cq_poll_word(h, &out.at, &out.word))
ON_THREAD(poll, cq_poll(h))
ON_THREAD(native, cq_native(h))
ON_THREAD(block, cq_block(h, CQ_PARK))
ON_THREAD(back, cq_back(h))
ON_THREAD(end, cq_end(h))
ON_THREAD(detach_thread, cq_detach_thread(h))

static uint32_t set_three(world *w) { return cq_set_frames(&w->thread, THREE, 3); }
static uint32_t set_low(world *w) { return cq_set_frames(&w->thread, LOW, 2); }
static uint32_t set_high(world *w) { return cq_set_frames(&w->thread, HIGH, 2); }
static uint32_t set_low_and_many(world *w) { return cq_set_frames(&w->thread, LOW_AND_MANY, 3); }
static uint32_t set_newest_low(world *w) { return cq_set_newest_frames(&w->thread, LOW, 2, &out.word); }
static uint32_t block_for_nothing(world *w) { return cq_block(&w->thread, CQ_TIMED_PARK + 1); }
static uint32_t block_for_too_much(world *w) { return cq_block(&w->thread, UINT32_MAX); }

/* A poll that is clear is no code. So these give a misuse if it is, and no code if it is not. */
static uint32_t poll_clear_empty(world *w) { return cq_poll_clear(&w->no_thread) ? CQ_MISUSED : CQ_OK; }
static uint32_t poll_clear_wrong(world *w) { return cq_poll_clear((cq_thread *)(void *)&w->env) ? CQ_MISUSED : CQ_OK; }

#define NOT_RUNNING(name, call) \
    { name, CQ_NOT_RUNNING, FRESH, call }, { name, CQ_NOT_RUNNING, NATIVE, call }, \
    { name, CQ_NOT_RUNNING, HELD, call }, { name, CQ_NOT_RUNNING, ENDED, call }

const row THREAD_ROWS[] = {
    MISUSES(thread_number), { "cq_thread_number", CQ_MISUSED, GIVEN_BACK, thread_number },
    MISUSES(start), { "cq_start", CQ_NOT_NEW, RUNS, start }, { "cq_start", CQ_NOT_NEW, NATIVE, start },
    { "cq_start", CQ_NOT_NEW, ENDED, start }, { "cq_start", CQ_MISUSED, GIVEN_BACK, start },
    MISUSES(enter), NOT_RUNNING("cq_enter", enter), { "cq_enter", CQ_OVERFLOW, FULL_STACK, enter },
    MISUSES(enter_native), NOT_RUNNING("cq_enter_native", enter_native),
    { "cq_enter_native", CQ_OVERFLOW, FULL_STACK, enter_native },
    MISUSES(at), NOT_RUNNING("cq_at", at), { "cq_at", CQ_NO_FRAME, RUNS, at },
    { "cq_at", CQ_NOT_JAVA_FRAME, IN_NATIVE, at },
    MISUSES(leave), NOT_RUNNING("cq_leave", leave), { "cq_leave", CQ_NO_FRAME, RUNS, leave },
    MISUSES(set_frames), NOT_RUNNING("cq_set_frames", set_frames),
    { "cq_set_frames", CQ_OVERFLOW, IN_METHOD, set_three },
    { "cq_set_frames", CQ_ILLEGAL_ARGUMENT, IN_METHOD, set_low },
    { "cq_set_frames", CQ_ILLEGAL_ARGUMENT, IN_METHOD, set_high },
    { "cq_set_frames", CQ_ILLEGAL_ARGUMENT, IN_METHOD, set_low_and_many },
    { "cq_set_frames", CQ_NOT_RUNNING, HELD, set_low },
    MISUSES(set_newest_frames), NOT_RUNNING("cq_set_newest_frames", set_newest_frames),
    { "cq_set_newest_frames", CQ_ILLEGAL_ARGUMENT, IN_METHOD, set_newest_low },
    { "cq_set_newest_frames", CQ_POPPED, POPPED, set_newest_frames },
    MISUSES(frame_count), NOT_RUNNING("cq_frame_count", frame_count), MISUSES(take_pops),
    { "cq_set_frames", CQ_POPPED, POPPED, set_frames }, { "cq_set_frames", CQ_POPPED, POPPED, set_three },
    { "cq_set_frames", CQ_ILLEGAL_ARGUMENT, POPPED, set_low },
    MISUSES(poll_clear), MISUSES(poll_word), NOT_RUNNING("cq_poll_word", poll_word),
    { "cq_poll_word", CQ_MISUSED, GIVEN_BACK, poll_word },
    MISUSES(poll), NOT_RUNNING("cq_poll", poll),
    MISUSES(native), NOT_RUNNING("cq_native", native), { "cq_native", CQ_NO_NATIVE_FRAME, RUNS, native },
    { "cq_native", CQ_NO_NATIVE_FRAME, IN_METHOD, native },
    MISUSES(block), NOT_RUNNING("cq_block", block), { "cq_block", CQ_ILLEGAL_ARGUMENT, RUNS, block_for_nothing },
    { "cq_block", CQ_ILLEGAL_ARGUMENT, FRESH, block_for_too_much },
    MISUSES(back), { "cq_back", CQ_NOT_SAFE, FRESH, back }, { "cq_back", CQ_NOT_SAFE, RUNS, back },
    { "cq_back", CQ_NOT_SAFE, ENDED, back }, { "cq_back", CQ_BARRED, HELD, back },
    MISUSES(end), NOT_RUNNING("cq_end", end),
    MISUSES(detach_thread), { "cq_detach_thread", CQ_MISUSED, RUNS, detach_thread },
    { "cq_detach_thread", CQ_MISUSED, NATIVE, detach_thread }, { "cq_detach_thread", CQ_MISUSED, HELD, detach_thread },
    { "cq_detach_thread", CQ_MISUSED, GIVEN_BACK, detach_thread },
};
const size_t THREAD_ROW_COUNT = COUNT(THREAD_ROWS);
