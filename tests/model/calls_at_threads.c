/* calls_at_threads.c: agents that ask threads, suspend and resume them, and calls that are cancelled. */
#include "calls.h"
#include "scenarios.h"

/* Two agents, each of which asks both threads. */
static void ask(cq_env *env) {
    uint32_t count;
    cq_frame frames[4];
    OK_OR(CQ_THREAD_NOT_ALIVE, cq_wait_get_frame_count(env, &the_signal, 0, FOREVER_NS, &count));
    OK_OR(CQ_THREAD_NOT_ALIVE, cq_wait_get_stack_trace(env, &the_signal, 1, 0, 4, FOREVER_NS, frames, 4, &count));
}

static void ask_a(void) { ask(&a); }
static void ask_b(void) { ask(&b); }

/* Two agents that suspend and resume one thread. */
static void suspend_and_resume(cq_env *env) {
    uint32_t code = cq_wait_suspend_thread(env, &the_signal, 0, FOREVER_NS);
    may_give("suspend", code, CQ_THREAD_NOT_ALIVE, CQ_THREAD_SUSPENDED);
    if (code == CQ_OK) {
        OK_OR_EITHER(CQ_THREAD_NOT_SUSPENDED, CQ_THREAD_NOT_ALIVE, cq_wait_resume_thread(env, &the_signal, 0, FOREVER_NS));
    }
}

static void suspend_and_resume_a(void) { suspend_and_resume(&a); }
static void suspend_and_resume_b(void) { suspend_and_resume(&b); }

/* What else an agent asks of a thread, one call of each kind. */
static void read_a(void) {
    uint32_t state;
    uint64_t word;
    cq_frame frame;
    cq_thread_info info;
    uint8_t name[1];
    OK(cq_wait_get_thread_state(&a, &the_signal, 0, FOREVER_NS, &state));
    OK_OR(CQ_THREAD_NOT_ALIVE, cq_wait_get_frame_location(&a, &the_signal, 0, 0, FOREVER_NS, &frame));
    OK_OR(CQ_THREAD_NOT_ALIVE, cq_wait_set_thread_local_storage(&a, &the_signal, 0, 7, FOREVER_NS));
    OK_OR(CQ_THREAD_NOT_ALIVE, cq_wait_get_thread_local_storage(&a, &the_signal, 0, FOREVER_NS, &word));
    OK(cq_wait_get_thread_info(&a, &the_signal, 0, &info, name, 1));
}

static void pop_a(void) {
    uint32_t code = cq_wait_suspend_thread(&a, &the_signal, 0, FOREVER_NS);
    may_give("suspend", code, CQ_THREAD_NOT_ALIVE, CQ_THREAD_NOT_ALIVE);
    if (code != CQ_OK) return;
    OK_OR(CQ_OPAQUE_FRAME, cq_wait_pop_frame(&a, &the_signal, 0, FOREVER_NS));
    OK(cq_wait_resume_thread(&a, &the_signal, 0, FOREVER_NS));
}

static void make_two_frames(void) {
    make(2, 1, 1);
    OK(cq_start(&t0));
    OK(cq_enter(&t0, 1));
    OK(cq_enter(&t0, 2));
}

/* Suspensions whose time is over are taken back. */
static void suspend_in_vain_a(void) {
    uint32_t code = cq_wait_suspend_thread(&a, &the_signal, 0, 0);
    if (code != CQ_THREAD_SUSPENDED) may_give("suspend", code, CQ_TIMED_OUT, CQ_THREAD_NOT_ALIVE);
}

static void take_back(cq_env *env) {
    OK_OR(CQ_THREAD_NOT_ALIVE, cq_wait_ensure_resumed(env, &the_signal, 0, FOREVER_NS));
}

static void take_back_a(void) { take_back(&a); }

static void suspend_twice_and_take_back_a(void) {
    suspend_in_vain_a();
    suspend_in_vain_a();
    take_back(&a);
}

static void make_cancelled(void) {
    make(2, 1, 2);
    let_run(&t0);
    for (int i = 0; i < 2; i++) {
        cq_answer answer;
        if (cq_suspend_thread(&a, 0, &answer) != CQ_WAITING) fail("the suspension is not out");
        OK(cq_cancel(&a, &answer.ticket));
    }
}

/* The same with a time, which may end beside the two that were cancelled. */
static void take_back_in_time_a(void) {
    int64_t began = time_ns;
    uint32_t code = cq_wait_ensure_resumed(&a, &the_signal, 0, 150000);
    if (was_over("cq_wait_ensure_resumed", code, began, 150000, CQ_THREAD_NOT_ALIVE)) take_back(&a);
}

static void suspend_in_time_a(void) {
    int64_t began = time_ns;
    uint32_t code = cq_wait_suspend_thread(&a, &the_signal, 0, 200000);
    if (code != CQ_THREAD_SUSPENDED) was_over("suspend", code, began, 200000, CQ_THREAD_NOT_ALIVE);
    if (code != CQ_THREAD_NOT_ALIVE) take_back(&a);
}

static void block_and_return_in_time_0(void) {
    OK(cq_wait_block(&t0, &the_signal, CQ_PARK));
    int64_t began = time_ns;
    uint32_t code = cq_wait_back(&t0, &the_signal, 300000);
    if (was_over("cq_wait_back", code, began, 300000, CQ_OK)) OK(cq_wait_back(&t0, &the_signal, FOREVER_NS));
    OK(cq_wait_end(&t0, &the_signal));
}

/* What came of calls that were cancelled. */
static void learn_a(void) {
    cq_answer answer;
    cq_frame frame;
    for (int i = 0; i < 2; i++) {
        OK_OR_EITHER(CQ_THREAD_NOT_ALIVE, CQ_THREAD_SUSPENDED,
                     cq_wait_collect_cancelled(&a, &the_signal, 0, FOREVER_NS, &answer, &frame, 0));
    }
    take_back(&a);
}

static void learn_in_time_a(void) {
    cq_answer answer;
    cq_frame frame;
    for (int i = 0; i < 2; i++) {
        int64_t began = time_ns;
        uint32_t code = cq_wait_collect_cancelled(&a, &the_signal, 0, 90000, &answer, &frame, 0);
        if (code != CQ_THREAD_SUSPENDED) was_over("cq_wait_collect_cancelled", code, began, 90000, CQ_THREAD_NOT_ALIVE);
    }
    take_back(&a);
}

/* A call that was posted is collected, and one is cancelled and discarded. */
static void post_and_collect_a(void) {
    cq_answer answer;
    cq_frame frame;
    bool discarded;
    if (cq_get_frame_count(&a, 0, &answer) == CQ_WAITING) {
        cq_ticket ticket = answer.ticket;
        OK_OR(CQ_THREAD_NOT_ALIVE, cq_wait_collect(&a, &the_signal, &ticket, FOREVER_NS, &answer, &frame, 0));
    }
    if (cq_get_frame_count(&a, 0, &answer) == CQ_WAITING) {
        OK(cq_wait_cancel(&a, &the_signal, &answer.ticket));
        OK(cq_wait_discard(&a, &the_signal, 0, &discarded));
    }
}

static void collect_in_time_a(void) {
    cq_answer answer;
    cq_frame frame;
    if (cq_get_frame_count(&a, 0, &answer) != CQ_WAITING) return;
    cq_ticket ticket = answer.ticket;
    int64_t began = time_ns;
    uint32_t code = cq_wait_collect(&a, &the_signal, &ticket, 80000, &answer, &frame, 0);
    if (was_over("cq_wait_collect", code, began, 80000, CQ_THREAD_NOT_ALIVE)) {
        OK_OR(CQ_THREAD_NOT_ALIVE, cq_wait_collect(&a, &the_signal, &ticket, FOREVER_NS, &answer, &frame, 0));
    }
}

/* A window that is full with a call that was cancelled. The thread hands over once, and does nothing further. */
static void count_a(void) {
    uint32_t count;
    OK_OR(CQ_THREAD_NOT_ALIVE, cq_wait_get_frame_count(&a, &the_signal, 0, FOREVER_NS, &count));
}

static void count_in_time_a(void) {
    uint32_t count, code;
    int64_t began = time_ns;
    code = cq_wait_get_frame_count(&a, &the_signal, 0, 120000, &count);
    was_over("cq_wait_get_frame_count", code, began, 120000, CQ_THREAD_NOT_ALIVE);
}

/* The same beside two suspensions that were cancelled. */
static void count_and_take_back_in_time_a(void) {
    count_in_time_a();
    take_back_in_time_a();
}

static void go_native_0(void) {
    OK(cq_enter_native(&t0, 2));
    OK(cq_wait_native(&t0, &the_signal));
}

static void make_full(void) {
    cq_answer answer;
    make(1, 1, 1);
    let_run(&t0);
    if (cq_get_frame_count(&a, 0, &answer) != CQ_WAITING) fail("the call is not out");
    OK(cq_cancel(&a, &answer.ticket));
}

/* Lists, with windows of one call. */
static void suspend_and_resume_list_a(void) {
    static const uint32_t list[3] = { 0, 1, 0 };
    uint32_t codes[3];
    OK(cq_wait_suspend_thread_list(&a, &the_signal, list, 3, FOREVER_NS, codes));
    OK(cq_wait_resume_thread_list(&a, &the_signal, list, 2, FOREVER_NS, codes));
}

/* The same with a time. What was posted, and what was cancelled before, may take place all the same. */
static void suspend_list_in_time(const uint32_t *list, size_t count) {
    uint32_t codes[3];
    int64_t began = time_ns;
    OK(cq_wait_suspend_thread_list(&a, &the_signal, list, count, 110000, codes));
    for (size_t i = 0; i < count; i++) {
        if (codes[i] != CQ_THREAD_SUSPENDED) was_over("cq_wait_suspend_thread_list", codes[i], began, 110000, CQ_THREAD_NOT_ALIVE);
    }
    for (size_t i = 0; i < count; i++) OK_OR(CQ_THREAD_NOT_ALIVE, cq_wait_ensure_resumed(&a, &the_signal, list[i], FOREVER_NS));
}

static void suspend_list_in_time_a(void) { suspend_list_in_time((const uint32_t[]){ 0, 1, 0 }, 3); }
static void suspend_thread_in_time_a(void) { suspend_list_in_time((const uint32_t[]){ 0 }, 1); }

static void make_narrow(void) {
    make(1, 2, 1);
    let_run(&t0);
    let_run(&t1);
}

/* An environment with a call that is out is disposed of. Another one resumes what it has suspended. */
static void post_and_dispose_a(void) {
    cq_answer answer;
    (void)!cq_suspend_thread(&a, 0, &answer);
    OK(cq_wait_dispose_environment(&a, &the_signal));
    take_back(&b);
}

/* The same, with a time. It stays once the time is over. */
static void post_and_dispose_in_time_a(void) {
    cq_answer answer;
    (void)!cq_suspend_thread(&a, 0, &answer);
    int64_t began = time_ns;
    uint32_t code = cq_wait_dispose_environment_within(&a, &the_signal, 400000);
    may_give("cq_wait_dispose_environment_within", code, CQ_TIMED_OUT, CQ_TIMED_OUT);
    if (code == CQ_TIMED_OUT) {
        check_time(began, 400000);
        take_back(&a);
        OK(cq_wait_dispose_environment(&a, &the_signal));
    } else {
        take_back(&b);
    }
}

static const scenario all[] = {
    { "asks", make_two, { ask_a, ask_b, poll_go_native_and_end_0, poll_and_end_1 }, { "agent a", "agent b", "thread 0", "thread 1" } },
    { "suspends", make_one, { suspend_and_resume_a, suspend_and_resume_b, poll_go_native_and_end_0 }, { "agent a", "agent b", "thread 0" } },
    { "reads", make_one, { read_a, suspend_and_resume_b, poll_and_end_0 }, { "agent a", "agent b", "thread 0" } },
    { "pops", make_two_frames, { pop_a, poll_go_native_and_end_0 }, { "agent a", "thread 0" } },
    { "taken_back", make_one, { suspend_twice_and_take_back_a, suspend_and_resume_b, poll_go_native_and_end_0 },
      { "agent a", "agent b", "thread 0" } },
    { "cancelled", make_cancelled, { take_back_a, poll_go_native_and_end_0 }, { "agent a", "thread 0" } },
    { "cancelled_in_time", make_cancelled, { take_back_in_time_a, suspend_and_resume_b, block_and_return_in_time_0 },
      { "agent a", "agent b", "thread 0" } },
    { "counts_in_time", make_cancelled, { count_and_take_back_in_time_a, block_and_return_in_time_0 }, { "agent a", "thread 0" } },
    { "suspends_in_time", make_cancelled, { suspend_thread_in_time_a, suspend_and_resume_b, block_and_return_in_time_0 },
      { "agent a", "agent b", "thread 0" } },
    { "learns_in_time", make_cancelled, { learn_in_time_a, suspend_and_resume_b, poll_and_end_0 },
      { "agent a", "agent b", "thread 0" } },
    { "learns", make_cancelled, { learn_a, poll_and_end_0 }, { "agent a", "thread 0" } },
    { "collects", make_one, { post_and_collect_a, poll_go_native_and_end_0 }, { "agent a", "thread 0" } },
    { "collects_in_time", make_one, { collect_in_time_a, suspend_and_resume_b, poll_go_native_and_end_0 },
      { "agent a", "agent b", "thread 0" } },
    { "full", make_full, { count_a, go_native_0 }, { "agent a", "thread 0" } },
    { "full_in_time", make_full, { count_in_time_a, go_native_0 }, { "agent a", "thread 0" } },
    { "lists", make_narrow, { suspend_and_resume_list_a, poll_go_native_and_end_0, poll_go_native_and_end_1 },
      { "agent a", "thread 0", "thread 1" } },
    { "lists_in_time", make_narrow, { suspend_list_in_time_a, poll_and_end_0, poll_and_end_1 }, { "agent a", "thread 0", "thread 1" } },
    { "times", make_one, { suspend_in_time_a, suspend_and_resume_b, block_and_return_in_time_0 }, { "agent a", "agent b", "thread 0" } },
    { "disposes", make_one, { post_and_dispose_a, poll_go_native_and_end_0 }, { "agents", "thread 0" } },
    { "disposes_in_time", make_one, { post_and_dispose_in_time_a, poll_go_native_and_end_0 }, { "agents", "thread 0" } },
};
const chapter calls_at_threads = { all, sizeof all / sizeof *all, false };
