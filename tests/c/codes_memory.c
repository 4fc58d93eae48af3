/* codes_memory.c: memory is refused to each function, after no block, one block, two blocks and so on until it
 * succeeds.
 *
 * A function with CQ_OUT_OF_MEMORY in its list gives it, and nothing changes. Any other succeeds without memory. */
#include "codes.h"

enum { MOST_BLOCKS = 100 };

static const cq_frame TWO[] = { { 1, 5 }, { 2, -1 } };

static uint32_t make(world *w) { return cq_make(4, 2, 2, CQ_CAN_SUSPEND | CQ_CAN_POP_FRAME, &w->no_service); }
static uint32_t share(world *w) { return cq_share(&w->service, &w->no_service); }
static uint32_t attach_thread(world *w) {
    return cq_attach_thread(&w->service, (const uint8_t *)"t", 1, 5, &w->no_thread);
}
static uint32_t attach_environment(world *w) { return cq_attach_environment(&w->service, &w->no_env); }
static uint32_t set_frames(world *w) { return cq_set_frames(&w->thread, TWO, 2); }
static uint32_t set_newest_frames(world *w) { return cq_set_newest_frames(&w->thread, TWO, 2, &out.word); }
static uint32_t detach_thread(world *w) { return cq_detach_thread(&w->thread); }
static uint32_t meet(world *w) { return cq_meet(&w->env); }
static uint32_t get_all_threads(world *w) { return cq_get_all_threads(&w->env, out.threads, 2, &out.word); }
static uint32_t get_thread_info(world *w) { return cq_get_thread_info(&w->env, 0, &out.info, out.name, 8); }
static uint32_t get_thread_state(world *w) { return cq_get_thread_state(&w->env, 0, &out.answer); }
static uint32_t get_frame_count(world *w) { return cq_get_frame_count(&w->env, 0, &out.answer); }
static uint32_t get_frame_location(world *w) { return cq_get_frame_location(&w->env, 0, 0, &out.answer); }
static uint32_t get_stack_trace(world *w) { return cq_get_stack_trace(&w->env, 0, 0, 2, &out.answer, out.frames, 2); }
static uint32_t suspend_thread(world *w) { return cq_suspend_thread(&w->env, 0, &out.answer); }
static uint32_t resume_thread(world *w) { return cq_resume_thread(&w->env, 0, &out.answer); }
static uint32_t pop_frame(world *w) { return cq_pop_frame(&w->env, 0, &out.answer); }
static uint32_t ensure_resumed(world *w) { return cq_ensure_resumed(&w->env, 0); }
static uint32_t get_word(world *w) { return cq_get_thread_local_storage(&w->env, 0, &out.answer); }
static uint32_t set_word(world *w) { return cq_set_thread_local_storage(&w->env, 0, 7, &out.answer); }
static uint32_t cancel(world *w) { return cq_cancel(&w->env, &w->ticket); }

/* A trace that has begun needs no more memory, whatever the thread does. */
static uint32_t gathered(world *w, uint32_t begun) {
    uint32_t code = begun;
    bool over = false;
    if (begun != CQ_OK) return begun;
    while (!over) {
        code = cq_gather_step(&w->env, &over);
        if (code == CQ_STILL_RUNNING) SAME(cq_poll(&w->thread), CQ_HELD);
        CHECK(code == CQ_OK || code == CQ_STILL_RUNNING);
    }
    OK(cq_gathered(&w->env, &out.word));
    CHECK(out.word > 0);
    return cq_gathered_stack(&w->env, out.word - 1, &out.stack, out.frames, 2);
}
static uint32_t gather_all(world *w) { return gathered(w, cq_gather_all_stack_traces(&w->env, 2)); }
static uint32_t gather_list(world *w) {
    static const uint32_t threads[] = { 0, 0, 0 };
    return gathered(w, cq_gather_thread_list_stack_traces(&w->env, threads, 3, INT32_MAX));
}
static uint32_t gather_and_give_up(world *w) {
    bool over = false;
    uint32_t code = cq_gather_all_stack_traces(&w->env, 2);
    if (code != CQ_OK) return code;
    OK(cq_gather_step(&w->env, &over));
    OK(cq_gather_give_up(&w->env));
    while (!over) OK(cq_gather_step(&w->env, &over));
    SAME(cq_gathered(&w->env, &out.word), CQ_NONE);
    return CQ_OK;
}

/* The code here is that of the success. */
static const row WITH_MEMORY[] = {
    { "cq_make", CQ_OK, RUNS, make }, { "cq_share", CQ_OK, RUNS, share },
    { "cq_attach_thread", CQ_OK, RUNS, attach_thread },
    { "cq_attach_environment", CQ_OK, RUNS, attach_environment }, { "cq_set_frames", CQ_OK, IN_METHOD, set_frames },
    { "cq_set_newest_frames", CQ_OK, IN_METHOD, set_newest_frames },
    { "cq_detach_thread", CQ_OK, ENDED, detach_thread }, { "cq_detach_thread", CQ_OK, FRESH, detach_thread },
    { "cq_meet", CQ_OK, UNMET, meet }, { "cq_meet", CQ_OK, RUNS, meet },
    { "cq_get_all_threads", CQ_OK, RUNS, get_all_threads },
    { "cq_get_thread_info", CQ_OK, RUNS, get_thread_info }, { "cq_get_thread_state", CQ_OK, RUNS, get_thread_state },
    { "cq_get_frame_count", CQ_WAITING, RUNS, get_frame_count },
    { "cq_get_frame_count", CQ_OK, NATIVE, get_frame_count },
    { "cq_get_frame_location", CQ_WAITING, RUNS, get_frame_location },
    { "cq_get_frame_location", CQ_OK, NATIVE, get_frame_location },
    { "cq_get_stack_trace", CQ_WAITING, RUNS, get_stack_trace },
    { "cq_get_stack_trace", CQ_OK, NATIVE, get_stack_trace },
    { "cq_suspend_thread", CQ_WAITING, RUNS, suspend_thread }, { "cq_suspend_thread", CQ_OK, NATIVE, suspend_thread },
    { "cq_resume_thread", CQ_OK, HELD, resume_thread }, { "cq_pop_frame", CQ_WAITING, FULL_STACK, pop_frame },
    { "cq_get_thread_local_storage", CQ_OK, RUNS, get_word }, { "cq_set_thread_local_storage", CQ_OK, RUNS, set_word },
    { "cq_cancel", CQ_OK, WAITS, cancel },
    { "cq_gather_all_stack_traces", CQ_OK, FULL_STACK, gather_all },
    { "cq_gather_all_stack_traces", CQ_OK, NATIVE, gather_all },
    { "cq_gather_all_stack_traces", CQ_OK, FULL_WINDOW, gather_all },
    { "cq_gather_all_stack_traces", CQ_OK, RUNS, gather_and_give_up },
    { "cq_gather_thread_list_stack_traces", CQ_OK, FULL_STACK, gather_list },
    { "cq_gather_thread_list_stack_traces", CQ_OK, FRESH, gather_list },
};

/* One try with so many blocks. It gives whether memory was lacking. */
static bool try_with(const row *r, long blocks) {
    world w;
    build(&w, r->at, 2);
    picture before = look(&w);
    mark_outputs();
    heap_refuse_after(blocks);
    uint32_t code = r->call(&w);
    heap_refuse_after(-1);
    if (code == CQ_OUT_OF_MEMORY) {
        check_outputs_unchanged();
        picture after = look(&w);
        check_unchanged(&before, &after);
    } else if (code != r->code) {
        fprintf(stderr, "%s with %ld blocks gives %" PRIu32 "\n", r->name, blocks, code);
        exit(1);
    }
    tear_down(&w);
    return code == CQ_OUT_OF_MEMORY;
}

static uint32_t tries_until_enough(const row *r) {
    uint32_t lacking = 0;
    while (try_with(r, (long)lacking)) {
        lacking++;
        CHECK(lacking < MOST_BLOCKS);
    }
    return lacking;
}

/* Functions that take no memory. */

static uint32_t thread_number(world *w) { return cq_thread_number(&w->thread, &out.number); }
static uint32_t start(world *w) { return cq_start(&w->thread); }
static uint32_t enter(world *w) { return cq_enter(&w->thread, 9); }
static uint32_t enter_native(world *w) { return cq_enter_native(&w->thread, 9); }
static uint32_t at(world *w) { return cq_at(&w->thread, 9); }
static uint32_t leave(world *w) { return cq_leave(&w->thread); }
static uint32_t poll(world *w) { return cq_poll(&w->thread); }
static uint32_t native(world *w) { return cq_native(&w->thread); }
static uint32_t block(world *w) { return cq_block(&w->thread, CQ_SLEEP); }
static uint32_t back(world *w) { return cq_back(&w->thread); }
static uint32_t end(world *w) { return cq_end(&w->thread); }
static uint32_t let_go(world *w) { return cq_let_go(&w->env, 0, &out.flag); }
static uint32_t let_go_of_all(world *w) { return cq_let_go_of_all(&w->env); }
static uint32_t poll_word(world *w) { return cq_poll_word(&w->thread, &out.at, &out.word); }
static uint32_t discard(world *w) { return cq_discard(&w->env, 0, &out.flag); }
static uint32_t collect_cancelled(world *w) { return cq_collect_cancelled(&w->env, 0, &out.answer, out.frames, 2); }
static uint32_t add_capabilities(world *w) { return cq_add_capabilities(&w->env, 3); }
static uint32_t stopper(world *w) { return cq_stopper(&w->env, 0, &out.number); }
static uint32_t environment_number(world *w) { return cq_environment_number(&w->env, &out.number); }
static uint32_t enable(world *w) { return cq_set_event_notification_mode(&w->env, true, CQ_CLASS_PREPARE); }
static uint32_t free_handle(world *w) { return cq_free(&w->service); }
static uint32_t poll_and_collect(world *w) {
    OK(cq_poll(&w->thread));
    return cq_collect(&w->env, &w->ticket, &out.answer, out.frames, 2);
}
static uint32_t end_and_discard(world *w) {
    OK(cq_cancel(&w->env, &w->ticket));
    OK(cq_end(&w->thread));
    uint32_t code = cq_discard(&w->env, 0, &out.flag);
    CHECK(out.flag);
    return code;
}
static uint32_t told_of_a_thread(world *w) {
    OK(cq_set_event_notification_mode(&w->env, true, CQ_THREAD_ATTACHED));
    heap_refuse_after(-1);
    OK(cq_attach_thread(&w->service, (const uint8_t *)"t", 1, 5, &w->no_thread));
    heap_refuse_after(0);
    return cq_next_event(&w->env, &out.event);
}

static const row WITHOUT_MEMORY[] = {
    { "cq_thread_number", CQ_OK, RUNS, thread_number }, { "cq_start", CQ_OK, FRESH, start },
    { "cq_enter", CQ_OK, RUNS, enter }, { "cq_enter_native", CQ_OK, IN_METHOD, enter_native },
    { "cq_at", CQ_OK, IN_METHOD, at }, { "cq_leave", CQ_OK, FULL_STACK, leave }, { "cq_poll", CQ_OK, WAITS, poll },
    { "cq_poll", CQ_OK, FULL_WINDOW, poll }, { "cq_native", CQ_OK, IN_NATIVE, native },
    { "cq_block", CQ_OK, WAITS, block },
    { "cq_back", CQ_OK, NATIVE, back }, { "cq_end", CQ_OK, FULL_WINDOW, end },
    { "cq_poll_word", CQ_OK, WAITS, poll_word },
    { "cq_let_go", CQ_OK, GIVEN_BACK, let_go }, { "cq_let_go_of_all", CQ_OK, GIVEN_BACK, let_go_of_all },
    { "cq_ensure_resumed", CQ_OK, HELD, ensure_resumed },
    { "cq_discard", CQ_OK, WAITS, discard }, { "cq_collect_cancelled", CQ_NONE, WAITS, collect_cancelled },
    { "cq_add_capabilities", CQ_OK, RUNS, add_capabilities },
    { "cq_stopper", CQ_NONE, RUNS, stopper }, { "cq_environment_number", CQ_OK, RUNS, environment_number },
    { "cq_set_event_notification_mode", CQ_OK, RUNS, enable }, { "cq_free", CQ_OK, RUNS, free_handle },
    { "cq_collect", CQ_OK, WAITS, poll_and_collect }, { "cq_next_event", CQ_OK, RUNS, told_of_a_thread },
};

static void check_without(const row *r) {
    world w;
    build(&w, r->at, 2);
    mark_outputs();
    heap_refuse_after(0);
    uint32_t code = r->call(&w);
    heap_refuse_after(-1);
    if (code != r->code) {
        fprintf(stderr, "%s without memory gives %" PRIu32 "\n", r->name, code);
        exit(1);
    }
    tear_down(&w);
}

/* The answer to a call that was cancelled. */
static void collect_cancelled_without(void) {
    world w;
    build(&w, WAITS, 2);
    OK(cq_cancel(&w.env, &w.ticket));
    heap_refuse_after(0);
    OK(cq_poll(&w.thread));
    OK(collect_cancelled(&w));
    heap_refuse_after(-1);
    SAME(out.answer.ticket.no, w.ticket.no);
    tear_down(&w);
}

/* A disposal of an environment that only reads, which lacks memory. A further one is the end of it. */
static uint32_t dispose_without(void) {
    uint32_t lacking = 0;
    for (long blocks = 0;; blocks++) {
        world w;
        build(&w, RUNS, 2);
        OK(cq_attach_environment(&w.service, &w.no_env));
        OK(cq_meet(&w.no_env));
        for (int i = 0; i < 2; i++) SAME(cq_get_frame_count(&w.no_env, 0, &out.answer), CQ_WAITING);
        heap_refuse_after(blocks);
        uint32_t code = cq_dispose_environment(&w.no_env);
        heap_refuse_after(-1);
        if (code == CQ_OK) {
            tear_down(&w);
            return lacking;
        }
        SAME(code, CQ_OUT_OF_MEMORY);
        OK(cq_dispose_environment(&w.no_env));
        SAME(cq_dispose_environment(&w.no_env), CQ_MISUSED);
        tear_down(&w);
        lacking++;
    }
}

/* A trace that lacks memory leaves the one before it. */
static uint32_t gather_again_without(void) {
    uint32_t lacking = 0;
    for (long blocks = 0;; blocks++) {
        world w;
        build(&w, NATIVE, 2);
        OK(gather_all(&w));
        heap_refuse_after(blocks);
        uint32_t code = gather_list(&w);
        heap_refuse_after(-1);
        OK(cq_gathered(&w.env, &out.word));
        SAME(out.word, code == CQ_OK ? 3 : 1);
        OK(cq_gathered_stack(&w.env, 0, &out.stack, out.frames, 2));
        SAME(out.stack.frame_count, 1);
        SAME(out.frames[0].method, 3);
        tear_down(&w);
        if (code == CQ_OK) return lacking;
        SAME(code, CQ_OUT_OF_MEMORY);
        lacking++;
    }
}

uint32_t refuse_memory(void) {
    uint32_t lacking = 0;
    for (size_t i = 0; i < COUNT(WITH_MEMORY); i++) {
        uint32_t tries = tries_until_enough(&WITH_MEMORY[i]);
        printf("%s lacks memory %" PRIu32 " times\n", WITH_MEMORY[i].name, tries);
        lacking += tries;
    }
    for (size_t i = 0; i < COUNT(WITHOUT_MEMORY); i++) {
        check_without(&WITHOUT_MEMORY[i]);
    }
    world w;
    build(&w, WAITS, 2);
    OK(end_and_discard(&w));
    tear_down(&w);
    collect_cancelled_without();
    return lacking + dispose_without() + gather_again_without();
}
