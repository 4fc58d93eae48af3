/* codes.c: each function gives each code of its list in cebdyraq.h, and nothing changes then.
 *
 * Not here, since one thread cannot have them: CQ_BUSY, CQ_OWN_SPENT and CQ_CALLS_SPENT (2^59 steps and 2^52 calls), and
 * CQ_ILLEGAL_ARGUMENT of cq_meet (the list of threads is always in order). In gather.c, since they need a trace that is
 * gathered: CQ_BARRED of cq_start, CQ_ALREADY_STOPPED and CQ_STILL_RUNNING. */
#include "codes.h"

outputs out;
static outputs marks;

static void post(world *w) {
    cq_answer answer;
    SAME(cq_get_frame_count(&w->env, 0, &answer), CQ_WAITING);
    w->ticket = answer.ticket;
}

static void hold(world *w) {
    cq_answer answer;
    cq_frame none;
    SAME(cq_suspend_thread(&w->env, 0, &answer), CQ_WAITING);
    SAME(cq_poll(&w->thread), CQ_HELD);
    OK(cq_collect(&w->env, &answer.ticket, &answer, &none, 0));
}

static void pop_one(world *w) {
    cq_answer answer;
    OK(cq_enter(&w->thread, 1));
    OK(cq_enter(&w->thread, 2));
    OK(cq_block(&w->thread, CQ_PARK));
    OK(cq_suspend_thread(&w->env, 0, &answer));
    OK(cq_pop_frame(&w->env, 0, &answer));
    OK(cq_resume_thread(&w->env, 0, &answer));
    OK(cq_back(&w->thread));
}

static void run_to(world *w, stage at) {
    OK(cq_start(&w->thread));
    if (at == IN_METHOD || at == FULL_STACK || at == HELD || at == HELD_IN_NATIVE) OK(cq_enter(&w->thread, 1));
    if (at == FULL_STACK) OK(cq_enter(&w->thread, 2));
    if (at == POPPED) pop_one(w);
    if (at == IN_NATIVE || at == NATIVE || at == HELD_IN_NATIVE) OK(cq_enter_native(&w->thread, 3));
    if (at == NATIVE) OK(cq_native(&w->thread));
    if (at == HELD || at == HELD_IN_NATIVE) hold(w);
    if (at == WAITS || at == FULL_WINDOW) post(w);
    if (at == FULL_WINDOW) post(w);
    if (at >= ENDED) OK(cq_end(&w->thread));
    if (at >= GIVEN_BACK) OK(cq_detach_thread(&w->thread));
    if (at == LET_GO) OK(cq_let_go(&w->env, 0, &out.flag));
}

void build(world *w, stage at, uint32_t envs) {
    memset(w, 0, sizeof *w);
    w->ticket = (cq_ticket){ 0, 0, 1000000 };
    OK(cq_make(2, envs, 2, CQ_CAN_SUSPEND | CQ_CAN_POP_FRAME, &w->service));
    OK(cq_attach_environment(&w->service, &w->env));
    OK(cq_add_capabilities(&w->env, CQ_CAN_SUSPEND | CQ_CAN_POP_FRAME));
    OK(cq_set_environment_local_storage(&w->env, 70));
    OK(cq_attach_thread(&w->service, (const uint8_t *)"main", 4, 5, &w->thread));
    if (at != UNMET) OK(cq_meet(&w->env));
    if (at != UNMET && at != FRESH) run_to(w, at);
}

static void end_thread(world *w, cq_thread *thread) {
    cq_answer answer;
    if (thread->kind == 0) {
        return;
    }
    if (w->env.kind != 0) {
        OK(cq_meet(&w->env));
        MAYBE(cq_resume_thread(&w->env, 0, &answer));
    }
    MAYBE(cq_back(thread));
    MAYBE(cq_end(thread));
    OK(cq_detach_thread(thread));
}

void tear_down(world *w) {
    end_thread(w, &w->thread);
    end_thread(w, &w->no_thread);
    if (w->env.kind != 0) OK(cq_dispose_environment(&w->env));
    if (w->no_env.kind != 0) OK(cq_dispose_environment(&w->no_env));
    if (w->service.kind != 0) OK(cq_free(&w->service));
    if (w->no_service.kind != 0) OK(cq_free(&w->no_service));
}

/* The trace of the thread. When it runs, it polls for it. While other calls wait, nothing is asked. */
static void look_at_frames(world *w, picture *p) {
    cq_answer answer = { .number = 0 };
    p->trace_code = cq_get_stack_trace(&w->env, 0, 0, 2, &answer, p->frames, 2);
    if (p->trace_code == CQ_WAITING) {
        cq_ticket ticket = answer.ticket;
        OK(cq_poll(&w->thread));
        p->trace_code = cq_collect(&w->env, &ticket, &answer, p->frames, 2);
    }
    p->count = (uint32_t)answer.number;
}

static void look_at_env(world *w, picture *p) {
    cq_answer answer = { .number = 0 };
    uint64_t count = 0;
    p->state_code = cq_get_thread_state(&w->env, 0, &answer);
    p->state = answer.number;
    answer.number = 0;
    MAYBE(cq_get_thread_local_storage(&w->env, 0, &answer));
    p->word = answer.number;
    OK(cq_out_at(&w->env, 0, &p->outs));
    OK(cq_get_capabilities(&w->env, &p->capabilities));
    OK(cq_get_environment_local_storage(&w->env, &p->own_word));
    OK(cq_get_all_threads(&w->env, &p->threads, 0, &count));
    p->threads = (uint32_t)count;
    if (p->outs == 0) look_at_frames(w, p);
}

picture look(world *w) {
    picture p = {
        .kinds = { w->service.kind, w->no_service.kind, w->thread.kind, w->no_thread.kind, w->env.kind,
                   w->no_env.kind },
        .places = { w->service.at, w->no_service.at, w->thread.at, w->no_thread.at, w->env.at, w->no_env.at },
        .is_clear = cq_poll_clear(&w->thread),
    };
    look_at_env(w, &p);
    return p;
}

void check_unchanged(const picture *before, const picture *after) {
    for (int i = 0; i < 6; i++) {
        SAME(after->kinds[i], before->kinds[i]);
        CHECK(after->places[i] == before->places[i]);
    }
    SAME(after->is_clear, before->is_clear);
    SAME(after->state_code, before->state_code);
    SAME(after->state, before->state);
    SAME(after->word, before->word);
    SAME(after->own_word, before->own_word);
    SAME(after->capabilities, before->capabilities);
    SAME(after->outs, before->outs);
    SAME(after->threads, before->threads);
    SAME(after->trace_code, before->trace_code);
    SAME(after->count, before->count);
    for (uint32_t i = 0; i < after->count; i++) {
        SAME(after->frames[i].method, before->frames[i].method);
        SAME(after->frames[i].location, before->frames[i].location);
    }
}

void mark_outputs(void) {
    memset(&out, 0xA5, sizeof out);
    out.flag = true;
    memcpy(&marks, &out, sizeof out);
}

void check_outputs_unchanged(void) { SAME(memcmp(&out, &marks, sizeof out), 0); }

/* The one refusal that writes is CQ_WAITING of a post, and that is no refusal. */
static void check_row(const row *r) {
    world w;
    build(&w, r->at, 1);
    picture before = look(&w);
    mark_outputs();
    uint32_t code = r->call(&w);
    if (code != r->code) {
        fprintf(stderr, "%s gives %" PRIu32 ", and not %" PRIu32 ", at stage %d\n", r->name, code, r->code, (int)r->at);
        exit(1);
    }
    check_outputs_unchanged();
    picture after = look(&w);
    check_unchanged(&before, &after);
    tear_down(&w);
    SAME(heap_blocks(), 0);
}

static void check_rows(const row *rows, size_t count) {
    for (size_t i = 0; i < count; i++) {
        check_row(&rows[i]);
    }
}

int main(void) {
    check_rows(SERVICE_ROWS, SERVICE_ROW_COUNT);
    check_rows(THREAD_ROWS, THREAD_ROW_COUNT);
    check_rows(ENV_ROWS, ENV_ROW_COUNT);
    printf("%zu refusals\n", SERVICE_ROW_COUNT + THREAD_ROW_COUNT + ENV_ROW_COUNT);
    printf("%" PRIu32 " refusals for lack of memory\n", refuse_memory());
    printf("%" PRIu32 " calls refused while a trace is gathered\n", refuse_while_gathering());
    return 0;
}
