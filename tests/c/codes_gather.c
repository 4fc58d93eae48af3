/* codes_gather.c: while an environment gathers a trace, each of its other calls is refused, and nothing changes. */
#include "codes.h"

static const uint32_t THREADS[] = { 0, 0 };

/* The last three: it is neither empty nor of another kind. */
#define REFUSED(CALL) \
    ENV_CALLS(CALL) \
    CALL(has_news, cq_has_news(h) ? CQ_OK : CQ_MISUSED) \
    CALL(gather_all_below, cq_gather_all_stack_traces(h, -1)) \
    CALL(gather_list, cq_gather_thread_list_stack_traces(h, THREADS, 2, 2)) \
    CALL(attach_over_it, cq_attach_environment(&w->service, h)) \
    CALL(free_as_service, cq_free((cq_service *)(void *)h)) \
    CALL(poll_as_thread, cq_poll((cq_thread *)(void *)h))

#define DEFINED(name, call) static uint32_t name(world *w) { cq_env *h = &w->env; return call; }
#define NAMED(name, call) { "cq_" #name, name },
REFUSED(DEFINED)

static const struct { const char *name; call_in *call; } CALLS[] = { REFUSED(NAMED) };

static void refuse_all(world *w) {
    cq_env before = w->env;
    bool is_clear = cq_poll_clear(&w->thread);
    for (size_t i = 0; i < COUNT(CALLS); i++) {
        mark_outputs();
        uint32_t code = CALLS[i].call(w);
        if (code != CQ_MISUSED) {
            fprintf(stderr, "%s gives %" PRIu32 " while a trace is gathered\n", CALLS[i].name, code);
            exit(1);
        }
        check_outputs_unchanged();
        SAME(w->env.kind, before.kind);
        CHECK(w->env.at == before.at);
        SAME(cq_poll_clear(&w->thread), is_clear);
    }
}

/* Goes on with a trace, for at most so many steps. All calls are refused before each. A thread that runs is held at its poll.
 * It gives whether the trace is over. */
static bool gather(world *w, uint32_t steps) {
    bool over = false;
    for (; steps > 0 && !over; steps--) {
        refuse_all(w);
        uint32_t code = cq_gather_step(&w->env, &over);
        CHECK(code == CQ_OK || code == CQ_STILL_RUNNING);
        if (code == CQ_STILL_RUNNING) {
            refuse_all(w);
            SAME(cq_poll(&w->thread), CQ_HELD);
        }
    }
    return over;
}

/* The same, and then it is given up. */
static bool give_up_after(world *w, uint32_t steps) {
    bool over = gather(w, steps);
    if (!over) {
        OK(cq_gather_give_up(&w->env));
        refuse_all(w);
        OK(cq_gather_give_up(&w->env));
        CHECK(gather(w, UINT32_MAX));
    }
    return over;
}

/* After a trace, nothing but its result is new. A call that waited took place when the thread was held. */
static void check_after(world *w, const picture *before) {
    MAYBE(cq_back(&w->thread));
    picture after = look(w);
    SAME(cq_gather_step(&w->env, &out.flag), CQ_MISUSED);
    SAME(cq_gather_give_up(&w->env), CQ_MISUSED);
    after.is_clear = before->is_clear;
    check_unchanged(before, &after);
    tear_down(w);
    SAME(heap_blocks(), 0);
}

uint32_t refuse_while_gathering(void) {
    static const stage stages[] = { FRESH, IN_METHOD, WAITS, FULL_WINDOW, ENDED, GIVEN_BACK };
    bool over = false;
    for (size_t i = 0; i < COUNT(stages); i++) {
        world w;
        build(&w, stages[i], 1);
        picture before = look(&w);
        OK(gather_list(&w));
        CHECK(gather(&w, UINT32_MAX));
        OK(cq_gathered(&w.env, &out.word));
        SAME(out.word, 2);
        check_after(&w, &before);
    }
    for (uint32_t steps = 0; !over; steps++) {
        world w;
        build(&w, IN_METHOD, 1);
        picture before = look(&w);
        OK(gather_all_stack_traces(&w));
        over = give_up_after(&w, steps);
        check_after(&w, &before);
    }
    return COUNT(CALLS);
}
