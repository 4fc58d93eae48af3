/* stress_agents.c: the agents of stress.c, and what they expect of each answer.
 *
 * A thread that one agent has suspended is resumed by no other. So until then nothing changes it but that agent. */
#include "stress.h"

typedef struct {
    agent *given;
    dice *dice;
    cq_env env;
    uint64_t calls;
    uint32_t threads[MOST_THREADS];    /* those that it believes to be there, in rising order */
    uint32_t count;
    uint64_t last_word;
} asker;

static cq_signal *const shared = &signal_of_all;

static void check_frame(uint32_t thread, cq_frame frame) {
    uint32_t method = frame.method % METHODS;
    SAME(frame.method / METHODS, thread);
    if (method >= FIRST_NATIVE) {
        SAME(frame.location, -1);
    } else {
        CHECK(frame.location >= 0 && frame.location < LOCATIONS);
    }
}

static void check_state(uint32_t state) {
    static const uint32_t states[] = { 0, 0x2, 0x5, 0x400005, 0x401, 0x191, 0x1A1, 0xE1, 0x291, 0x2A1 };
    uint32_t bare = state & ~(uint32_t)CQ_STATE_SUSPENDED;
    bool is_known = false;
    for (size_t i = 0; i < sizeof states / sizeof states[0]; i++) {
        is_known = is_known || states[i] == bare;
    }
    CHECK(is_known);
    CHECK(bare == state || (bare & CQ_STATE_ALIVE) != 0);
}

/* Lets go of what it believed to be there and is not, and notes who is. */
static void look_around(asker *a) {
    uint32_t now[MOST_THREADS];
    uint64_t count;
    bool gone;
    OK(cq_wait_meet(&a->env, shared));
    OK(cq_wait_get_all_threads(&a->env, shared, now, MOST_THREADS, &count));
    CHECK(count <= WORKERS);
    for (uint32_t i = 0; i < a->count; i++) {
        OK(cq_wait_let_go(&a->env, shared, a->threads[i], &gone));
    }
    a->count = 0;
    for (uint64_t i = 0; i < count; i++) {
        CHECK(i == 0 || now[i - 1] < now[i]);
        a->threads[a->count++] = now[i];
    }
    a->calls += 2;
}

static void ask_state(asker *a, uint32_t thread) {
    uint32_t state;
    uint32_t code = cq_wait_get_thread_state(&a->env, shared, thread, -1, &state);
    if (code == CQ_OK) {
        check_state(state);
    } else {
        CHECK(code == CQ_THREAD_NOT_ALIVE || code == CQ_INVALID_THREAD);
    }
}

/* Codes of a thread that may have gone, or that was never met. */
static bool is_gone(uint32_t code) { return code == CQ_THREAD_NOT_ALIVE || code == CQ_INVALID_THREAD; }

static void ask_count(asker *a, uint32_t thread) {
    uint32_t count;
    uint32_t code = cq_wait_get_frame_count(&a->env, shared, thread, -1, &count);
    CHECK(code == CQ_OK ? count <= DEPTH : is_gone(code));
}

static void ask_location(asker *a, uint32_t thread) {
    cq_frame frame;
    int32_t depth = (int32_t)roll(a->dice, DEPTH);
    uint32_t code = cq_wait_get_frame_location(&a->env, shared, thread, depth, -1, &frame);
    if (code == CQ_OK) {
        check_frame(thread, frame);
    } else {
        CHECK(is_gone(code) || code == CQ_NO_MORE_FRAMES);
    }
}

static uint32_t ask_trace(asker *a, uint32_t thread, cq_frame *frames, uint32_t *count) {
    uint32_t code = cq_wait_get_stack_trace(&a->env, shared, thread, 0, DEPTH, -1, frames, DEPTH, count);
    if (code != CQ_OK) {
        CHECK(is_gone(code));
        return code;
    }
    CHECK(*count <= DEPTH);
    for (uint32_t i = 0; i < *count; i++) {
        check_frame(thread, frames[i]);
    }
    return code;
}

/* The word that this environment has set last at the thread. No other environment has the same word there. */
static void set_and_get(asker *a, uint32_t thread) {
    uint64_t word = 0, wanted = ++a->last_word * AGENTS + a->given->number;
    uint32_t code = cq_wait_set_thread_local_storage(&a->env, shared, thread, wanted, -1);
    if (code == CQ_OK) {
        code = cq_wait_get_thread_local_storage(&a->env, shared, thread, -1, &word);
        CHECK(code == CQ_OK ? word == wanted : is_gone(code));
        a->calls++;
    } else {
        CHECK(is_gone(code));
    }
}

/* While it is suspended: the bit is there, and its frames are the same until this agent pops one. */
static void look_at_suspended(asker *a, uint32_t thread) {
    cq_frame first[DEPTH], second[DEPTH];
    uint32_t state, first_count, second_count;
    OK(cq_wait_get_thread_state(&a->env, shared, thread, -1, &state));
    check_state(state);
    CHECK((state & CQ_STATE_SUSPENDED) != 0);
    OK(ask_trace(a, thread, first, &first_count));
    uint32_t popped = cq_wait_pop_frame(&a->env, shared, thread, -1) == CQ_OK ? 1 : 0;
    OK(ask_trace(a, thread, second, &second_count));
    SAME(second_count + popped, first_count);
    for (uint32_t i = 0; i < second_count; i++) {
        SAME(second[i].method, first[i + popped].method);
        SAME(second[i].location, first[i + popped].location);
    }
    if (popped == 0) {
        CHECK(first_count < 2 || first[0].location == -1 || first[1].location == -1);
    }
    a->calls += 4;
}

static void suspend(asker *a, uint32_t thread) {
    uint32_t state;
    uint32_t code = cq_wait_suspend_thread(&a->env, shared, thread, -1);
    if (code != CQ_OK) {
        CHECK(is_gone(code) || code == CQ_THREAD_SUSPENDED);
        return;
    }
    look_at_suspended(a, thread);
    OK(cq_wait_get_thread_state(&a->env, shared, thread, -1, &state));
    CHECK((state & CQ_STATE_SUSPENDED) != 0);
    SAME(cq_wait_suspend_thread(&a->env, shared, thread, -1), CQ_THREAD_SUSPENDED);
    OK(cq_wait_resume_thread(&a->env, shared, thread, -1));
    a->calls += 3;
}

static void ask_info(asker *a, uint32_t thread) {
    cq_thread_info info;
    uint8_t name[8];
    uint32_t code = cq_wait_get_thread_info(&a->env, shared, thread, &info, name, sizeof name);
    if (code == CQ_OK) {
        SAME(info.name_length, 6);
        SAME(info.priority, 5);
        SAME(memcmp(name, "worker", 6), 0);
    } else {
        SAME(code, CQ_THREAD_NOT_ALIVE);
    }
}

/* A call that is not waited for long. It leaves room in the window for a further call. */
static void be_impatient(asker *a, uint32_t thread) {
    uint32_t count, out;
    bool discarded = true;
    while (discarded) {
        OK(cq_wait_discard(&a->env, shared, thread, &discarded));
    }
    OK(cq_out_at(&a->env, thread, &out));
    CHECK(out < WINDOW);
    if (out == WINDOW - 1) {
        return;
    }
    uint32_t code = cq_wait_get_frame_count(&a->env, shared, thread, roll(a->dice, 3000), &count);
    CHECK(code == CQ_OK || is_gone(code) || code == CQ_TIMED_OUT);
}

static void check_told(asker *a, uint64_t index, cq_stack_info *info) {
    cq_frame frames[DEPTH];
    OK(cq_gathered_stack(&a->env, index, info, frames, DEPTH));
    check_state(info->state);
    CHECK(info->frame_count <= DEPTH);
    for (uint64_t i = 0; i < info->frame_count; i++) {
        check_frame(info->thread, frames[i]);
    }
}

/* All threads at one moment. So no more are alive than there are at once. It is not always waited for long. */
static void ask_all(asker *a) {
    cq_stack_info info;
    uint64_t count = 0, least = 0;
    int64_t time = roll(a->dice, 4) == 0 ? (int64_t)roll(a->dice, 30000) : -1;
    uint32_t code = cq_wait_get_all_stack_traces(&a->env, shared, DEPTH, time, &count);
    CHECK(code == CQ_OK || (time >= 0 && code == CQ_TIMED_OUT));
    CHECK(count <= WORKERS);
    for (uint64_t i = 0; i < count; i++) {
        check_told(a, i, &info);
        CHECK((info.state & CQ_STATE_ALIVE) != 0);
        CHECK(info.thread >= least);
        least = (uint64_t)info.thread + 1;
    }
}

/* Two threads of a list, the first of them twice. It stands, so that no frames come to it in between. One may be popped. */
static void ask_two(asker *a, uint32_t thread) {
    uint32_t other = a->threads[roll(a->dice, a->count)], list[] = { thread, other, thread };
    cq_stack_info told[3];
    uint64_t count = 0;
    uint32_t code = cq_wait_get_thread_list_stack_traces(&a->env, shared, list, 3, DEPTH, -1, &count);
    CHECK(code == CQ_OK ? count == 3 : code == CQ_INVALID_THREAD);
    for (uint64_t i = 0; i < count; i++) {
        check_told(a, i, &told[i]);
        SAME(told[i].thread, list[i]);
    }
    CHECK(count == 0 || told[2].frame_count <= told[0].frame_count);
}

static void ask_events(asker *a) {
    cq_event event;
    uint32_t code = cq_wait_next_event(&a->env, shared, 0, &event);
    if (code == CQ_OK) {
        CHECK(event.kind == CQ_THREAD_START || event.kind == CQ_THREAD_END);
    } else {
        SAME(code, CQ_TIMED_OUT);
    }
}

static void come(asker *a) {
    OK(cq_wait_attach_environment(&a->given->service, shared, &a->env));
    OK(cq_add_capabilities(&a->env, CQ_CAN_SUSPEND | CQ_CAN_POP_FRAME));
    OK(cq_wait_set_event_notification_mode(&a->env, shared, true, CQ_THREAD_START));
    OK(cq_wait_set_event_notification_mode(&a->env, shared, true, CQ_THREAD_END));
    a->count = 0;
    look_around(a);
}

static void come_again(asker *a) {
    OK(cq_wait_dispose_environment(&a->env, shared));
    come(a);
}

static void ask(asker *a, uint32_t thread) {
    cq_frame frames[DEPTH];
    uint32_t count;
    a->calls++;
    switch (roll(a->dice, 32)) {
    case 0: case 1: case 2: case 3: suspend(a, thread); break;
    case 4: case 5: case 6: case 7: set_and_get(a, thread); break;
    case 8: case 9: case 10: case 11: ask_state(a, thread); break;
    case 12: case 13: case 14: case 15: ask_count(a, thread); break;
    case 16: case 17: case 18: case 19: ask_location(a, thread); break;
    case 20: ask_info(a, thread); break;
    case 21: case 22: be_impatient(a, thread); break;
    case 23: ask_events(a); break;
    case 24: roll(a->dice, 2) == 0 ? ask_all(a) : ask_two(a, thread); break;
    default: ask_trace(a, thread, frames, &count); break;
    }
}

void *agent_main(void *given) {
    asker a = { .given = given, .dice = &((agent *)given)->dice };
    come(&a);
    while (a.calls < a.given->calls) {
        if (a.count == 0 || cq_has_news(&a.env)) {
            look_around(&a);
        }
        if (roll(a.dice, 5000) == 0) {
            come_again(&a);
        }
        if (a.count > 0) {
            ask(&a, a.threads[roll(a.dice, a.count)]);
        }
    }
    OK(cq_wait_dispose_environment(&a.env, shared));
    OK(cq_free(&a.given->service));
    return NULL;
}
