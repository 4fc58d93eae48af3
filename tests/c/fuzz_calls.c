/* fuzz_calls.c: the calls of fuzz.c. Each is made at the library and at the model, with the same arguments. */
#include "fuzz.h"

/* Makes a call at both, and compares the codes. It gives the code. */
#define BOTH(name, real, model) both("cq_" #name, cq_##name real, model_##name model)

static uint32_t both(const char *name, uint32_t real, uint32_t model) {
    agree(name, real, model);
    return real;
}

/* What a call at a thread writes. It starts with marks, so that what is not written shows. */
typedef struct {
    cq_answer answer;
    cq_frame frames[FRAMES];
} written;

static written real_written, model_written;

static void mark(void) {
    static const written marks = {
        { 0xA5A5A5A5A5A5A5A5, { 0xA5A5A5A5, -0x5A5A5A5A }, { 0xA5A5A5A5, 0xA5A5A5A5, 0xA5A5A5A5A5A5A5A5 } },
        { { 0xF0F0, 1 }, { 0xF0F0, 2 }, { 0xF0F0, 3 }, { 0xF0F0, 4 }, { 0xF0F0, 5 }, { 0xF0F0, 6 } },
    };
    real_written = marks;
    model_written = marks;
}

static void agree_on_frame(cq_frame real, cq_frame model) {
    agree("a frame's method", real.method, model.method);
    agree("a frame's location", (uint64_t)real.location, (uint64_t)model.location);
}

/* The tickets of calls that waited. The model's calls have the library's tickets. */
static cq_ticket tickets[TICKETS];
static uint32_t ticket_count;

void forget_tickets(void) {
    memset(tickets, 0, sizeof tickets);
    ticket_count = 0;
}

static void note_ticket(slot *agent) {
    cq_ticket name = real_written.answer.ticket;
    tickets[ticket_count++ % TICKETS] = name;
    agree("a ticket's thread", name.thread, model_written.answer.ticket.thread);
    agree("that a ticket is new", model_rename(&agent->model.env, &name), true);
}

static void agree_on_written(uint32_t code) {
    agree("an answer's number", real_written.answer.number, model_written.answer.number);
    agree_on_frame(real_written.answer.frame, model_written.answer.frame);
    for (uint32_t i = 0; i < FRAMES; i++) {
        agree_on_frame(real_written.frames[i], model_written.frames[i]);
    }
    if (code != CQ_WAITING) {
        agree("a ticket's environment", real_written.answer.ticket.env, model_written.answer.ticket.env);
        agree("a ticket's thread", real_written.answer.ticket.thread, model_written.answer.ticket.thread);
        agree("a ticket's number", real_written.answer.ticket.no, model_written.answer.ticket.no);
    }
}

/* A call at a thread. */
#define ASK(name, agent, ...) do { \
        mark(); \
        uint32_t code_ = BOTH(name, (&(agent)->real.env, __VA_ARGS__, &real_written.answer), \
                              (&(agent)->model.env, __VA_ARGS__, &model_written.answer)); \
        agree_on_written(code_); \
        if (code_ == CQ_WAITING) note_ticket(agent); \
    } while (0)

/* The service. */

static void make(void) {
    slot *s = pick_empty();
    bool at_the_edge = below(8) == 0;
    uint32_t depth = at_the_edge ? (uint32_t)pick_small() : 1 + below(5);
    uint32_t envs = at_the_edge ? pick_number() : 1 + below(3);
    uint32_t window = at_the_edge ? pick_number() : 1 + below(3);
    uint32_t can = at_the_edge ? pick_number() : below(4);
    BOTH(make, (depth, envs, window, can, &s->real.service), (depth, envs, window, can, &s->model.service));
}

static void share(void) {
    slot *s = pick_service(), *other = pick_empty();
    if (s == other) return;
    BOTH(share, (&s->real.service, &other->real.service), (&s->model.service, &other->model.service));
}

static void free_handle(void) {
    slot *s = pick_service();
    BOTH(free, (&s->real.service), (&s->model.service));
}

static void attach_thread(void) {
    static const char *const names[] = {
        "", "main", "f\xC3\xA4nf", "\xF0\x9F\x98\x80", "\xE2\x82\xAC 5", "\xED\x9F\xBF", "\xF4\x8F\xBF\xBF",
        "\xFF", "a\x80", "\xC3", "\xC0\x80", "\xE0\x80\x80", "\xED\xA0\x80", "\xF4\x90\x80\x80",
        "\xF0\x80\x80\x80", "\xE2\x82",
    };
    slot *s = pick_service(), *thread = pick_empty();
    const char *name = names[below(below(4) == 0 ? 16 : 7)];
    int32_t priority = pick_small();
    if (s == thread) return;
    BOTH(attach_thread, (&s->real.service, (const uint8_t *)name, strlen(name), priority, &thread->real.thread),
         (&s->model.service, (const uint8_t *)name, strlen(name), priority, &thread->model.thread));
}

static void attach_environment(void) {
    slot *s = pick_service(), *agent = pick_empty();
    if (s == agent) return;
    BOTH(attach_environment, (&s->real.service, &agent->real.env), (&s->model.service, &agent->model.env));
}

/* A thread. */

static void thread_number(void) {
    slot *s = pick_thread();
    uint32_t real = 77, model = 77;
    BOTH(thread_number, (&s->real.thread, &real), (&s->model.thread, &model));
    agree("a thread's number", real, model);
}

#define COUNT_AT_THREAD(name) \
    static void name(void) { \
        slot *s = pick_thread(); \
        uint64_t real = 77, model = 77; \
        BOTH(name, (&s->real.thread, &real), (&s->model.thread, &model)); \
        agree("what cq_" #name " writes", real, model); \
    }

#define AT_THREAD(name) \
    static void name(void) { \
        slot *s = pick_thread(); \
        BOTH(name, (&s->real.thread), (&s->model.thread)); \
    }

#define AT_THREAD_WITH_NUMBER(name) \
    static void name(void) { \
        slot *s = pick_thread(); \
        uint32_t number = below(3) == 0 ? pick_number() : below(7); \
        BOTH(name, (&s->real.thread, number), (&s->model.thread, number)); \
    }

COUNT_AT_THREAD(frame_count)
COUNT_AT_THREAD(take_pops)
AT_THREAD(start)
AT_THREAD(leave)
AT_THREAD(poll)
AT_THREAD(native)
AT_THREAD(back)
AT_THREAD(end)
AT_THREAD(detach_thread)
AT_THREAD_WITH_NUMBER(enter)
AT_THREAD_WITH_NUMBER(enter_native)
AT_THREAD_WITH_NUMBER(at)
AT_THREAD_WITH_NUMBER(block)

static void poll_clear(void) {
    slot *s = pick_thread();
    bool is_clear = model_poll_clear(&s->model.thread);
    agree("cq_poll_clear", cq_poll_clear(&s->real.thread), is_clear);
    const uint64_t *word;
    uint64_t mask;
    if (cq_poll_word(&s->real.thread, &word, &mask) != CQ_OK) return;
    agree("the word of cq_poll_word", (__atomic_load_n(word, __ATOMIC_RELAXED) & mask) == 0, is_clear);
}

/* Makes some frames, and gives their number. Some are none. */
static uint32_t random_frames(cq_frame *frames) {
    static const int64_t edges[] = { -2, INT64_MIN, (int64_t)UINT32_MAX + 1, INT64_MAX, UINT32_MAX };
    uint32_t count = below(FRAMES + 1);
    for (uint32_t i = 0; i < count; i++) {
        int64_t location = below(24) == 0 ? edges[below(5)] : (int64_t)below(5) - 1;
        frames[i] = (cq_frame){ below(4), location };
    }
    return count;
}

static void set_frames(void) {
    slot *s = pick_thread();
    cq_frame frames[FRAMES];
    uint32_t count = random_frames(frames);
    BOTH(set_frames, (&s->real.thread, frames, count), (&s->model.thread, frames, count));
}

static void set_newest_frames(void) {
    slot *s = pick_thread();
    cq_frame frames[FRAMES];
    uint32_t count = random_frames(frames);
    uint64_t real = 77, model = 77;
    BOTH(set_newest_frames, (&s->real.thread, frames, count, &real), (&s->model.thread, frames, count, &model));
    agree("kept", real, model);
}

/* An environment. */

static void has_news(void) {
    slot *s = pick_agent();
    bool must_be, may_be, real = cq_has_news(&s->real.env);
    model_has_news(&s->model.env, &must_be, &may_be);
    agree("cq_has_news", real, real ? may_be : must_be);
}

static void meet(void) {
    slot *s = pick_agent();
    BOTH(meet, (&s->real.env), (&s->model.env));
}

static void let_go(void) {
    slot *s = pick_agent();
    uint32_t thread = pick_number();
    bool real = true, model = true;
    BOTH(let_go, (&s->real.env, thread, &real), (&s->model.env, thread, &model));
    agree("whether it is gone", real, model);
}

static void let_go_of_all(void) {
    slot *s = pick_agent();
    BOTH(let_go_of_all, (&s->real.env), (&s->model.env));
}

static void get_all_threads(void) {
    slot *s = pick_agent();
    uint32_t room = below(5), real[4] = { 9, 9, 9, 9 }, model[4] = { 9, 9, 9, 9 };
    uint64_t real_count = 99, model_count = 99;
    BOTH(get_all_threads, (&s->real.env, real, room, &real_count), (&s->model.env, model, room, &model_count));
    agree("how many threads there are", real_count, model_count);
    for (uint32_t i = 0; i < 4; i++) {
        agree("a thread that is there", real[i], model[i]);
    }
}

static void get_thread_info(void) {
    slot *s = pick_agent();
    uint32_t thread = pick_number(), room = below(8);
    cq_thread_info real = { 99, 99 }, model = { 99, 99 };
    uint8_t real_name[8] = "???????", model_name[8] = "???????";
    BOTH(get_thread_info, (&s->real.env, thread, &real, real_name, room),
         (&s->model.env, thread, &model, model_name, room));
    agree("a name's length", real.name_length, model.name_length);
    agree("a priority", (uint64_t)real.priority, (uint64_t)model.priority);
    agree("how a name differs", (uint64_t)memcmp(real_name, model_name, sizeof real_name), 0);
}

#define ASKING(name) \
    static void name(void) { \
        slot *s = pick_agent(); \
        uint32_t thread = pick_number(); \
        ASK(name, s, thread); \
    }

ASKING(get_thread_state)
ASKING(get_frame_count)
ASKING(suspend_thread)
ASKING(resume_thread)
ASKING(pop_frame)
ASKING(get_thread_local_storage)

static void get_frame_location(void) {
    slot *s = pick_agent();
    uint32_t thread = pick_number();
    int32_t depth = pick_small();
    ASK(get_frame_location, s, thread, depth);
}

static void set_thread_local_storage(void) {
    slot *s = pick_agent();
    uint32_t thread = pick_number();
    uint64_t word = (uint64_t)pick_small();
    ASK(set_thread_local_storage, s, thread, word);
}

static void get_stack_trace(void) {
    slot *s = pick_agent();
    uint32_t thread = pick_number(), room = below(FRAMES + 1);
    int32_t start = below(2) == 0 ? 0 : pick_small(), max_count = pick_small();
    mark();
    uint32_t code = BOTH(get_stack_trace,
        (&s->real.env, thread, start, max_count, &real_written.answer, real_written.frames, room),
        (&s->model.env, thread, start, max_count, &model_written.answer, model_written.frames, room));
    agree_on_written(code);
    if (code == CQ_WAITING) note_ticket(s);
}

static void collect(void) {
    slot *s = pick_agent();
    uint32_t room = below(FRAMES + 1), i = below(TICKETS);
    mark();
    BOTH(collect, (&s->real.env, &tickets[i], &real_written.answer, real_written.frames, room),
         (&s->model.env, &tickets[i], &model_written.answer, model_written.frames, room));
    agree_on_written(CQ_OK);
}

static void cancel(void) {
    slot *s = pick_agent();
    uint32_t i = below(TICKETS);
    BOTH(cancel, (&s->real.env, &tickets[i]), (&s->model.env, &tickets[i]));
}

static void discard(void) {
    slot *s = pick_agent();
    uint32_t thread = pick_number();
    bool real = true, model = true;
    BOTH(discard, (&s->real.env, thread, &real), (&s->model.env, thread, &model));
    agree("whether an answer was discarded", real, model);
}

static void collect_cancelled(void) {
    slot *s = pick_agent();
    uint32_t thread = pick_number(), room = below(FRAMES + 1);
    mark();
    BOTH(collect_cancelled, (&s->real.env, thread, &real_written.answer, real_written.frames, room),
         (&s->model.env, thread, &model_written.answer, model_written.frames, room));
    agree_on_written(CQ_OK);
}

static void out_at(void) {
    slot *s = pick_agent();
    uint32_t thread = pick_number(), real = 99, model = 99;
    BOTH(out_at, (&s->real.env, thread, &real), (&s->model.env, thread, &model));
    agree("how many calls are out", real, model);
}

/* Traces of several threads. */

static void gather_all_stack_traces(void) {
    slot *s = pick_agent();
    int32_t max_count = pick_small();
    BOTH(gather_all_stack_traces, (&s->real.env, max_count), (&s->model.env, max_count));
}

static void gather_thread_list_stack_traces(void) {
    slot *s = pick_agent();
    int32_t max_count = pick_small();
    uint32_t threads[4], count = below(5);
    for (uint32_t i = 0; i < count; i++) {
        threads[i] = below(6) == 0 ? pick_number() : below(2);
    }
    BOTH(gather_thread_list_stack_traces, (&s->real.env, threads, count, max_count),
         (&s->model.env, threads, count, max_count));
}

uint32_t step_both(slot *s, bool *over) {
    bool real = true, model = true;
    uint32_t code = BOTH(gather_step, (&s->real.env, &real), (&s->model.env, &model));
    agree("whether a trace is over", real, model);
    *over = real;
    return code;
}

/* An agent: mostly one that gathers a trace, if there is one. */
static slot *pick_gatherer(void) {
    slot *s = pick_agent();
    for (uint32_t i = 0; i < 4 && gathering_of(&s->model.env) == NULL; i++) s = pick_agent();
    return s;
}

static void gather_give_up(void) {
    slot *s = pick_gatherer();
    BOTH(gather_give_up, (&s->real.env), (&s->model.env));
}

static uint64_t gathered_by(slot *s) {
    uint64_t real = 99, model = 99;
    uint32_t code = BOTH(gathered, (&s->real.env, &real), (&s->model.env, &model));
    agree("how many threads a trace tells of", real, model);
    return code == CQ_OK ? real : 0;
}

static void gathered(void) { gathered_by(pick_agent()); }

static void gathered_stack_by(slot *s, uint64_t index) {
    uint32_t room = below(FRAMES + 1);
    cq_stack_info real = { 99, 99, 99 }, model = { 99, 99, 99 };
    mark();
    BOTH(gathered_stack, (&s->real.env, index, &real, real_written.frames, room),
         (&s->model.env, index, &model, model_written.frames, room));
    agree("a thread that a trace tells of", real.thread, model.thread);
    agree("its state", real.state, model.state);
    agree("its number of frames", real.frame_count, model.frame_count);
    agree_on_written(CQ_OK);
}

static void gathered_stack(void) {
    gathered_stack_by(pick_agent(), below(24) == 0 ? UINT64_MAX - below(2) : below(4));
}

static void poll_all(void) {
    for (uint32_t i = 0; i < SLOTS; i++) {
        if (thread_of(&slots[i].model.thread) != NULL) {
            BOTH(poll, (&slots[i].real.thread), (&slots[i].model.thread));
        }
    }
}

/* Some steps of a trace. When one still runs, all threads poll sometimes. What was gathered is read at the end. */
static void gather_step(void) {
    slot *s = pick_gatherer();
    bool over = false;
    for (uint32_t i = below(20); i > 0 && !over; i--) {
        uint32_t code = step_both(s, &over);
        if (code == CQ_STILL_RUNNING && below(2) == 0) {
            poll_all();
        } else if (code != CQ_OK) {
            return;
        }
    }
    for (uint64_t i = over ? gathered_by(s) : 0; i > 0; i--) gathered_stack_by(s, i - 1);
}

static void add_capabilities(void) {
    slot *s = pick_agent();
    uint32_t capabilities = below(8) == 0 ? pick_number() : below(4);
    BOTH(add_capabilities, (&s->real.env, capabilities), (&s->model.env, capabilities));
}

static void relinquish_capabilities(void) {
    slot *s = pick_agent();
    uint32_t capabilities = below(8) == 0 ? pick_number() : below(4);
    BOTH(relinquish_capabilities, (&s->real.env, capabilities), (&s->model.env, capabilities));
}

static void get_capabilities(void) {
    slot *s = pick_agent();
    uint32_t real = 99, model = 99;
    BOTH(get_capabilities, (&s->real.env, &real), (&s->model.env, &model));
    BOTH(get_potential_capabilities, (&s->real.env, &real), (&s->model.env, &model));
    agree("capabilities", real, model);
}

static void environment_local_storage(void) {
    slot *s = pick_agent();
    uint64_t real = 99, model = 99, word = (uint64_t)pick_small();
    BOTH(get_environment_local_storage, (&s->real.env, &real), (&s->model.env, &model));
    agree("a word", real, model);
    BOTH(set_environment_local_storage, (&s->real.env, word), (&s->model.env, word));
}

static void set_event_notification_mode(void) {
    slot *s = pick_agent();
    uint32_t kind = below(8) == 0 ? pick_number() : below(5);
    bool enabled = below(3) != 0;
    BOTH(set_event_notification_mode, (&s->real.env, enabled, kind), (&s->model.env, enabled, kind));
}

static void next_event(void) {
    slot *s = pick_agent();
    cq_event real = { 9, 99, 99 }, model = { 9, 99, 99 };
    BOTH(next_event, (&s->real.env, &real), (&s->model.env, &model));
    agree("an event's kind", real.kind, model.kind);
    agree("an event's number", real.number, model.number);
    agree("the events that were lost", real.lost, model.lost);
}

static void dispose_environment(void) {
    slot *s = pick_agent();
    BOTH(dispose_environment, (&s->real.env), (&s->model.env));
}

static void attach_agent(slot *s, slot *agent) {
    BOTH(attach_environment, (&s->real.service, &agent->real.env), (&s->model.service, &agent->model.env));
    BOTH(meet, (&agent->real.env), (&agent->model.env));
    BOTH(add_capabilities, (&agent->real.env, 3), (&agent->model.env, 3));
}

void furnish(void) {
    static const uint8_t name[] = "main";
    slot *s = &slots[0], *agent = &slots[1];
    uint32_t depth = 1 + below(5), envs = 1 + below(3), window = 1 + below(3), can = CQ_CAN_SUSPEND | CQ_CAN_POP_FRAME;
    BOTH(make, (depth, envs, window, can, &s->real.service), (depth, envs, window, can, &s->model.service));
    BOTH(attach_environment, (&s->real.service, &agent->real.env), (&s->model.service, &agent->model.env));
    for (slot *thread = &slots[2]; thread <= &slots[3]; thread++) {
        BOTH(attach_thread, (&s->real.service, name, 4, 5, &thread->real.thread),
             (&s->model.service, name, 4, 5, &thread->model.thread));
        BOTH(start, (&thread->real.thread), (&thread->model.thread));
    }
    BOTH(meet, (&agent->real.env), (&agent->model.env));
    BOTH(add_capabilities, (&agent->real.env, 3), (&agent->model.env, 3));
    if (envs > 1) attach_agent(s, &slots[4]);
}

typedef struct { uint32_t weight; void (*make)(void); } weighted;

static const weighted CALLS[] = {
    { 1, make }, { 2, share }, { 1, free_handle }, { 3, attach_thread }, { 3, attach_environment },
    { 1, thread_number }, { 4, start }, { 14, enter }, { 6, enter_native }, { 6, at }, { 4, leave }, { 6, set_frames },
    { 4, set_newest_frames }, { 2, frame_count }, { 4, take_pops },
    { 4, poll_clear }, { 16, poll }, { 5, native }, { 4, block }, { 14, back }, { 2, end }, { 2, detach_thread },
    { 6, meet }, { 3, has_news }, { 3, let_go }, { 1, let_go_of_all }, { 2, get_all_threads }, { 2, get_thread_info },
    { 5, get_thread_state }, { 6, get_frame_count }, { 6, get_frame_location }, { 10, get_stack_trace },
    { 9, suspend_thread }, { 7, resume_thread }, { 7, pop_frame },
    { 3, get_thread_local_storage }, { 3, set_thread_local_storage }, { 14, collect }, { 5, cancel }, { 4, discard },
    { 4, collect_cancelled },
    { 4, out_at }, { 4, gather_all_stack_traces }, { 4, gather_thread_list_stack_traces }, { 20, gather_step },
    { 2, gather_give_up }, { 2, gathered }, { 4, gathered_stack },
    { 3, add_capabilities }, { 1, relinquish_capabilities }, { 1, get_capabilities },
    { 2, environment_local_storage }, { 4, set_event_notification_mode }, { 6, next_event }, { 1, dispose_environment },
};

enum { KINDS = sizeof CALLS / sizeof CALLS[0] };

void any_call(void) {
    uint32_t sum = 0, i = 0;
    for (uint32_t k = 0; k < KINDS; k++) {
        sum += CALLS[k].weight;
    }
    uint32_t at = below(sum);
    while (at >= CALLS[i].weight) {
        at -= CALLS[i++].weight;
    }
    CALLS[i].make();
}
