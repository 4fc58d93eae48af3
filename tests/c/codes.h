/* codes.h: a small world in which codes.c asks for each code. */
#ifndef CODES_H
#define CODES_H

#include "check.h"
#include "counted_heap.h"

/* A service with one thread and one environment, and an empty handle of each kind. */
typedef struct {
    cq_service service, no_service;
    cq_thread thread, no_thread;
    cq_env env, no_env;
    cq_ticket ticket;    /* of a call that waits, in WAITS and FULL_WINDOW, and of none otherwise */
} world;

/* Where the thread is, and what the environment knows of it. Its stack has two frames at most, and the window two
 * calls. */
typedef enum {
    UNMET,          /* it is new, and the environment has not met it */
    FRESH,          /* it is new */
    RUNS,           /* it runs, without frames */
    IN_METHOD,      /* it runs in one method */
    IN_NATIVE,      /* it runs in a native method */
    FULL_STACK,     /* it runs in two methods */
    POPPED,         /* it runs in one method, and one was popped */
    NATIVE,         /* it is in native code */
    HELD,           /* it is suspended, and was held at a poll in one method */
    HELD_IN_NATIVE, /* the same, in a native method that a method has called */
    WAITS,          /* it runs, and a call waits for it */
    FULL_WINDOW,    /* it runs, and two calls wait for it */
    ENDED,
    GIVEN_BACK,
    LET_GO          /* it was given back, and the environment has let go of it */
} stage;

/* What a call writes, with marks in it beforehand. */
typedef struct {
    cq_answer answer;
    cq_frame frames[2];
    cq_event event;
    cq_thread_info info;
    cq_stack_info stack;
    uint64_t word;
    const uint64_t *at;
    uint32_t number;
    uint32_t threads[2];
    uint8_t name[8];
    bool flag;
} outputs;

extern outputs out;

typedef uint32_t call_in(world *w);

/* A call, the stage in which it is made, and the code that it has to give. */
typedef struct {
    const char *name;
    uint32_t code;
    stage at;
    call_in *call;
} row;

void build(world *w, stage at, uint32_t envs);
void tear_down(world *w);

/* All that can be seen of a world. */
typedef struct {
    uint32_t kinds[6];
    void *places[6];
    bool is_clear;
    uint32_t state_code, trace_code, count;
    uint64_t state, word, own_word;
    cq_frame frames[2];
    uint32_t capabilities, outs, threads;
} picture;

picture look(world *w);
void check_unchanged(const picture *before, const picture *after);
void mark_outputs(void);
void check_outputs_unchanged(void);

extern const row SERVICE_ROWS[], THREAD_ROWS[], ENV_ROWS[];
extern const size_t SERVICE_ROW_COUNT, THREAD_ROW_COUNT, ENV_ROW_COUNT;

/* Runs all that has to do with memory. It gives how many refusals of memory were told. */
uint32_t refuse_memory(void);

/* Makes each call of an environment while it gathers a trace. It gives how many calls these are. */
uint32_t refuse_while_gathering(void);

#define COUNT(rows) (sizeof(rows) / sizeof((rows)[0]))

/* The calls of an environment `h`, but for those that go on with a trace. */
#define ENV_CALLS(CALL) \
    CALL(meet, cq_meet(h)) \
    CALL(let_go, cq_let_go(h, 0, &out.flag)) \
    CALL(let_go_of_all, cq_let_go_of_all(h)) \
    CALL(get_all_threads, cq_get_all_threads(h, out.threads, 2, &out.word)) \
    CALL(get_thread_info, cq_get_thread_info(h, 0, &out.info, out.name, 8)) \
    CALL(get_thread_state, cq_get_thread_state(h, 0, &out.answer)) \
    CALL(get_frame_count, cq_get_frame_count(h, 0, &out.answer)) \
    CALL(get_frame_location, cq_get_frame_location(h, 0, 2, &out.answer)) \
    CALL(get_stack_trace, cq_get_stack_trace(h, 0, 2, 2, &out.answer, out.frames, 2)) \
    CALL(suspend_thread, cq_suspend_thread(h, 0, &out.answer)) \
    CALL(resume_thread, cq_resume_thread(h, 0, &out.answer)) \
    CALL(pop_frame, cq_pop_frame(h, 0, &out.answer)) \
    CALL(get_thread_local_storage, cq_get_thread_local_storage(h, 0, &out.answer)) \
    CALL(set_thread_local_storage, cq_set_thread_local_storage(h, 0, 7, &out.answer)) \
    CALL(collect, cq_collect(h, &w->ticket, &out.answer, out.frames, 2)) \
    CALL(cancel, cq_cancel(h, &w->ticket)) \
    CALL(discard, cq_discard(h, 0, &out.flag)) \
    CALL(collect_cancelled, cq_collect_cancelled(h, 0, &out.answer, out.frames, 2)) \
    CALL(ensure_resumed, cq_ensure_resumed(h, 0)) \
    CALL(out_at, cq_out_at(h, 0, &out.number)) \
    CALL(stopper, cq_stopper(h, 0, &out.number)) \
    CALL(environment_number, cq_environment_number(h, &out.number)) \
    CALL(gather_all_stack_traces, cq_gather_all_stack_traces(h, 2)) \
    CALL(gather_thread_list_stack_traces, cq_gather_thread_list_stack_traces(h, out.threads, 0, 2)) \
    CALL(gathered, cq_gathered(h, &out.word)) \
    CALL(gathered_stack, cq_gathered_stack(h, 0, &out.stack, out.frames, 2)) \
    CALL(add_capabilities, cq_add_capabilities(h, 5)) \
    CALL(relinquish_capabilities, cq_relinquish_capabilities(h, 3)) \
    CALL(get_capabilities, cq_get_capabilities(h, &out.number)) \
    CALL(get_potential_capabilities, cq_get_potential_capabilities(h, &out.number)) \
    CALL(get_environment_local_storage, cq_get_environment_local_storage(h, &out.word)) \
    CALL(set_environment_local_storage, cq_set_environment_local_storage(h, 7)) \
    CALL(set_event_notification_mode, cq_set_event_notification_mode(h, true, 0)) \
    CALL(next_event, cq_next_event(h, &out.event)) \
    CALL(dispose_environment, cq_dispose_environment(h))

/* Rows of a call, on an empty handle and on one of another kind. */
#define MISUSES(name) { "cq_" #name, CQ_MISUSED, RUNS, name##_empty }, { "cq_" #name, CQ_MISUSED, RUNS, name##_wrong }

/* A call on the handle `h`: on an empty one, and on one of another kind. */
#define MISUSED_ON(type, empty, other, name, call) \
    static uint32_t name##_on(type *h, world *w) { (void)w; return call; } \
    static uint32_t name##_empty(world *w) { return name##_on(&w->empty, w); } \
    static uint32_t name##_wrong(world *w) { return name##_on((type *)(void *)&w->other, w); }

#define MISUSED_SERVICE(name, call) MISUSED_ON(cq_service, no_service, env, name, call)
#define MISUSED_THREAD(name, call) MISUSED_ON(cq_thread, no_thread, service, name, call)
#define MISUSED_ENV(name, call) MISUSED_ON(cq_env, no_env, thread, name, call)

/* The same, and also on the world's own handle. */
#define ON_SERVICE(name, call) \
    MISUSED_SERVICE(name, call) \
    static uint32_t name(world *w) { return name##_on(&w->service, w); }
#define ON_THREAD(name, call) \
    MISUSED_THREAD(name, call) \
    static uint32_t name(world *w) { return name##_on(&w->thread, w); }
#define ON_ENV(name, call) \
    MISUSED_ENV(name, call) \
    static uint32_t name(world *w) { return name##_on(&w->env, w); }

#endif
