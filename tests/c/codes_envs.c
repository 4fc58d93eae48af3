/* codes_envs.c: the refusals of the environment's functions. */
#include "codes.h"

/* The world's thread, and one that is not there. */
static const uint32_t LISTED[] = { 0, 1 };

ENV_CALLS(MISUSED_ENV)
ON_ENV(gather_step, cq_gather_step(h, &out.flag))
MISUSED_ENV(gather_give_up, cq_gather_give_up(h))

/* The same on the world's environment. */
#define ITS_OWN(name) static uint32_t name(world *w) { return name##_on(&w->env, w); }
ITS_OWN(get_thread_info)
ITS_OWN(get_thread_state)
ITS_OWN(get_frame_count)
ITS_OWN(get_frame_location)
ITS_OWN(get_stack_trace)
ITS_OWN(suspend_thread)
ITS_OWN(resume_thread)
ITS_OWN(ensure_resumed)
ITS_OWN(pop_frame)
ITS_OWN(get_thread_local_storage)
ITS_OWN(set_thread_local_storage)
ITS_OWN(collect)
ITS_OWN(gathered)
ITS_OWN(gathered_stack)
ITS_OWN(add_capabilities)
ITS_OWN(next_event)
ITS_OWN(gather_give_up)

static uint32_t has_news_empty(world *w) { return cq_has_news(&w->no_env) ? CQ_OK : CQ_MISUSED; }
static uint32_t has_news_wrong(world *w) { return cq_has_news((cq_env *)(void *)&w->thread) ? CQ_OK : CQ_MISUSED; }

static uint32_t info_of_none(world *w) { return cq_get_thread_info(&w->env, 1, &out.info, out.name, 8); }
static uint32_t info_of_far(world *w) { return cq_get_thread_info(&w->env, UINT32_MAX, &out.info, out.name, 8); }
static uint32_t location_below(world *w) { return cq_get_frame_location(&w->env, 0, -1, &out.answer); }
static uint32_t trace_below(world *w) { return cq_get_stack_trace(&w->env, 0, 0, -1, &out.answer, out.frames, 2); }
static uint32_t trace_before_oldest(world *w) {
    return cq_get_stack_trace(&w->env, 0, -3, 2, &out.answer, out.frames, 2);
}

static uint32_t gather_all_below(world *w) { return cq_gather_all_stack_traces(&w->env, -1); }
static uint32_t gather_all_lowest(world *w) { return cq_gather_all_stack_traces(&w->env, INT32_MIN); }
static uint32_t gather_one(world *w) { return cq_gather_thread_list_stack_traces(&w->env, LISTED, 1, 2); }
static uint32_t gather_two(world *w) { return cq_gather_thread_list_stack_traces(&w->env, LISTED, 2, 2); }
static uint32_t gather_list_below(world *w) { return cq_gather_thread_list_stack_traces(&w->env, LISTED, 1, -1); }
static uint32_t gather_none_below(world *w) { return cq_gather_thread_list_stack_traces(&w->env, LISTED, 0, -1); }
/* CQ_INVALID_THREAD comes first. */
static uint32_t gather_two_below(world *w) { return cq_gather_thread_list_stack_traces(&w->env, LISTED, 2, -1); }

/* A call without the capability that it needs. The capability comes back, so that nothing has changed. */
#define WITHOUT(name, capability) \
    static uint32_t name##_without(world *w) { \
        OK(cq_relinquish_capabilities(&w->env, capability)); \
        uint32_t code = name(w); \
        OK(cq_add_capabilities(&w->env, capability)); \
        return code; \
    }
WITHOUT(suspend_thread, CQ_CAN_SUSPEND)
WITHOUT(resume_thread, CQ_CAN_SUSPEND)
WITHOUT(ensure_resumed, CQ_CAN_SUSPEND)
WITHOUT(pop_frame, CQ_CAN_POP_FRAME)

/* A thread of another number. */
#define OF_NONE(name, call) static uint32_t name##_of_none(world *w) { cq_env *h = &w->env; return call; }
OF_NONE(get_thread_state, cq_get_thread_state(h, 1, &out.answer))
OF_NONE(get_frame_count, cq_get_frame_count(h, UINT32_MAX, &out.answer))
OF_NONE(get_frame_location, cq_get_frame_location(h, 1, -1, &out.answer))
OF_NONE(get_stack_trace, cq_get_stack_trace(h, 1, 0, -1, &out.answer, out.frames, 2))
OF_NONE(suspend_thread, cq_suspend_thread(h, 1, &out.answer))
OF_NONE(resume_thread, cq_resume_thread(h, 1, &out.answer))
OF_NONE(ensure_resumed, cq_ensure_resumed(h, 1))
OF_NONE(pop_frame, cq_pop_frame(h, 1, &out.answer))
OF_NONE(get_thread_local_storage, cq_get_thread_local_storage(h, 1, &out.answer))
OF_NONE(set_thread_local_storage, cq_set_thread_local_storage(h, 1, 7, &out.answer))

/* What every call at a thread may be refused with. */
#define AT_A_THREAD(name) \
    MISUSES(name), { "cq_" #name, CQ_INVALID_THREAD, RUNS, name##_of_none }, \
    { "cq_" #name, CQ_INVALID_THREAD, UNMET, name }, { "cq_" #name, CQ_THREAD_NOT_ALIVE, LET_GO, name }

/* What the thread itself refuses while it is not alive. */
#define NOT_ALIVE(name) \
    { "cq_" #name, CQ_THREAD_NOT_ALIVE, FRESH, name }, { "cq_" #name, CQ_THREAD_NOT_ALIVE, ENDED, name }, \
    { "cq_" #name, CQ_THREAD_NOT_ALIVE, GIVEN_BACK, name }

#define NO_ROOM(name) { "cq_" #name, CQ_FULL, FULL_WINDOW, name }

const row ENV_ROWS[] = {
    MISUSES(meet), MISUSES(has_news), MISUSES(let_go), MISUSES(let_go_of_all),
    MISUSES(get_all_threads),
    MISUSES(get_thread_info), { "cq_get_thread_info", CQ_INVALID_THREAD, RUNS, info_of_none },
    { "cq_get_thread_info", CQ_INVALID_THREAD, RUNS, info_of_far },
    { "cq_get_thread_info", CQ_THREAD_NOT_ALIVE, GIVEN_BACK, get_thread_info },
    { "cq_get_thread_info", CQ_THREAD_NOT_ALIVE, LET_GO, get_thread_info },
    AT_A_THREAD(get_thread_state),
    AT_A_THREAD(get_frame_count), NOT_ALIVE(get_frame_count), NO_ROOM(get_frame_count),
    AT_A_THREAD(get_frame_location), NOT_ALIVE(get_frame_location), NO_ROOM(get_frame_location),
    { "cq_get_frame_location", CQ_ILLEGAL_ARGUMENT, RUNS, location_below },
    { "cq_get_frame_location", CQ_ILLEGAL_ARGUMENT, FULL_WINDOW, location_below },
    { "cq_get_frame_location", CQ_ILLEGAL_ARGUMENT, ENDED, location_below },
    { "cq_get_frame_location", CQ_NO_MORE_FRAMES, NATIVE, get_frame_location },
    AT_A_THREAD(get_stack_trace), NOT_ALIVE(get_stack_trace), NO_ROOM(get_stack_trace),
    { "cq_get_stack_trace", CQ_ILLEGAL_ARGUMENT, RUNS, trace_below },
    { "cq_get_stack_trace", CQ_ILLEGAL_ARGUMENT, FULL_WINDOW, trace_below },
    { "cq_get_stack_trace", CQ_ILLEGAL_ARGUMENT, NATIVE, get_stack_trace },
    { "cq_get_stack_trace", CQ_ILLEGAL_ARGUMENT, NATIVE, trace_before_oldest },
    AT_A_THREAD(suspend_thread), NOT_ALIVE(suspend_thread), NO_ROOM(suspend_thread),
    { "cq_suspend_thread", CQ_MUST_POSSESS_CAPABILITY, RUNS, suspend_thread_without },
    { "cq_suspend_thread", CQ_MUST_POSSESS_CAPABILITY, UNMET, suspend_thread_without },
    { "cq_suspend_thread", CQ_THREAD_SUSPENDED, HELD, suspend_thread },
    AT_A_THREAD(resume_thread), NOT_ALIVE(resume_thread),
    { "cq_resume_thread", CQ_MUST_POSSESS_CAPABILITY, HELD, resume_thread_without },
    { "cq_resume_thread", CQ_THREAD_NOT_SUSPENDED, RUNS, resume_thread },
    { "cq_resume_thread", CQ_THREAD_NOT_SUSPENDED, NATIVE, resume_thread },
    AT_A_THREAD(ensure_resumed), NOT_ALIVE(ensure_resumed),
    { "cq_ensure_resumed", CQ_MUST_POSSESS_CAPABILITY, HELD, ensure_resumed_without },
    AT_A_THREAD(pop_frame), NOT_ALIVE(pop_frame), NO_ROOM(pop_frame),
    { "cq_pop_frame", CQ_MUST_POSSESS_CAPABILITY, HELD, pop_frame_without },
    { "cq_pop_frame", CQ_THREAD_NOT_SUSPENDED, NATIVE, pop_frame },
    { "cq_pop_frame", CQ_NO_MORE_FRAMES, HELD, pop_frame },
    { "cq_pop_frame", CQ_OPAQUE_FRAME, HELD_IN_NATIVE, pop_frame },
    AT_A_THREAD(get_thread_local_storage), NOT_ALIVE(get_thread_local_storage),
    AT_A_THREAD(set_thread_local_storage), NOT_ALIVE(set_thread_local_storage),
    MISUSES(collect), { "cq_collect", CQ_WAITING, RUNS, collect }, { "cq_collect", CQ_WAITING, WAITS, collect },
    { "cq_collect", CQ_WAITING, UNMET, collect }, { "cq_collect", CQ_WAITING, LET_GO, collect },
    MISUSES(cancel), MISUSES(discard), MISUSES(collect_cancelled), MISUSES(out_at), MISUSES(stopper), MISUSES(environment_number),
    MISUSES(gather_all_stack_traces), { "cq_gather_all_stack_traces", CQ_ILLEGAL_ARGUMENT, RUNS, gather_all_below },
    { "cq_gather_all_stack_traces", CQ_ILLEGAL_ARGUMENT, NATIVE, gather_all_lowest },
    { "cq_gather_all_stack_traces", CQ_ILLEGAL_ARGUMENT, UNMET, gather_all_below },
    MISUSES(gather_thread_list_stack_traces),
    { "cq_gather_thread_list_stack_traces", CQ_INVALID_THREAD, RUNS, gather_two },
    { "cq_gather_thread_list_stack_traces", CQ_INVALID_THREAD, UNMET, gather_one },
    { "cq_gather_thread_list_stack_traces", CQ_INVALID_THREAD, LET_GO, gather_one },
    { "cq_gather_thread_list_stack_traces", CQ_INVALID_THREAD, HELD, gather_two_below },
    { "cq_gather_thread_list_stack_traces", CQ_ILLEGAL_ARGUMENT, RUNS, gather_list_below },
    { "cq_gather_thread_list_stack_traces", CQ_ILLEGAL_ARGUMENT, GIVEN_BACK, gather_list_below },
    { "cq_gather_thread_list_stack_traces", CQ_ILLEGAL_ARGUMENT, UNMET, gather_none_below },
    MISUSES(gather_step), { "cq_gather_step", CQ_MISUSED, RUNS, gather_step },
    { "cq_gather_step", CQ_MISUSED, HELD, gather_step },
    MISUSES(gather_give_up), { "cq_gather_give_up", CQ_MISUSED, RUNS, gather_give_up },
    MISUSES(gathered), { "cq_gathered", CQ_NONE, RUNS, gathered }, { "cq_gathered", CQ_NONE, UNMET, gathered },
    MISUSES(gathered_stack), { "cq_gathered_stack", CQ_NONE, RUNS, gathered_stack },
    MISUSES(add_capabilities), { "cq_add_capabilities", CQ_NOT_AVAILABLE, RUNS, add_capabilities },
    MISUSES(relinquish_capabilities), MISUSES(get_capabilities), MISUSES(get_potential_capabilities),
    MISUSES(get_environment_local_storage), MISUSES(set_environment_local_storage),
    MISUSES(set_event_notification_mode),
    MISUSES(next_event), { "cq_next_event", CQ_NONE, RUNS, next_event },
    MISUSES(dispose_environment),
};
const size_t ENV_ROW_COUNT = COUNT(ENV_ROWS);
