/* model_calls.c: the environments, and their calls at threads. */
#include "model_parts.h"

#include <stdlib.h>
#include <string.h>


void free_call(posted *call) {
    free(call->frames);
    free(call);
}

/* Calls at a thread. */

bool is_alive(const m_thread *t) { return t->mode == RUNNING || t->mode == SAFE; }

uint32_t state_bits(const m_thread *t) {
    static const uint32_t bits[] = {
        [NEW] = 0, [RUNNING] = CQ_STATE_ALIVE | CQ_STATE_RUNNABLE, [ENDED] = CQ_STATE_TERMINATED,
    };
    return (t->mode == SAFE ? t->bits : bits[t->mode]) | (t->suspended ? CQ_STATE_SUSPENDED : 0);
}

cq_frame from_newest(const m_thread *t, size_t depth) { return t->frames[t->count - 1 - depth]; }

static uint32_t trace(const m_thread *t, posted *call) {
    int64_t count = (int64_t)t->count;
    int64_t first = call->start >= 0 ? call->start : count + call->start;
    bool none = call->start == 0 && count == 0;
    if (!none && (first < 0 || first >= count)) return CQ_ILLEGAL_ARGUMENT;
    int64_t there = count - first < call->max_count ? count - first : call->max_count;
    call->frames = malloc((size_t)(there + 1) * sizeof *call->frames);
    for (int64_t i = 0; i < there; i++) {
        call->frames[i] = from_newest(t, (size_t)(first + i));
    }
    call->number = (uint64_t)there;
    return CQ_OK;
}

static uint32_t pop(m_thread *t) {
    if (!t->suspended) return CQ_THREAD_NOT_SUSPENDED;
    if (t->count < 2) return CQ_NO_MORE_FRAMES;
    if (from_newest(t, 0).location == -1 || from_newest(t, 1).location == -1) return CQ_OPAQUE_FRAME;
    t->count--;
    t->popped_away++;
    return CQ_OK;
}

static uint32_t suspend(m_thread *t, bool whether) {
    if (t->suspended == whether) return whether ? CQ_THREAD_SUSPENDED : CQ_THREAD_NOT_SUSPENDED;
    t->suspended = whether;
    return CQ_OK;
}

/* A call takes place. */
static uint32_t perform(m_thread *t, posted *call) {
    if (call->kind == STATE) {
        call->number = state_bits(t);
        return CQ_OK;
    }
    if (!is_alive(t)) return CQ_THREAD_NOT_ALIVE;
    switch (call->kind) {
    case COUNT: call->number = t->count; return CQ_OK;
    case LOCATION:
        if ((size_t)call->start >= t->count) return CQ_NO_MORE_FRAMES;
        call->frame = from_newest(t, (size_t)call->start);
        return CQ_OK;
    case TRACE: return trace(t, call);
    case SUSPEND: return suspend(t, true);
    case RESUME: return suspend(t, false);
    case POP: return pop(t);
    case GET_WORD: call->number = t->words[call->place]; return CQ_OK;
    default: t->words[call->place] = call->word; return CQ_OK;
    }
}

void hand_over(m_thread *t) {
    for (posted *call = t->calls; call != NULL; call = call->next) {
        if (!call->done) {
            call->code = perform(t, call);
            call->done = true;
        }
    }
}

bool is_called_for(const m_thread *t) {
    if (t->stopped_by != NOBODY) return true;
    for (const posted *call = t->calls; call != NULL; call = call->next) {
        if (!call->done) return true;
    }
    return false;
}

uint32_t outs(const m_thread *t, uint32_t place) {
    uint32_t count = 0;
    for (const posted *call = t->calls; call != NULL; call = call->next) {
        count += call->place == place;
    }
    return count;
}

static void take_out(m_thread *t, posted *call) {
    posted **link = &t->calls;
    while (*link != call) link = &(*link)->next;
    *link = call->next;
}

static posted *first_given_up(const m_thread *t, uint32_t place) {
    posted *first = NULL;
    for (posted *call = t->calls; call != NULL; call = call->next) {
        bool earlier = first == NULL || call->given_up < first->given_up;
        if (call->place == place && call->given_up != 0 && earlier) first = call;
    }
    return first;
}

bool throw_first(m_thread *t, uint32_t place) {
    posted *first = first_given_up(t, place);
    if (first == NULL || !first->done) return false;
    take_out(t, first);
    free_call(first);
    return true;
}

void give_up_all(m_thread *t, uint32_t place) {
    for (posted *call = t->calls; call != NULL; call = call->next) {
        if (call->place == place && call->given_up == 0) call->given_up = ++t->given_up;
    }
}

/* The environment leaves. All of its calls that are out were given up. */
void leave_all(m_thread *t, uint32_t place) {
    for (posted *call = t->calls; call != NULL; call = call->next) {
        if (call->place == place) call->former = true;
    }
}

/* The call that the environment itself gave up first, if its answer can be looked for: answers to calls of one that has left are thrown
 * away before, and none of those is out. */
static posted *first_own(m_thread *t, uint32_t place) {
    posted *first = first_given_up(t, place);
    while (first != NULL && first->former && throw_first(t, place)) first = first_given_up(t, place);
    return first == NULL || first->former ? NULL : first;
}

static bool has_given_up(const m_thread *t, uint32_t place) {
    for (posted *call = t->calls; call != NULL; call = call->next) {
        if (call->place == place && call->given_up != 0 && !call->former) return true;
    }
    return false;
}

/* The answer of a call that took place, as the header says what each function writes. */
static void write_answer(const posted *call, cq_answer *answer, cq_frame *frames, size_t room) {
    if (call->code != CQ_OK) return;
    switch (call->kind) {
    case STATE: case COUNT: case GET_WORD: answer->number = call->number; break;
    case LOCATION: answer->frame = call->frame; break;
    case TRACE:
        answer->number = call->number;
        for (uint64_t i = 0; i < call->number && i < room; i++) frames[i] = call->frames[i];
        break;
    default: break;
    }
}

static bool may_wait(uint32_t kind) {
    return kind == COUNT || kind == LOCATION || kind == TRACE || kind == SUSPEND || kind == POP;
}

/* The refusals before the thread is reached, but for those of memory. */
static uint32_t admit(const m_env *e, uint32_t thread, const posted *call) {
    bool suspends = call->kind == SUSPEND || call->kind == RESUME;
    uint32_t needs = suspends ? CQ_CAN_SUSPEND : call->kind == POP ? CQ_CAN_POP_FRAME : 0;
    if (needs & ~e->capabilities) return CQ_MUST_POSSESS_CAPABILITY;
    if (thread >= e->known) return CQ_INVALID_THREAD;
    if (!e->service->threads[thread]->met[e->place]) return CQ_THREAD_NOT_ALIVE;
    if (call->kind == TRACE && call->max_count < 0) return CQ_ILLEGAL_ARGUMENT;
    if (call->kind == LOCATION && call->start < 0) return CQ_ILLEGAL_ARGUMENT;
    return CQ_OK;
}

static uint32_t post(cq_env *env, uint32_t thread, posted wanted, cq_answer *answer, cq_frame *frames, size_t room) {
    m_env *e = env_of(env);
    if (e == NULL) return CQ_MISUSED;
    uint32_t code = admit(e, thread, &wanted);
    if (code != CQ_OK) return code;
    m_thread *t = e->service->threads[thread];
    wanted.place = e->place;
    if (may_wait(wanted.kind) && outs(t, e->place) >= e->service->window) return CQ_FULL;
    if (!may_wait(wanted.kind) || t->mode != RUNNING) {
        wanted.code = perform(t, &wanted);
        write_answer(&wanted, answer, frames, room);
        free(wanted.frames);
        return wanted.code;
    }
    posted **last = &t->calls;
    while (*last != NULL) last = &(*last)->next;
    *last = malloc(sizeof wanted);
    **last = wanted;
    (*last)->ticket = (cq_ticket){ e->place, thread, t->posts[e->place]++ };
    answer->ticket = (*last)->ticket;
    return CQ_WAITING;
}

uint32_t model_get_thread_state(cq_env *env, uint32_t thread, cq_answer *answer) {
    return post(env, thread, (posted){ .kind = STATE }, answer, NULL, 0);
}
uint32_t model_get_frame_count(cq_env *env, uint32_t thread, cq_answer *answer) {
    return post(env, thread, (posted){ .kind = COUNT }, answer, NULL, 0);
}
uint32_t model_get_frame_location(cq_env *env, uint32_t thread, int32_t depth, cq_answer *answer) {
    return post(env, thread, (posted){ .kind = LOCATION, .start = depth }, answer, NULL, 0);
}
uint32_t model_get_stack_trace(cq_env *env, uint32_t thread, int32_t start, int32_t max_count, cq_answer *answer,
                               cq_frame *frames, size_t room) {
    return post(env, thread, (posted){ .kind = TRACE, .start = start, .max_count = max_count }, answer, frames, room);
}
uint32_t model_suspend_thread(cq_env *env, uint32_t thread, cq_answer *answer) {
    return post(env, thread, (posted){ .kind = SUSPEND }, answer, NULL, 0);
}
uint32_t model_resume_thread(cq_env *env, uint32_t thread, cq_answer *answer) {
    return post(env, thread, (posted){ .kind = RESUME }, answer, NULL, 0);
}
uint32_t model_pop_frame(cq_env *env, uint32_t thread, cq_answer *answer) {
    return post(env, thread, (posted){ .kind = POP }, answer, NULL, 0);
}
uint32_t model_get_thread_local_storage(cq_env *env, uint32_t thread, cq_answer *answer) {
    return post(env, thread, (posted){ .kind = GET_WORD }, answer, NULL, 0);
}
uint32_t model_set_thread_local_storage(cq_env *env, uint32_t thread, uint64_t word, cq_answer *answer) {
    return post(env, thread, (posted){ .kind = SET_WORD, .word = word }, answer, NULL, 0);
}

m_thread *met(const m_env *e, uint32_t thread) {
    return thread < e->known && e->service->threads[thread]->met[e->place] ? e->service->threads[thread] : NULL;
}

static bool is_same(const cq_ticket *a, const cq_ticket *b) {
    return a->env == b->env && a->thread == b->thread && a->no == b->no;
}

/* The call of a ticket that is out. */
static posted *call_of(const m_env *e, const cq_ticket *ticket) {
    m_thread *t = met(e, ticket->thread);
    if (t == NULL) return NULL;
    for (posted *call = t->calls; call != NULL; call = call->next) {
        if (call->place == e->place && is_same(&call->ticket, ticket) && call->given_up == 0) return call;
    }
    return NULL;
}

bool model_rename(cq_env *env, const cq_ticket *name) {
    posted *call = met(env_of(env), name->thread)->calls;
    bool is_new = true;
    for (; call->next != NULL; call = call->next) {
        is_new = is_new && !is_same(&call->ticket, name);
    }
    call->ticket = *name;
    return is_new;
}

uint32_t model_collect(cq_env *env, const cq_ticket *ticket, cq_answer *answer, cq_frame *frames, size_t room) {
    m_env *e = env_of(env);
    if (e == NULL) return CQ_MISUSED;
    posted *call = call_of(e, ticket);
    if (call == NULL || !call->done) return CQ_WAITING;
    uint32_t code = call->code;
    write_answer(call, answer, frames, room);
    take_out(met(e, ticket->thread), call);
    free_call(call);
    return code;
}

uint32_t model_cancel(cq_env *env, const cq_ticket *ticket) {
    m_env *e = env_of(env);
    if (e == NULL) return CQ_MISUSED;
    posted *call = call_of(e, ticket);
    if (call != NULL) call->given_up = ++met(e, ticket->thread)->given_up;
    return CQ_OK;
}

uint32_t model_discard(cq_env *env, uint32_t thread, bool *discarded) {
    m_env *e = env_of(env);
    if (e == NULL) return CQ_MISUSED;
    *discarded = met(e, thread) != NULL && first_own(met(e, thread), e->place) != NULL && throw_first(met(e, thread), e->place);
    return CQ_OK;
}

uint32_t model_collect_cancelled(cq_env *env, uint32_t thread, cq_answer *answer, cq_frame *frames, size_t room) {
    m_env *e = env_of(env);
    if (e == NULL) return CQ_MISUSED;
    m_thread *t = met(e, thread);
    posted *call = t == NULL ? NULL : first_own(t, e->place);
    if (t == NULL || !has_given_up(t, e->place)) return CQ_NONE;
    if (call == NULL || !call->done) return CQ_WAITING;
    uint32_t code = call->code;
    answer->ticket = call->ticket;
    write_answer(call, answer, frames, room);
    take_out(t, call);
    free_call(call);
    return code;
}

uint32_t model_out_at(cq_env *env, uint32_t thread, uint32_t *count) {
    m_env *e = env_of(env);
    if (e == NULL) return CQ_MISUSED;
    *count = met(e, thread) != NULL ? outs(met(e, thread), e->place) : 0;
    return CQ_OK;
}

