/* model_traces.c: traces of several threads. */
#include "model_parts.h"

#include <stdlib.h>
#include <string.h>

void free_trace(m_trace *trace) {
    for (size_t i = 0; i < trace->told_count; i++) {
        free(trace->told[i].frames);
    }
    free(trace->told);
    free(trace->stops);
    free(trace->reads);
    *trace = (m_trace){ .phase = NO_TRACE };
}

m_env *gathering_of(const cq_env *handle) {
    m_env *e = handle->kind == AN_ENV ? handle->at : NULL;
    return e != NULL && e->trace.phase != NO_TRACE ? e : NULL;
}

static m_trace *begin(m_env *e, size_t read_count, int32_t max_count, bool alive_only) {
    size_t most = e->service->count + read_count + 1;
    free_trace(&e->trace);
    e->trace = (m_trace){ .phase = STOPPING, .max_count = max_count, .alive_only = alive_only };
    e->trace.stops = malloc(most * sizeof *e->trace.stops);
    e->trace.reads = malloc(most * sizeof *e->trace.reads);
    e->trace.told = malloc(most * sizeof *e->trace.told);
    return &e->trace;
}

uint32_t model_gather_all_stack_traces(cq_env *env, int32_t max_count) {
    m_env *e = env_of(env);
    if (e == NULL) return CQ_MISUSED;
    if (max_count < 0) return CQ_ILLEGAL_ARGUMENT;
    m_trace *trace = begin(e, e->known, max_count, true);
    for (uint32_t i = 0; i < e->known; i++) {
        if (met(e, i) == NULL) continue;
        trace->stops[trace->stop_count++] = met(e, i);
        trace->reads[trace->read_count++] = met(e, i);
    }
    return CQ_OK;
}

static bool is_listed(const uint32_t *threads, size_t count, uint32_t thread) {
    for (size_t i = 0; i < count; i++) {
        if (threads[i] == thread) return true;
    }
    return false;
}

uint32_t model_gather_thread_list_stack_traces(cq_env *env, const uint32_t *threads, size_t count, int32_t max_count) {
    m_env *e = env_of(env);
    if (e == NULL) return CQ_MISUSED;
    for (size_t i = 0; i < count; i++) {
        if (met(e, threads[i]) == NULL) return CQ_INVALID_THREAD;
    }
    if (max_count < 0) return CQ_ILLEGAL_ARGUMENT;
    m_trace *trace = begin(e, count, max_count, false);
    for (uint32_t i = 0; i < e->known; i++) {
        if (is_listed(threads, count, i)) trace->stops[trace->stop_count++] = met(e, i);
    }
    for (size_t i = 0; i < count; i++) {
        trace->reads[trace->read_count++] = met(e, threads[i]);
    }
    return CQ_OK;
}

static uint32_t stop(m_thread *t, uint32_t place) {
    if (t->stopped_by != NOBODY) return CQ_ALREADY_STOPPED;
    t->stopped_by = place;
    return CQ_OK;
}

static void read_one(m_trace *trace, const m_thread *t) {
    size_t most = (size_t)trace->max_count, count = t->count < most ? t->count : most;
    m_told told = { { t->number, state_bits(t), count }, NULL };
    if (trace->alive_only && !is_alive(t)) return;
    told.frames = malloc((count + 1) * sizeof *told.frames);
    for (size_t i = 0; i < count; i++) {
        told.frames[i] = from_newest(t, i);
    }
    trace->told[trace->told_count++] = told;
}

/* One thing at one thread of the phase. */
static uint32_t do_one(m_trace *trace, uint32_t place) {
    m_thread *t = trace->phase == READING ? trace->reads[trace->done] : trace->stops[trace->done];
    switch (trace->phase) {
    case STOPPING: return stop(t, place);
    case SEEING: return t->mode == RUNNING ? CQ_STILL_RUNNING : CQ_OK;
    case READING: read_one(trace, t); return CQ_OK;
    default: t->stopped_by = NOBODY; return CQ_OK;
    }
}

/* How many threads the phase has. */
static size_t size_of(const m_trace *trace) {
    return trace->phase == READING ? trace->read_count : trace->phase == GIVING_UP ? trace->stopped : trace->stop_count;
}

static bool is_last(uint32_t phase) { return phase == LETTING_GO || phase == GIVING_UP; }

uint32_t model_gather_step(cq_env *env, bool *over) {
    m_env *e = gathering_of(env);
    if (e == NULL) return CQ_MISUSED;
    m_trace *trace = &e->trace;
    if (trace->done < size_of(trace)) {
        uint32_t code = do_one(trace, e->place);
        if (code != CQ_OK) return code;
        trace->done++;
    } else if (!is_last(trace->phase)) {
        trace->phase++;
        trace->done = 0;
    }
    *over = is_last(trace->phase) && trace->done == size_of(trace);
    if (*over) {
        trace->is_there = trace->phase == LETTING_GO;
        trace->phase = NO_TRACE;
    }
    return CQ_OK;
}

uint32_t model_gather_give_up(cq_env *env) {
    m_env *e = gathering_of(env);
    if (e == NULL) return CQ_MISUSED;
    if (e->trace.phase != STOPPING && e->trace.phase != SEEING) return CQ_OK;
    e->trace.stopped = e->trace.phase == STOPPING ? e->trace.done : e->trace.stop_count;
    e->trace.phase = GIVING_UP;
    e->trace.done = 0;
    return CQ_OK;
}

uint32_t model_gathered(cq_env *env, uint64_t *count) {
    m_env *e = env_of(env);
    if (e == NULL) return CQ_MISUSED;
    if (!e->trace.is_there) return CQ_NONE;
    *count = e->trace.told_count;
    return CQ_OK;
}

uint32_t model_gathered_stack(cq_env *env, uint64_t index, cq_stack_info *info, cq_frame *frames, size_t room) {
    m_env *e = env_of(env);
    if (e == NULL) return CQ_MISUSED;
    if (!e->trace.is_there) return CQ_NONE;
    if (index >= e->trace.told_count) return CQ_ILLEGAL_ARGUMENT;
    const m_told *told = &e->trace.told[index];
    *info = told->info;
    for (uint64_t i = 0; i < info->frame_count && i < room; i++) frames[i] = told->frames[i];
    return CQ_OK;
}
