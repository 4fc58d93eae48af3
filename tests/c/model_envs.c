/* model_envs.c: the environments, but for their calls at threads. */
#include "model_parts.h"

#include <stdlib.h>
#include <string.h>

enum { KEPT_EVENTS = 4096 };

uint32_t model_attach_environment(cq_service *service, cq_env *env) {
    m_service *s = service_of(service);
    if (s == NULL || env->kind != EMPTY) return CQ_MISUSED;
    uint32_t place = 0, clean = 0;
    while (place < s->envs && s->taken[place]) place++;
    while (clean < s->envs && (s->taken[clean] || s->littered[clean])) clean++;
    if (clean < s->envs) place = clean;
    if (place == s->envs) return CQ_FULL;
    s->taken[place] = true;
    s->littered[place] = false;
    s->handles++;
    s->happened++;
    m_env *e = calloc(1, sizeof *e);
    e->service = s;
    e->place = place;
    e->asked = s->happened;
    e->looked = s->happened;
    *env = (cq_env){ AN_ENV, e };
    return CQ_OK;
}

static m_env *asking(cq_env *env) {
    m_env *e = env_of(env);
    if (e != NULL) e->asked = e->service->happened;
    return e;
}

uint32_t model_meet(cq_env *env) {
    m_env *e = asking(env);
    if (e == NULL) return CQ_MISUSED;
    for (uint32_t i = e->known; i < e->service->count; i++) {
        e->service->threads[i]->met[e->place] = e->service->threads[i]->there;
    }
    if (e->known < e->service->count) e->service->happened++;
    e->known = e->service->count;
    e->asked = e->service->happened;
    e->looked = e->service->happened;
    return CQ_OK;
}

void model_has_news(cq_env *env, bool *must_be, bool *may_be) {
    m_env *e = env_of(env);
    *must_be = e != NULL && e->service->happened > e->asked;
    *may_be = e != NULL && e->service->happened > e->looked;
}

uint32_t model_let_go(cq_env *env, uint32_t thread, bool *gone) {
    m_env *e = asking(env);
    if (e == NULL) return CQ_MISUSED;
    m_thread *t = thread < e->known ? e->service->threads[thread] : NULL;
    *gone = t != NULL && !t->there && t->met[e->place] && outs(t, e->place) == 0;
    if (*gone) t->met[e->place] = false;
    return CQ_OK;
}

uint32_t model_let_go_of_all(cq_env *env) {
    m_env *e = asking(env);
    if (e == NULL) return CQ_MISUSED;
    for (uint32_t i = 0; i < e->known; i++) {
        bool gone;
        model_let_go(env, i, &gone);
    }
    return CQ_OK;
}

uint32_t model_get_all_threads(cq_env *env, uint32_t *threads, size_t room, uint64_t *count) {
    m_env *e = asking(env);
    if (e == NULL) return CQ_MISUSED;
    *count = 0;
    for (uint32_t i = 0; i < e->service->count; i++) {
        if (!e->service->threads[i]->there || !is_alive(e->service->threads[i])) continue;
        if (*count < room) threads[*count] = i;
        ++*count;
    }
    return CQ_OK;
}

uint32_t model_get_thread_info(cq_env *env, uint32_t thread, cq_thread_info *info, uint8_t *name, size_t room) {
    m_env *e = asking(env);
    if (e == NULL) return CQ_MISUSED;
    if (thread >= e->service->count) return CQ_INVALID_THREAD;
    m_thread *t = e->service->threads[thread];
    if (!t->there) return CQ_THREAD_NOT_ALIVE;
    info->name_length = t->length;
    info->priority = t->priority;
    memcpy(name, t->name, t->length < room ? t->length : room);
    return CQ_OK;
}

uint32_t model_add_capabilities(cq_env *env, uint32_t capabilities) {
    m_env *e = env_of(env);
    if (e == NULL) return CQ_MISUSED;
    if (capabilities & ~e->service->potential) return CQ_NOT_AVAILABLE;
    e->capabilities |= capabilities;
    e->had |= capabilities;
    return CQ_OK;
}

uint32_t model_relinquish_capabilities(cq_env *env, uint32_t capabilities) {
    m_env *e = env_of(env);
    if (e == NULL) return CQ_MISUSED;
    e->capabilities &= ~capabilities;
    return CQ_OK;
}

uint32_t model_get_capabilities(cq_env *env, uint32_t *capabilities) {
    m_env *e = env_of(env);
    if (e == NULL) return CQ_MISUSED;
    *capabilities = e->capabilities;
    return CQ_OK;
}

uint32_t model_get_potential_capabilities(cq_env *env, uint32_t *capabilities) {
    m_env *e = env_of(env);
    if (e == NULL) return CQ_MISUSED;
    *capabilities = e->service->potential;
    return CQ_OK;
}

uint32_t model_get_environment_local_storage(cq_env *env, uint64_t *word) {
    m_env *e = env_of(env);
    if (e == NULL) return CQ_MISUSED;
    *word = e->word;
    return CQ_OK;
}

uint32_t model_set_environment_local_storage(cq_env *env, uint64_t word) {
    m_env *e = env_of(env);
    if (e == NULL) return CQ_MISUSED;
    e->word = word;
    return CQ_OK;
}

/* The model has no classes, so no event of theirs. */
uint32_t model_set_event_notification_mode(cq_env *env, bool enabled, uint32_t kind) {
    m_env *e = asking(env);
    if (e == NULL) return CQ_MISUSED;
    if (kind > CQ_THREAD_DETACHED) return CQ_ILLEGAL_ARGUMENT;
    if (enabled && !e->is_told[kind]) e->told_since[kind] = e->service->event_count;
    e->is_told[kind] = enabled;
    return CQ_OK;
}

/* The first index from which on an environment may be told an event of a thread. None if all their kinds are disabled. */
static uint64_t first_told(const m_env *e) {
    uint64_t first = UINT64_MAX;
    for (uint32_t kind = CQ_THREAD_START; kind <= CQ_THREAD_DETACHED; kind++) {
        if (kind != CQ_CLASS_PREPARE && e->is_told[kind] && e->told_since[kind] < first) first = e->told_since[kind];
    }
    return first != UINT64_MAX && first < e->next_event ? e->next_event : first;
}

uint32_t model_next_event(cq_env *env, cq_event *event) {
    m_env *e = asking(env);
    if (e == NULL) return CQ_MISUSED;
    m_service *s = e->service;
    uint64_t from = first_told(e);
    if (from == UINT64_MAX) return CQ_NONE;
    uint64_t kept = s->event_count > KEPT_EVENTS ? s->event_count - KEPT_EVENTS : 0;
    uint64_t lost = from < kept ? kept - from : 0;
    for (uint64_t i = from + lost; i < s->event_count; i++) {
        uint32_t kind = s->events[i].kind;
        if (e->is_told[kind] && e->told_since[kind] <= i) {
            *event = s->events[i];
            event->lost = lost;
            e->next_event = i + 1;
            return CQ_OK;
        }
    }
    if (lost == 0) e->next_event = s->event_count;
    return CQ_NONE;
}

/* Whether none of the environment's calls is out at a thread any more. They are cancelled. */
static bool settles(m_thread *t, uint32_t place) {
    if (outs(t, place) == 0) return true;
    give_up_all(t, place);
    while (throw_first(t, place)) { }
    return outs(t, place) == 0;
}

uint32_t model_dispose_environment(cq_env *env) {
    m_env *e = env_of(env);
    if (e == NULL) return CQ_MISUSED;
    for (uint32_t i = e->service->count; i-- > 0;) {
        m_thread *t = e->service->threads[i];
        if (t->met[e->place] && !settles(t, e->place) && e->had) return CQ_BUSY;
    }
    for (uint32_t i = 0; i < e->service->count; i++) {
        m_thread *t = e->service->threads[i];
        if (!t->met[e->place]) continue;
        leave_all(t, e->place);
        if (t->there && outs(t, e->place) > 0) e->service->littered[e->place] = true;
        t->words[e->place] = 0;
        t->met[e->place] = false;
    }
    e->service->taken[e->place] = false;
    e->service->happened++;
    let_go_of_service(e->service);
    free_trace(&e->trace);
    free(e);
    *env = (cq_env){ EMPTY, NULL };
    return CQ_OK;
}
