/* model.c: the service and its threads. */
#include "model_parts.h"

#include <stdlib.h>
#include <string.h>

m_service *service_of(const cq_service *handle) { return handle->kind == A_SERVICE ? handle->at : NULL; }
m_thread *thread_of(const cq_thread *handle) { return handle->kind == A_THREAD ? handle->at : NULL; }
m_env *env_of(const cq_env *handle) {
    m_env *e = handle->kind == AN_ENV ? handle->at : NULL;
    return e != NULL && e->trace.phase == NO_TRACE ? e : NULL;
}

static void free_thread(m_thread *thread) {
    while (thread->calls != NULL) {
        posted *call = thread->calls;
        thread->calls = call->next;
        free_call(call);
    }
    free(thread->name);
    free(thread->frames);
    free(thread);
}

void let_go_of_service(m_service *service) {
    if (--service->handles > 0) {
        return;
    }
    for (uint32_t i = 0; i < service->count; i++) {
        free_thread(service->threads[i]);
    }
    free(service->threads);
    free(service->events);
    free(service);
}

uint32_t model_make(uint32_t depth, uint32_t envs, uint32_t window, uint32_t capabilities, cq_service *service) {
    if (service->kind != EMPTY) return CQ_MISUSED;
    if (depth < 1 || depth > 65536 || envs < 1 || envs > 32 || window < 1 || window > 1024) return CQ_ILLEGAL_ARGUMENT;
    if (capabilities > 3) return CQ_NOT_AVAILABLE;
    m_service *made = calloc(1, sizeof *made);
    made->handles = 1;
    made->depth = depth;
    made->envs = envs;
    made->window = window;
    made->potential = capabilities;
    *service = (cq_service){ A_SERVICE, made };
    return CQ_OK;
}

uint32_t model_share(cq_service *service, cq_service *other) {
    m_service *s = service_of(service);
    if (s == NULL || other->kind != EMPTY) return CQ_MISUSED;
    s->handles++;
    *other = *service;
    return CQ_OK;
}

uint32_t model_free(cq_service *service) {
    m_service *s = service_of(service);
    if (s == NULL) return CQ_MISUSED;
    let_go_of_service(s);
    *service = (cq_service){ EMPTY, NULL };
    return CQ_OK;
}

/* Whether these bytes are UTF-8 (RFC 3629). */
static bool is_utf8(const uint8_t *bytes, size_t length) {
    for (size_t i = 0; i < length;) {
        uint8_t first = bytes[i++];
        if (first < 0x80) continue;
        int more = first < 0xC2 || first > 0xF4 ? 0 : first <= 0xDF ? 1 : first <= 0xEF ? 2 : 3;
        uint8_t low = first == 0xE0 ? 0xA0 : first == 0xF0 ? 0x90 : 0x80;
        uint8_t high = first == 0xED ? 0x9F : first == 0xF4 ? 0x8F : 0xBF;
        if (more == 0) return false;
        for (; more > 0; more--, low = 0x80, high = 0xBF) {
            if (i == length || bytes[i] < low || bytes[i] > high) return false;
            i++;
        }
    }
    return true;
}

static void add_event(m_service *s, uint32_t kind, uint32_t thread) {
    s->events = realloc(s->events, (s->event_count + 1) * sizeof *s->events);
    s->events[s->event_count++] = (cq_event){ kind, thread, 0 };
    s->happened++;
}

uint32_t model_attach_thread(cq_service *service, const uint8_t *name, size_t length, int32_t priority,
                             cq_thread *thread) {
    m_service *s = service_of(service);
    if (s == NULL || thread->kind != EMPTY) return CQ_MISUSED;
    if (!is_utf8(name, length)) return CQ_ILLEGAL_ARGUMENT;
    m_thread *t = calloc(1, sizeof *t);
    t->service = s;
    t->number = s->count;
    t->there = true;
    t->name = malloc(length + 1);
    memcpy(t->name, name, length);
    t->length = length;
    t->priority = priority;
    t->mode = NEW;
    t->stopped_by = NOBODY;
    t->frames = malloc(s->depth * sizeof *t->frames);
    s->threads = realloc(s->threads, (s->count + 1) * sizeof *s->threads);
    s->threads[s->count++] = t;
    s->handles++;
    add_event(s, CQ_THREAD_ATTACHED, t->number);
    *thread = (cq_thread){ A_THREAD, t };
    return CQ_OK;
}

uint32_t model_thread_number(cq_thread *thread, uint32_t *number) {
    m_thread *t = thread_of(thread);
    if (t == NULL) return CQ_MISUSED;
    *number = t->number;
    return CQ_OK;
}

uint32_t model_start(cq_thread *thread) {
    m_thread *t = thread_of(thread);
    if (t == NULL) return CQ_MISUSED;
    if (t->mode != NEW) return CQ_NOT_NEW;
    if (t->stopped_by != NOBODY) return CQ_BARRED;
    t->mode = RUNNING;
    add_event(t->service, CQ_THREAD_START, t->number);
    return CQ_OK;
}

static uint32_t enter(cq_thread *thread, cq_frame frame) {
    m_thread *t = thread_of(thread);
    if (t == NULL) return CQ_MISUSED;
    if (t->mode != RUNNING) return CQ_NOT_RUNNING;
    if (t->count == t->service->depth) return CQ_OVERFLOW;
    t->frames[t->count++] = frame;
    return CQ_OK;
}

uint32_t model_enter(cq_thread *thread, uint32_t method) { return enter(thread, (cq_frame){ method, 0 }); }
uint32_t model_enter_native(cq_thread *thread, uint32_t method) { return enter(thread, (cq_frame){ method, -1 }); }

uint32_t model_at(cq_thread *thread, uint32_t location) {
    m_thread *t = thread_of(thread);
    if (t == NULL) return CQ_MISUSED;
    if (t->mode != RUNNING) return CQ_NOT_RUNNING;
    if (t->count == 0) return CQ_NO_FRAME;
    if (t->frames[t->count - 1].location == -1) return CQ_NOT_JAVA_FRAME;
    t->frames[t->count - 1].location = location;
    return CQ_OK;
}

uint32_t model_leave(cq_thread *thread) {
    m_thread *t = thread_of(thread);
    if (t == NULL) return CQ_MISUSED;
    if (t->mode != RUNNING) return CQ_NOT_RUNNING;
    if (t->count == 0) return CQ_NO_FRAME;
    t->count--;
    return CQ_OK;
}

uint32_t model_set_frames(cq_thread *thread, const cq_frame *frames, size_t count) {
    m_thread *t = thread_of(thread);
    if (t == NULL) return CQ_MISUSED;
    if (t->mode != RUNNING) return CQ_NOT_RUNNING;
    for (size_t i = 0; i < count; i++) {
        if (frames[i].location < -1 || frames[i].location > UINT32_MAX) return CQ_ILLEGAL_ARGUMENT;
    }
    if (t->popped > 0) return CQ_POPPED;
    if (count > t->service->depth) return CQ_OVERFLOW;
    for (size_t i = 0; i < count; i++) {
        t->frames[count - 1 - i] = frames[i];
    }
    t->count = count;
    return CQ_OK;
}

uint32_t model_set_newest_frames(cq_thread *thread, const cq_frame *frames, size_t count, uint64_t *kept) {
    m_thread *t = thread_of(thread);
    size_t most = t != NULL && count > t->service->depth ? t->service->depth : count;
    uint32_t code = model_set_frames(thread, frames, most);
    if (code == CQ_OK) *kept = most;
    return code;
}

uint32_t model_frame_count(cq_thread *thread, uint64_t *count) {
    m_thread *t = thread_of(thread);
    if (t == NULL) return CQ_MISUSED;
    if (t->mode != RUNNING) return CQ_NOT_RUNNING;
    *count = t->count;
    return CQ_OK;
}

uint32_t model_take_pops(cq_thread *thread, uint64_t *count) {
    m_thread *t = thread_of(thread);
    if (t == NULL) return CQ_MISUSED;
    *count = t->popped;
    t->popped = 0;
    return CQ_OK;
}

bool model_poll_clear(cq_thread *thread) {
    m_thread *t = thread_of(thread);
    return t == NULL || t->mode != RUNNING || !is_called_for(t);
}

static bool is_barred(const m_thread *t) { return t->suspended || t->stopped_by != NOBODY; }

static void become_safe(m_thread *t, uint32_t bits) {
    t->mode = SAFE;
    t->bits = bits;
    hand_over(t);
}

static void run_on(m_thread *t) {
    t->mode = RUNNING;
    t->popped += t->popped_away;
    t->popped_away = 0;
}

uint32_t model_poll(cq_thread *thread) {
    m_thread *t = thread_of(thread);
    if (t == NULL) return CQ_MISUSED;
    if (t->mode != RUNNING) return CQ_NOT_RUNNING;
    if (!is_called_for(t)) return CQ_OK;
    become_safe(t, CQ_STATE_ALIVE | CQ_STATE_RUNNABLE);
    if (is_barred(t)) return CQ_HELD;
    run_on(t);
    return CQ_OK;
}

uint32_t model_native(cq_thread *thread) {
    m_thread *t = thread_of(thread);
    if (t == NULL) return CQ_MISUSED;
    if (t->mode != RUNNING) return CQ_NOT_RUNNING;
    if (t->count == 0 || t->frames[t->count - 1].location != -1) return CQ_NO_NATIVE_FRAME;
    become_safe(t, CQ_STATE_ALIVE | CQ_STATE_RUNNABLE | CQ_STATE_IN_NATIVE);
    return CQ_OK;
}

/* The states of JVM TI 11, GetThreadState: a monitor's entry, Object.wait, Thread.sleep and LockSupport.park. */
uint32_t model_block(cq_thread *thread, uint32_t reason) {
    static const uint32_t bits[] = { 0x401, 0x191, 0x1A1, 0xE1, 0x291, 0x2A1 };
    m_thread *t = thread_of(thread);
    if (t == NULL) return CQ_MISUSED;
    if (reason > CQ_TIMED_PARK) return CQ_ILLEGAL_ARGUMENT;
    if (t->mode != RUNNING) return CQ_NOT_RUNNING;
    become_safe(t, bits[reason]);
    return CQ_OK;
}

uint32_t model_back(cq_thread *thread) {
    m_thread *t = thread_of(thread);
    if (t == NULL) return CQ_MISUSED;
    if (t->mode != SAFE) return CQ_NOT_SAFE;
    if (is_barred(t)) return CQ_BARRED;
    run_on(t);
    return CQ_OK;
}

uint32_t model_end(cq_thread *thread) {
    m_thread *t = thread_of(thread);
    if (t == NULL) return CQ_MISUSED;
    if (t->mode != RUNNING) return CQ_NOT_RUNNING;
    t->mode = ENDED;
    add_event(t->service, CQ_THREAD_END, t->number);
    t->count = 0;
    hand_over(t);
    return CQ_OK;
}

uint32_t model_detach_thread(cq_thread *thread) {
    m_thread *t = thread_of(thread);
    if (t == NULL || (t->mode != NEW && t->mode != ENDED)) return CQ_MISUSED;
    t->there = false;
    add_event(t->service, CQ_THREAD_DETACHED, t->number);
    let_go_of_service(t->service);
    *thread = (cq_thread){ EMPTY, NULL };
    return CQ_OK;
}
