/* calls.c: makes one call, or a few that belong together, again and again: an agent's at a thread in native code, or a running thread's
 * own. `calls.py` counts its instructions.
 *
 *     calls CALL COUNT
 *
 * It tells the nanoseconds that a call took.
 */
#define _POSIX_C_SOURCE 200809L
#include "../tests/c/check.h"

#include <time.h>

enum { CAN_SUSPEND = 1, DEPTH = 32, CHANGED = 2 };

static cq_service service;
static cq_thread thread;
static cq_env env;
static cq_answer answer;
static cq_thread other;   /* whose steps somebody wants, in `steps` */
static cq_signal shared;
static cq_frame frames[DEPTH], read[DEPTH];

static uint32_t none(uint64_t i) {
    (void)i;
    return CQ_OK;
}

static uint32_t state(uint64_t i) {
    (void)i;
    return cq_get_thread_state(&env, 0, &answer);
}

static uint32_t word(uint64_t i) {
    (void)i;
    return cq_get_thread_local_storage(&env, 0, &answer);
}

static uint32_t set_word(uint64_t i) {
    return cq_set_thread_local_storage(&env, 0, i, &answer);
}

/* The thread is not suspended, so it refuses each. */
static uint32_t resume(uint64_t i) {
    (void)i;
    return cq_resume_thread(&env, 0, &answer) == 13 ? CQ_OK : CQ_MISUSED;
}

static uint32_t count(uint64_t i) {
    (void)i;
    return cq_get_frame_count(&env, 0, &answer);
}

/* What a running thread does. */

static uint32_t poll_clear(uint64_t i) {
    (void)i;
    return cq_poll_clear(&thread) ? CQ_OK : CQ_BUSY;
}

static uint32_t poll(uint64_t i) {
    (void)i;
    return cq_poll(&thread);
}

static uint32_t enter_leave(uint64_t i) {
    uint32_t code = cq_enter(&thread, (uint32_t)i & 7);
    return code == CQ_OK ? cq_leave(&thread) : code;
}

static uint32_t native_back(uint64_t i) {
    (void)i;
    uint32_t code = cq_native(&thread);
    return code == CQ_OK ? cq_back(&thread) : code;
}

static uint32_t wait_native_back(uint64_t i) {
    (void)i;
    uint32_t code = cq_wait_native(&thread, &shared);
    return code == CQ_OK ? cq_wait_back(&thread, &shared, -1) : code;
}

static uint32_t set_frames(uint64_t i) {
    for (int k = 0; k < CHANGED; k++) frames[k].location = (int64_t)(i & 0xff);
    return cq_set_frames(&thread, frames, DEPTH);
}

/* A trace of all frames is posted at the running thread, which hands over, and is collected. */
static uint32_t trace(uint64_t i) {
    (void)i;
    uint32_t code = cq_get_stack_trace(&env, 0, 0, DEPTH, &answer, read, DEPTH);
    if (code != CQ_WAITING) return CQ_MISUSED;
    code = cq_poll(&thread);
    return code == CQ_OK ? cq_collect(&env, &answer.ticket, &answer, read, DEPTH) : code;
}

static uint32_t may_stop(uint64_t i) {
    (void)i;
    return cq_may_stop(&thread) ? CQ_MISUSED : CQ_OK;
}

/* Somebody wants another thread's steps. */

static uint32_t reached(uint64_t i) {
    bool stops = true;
    uint32_t code = cq_reached(&thread, 3, (uint32_t)i & 0xff, &stops);
    return stops ? CQ_MISUSED : code;
}

static uint32_t may_stop_in(uint64_t i) {
    bool may = true;
    uint32_t code = cq_may_stop_in(&thread, (uint32_t)i & 7, 4, &may);
    return may ? CQ_MISUSED : code;
}

static uint32_t version(uint64_t i) {
    (void)i;
    return cq_stops_version(&thread) > 0 ? CQ_OK : CQ_MISUSED;
}

/* What has to be so before: the thread is in native code, or it runs, in a native method or not, alone or beside one whose steps somebody
 * wants. */
enum setting { NATIVE, RUNS, RUNS_NATIVE, STEPS };

static const struct {
    const char *name;
    uint32_t (*call)(uint64_t);
    enum setting setting;
} calls[] = {
    {"none", none, NATIVE},           {"state", state, NATIVE},
    {"word", word, NATIVE},           {"set_word", set_word, NATIVE},
    {"resume", resume, NATIVE},       {"count", count, NATIVE},
    {"poll_clear", poll_clear, RUNS}, {"poll", poll, RUNS},
    {"enter_leave", enter_leave, RUNS}, {"native_back", native_back, RUNS_NATIVE},
    {"wait_native_back", wait_native_back, RUNS_NATIVE}, {"set_frames", set_frames, RUNS},
    {"trace", trace, RUNS},           {"may_stop", may_stop, RUNS},
    {"reached", reached, STEPS},      {"may_stop_in", may_stop_in, STEPS},
    {"version", version, STEPS},
};

static void set(enum setting setting) {
    bool stops;
    if (setting == NATIVE) {
        OK(cq_enter_native(&thread, 1));
        OK(cq_native(&thread));
        return;
    }
    for (int i = 0; i < DEPTH; i++) frames[i] = (cq_frame){(uint32_t)i, i};
    OK(cq_set_frames(&thread, frames, DEPTH));
    if (setting == STEPS) {
        OK(cq_attach_thread(&service, (const uint8_t *)"other", 5, 5, &other));
        OK(cq_set_stop_notification_mode(&env, true, CQ_SINGLE_STEP, 1));
    }
    if (setting == RUNS_NATIVE) OK(cq_enter_native(&thread, 1));
    OK(cq_reached(&thread, 3, 0, &stops));
    CHECK(!stops);
}

static double now_ns(void) {
    struct timespec now;
    clock_gettime(CLOCK_MONOTONIC, &now);
    return (double)now.tv_sec * 1e9 + (double)now.tv_nsec;
}

int main(int argc, char **argv) {
    CHECK(argc == 3);
    uint64_t rounds = strtoull(argv[2], NULL, 0);
    OK(cq_make(64, 1, 8, CQ_CAN_SUSPEND | CQ_CAN_POP_FRAME, &service));
    OK(cq_attach_thread(&service, (const uint8_t *)"main", 4, 5, &thread));
    OK(cq_attach_environment(&service, &env));
    OK(cq_meet(&env));
    OK(cq_add_capabilities(&env, CAN_SUSPEND));
    OK(cq_start(&thread));
    for (size_t k = 0; k < sizeof calls / sizeof calls[0]; k++) {
        if (strcmp(calls[k].name, argv[1]) != 0) continue;
        set(calls[k].setting);
        double began = now_ns();
        for (uint64_t i = 0; i < rounds; i++) OK(calls[k].call(i));
        printf("%.1f\n", (now_ns() - began) / (double)rounds);
        return 0;
    }
    return 1;
}
