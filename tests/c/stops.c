/* stops.c: breakpoints, single steps and ends of frames, as one thread makes the calls. The rules are those of JVM TI 11. */
#include "counted_heap.h"
#include "stops.h"

cq_service service;
cq_thread first, second;
cq_env env, other;

void begin(void) {
    static const cq_line_entry table[] = { { 0, 3 }, { 4, 5 } };
    static const cq_method_strings methods[] = {
        { .name = "table", .lines = table, .line_count = 2, .lines_kind = CQ_LINES_TABLE },
        { .name = "lines", .lines_kind = CQ_LINES_LOCATIONS },
        { .name = "sleep", .lines_kind = CQ_LINES_NATIVE },
        { .name = "unknown" },
    };
    uint32_t class_no, method;
    OK(cq_make(8, 2, 4, CQ_CAN_SUSPEND | CQ_CAN_POP_FRAME, &service));
    OK(cq_define_class_strings(&service, "LStops;", NULL, methods, 4, &class_no, &method));
    SAME(method, TABLE);
    OK(cq_attach_thread(&service, (const uint8_t *)"first", 5, 5, &first));
    OK(cq_attach_thread(&service, (const uint8_t *)"second", 6, 5, &second));
    OK(cq_attach_environment(&service, &env));
    OK(cq_attach_environment(&service, &other));
    OK(cq_meet(&env));
    OK(cq_meet(&other));
}

void finish(void) {
    OK(cq_detach_thread(&first));
    OK(cq_detach_thread(&second));
    MAYBE(cq_dispose_environment(&env));
    MAYBE(cq_dispose_environment(&other));
    OK(cq_free(&service));
    SAME(heap_blocks(), 0);
}

/* Whether the thread stops at this place. */
static bool stops_at(cq_thread *thread, uint32_t method, uint32_t location) {
    bool stops = false, is_stopped = false;
    OK(cq_reached(thread, method, location, &stops));
    OK(cq_is_stopped(thread, &is_stopped));
    SAME(is_stopped, stops);
    return stops;
}

static bool stops_leaving(cq_thread *thread, uint32_t frames) {
    bool stops = false;
    OK(cq_leaves(thread, TABLE, 4, frames, &stops));
    return stops;
}

static bool is_stopped(cq_thread *thread) {
    bool stops = true;
    OK(cq_is_stopped(thread, &stops));
    return stops;
}

/* The next stop of an environment is this one. */
static void check_next(cq_env *by, uint32_t thread, uint32_t method, int64_t location, uint32_t why) {
    cq_stop stop = { 9, 9, 9, 9 };
    OK(cq_next_stop(by, &stop));
    SAME(stop.thread, thread);
    SAME(stop.method, method);
    SAME(stop.location, location);
    SAME(stop.why, why);
}

static void check_no_next(cq_env *by) {
    cq_stop stop = { 9, 9, 9, 9 };
    SAME(cq_next_stop(by, &stop), CQ_NONE);
    SAME(stop.thread + stop.method + (uint64_t)stop.location + stop.why, 36);
}

/* Whether the thread may have to stop in one of so many methods. */
static bool may_stop_in(cq_thread *thread, uint32_t method, uint32_t count) {
    bool may = false;
    OK(cq_may_stop_in(thread, method, count, &may));
    return may;
}

static void enable(cq_env *by, uint32_t kind, uint32_t thread) {
    OK(cq_set_stop_notification_mode(by, true, kind, thread));
}

static void disable(cq_env *by, uint32_t kind, uint32_t thread) {
    OK(cq_set_stop_notification_mode(by, false, kind, thread));
}

/* Breakpoints are set once, and only where there can be one. */
static void check_breakpoints(void) {
    SAME(cq_set_breakpoint(&env, 4, 0), CQ_INVALID_METHODID);
    SAME(cq_clear_breakpoint(&env, 4, 0), CQ_INVALID_METHODID);
    SAME(cq_set_breakpoint(&env, TABLE, 1), CQ_INVALID_LOCATION);
    SAME(cq_clear_breakpoint(&env, TABLE, 1), CQ_INVALID_LOCATION);
    SAME(cq_set_breakpoint(&env, NATIVE, 0), CQ_INVALID_LOCATION);
    OK(cq_set_breakpoint(&env, TABLE, 4));
    SAME(cq_set_breakpoint(&env, TABLE, 4), CQ_DUPLICATE);
    OK(cq_set_breakpoint(&env, LINES, UINT32_MAX));
    OK(cq_set_breakpoint(&env, UNKNOWN, 17));
    SAME(cq_clear_breakpoint(&other, TABLE, 4), CQ_NOT_FOUND);
    OK(cq_set_breakpoint(&other, TABLE, 4));
    OK(cq_clear_breakpoint(&other, TABLE, 4));
    SAME(cq_clear_breakpoint(&env, TABLE, 0), CQ_NOT_FOUND);
    OK(cq_clear_breakpoint(&env, UNKNOWN, 17));
    SAME(cq_clear_breakpoint(&env, UNKNOWN, 17), CQ_NOT_FOUND);
}

/* A thread asks by one load, and stops only for those who are told. */
static void check_hits(void) {
    begin();
    CHECK(cq_may_stop(&first));
    CHECK(!stops_at(&first, TABLE, 4));
    CHECK(!cq_may_stop(&first));
    check_breakpoints();
    CHECK(!stops_at(&first, TABLE, 4));
    CHECK(!cq_may_stop(&first));
    enable(&env, CQ_BREAKPOINT, CQ_ALL_THREADS);
    CHECK(cq_may_stop(&first));
    CHECK(!stops_at(&first, TABLE, 0));
    CHECK(cq_may_stop(&first));
    CHECK(stops_at(&first, TABLE, 4));
    CHECK(!is_stopped(&second));
    SAME(cq_end_stop(&env, 0), CQ_THREAD_NOT_SUSPENDED);
    check_no_next(&other);
    check_next(&env, 0, TABLE, 4, CQ_STOP_BREAKPOINT);
    check_no_next(&env);
    SAME(cq_end_stop(&env, 1), CQ_THREAD_NOT_SUSPENDED);
    SAME(cq_end_stop(&other, 0), CQ_THREAD_NOT_SUSPENDED);
    CHECK(is_stopped(&first));
    OK(cq_end_stop(&env, 0));
    CHECK(!is_stopped(&first));
    SAME(cq_end_stop(&env, 0), CQ_THREAD_NOT_SUSPENDED);
    disable(&env, CQ_BREAKPOINT, CQ_ALL_THREADS);
    CHECK(!stops_at(&first, TABLE, 4));
    CHECK(!cq_may_stop(&first));
    finish();
}

/* A thread stops until each environment that is told has ended it. */
static void check_two(void) {
    begin();
    OK(cq_set_breakpoint(&env, TABLE, 4));
    OK(cq_set_breakpoint(&other, TABLE, 4));
    enable(&env, CQ_BREAKPOINT, CQ_ALL_THREADS);
    enable(&other, CQ_BREAKPOINT, 1);
    CHECK(stops_at(&first, TABLE, 4));
    CHECK(stops_at(&second, TABLE, 4));
    check_next(&env, 0, TABLE, 4, CQ_STOP_BREAKPOINT);
    check_next(&env, 1, TABLE, 4, CQ_STOP_BREAKPOINT);
    check_no_next(&env);
    OK(cq_end_stop(&env, 1));
    CHECK(is_stopped(&second));
    check_next(&other, 1, TABLE, 4, CQ_STOP_BREAKPOINT);
    check_no_next(&other);
    CHECK(is_stopped(&second));
    OK(cq_end_stop(&other, 1));
    CHECK(!is_stopped(&second));
    CHECK(is_stopped(&first));
    OK(cq_end_stop(&env, 0));
    CHECK(!is_stopped(&first));
    finish();
}

/* A thread steps for those who want it to, also where there is a breakpoint. */
static void check_steps(void) {
    begin();
    enable(&env, CQ_SINGLE_STEP, 1);
    enable(&env, CQ_SINGLE_STEP, 1);
    OK(cq_set_breakpoint(&env, LINES, 7));
    CHECK(!stops_at(&first, LINES, 7));
    CHECK(stops_at(&second, LINES, 7));
    check_next(&env, 1, LINES, 7, CQ_STOP_SINGLE_STEP);
    check_no_next(&env);
    OK(cq_end_stop(&env, 1));
    enable(&env, CQ_BREAKPOINT, 1);
    CHECK(stops_at(&second, LINES, 7));
    check_next(&env, 1, LINES, 7, CQ_STOP_SINGLE_STEP | CQ_STOP_BREAKPOINT);
    OK(cq_end_stop(&env, 1));
    disable(&env, CQ_SINGLE_STEP, CQ_ALL_THREADS);
    CHECK(stops_at(&second, LINES, 8));
    check_next(&env, 1, LINES, 8, CQ_STOP_SINGLE_STEP);
    OK(cq_end_stop(&env, 1));
    disable(&env, CQ_SINGLE_STEP, 1);
    CHECK(!stops_at(&second, LINES, 8));
    finish();
}

/* The end of a frame is told once. */
static void check_pops(void) {
    begin();
    OK(cq_notify_frame_pop(&env, 0, 2));
    SAME(cq_notify_frame_pop(&env, 0, 2), CQ_DUPLICATE);
    OK(cq_notify_frame_pop(&other, 0, 2));
    OK(cq_notify_frame_pop(&env, 1, 3));
    CHECK(!stops_leaving(&first, 2));
    enable(&env, CQ_FRAME_POP, CQ_ALL_THREADS);
    CHECK(!stops_leaving(&first, 3));
    CHECK(stops_leaving(&first, 2));
    check_next(&env, 0, TABLE, 4, CQ_STOP_FRAME_POP);
    check_no_next(&other);
    OK(cq_end_stop(&env, 0));
    CHECK(!stops_leaving(&first, 2));
    CHECK(stops_leaving(&second, 1));
    check_next(&env, 1, TABLE, 4, CQ_STOP_FRAME_POP);
    OK(cq_end_stop(&env, 1));
    OK(cq_notify_frame_pop(&env, 0, 2));
    finish();
}

/* What an environment wants ends with it, and is none of the next one's. */
/* A thread may stop in the methods that have a breakpoint of somebody who is told at this thread, and anywhere for a step or a pop. */
static void check_where(void) {
    begin();
    OK(cq_set_breakpoint(&env, LINES, 7));
    CHECK(!may_stop_in(&first, 0, UINT32_MAX));
    enable(&env, CQ_BREAKPOINT, 0);
    CHECK(may_stop_in(&first, LINES, 1));
    CHECK(may_stop_in(&first, 0, UINT32_MAX));
    CHECK(may_stop_in(&first, TABLE, 2));
    CHECK(!may_stop_in(&first, LINES, 0));
    CHECK(!may_stop_in(&first, TABLE, 1));
    CHECK(!may_stop_in(&first, NATIVE, UINT32_MAX));
    CHECK(!may_stop_in(&first, UINT32_MAX, UINT32_MAX));
    CHECK(!may_stop_in(&second, 0, UINT32_MAX));
    disable(&env, CQ_BREAKPOINT, 0);
    enable(&other, CQ_BREAKPOINT, CQ_ALL_THREADS);
    CHECK(!may_stop_in(&first, 0, UINT32_MAX));
    enable(&other, CQ_SINGLE_STEP, 1);
    CHECK(!may_stop_in(&first, 0, UINT32_MAX));
    CHECK(may_stop_in(&second, NATIVE, 1));
    disable(&other, CQ_SINGLE_STEP, 1);
    enable(&other, CQ_FRAME_POP, CQ_ALL_THREADS);
    CHECK(!may_stop_in(&first, 0, UINT32_MAX));
    OK(cq_start(&first));
    OK(cq_enter(&first, TABLE));
    OK(cq_notify_frame_pop(&other, 0, 1));
    CHECK(may_stop_in(&first, NATIVE, 1));
    CHECK(!may_stop_in(&second, 0, UINT32_MAX));
    OK(cq_end(&first));
    finish();
}

/* The version is another after each change, and after no question. */
static void check_version(void) {
    begin();
    uint64_t version = cq_stops_version(&first);
    CHECK(version > 0);
    CHECK(!may_stop_in(&first, 0, UINT32_MAX));
    CHECK(!stops_at(&first, TABLE, 4));
    SAME(cq_stops_version(&first), version);
    SAME(cq_stops_version(&second), version);
    OK(cq_set_breakpoint(&env, TABLE, 4));
    CHECK(cq_stops_version(&first) > version);
    version = cq_stops_version(&first);
    SAME(cq_set_breakpoint(&env, TABLE, 4), CQ_DUPLICATE);
    SAME(cq_stops_version(&first), version);
    enable(&env, CQ_BREAKPOINT, CQ_ALL_THREADS);
    CHECK(cq_stops_version(&second) > version);
    version = cq_stops_version(&first);
    CHECK(stops_at(&first, TABLE, 4));
    CHECK(cq_stops_version(&first) > version);
    version = cq_stops_version(&first);
    check_next(&env, 0, TABLE, 4, CQ_STOP_BREAKPOINT);
    OK(cq_end_stop(&env, 0));
    OK(cq_clear_breakpoint(&env, TABLE, 4));
    CHECK(cq_stops_version(&first) > version);
    finish();
}

static void check_ends(void) {
    begin();
    OK(cq_set_breakpoint(&env, TABLE, 4));
    enable(&env, CQ_BREAKPOINT, CQ_ALL_THREADS);
    CHECK(stops_at(&first, TABLE, 4));
    check_next(&env, 0, TABLE, 4, CQ_STOP_BREAKPOINT);
    CHECK(stops_at(&second, TABLE, 4));
    OK(cq_dispose_environment(&env));
    CHECK(!is_stopped(&first));
    CHECK(!is_stopped(&second));
    CHECK(!stops_at(&first, TABLE, 4));
    CHECK(!cq_may_stop(&first));
    OK(cq_attach_environment(&service, &env));
    check_no_next(&env);
    enable(&env, CQ_BREAKPOINT, CQ_ALL_THREADS);
    CHECK(!stops_at(&first, TABLE, 4));
    OK(cq_set_breakpoint(&env, TABLE, 4));
    finish();
}

/* A thread that was given back stops for nobody. */
static void check_given_back(void) {
    begin();
    enable(&env, CQ_SINGLE_STEP, CQ_ALL_THREADS);
    CHECK(stops_at(&first, LINES, 1));
    CHECK(stops_at(&second, LINES, 2));
    OK(cq_detach_thread(&first));
    check_next(&env, 1, LINES, 2, CQ_STOP_SINGLE_STEP);
    check_no_next(&env);
    OK(cq_attach_thread(&service, (const uint8_t *)"third", 5, 5, &first));
    finish();
}

/* What is wrong changes nothing. */
static void check_wrong(void) {
    begin();
    cq_thread no_thread = { 0 };
    cq_env no_env = { 0 };
    cq_stop stop = { 9, 9, 9, 9 };
    bool stops = true;
    CHECK(!cq_may_stop(&no_thread));
    SAME(cq_stops_version(&no_thread), 0);
    SAME(cq_may_stop_in(&no_thread, 0, UINT32_MAX, &stops), CQ_MISUSED);
    SAME(cq_reached(&no_thread, TABLE, 4, &stops), CQ_MISUSED);
    SAME(cq_leaves(&no_thread, TABLE, 4, 1, &stops), CQ_MISUSED);
    SAME(cq_is_stopped(&no_thread, &stops), CQ_MISUSED);
    CHECK(stops);
    SAME(cq_set_breakpoint(&no_env, TABLE, 4), CQ_MISUSED);
    SAME(cq_clear_breakpoint(&no_env, TABLE, 4), CQ_MISUSED);
    SAME(cq_set_stop_notification_mode(&no_env, true, 0, 0), CQ_MISUSED);
    SAME(cq_set_stop_notification_mode(&no_env, true, 3, 0), CQ_MISUSED);
    SAME(cq_notify_frame_pop(&no_env, 0, 1), CQ_MISUSED);
    SAME(cq_next_stop(&no_env, &stop), CQ_MISUSED);
    SAME(stop.thread, 9);
    SAME(cq_end_stop(&no_env, 0), CQ_MISUSED);
    SAME(cq_set_stop_notification_mode(&env, true, 3, 0), CQ_ILLEGAL_ARGUMENT);
    CHECK(!stops_at(&first, LINES, 1));
    CHECK(!cq_may_stop(&first));
    finish();
}

/* Each allocation is refused in turn. What is refused has not taken place. */
static void check_memory(void) {
    for (long blocks = 0;; blocks++) {
        begin();
        CHECK(!stops_at(&first, TABLE, 4));
        long before = heap_refusals();
        heap_refuse_after(blocks);
        uint32_t set = cq_set_breakpoint(&env, TABLE, 4);
        uint32_t enabled = cq_set_stop_notification_mode(&env, true, CQ_BREAKPOINT, CQ_ALL_THREADS);
        uint32_t asked = cq_notify_frame_pop(&env, 0, 1);
        bool stops = false;
        uint32_t reached = cq_reached(&first, TABLE, 4, &stops);
        heap_refuse_after(-1);
        bool refused = heap_refusals() != before;
        CHECK(set == CQ_OK || set == CQ_OUT_OF_MEMORY);
        CHECK(enabled == CQ_OK || enabled == CQ_OUT_OF_MEMORY);
        CHECK(asked == CQ_OK || asked == CQ_OUT_OF_MEMORY);
        SAME(cq_set_breakpoint(&env, TABLE, 4), set == CQ_OK ? CQ_DUPLICATE : CQ_OK);
        SAME(cq_notify_frame_pop(&env, 0, 1), asked == CQ_OK ? CQ_DUPLICATE : CQ_OK);
        CHECK(reached == CQ_OK || reached == CQ_OUT_OF_MEMORY);
        SAME(stops, reached == CQ_OK && set == CQ_OK && enabled == CQ_OK);
        SAME(is_stopped(&first), stops);
        finish();
        if (!refused) {
            CHECK(blocks > 0);
            return;
        }
    }
}

int main(void) {
    check_hits();
    check_two();
    check_steps();
    check_pops();
    check_where();
    check_version();
    check_ends();
    check_given_back();
    check_wrong();
    check_memory();
    check_threads();
    return 0;
}
