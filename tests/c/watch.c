/* watch.c: watches, in one thread of the operating system: what is told, and each code. CQ_BUSY needs two of them (watch_threads.c). */
#define _GNU_SOURCE
#include "watch.h"
#include "counted_heap.h"

#include <errno.h>
#include <sys/resource.h>

cq_service service;
cq_thread threads[THREADS];
cq_env env, other;
cq_watch watch;

/* ------------------------------------------------------------------------------------------------------------------
 * Steps.
 */

static void attach_env(cq_env *to) {
    OK(cq_attach_environment(&service, to));
    OK(cq_add_capabilities(to, CQ_CAN_SUSPEND | CQ_CAN_POP_FRAME));
    OK(cq_meet(to));
}

void begin(void) {
    OK(cq_make(8, 4, 8, CQ_CAN_SUSPEND | CQ_CAN_POP_FRAME, &service));
    OK(cq_open_watch(&watch));
    for (uint32_t i = 0; i < THREADS; i++) {
        OK(cq_attach_thread(&service, (const uint8_t *)"thread", 6, 5, &threads[i]));
        OK(cq_start(&threads[i]));
        OK(cq_enter(&threads[i], 7));
        OK(cq_watch_thread(&threads[i], &watch));
    }
    attach_env(&env);
    attach_env(&other);
}

void end(void) {
    tells_nothing(&watch);
    for (uint32_t i = 0; i < THREADS; i++) {
        if (i == 1) OK(cq_close_watch(&watch));
        CHECK(cq_poll_clear(&threads[i]));
        OK(cq_end(&threads[i]));
        OK(cq_detach_thread(&threads[i]));
    }
    OK(cq_dispose_environment(&env));
    OK(cq_dispose_environment(&other));
    OK(cq_free(&service));
}

void call(uint32_t thread) {
    cq_answer answer;
    SAME(cq_get_frame_count(&env, thread, &answer), CQ_WAITING);
    OK(cq_cancel(&env, &answer.ticket));
}

void hand_over(uint32_t thread) {
    bool discarded = true;
    OK(cq_poll(&threads[thread]));
    while (discarded) OK(cq_discard(&env, thread, &discarded));
    uint32_t out = 7;
    OK(cq_out_at(&env, thread, &out));
    SAME(out, 0);
}

void tells(cq_watch *from, size_t count, const uint32_t *wanted) {
    uint32_t told[THREADS + 1] = { 0 };
    uint64_t found = 77;
    OK(cq_next_wanted(from, told, THREADS + 1, &found));
    SAME(found, count);
    for (size_t i = 0; i < count; i++) {
        size_t times = 0;
        for (size_t j = 0; j < count; j++) times += told[j] == wanted[i];
        SAME(times, 1);
    }
    tells_nothing(from);
}

void tells_nothing(cq_watch *from) {
    uint32_t told = 77;
    uint64_t found = 77;
    SAME(cq_next_wanted(from, &told, 1, &found), CQ_NONE);
    SAME(told, 77);
    SAME(found, 77);
}

void may_tell(cq_watch *from, uint32_t thread) {
    uint32_t told = thread;
    uint64_t found = 0;
    MAYBE(cq_next_wanted(from, &told, 1, &found));
    SAME(told, thread);
    tells_nothing(from);
}

/* ------------------------------------------------------------------------------------------------------------------
 * Codes.
 */

static bool is_zeros(const cq_watch *one) {
    static const cq_watch none;
    return memcmp(one, &none, sizeof none) == 0;
}

static void tells_misuse(void) {
    cq_watch none = { 0 };
    cq_thread nobody = { 0 };
    uint32_t told = 77;
    uint64_t count = 77;
    int32_t fd = 77;
    SAME(cq_open_watch(&watch), CQ_MISUSED);
    SAME(cq_close_watch(&none), CQ_MISUSED);
    SAME(cq_watch_thread(&threads[0], &none), CQ_MISUSED);
    SAME(cq_watch_thread(&nobody, &watch), CQ_MISUSED);
    SAME(cq_watch_thread((cq_thread *)&env, &watch), CQ_MISUSED);
    SAME(cq_unwatch_thread(&nobody), CQ_MISUSED);
    SAME(cq_next_wanted(&none, &told, 0, &count), CQ_MISUSED);
    SAME(cq_wait_next_wanted(&none, -1, &told, 0, &count), CQ_MISUSED);
    SAME(cq_watch_fd(&none, &fd), CQ_MISUSED);
    CHECK(is_zeros(&none) && nobody.kind == 0 && nobody.at == NULL);
    call(0);
    SAME(cq_next_wanted(&watch, &told, 0, &count), CQ_ILLEGAL_ARGUMENT);
    SAME(cq_wait_next_wanted(&watch, -1, &told, 0, &count), CQ_ILLEGAL_ARGUMENT);
    SAME(told, 77);
    SAME(count, 77);
    SAME(fd, 77);
    TELLS(&watch, 0);
    hand_over(0);
}

/* A thread is watched while it runs, and stays watched while it does not. */
static void wants_a_thread_that_runs(void) {
    cq_thread fresh = { 0 };
    OK(cq_attach_thread(&service, (const uint8_t *)"", 0, 5, &fresh));
    SAME(cq_watch_thread(&fresh, &watch), CQ_NOT_RUNNING);
    SAME(cq_unwatch_thread(&fresh), CQ_NOT_RUNNING);
    OK(cq_detach_thread(&fresh));
    OK(cq_block(&threads[0], CQ_PARK));
    SAME(cq_watch_thread(&threads[0], &watch), CQ_NOT_RUNNING);
    SAME(cq_unwatch_thread(&threads[0]), CQ_NOT_RUNNING);
    OK(cq_back(&threads[0]));
    call(0);
    TELLS(&watch, 0);
    hand_over(0);
}

static void is_opened_again(void) {
    cq_watch another = { 0 };
    for (int i = 0; i < 3; i++) {
        OK(cq_open_watch(&another));
        SAME(cq_open_watch(&another), CQ_MISUSED);
        OK(cq_watch_thread(&threads[1], &another));
        call(1);
        TELLS(&another, 1);
        hand_over(1);
        OK(cq_close_watch(&another));
        SAME(cq_close_watch(&another), CQ_MISUSED);
        CHECK(is_zeros(&another));
    }
    call(1);
    tells_nothing(&watch);
    OK(cq_watch_thread(&threads[1], &watch));
    TELLS(&watch, 1);
    hand_over(1);
}

/* Nothing changes when there is no memory. */
static void lacks_memory(void) {
    cq_watch another = { 0 };
    long blocks = heap_blocks();
    uint32_t code = CQ_OUT_OF_MEMORY;
    for (long most = 0; code != CQ_OK; most++) {
        heap_refuse_after(most);
        code = cq_open_watch(&another);
        heap_refuse_after(-1);
        if (code == CQ_OK) break;
        SAME(code, CQ_OUT_OF_MEMORY);
        CHECK(is_zeros(&another));
        SAME(heap_blocks(), blocks);
    }
    code = CQ_OUT_OF_MEMORY;
    for (long most = 0; code != CQ_OK; most++) {
        heap_refuse_after(most);
        code = cq_watch_thread(&threads[2], &another);
        heap_refuse_after(-1);
        if (code == CQ_OK) break;
        SAME(code, CQ_OUT_OF_MEMORY);
        call(2);
        tells_nothing(&another);
        TELLS(&watch, 2);
        hand_over(2);
    }
    call(2);
    TELLS(&another, 2);
    hand_over(2);
    OK(cq_watch_thread(&threads[2], &watch));
    code = CQ_OUT_OF_MEMORY;
    for (long most = 0; code != CQ_OK; most++) {
        heap_refuse_after(most);
        code = cq_watch_stops(&service, &another);
        heap_refuse_after(-1);
        CHECK(code == CQ_OK || code == CQ_OUT_OF_MEMORY);
    }
    OK(cq_close_watch(&another));
}

/* The first watch of all needs more. */
static void lacks_memory_at_first(void) {
    cq_watch first = { 0 };
    long blocks = heap_blocks();
    uint32_t code = CQ_OUT_OF_MEMORY;
    for (long most = 0; code != CQ_OK; most++) {
        heap_refuse_after(most);
        code = cq_open_watch(&first);
        heap_refuse_after(-1);
        CHECK(code == CQ_OK || code == CQ_OUT_OF_MEMORY);
        if (code != CQ_OK) SAME(heap_blocks(), blocks);
    }
    OK(cq_close_watch(&first));
    SAME(heap_blocks(), blocks);
}

/* The system has no more files. */
static void lacks_files(void) {
    struct rlimit limit, none;
    int32_t fd = 77;
    SAME(getrlimit(RLIMIT_NOFILE, &limit), 0);
    none = limit;
    none.rlim_cur = 0;
    SAME(setrlimit(RLIMIT_NOFILE, &none), 0);
    SAME(cq_watch_fd(&watch, &fd), CQ_SYSTEM);
    SAME(errno, EMFILE);
    SAME(fd, 77);
    SAME(setrlimit(RLIMIT_NOFILE, &limit), 0);
    call(0);
    TELLS(&watch, 0);
    hand_over(0);
}

int main(void) {
    lacks_memory_at_first();
    long blocks = heap_blocks();
    begin();
    tells_misuse();
    wants_a_thread_that_runs();
    is_opened_again();
    lacks_memory();
    lacks_files();
    end();
    SAME(heap_blocks(), blocks);
    tells_what_is_wanted();
    SAME(heap_blocks(), blocks);
    wakes_others();
    SAME(heap_blocks(), blocks);
}
