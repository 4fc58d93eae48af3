/* meet_on.c: an environment that lets go of no thread, and meets more than it has room for.
 *
 *     meet_on [ROUNDS]
 *
 * In each round 4,096 threads come, the environment meets them, and they go. With 17 rounds these are more than 65,536. The environment
 * keeps its desk at a thread that is there, and at one that has ended while a call is out there. */
#define _POSIX_C_SOURCE 200809L
#include "check.h"
#include "counted_heap.h"

enum { TOGETHER = 4096, ROOM = 65536, NEW = 0, RUNS = 0x5, ENDED = 0x2 };

static cq_service service;
static cq_env env;
static cq_thread stays, ends, others[TOGETHER];

static void attach(cq_thread *thread) {
    OK(cq_attach_thread(&service, (const uint8_t *)"worker", 6, 5, thread));
}

static void is_in_state(uint32_t thread, uint32_t wanted) {
    cq_answer answer;
    OK(cq_get_thread_state(&env, thread, &answer));
    SAME(answer.number, wanted);
}

static void come_and_go(uint32_t first) {
    for (uint32_t i = 0; i < TOGETHER; i++) attach(&others[i]);
    CHECK(cq_has_news(&env));
    OK(cq_meet(&env));
    CHECK(!cq_has_news(&env));
    is_in_state(first + TOGETHER - 1, NEW);
    for (uint32_t i = 0; i < TOGETHER; i++) OK(cq_detach_thread(&others[i]));
}

int main(int count, char **words) {
    uint32_t rounds = count > 1 ? (uint32_t)strtoul(words[1], NULL, 10) : 17;
    OK(cq_make(1, 1, 2, CQ_CAN_SUSPEND | CQ_CAN_POP_FRAME, &service));
    OK(cq_attach_environment(&service, &env));
    attach(&stays);
    attach(&ends);
    OK(cq_start(&stays));
    OK(cq_start(&ends));
    OK(cq_meet(&env));
    cq_answer out, answer;
    SAME(cq_get_frame_count(&env, 1, &out), CQ_WAITING);
    OK(cq_end(&ends));
    OK(cq_detach_thread(&ends));
    for (uint32_t round = 0; round < rounds; round++) come_and_go(2 + round * TOGETHER);
    is_in_state(0, RUNS);
    is_in_state(1, ENDED);
    SAME(cq_get_thread_state(&env, 2, &answer), rounds * TOGETHER > ROOM ? CQ_THREAD_NOT_ALIVE : CQ_OK);
    cq_frame frame;
    SAME(cq_collect(&env, &out.ticket, &answer, &frame, 1), CQ_THREAD_NOT_ALIVE);
    OK(cq_end(&stays));
    OK(cq_detach_thread(&stays));
    OK(cq_dispose_environment(&env));
    OK(cq_free(&service));
    SAME(heap_blocks(), 0);
    return 0;
}
