/* poll_word.c: a thread whose compiled code looks at a word, and calls the library only when somebody calls for it.
 *
 *     poll_word [ROUNDS]
 *
 * First one thread of the operating system does all, and the word is looked at after each call. Then a thread runs and an agent beside
 * it reads its stack, suspends it and resumes it, ROUNDS times. The thread looks at its word alone. */
#define _POSIX_C_SOURCE 200809L
#include "check.h"

#include <pthread.h>

static cq_signal shared;
static cq_service service, service_of_agent;
static cq_thread thread;
static cq_env env;
static const uint64_t *word;
static uint64_t mask;
static uint32_t rounds = 5000;
static bool is_over;
static uint64_t polls;

static bool is_called(void) { return (__atomic_load_n(word, __ATOMIC_RELAXED) & mask) != 0; }

/* The word says what cq_poll_clear says. */
static void check_word(bool called) {
    SAME(is_called(), called);
    SAME(cq_poll_clear(&thread), !called);
}

static void check_one_by_one(void) {
    const uint64_t *other = NULL;
    uint64_t bits = 5;
    cq_answer answer;
    cq_frame frames[2];
    SAME(cq_poll_word(&thread, &other, &bits), CQ_NOT_RUNNING);
    CHECK(other == NULL && bits == 5);
    OK(cq_start(&thread));
    OK(cq_poll_word(&thread, &word, &mask));
    CHECK(word != NULL && mask != 0);
    check_word(false);
    OK(cq_enter(&thread, 7));
    OK(cq_get_thread_state(&env, 0, &answer));
    check_word(false);
    SAME(cq_get_frame_count(&env, 0, &answer), CQ_WAITING);
    check_word(true);
    OK(cq_poll(&thread));
    check_word(false);
    OK(cq_collect(&env, &answer.ticket, &answer, frames, 2));
    SAME(answer.number, 1);
    SAME(cq_suspend_thread(&env, 0, &answer), CQ_WAITING);
    check_word(true);
    SAME(cq_poll(&thread), CQ_HELD);
    CHECK(!is_called());
    SAME(cq_poll_word(&thread, &other, &bits), CQ_NOT_RUNNING);
    CHECK(other == NULL && bits == 5);
    OK(cq_collect(&env, &answer.ticket, &answer, frames, 2));
    OK(cq_resume_thread(&env, 0, &answer));
    OK(cq_back(&thread));
    check_word(false);
    OK(cq_poll_word(&thread, &other, &bits));
    CHECK(other == word && bits == mask);
}

static void *run_compiled(void *of) {
    (void)of;
    while (!__atomic_load_n(&is_over, __ATOMIC_RELAXED)) {
        if (!is_called()) continue;
        polls++;
        OK(cq_wait_poll(&thread, &shared));
    }
    OK(cq_wait_end(&thread, &shared));
    return NULL;
}

/* Each call is answered, though the thread never polls unless its word says so. */
static void check_beside(void) {
    pthread_t id;
    SAME(pthread_create(&id, NULL, run_compiled, NULL), 0);
    for (uint32_t i = 0; i < rounds; i++) {
        cq_frame frames[2];
        uint32_t count = 0;
        OK(cq_wait_get_stack_trace(&env, &shared, 0, 0, 2, -1, frames, 2, &count));
        SAME(count, 1);
        SAME(frames[0].method, 7);
        OK(cq_wait_suspend_thread(&env, &shared, 0, -1));
        OK(cq_wait_get_frame_count(&env, &shared, 0, -1, &count));
        SAME(count, 1);
        OK(cq_wait_resume_thread(&env, &shared, 0, -1));
    }
    __atomic_store_n(&is_over, true, __ATOMIC_RELAXED);
    SAME(pthread_join(id, NULL), 0);
    CHECK(polls > 0 && polls <= 4 * (uint64_t)rounds);
}

int main(int count, char **words) {
    if (count > 1) rounds = (uint32_t)strtoul(words[1], NULL, 10);
    OK(cq_make(2, 1, 2, CQ_CAN_SUSPEND, &service));
    OK(cq_share(&service, &service_of_agent));
    OK(cq_attach_environment(&service_of_agent, &env));
    OK(cq_add_capabilities(&env, CQ_CAN_SUSPEND));
    OK(cq_attach_thread(&service, (const uint8_t *)"compiled", 8, 5, &thread));
    OK(cq_meet(&env));
    check_one_by_one();
    check_beside();
    OK(cq_detach_thread(&thread));
    OK(cq_let_go_of_all(&env));
    bool gone = true;
    OK(cq_let_go(&env, 0, &gone));
    CHECK(!gone);
    OK(cq_wait_dispose_environment(&env, &shared));
    OK(cq_free(&service));
    OK(cq_free(&service_of_agent));
}
