/* An interpreter on one thread of the operating system, and a tool on another that asks for its count, state and trace.
 */
#include "check.h"

#include <pthread.h>
#include <sched.h>
#include <stdatomic.h>

static cq_signal signal_of_all;
static cq_thread thread;
static cq_env env;
static atomic_bool ready, over;

static void *interpreter(void *unused) {
    OK(cq_wait_start(&thread, &signal_of_all, -1));
    OK(cq_enter(&thread, 1));
    OK(cq_at(&thread, 17));
    OK(cq_enter(&thread, 2));
    OK(cq_enter_native(&thread, 3));
    atomic_store(&ready, true);
    while (!atomic_load(&over)) {
        OK(cq_wait_poll(&thread, &signal_of_all));
        sched_yield();
    }
    OK(cq_leave(&thread));
    OK(cq_wait_end(&thread, &signal_of_all));
    return unused;
}

static void *tool(void *text) {
    uint32_t count, state;
    cq_frame frames[8];
    char *at = text;
    while (!atomic_load(&ready)) {
        sched_yield();
    }
    OK(cq_wait_meet(&env, &signal_of_all));
    OK(cq_wait_get_frame_count(&env, &signal_of_all, 0, -1, &count));
    at += sprintf(at, "count %" PRIu32 "\n", count);
    OK(cq_wait_get_thread_state(&env, &signal_of_all, 0, -1, &state));
    at += sprintf(at, "state 0x%" PRIx32 "\n", state);
    OK(cq_wait_get_stack_trace(&env, &signal_of_all, 0, 0, 8, -1, frames, 8, &count));
    at += sprintf(at, "trace");
    for (uint32_t i = 0; i < count; i++) {
        at += sprintf(at, " %" PRIu32 "@%" PRId64, frames[i].method, frames[i].location);
    }
    sprintf(at, "\n");
    atomic_store(&over, true);
    return NULL;
}

int main(void) {
    static const char WANTED[] = "count 3\nstate 0x5\ntrace 3@-1 2@0 1@17\n";
    static char text[400];
    cq_service service = { 0, NULL };
    pthread_t runtime, agent;
    OK(cq_make(16, 1, 8, CQ_CAN_SUSPEND | CQ_CAN_POP_FRAME, &service));
    OK(cq_attach_thread(&service, (const uint8_t *)"main", 4, 5, &thread));
    OK(cq_attach_environment(&service, &env));
    SAME(pthread_create(&runtime, NULL, interpreter, NULL), 0);
    SAME(pthread_create(&agent, NULL, tool, text), 0);
    SAME(pthread_join(agent, NULL), 0);
    SAME(pthread_join(runtime, NULL), 0);
    printf("%s", text);
    SAME(strcmp(text, WANTED), 0);
    OK(cq_detach_thread(&thread));
    OK(cq_dispose_environment(&env));
    OK(cq_free(&service));
    return 0;
}
