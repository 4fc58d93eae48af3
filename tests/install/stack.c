/* stack.c: a call for a debugger to stop in. It waits, so that its stack goes through both halves of the library. */
#include <cebdyraq_wait.h>

#include <stdio.h>

static uint32_t ask(cq_env *env, cq_signal *signal) {
    cq_event event;
    uint32_t code = cq_wait_next_event(env, signal, 0, &event);
    printf("%u\n", code);
    return code;
}

int main(void) {
    cq_env env = { 0 };
    cq_signal signal = { 0 };
    return ask(&env, &signal) == CQ_OK;
}
