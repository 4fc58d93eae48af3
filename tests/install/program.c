/* program.c: what a user's first program does. A thread goes into native code, and an agent sees its stack. */
#include <cebdyraq.h>
#include <cebdyraq_wait.h>

#include <stdio.h>
#include <string.h>

int main(void) {
    cq_service service = { 0 };
    cq_thread thread = { 0 };
    cq_env env = { 0 };
    cq_signal signal = { 0 };
    cq_frame frames[8];
    uint32_t count = 0;
    const char *name = "worker";
    if (!cq_version_fits() || cq_make(8, 1, 1, CQ_CAN_SUSPEND | CQ_CAN_POP_FRAME, &service)
        || cq_wait_attach_thread(&service, &signal, (const uint8_t *)name, strlen(name), 5, &thread)
        || cq_wait_start(&thread, &signal, -1) || cq_enter(&thread, 3) || cq_at(&thread, 17) || cq_enter_native(&thread, 4)
        || cq_wait_native(&thread, &signal) || cq_wait_attach_environment(&service, &signal, &env)
        || cq_wait_meet(&env, &signal) || cq_wait_get_stack_trace(&env, &signal, 0, 0, 8, -1, frames, 8, &count)) {
        return 1;
    }
    for (uint32_t i = 0; i < count; i++) {
        printf("method %u at %lld\n", frames[i].method, (long long)frames[i].location);
    }
    return cq_wait_dispose_environment(&env, &signal) || cq_wait_back(&thread, &signal, -1) || cq_wait_end(&thread, &signal)
        || cq_wait_detach_thread(&thread, &signal) || cq_free(&service);
}
