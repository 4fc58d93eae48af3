/* nap.c: a wait with a deadline sleeps for no less than its time, and does not use the processor meanwhile.
 *
 * It takes in cebdyraq_wait.c over a service that has no event. Other functions of the service are not there, and not called. */
#include "../../c/cebdyraq_wait.c"

#include <stdio.h>

uint32_t cq_next_event(cq_env *env, cq_event *event) {
    (void)env;
    (void)event;
    return CQ_NONE;
}

static int64_t read_ns(clockid_t clock) {
    struct timespec now;
    clock_gettime(clock, &now);
    return (int64_t)now.tv_sec * 1000000000 + now.tv_nsec;
}

int main(void) {
    enum { TIME = 200000000 };
    cq_env env = { 0 };
    cq_signal signal = { 0 };
    cq_event event;
    int64_t began = read_ns(CLOCK_MONOTONIC), used = read_ns(CLOCK_PROCESS_CPUTIME_ID);
    uint32_t code = cq_wait_next_event(&env, &signal, TIME, &event);
    int64_t lasted = read_ns(CLOCK_MONOTONIC) - began;
    used = read_ns(CLOCK_PROCESS_CPUTIME_ID) - used;
    printf("code %u after %lld us, with %lld us of the processor\n", code, (long long)lasted / 1000, (long long)used / 1000);
    return code != CQ_TIMED_OUT || lasted < TIME || used > TIME / 4;
}
