/* bound.c: a program that has a function of the library's name. The shared library goes on calling its own. */
#include <cebdyraq_wait.h>

uint32_t cq_next_event(cq_env *env, cq_event *event) {
    (void)env;
    (void)event;
    return 77;
}

int main(void) {
    cq_env env = { 0 };
    cq_signal signal = { 0 };
    cq_event event;
    return cq_wait_next_event(&env, &signal, 0, &event) != CQ_MISUSED || cq_next_event(&env, &event) != 77;
}
