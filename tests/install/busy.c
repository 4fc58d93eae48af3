/* busy.c: a thread that does nothing but enter and leave, for perf. */
#include <cebdyraq.h>

int main(void) {
    cq_service service = { 0 };
    cq_thread thread = { 0 };
    if (cq_make(4, 1, 1, CQ_CAN_SUSPEND | CQ_CAN_POP_FRAME, &service) || cq_attach_thread(&service, (const uint8_t *)"", 0, 5, &thread) || cq_start(&thread)) {
        return 1;
    }
    for (int i = 0; i < 20000000; i++) {
        if (cq_enter(&thread, 1) || cq_leave(&thread)) return 1;
    }
    return cq_end(&thread) || cq_detach_thread(&thread) || cq_free(&service);
}
