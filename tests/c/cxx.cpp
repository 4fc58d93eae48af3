// The headers are C++ as well.
#include "../../c/cebdyraq.h"
#include "../../c/cebdyraq_wait.h"

#include <cstdio>

int main() {
    cq_service service{};
    if (cq_make(4, 1, 1, CQ_CAN_SUSPEND | CQ_CAN_POP_FRAME, &service) != CQ_OK || cq_free(&service) != CQ_OK) {
        return 1;
    }
    cq_signal signal{};
    cq_wake(&signal);
    std::puts("made and freed");
    return 0;
}
