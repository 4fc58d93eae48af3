/* cebdyraq_version.c: the version of the library, as it was compiled, and the doors, which tell it. */
#include "cebdyraq_proved.h"

#define QUOTED(number) #number
#define TEXT_OF(major, minor, patch) QUOTED(major) "." QUOTED(minor) "." QUOTED(patch)

static const char version[] = TEXT_OF(CQ_VERSION_MAJOR, CQ_VERSION_MINOR, CQ_VERSION_PATCH);

uint32_t cq_version(void) {
    return CQ_VERSION_MAJOR * 1000000 + CQ_VERSION_MINOR * 1000 + CQ_VERSION_PATCH;
}

uint32_t cq_open_door(cq_service *service, const uint8_t *program, size_t length, uint32_t port, uint64_t now, cq_door *door) {
    return cebdyraq_open_door(service, program, length, (const uint8_t *)version, sizeof version - 1, port, now, door);
}

uint32_t cq_open_debugger(cq_service *service, const uint8_t *program, size_t program_length, const uint8_t *path, size_t path_length,
                          uint64_t now, cq_door *door) {
    return cebdyraq_open_debugger(service, program, program_length, path, path_length, (const uint8_t *)version, sizeof version - 1, now, door);
}
