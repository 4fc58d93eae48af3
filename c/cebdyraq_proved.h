/* cebdyraq_proved.h: what the proved half gives to the C files of the library alone. It is not installed, and the library exports
 * none of it. */
#ifndef CEBDYRAQ_PROVED_H
#define CEBDYRAQ_PROVED_H

#include "cebdyraq_serve.h"
#include "cebdyraq_watch.h"

/* cq_open_door and cq_open_debugger. `version` is what /metrics and debuggers are told, in UTF-8. */
uint32_t cebdyraq_open_door(cq_service *service, const uint8_t *program, size_t length, const uint8_t *version, size_t version_length,
                            uint32_t port, uint64_t now, cq_door *door);
uint32_t cebdyraq_open_debugger(cq_service *service, const uint8_t *program, size_t program_length, const uint8_t *path,
                                size_t path_length, const uint8_t *version, size_t version_length, uint64_t now, cq_door *door);

/* A watch of threads, which is told of each that becomes wanted, and counts its news. A handle of it is the first two members of a
 * cq_watch, and is used by one call at a time, but for the count.
 *
 * If `beside` is a watch, the new one shares its count of news; otherwise it begins a count of its own. CQ_MISUSED 304: `watch` is not
 * empty. CQ_OUT_OF_MEMORY 110. */
uint32_t cebdyraq_open_watch(cq_watch *beside, cq_watch *watch);

/* Empties the handle. */
uint32_t cebdyraq_close_watch(cq_watch *watch);

/* From now on the watch tells of the thread, at once if somebody calls for it now, and any other watch does not. CQ_NOT_RUNNING 204,
 * CQ_BUSY 215, CQ_OUT_OF_MEMORY 110. */
uint32_t cebdyraq_watch_thread(cq_thread *thread, cq_watch *watch);

/* From now on no watch tells that it becomes wanted; one may still tell that it did before. CQ_NOT_RUNNING 204, CQ_BUSY 215. */
uint32_t cebdyraq_unwatch_thread(cq_thread *thread);

/* From now on the watch tells under the number CQ_ALL_THREADS that an environment of the service asks for a stop or no longer does, and
 * any other watch does not. CQ_BUSY 215, CQ_OUT_OF_MEMORY 110. */
uint32_t cebdyraq_watch_stops(cq_service *service, cq_watch *watch);

/* Writes the number of a thread that has become wanted and was not told. CQ_NONE 303: there is none, or the next one is just being
 * entered. Then the count changes once it is. */
uint32_t cebdyraq_next_wanted(cq_watch *watch, uint32_t *thread);

/* Writes where the count of news is. It is there as long as a watch is open that has it. A call that enters a thread into a watch
 * adds one after that, before it returns. */
uint32_t cebdyraq_news_of(cq_watch *watch, uint64_t **news);

#endif
