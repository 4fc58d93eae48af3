/* cebdyraq_watch.h: which threads are wanted, for a runtime whose threads do not poll by themselves.
 *
 * A thread is wanted while somebody calls for it (cq_poll_clear): a call waits until the thread hands over. An interpreter that polls as it
 * goes finds that out by itself. Other runtimes have to be told: one that interrupts compiled code, or one whose threads run under one
 * lock, so that the thread that holds it hands over for another. A watch tells the numbers of the threads that have become wanted.
 *
 * USE
 *
 * Each thread is watched once it runs (cq_watch_thread). A thread of the runtime's own sleeps in the watch, and passes on what it is told:
 *
 *     while (cq_wait_next_wanted(&watch, -1, threads, ROOM, &count) == CQ_OK)
 *         for (uint64_t i = 0; i < count; i++) request_interrupt(threads[i]);
 *
 * An event loop waits for a file descriptor instead (cq_watch_fd). The thread that finds the request clears it first, and then polls until
 * the poll takes place:
 *
 *     if (is_requested(thread)) {
 *         clear_request(thread);                            // first, since the thread is told once until it has handed over
 *         give_frames(thread);                              // cq_set_frames, if the runtime keeps a stack of its own
 *         do code = cq_poll(&thread->handle); while (code == CQ_BUSY);
 *         cq_wake(&signal);
 *         if (code == CQ_HELD) code = cq_wait_back(&thread->handle, &signal, -1);
 *     }
 *
 * The last three lines are cq_wait_poll.
 *
 * WHAT IS TOLD
 *
 * - A watch tells of a thread once each time that the thread becomes wanted: somebody calls for it, and nobody did before. It does not
 *   matter which function calls, of which environment or door, and on which thread of the operating system.
 * - No thread is missed. A thread that is watched and wanted was told since it became so, or is told next.
 * - A thread that is told may have handed over meanwhile, may have ended, or may be watched no longer. Then the request is in vain, and
 *   does no harm. No number is used again.
 * - A thread that is native, blocked or held at its poll has handed over. If a trace of several threads stops it, it is told in vain. It
 *   stays watched.
 *
 * WHO MAY USE IT
 *
 * Several threads may use a watch at once, but for cq_open_watch and cq_close_watch. A call may wait while another looks through the same
 * watch, and no longer: nobody sleeps with its lock. A thread's handle is used by one call at a time, as everywhere.
 *
 * WHAT IT COSTS
 *
 * While nobody sleeps in a watch, and no file descriptor waits for news, a call of an environment or a door loads one word more. Otherwise
 * the call by which a thread becomes wanted wakes those who sleep, in all watches of the process, and takes a lock to write to their file
 * descriptors. Those who sleep go on to do so if it is no thread of theirs.
 *
 * In the child of a fork no watch is open: each is zeros there, and its file descriptor is closed. It is for Linux.
 */
#ifndef CEBDYRAQ_WATCH_H
#define CEBDYRAQ_WATCH_H

#include "cebdyraq.h"

#ifdef __cplusplus
extern "C" {
#endif

/* A watch of threads of one service. Zeros at first, and then for these functions alone. It stays where it is until cq_close_watch. */
typedef struct { uint32_t kind; void *at; uint64_t kept[14]; } cq_watch;

/* Opens a watch, of no thread yet.
 *
 *   CQ_MISUSED 304        `watch` is open
 *   CQ_OUT_OF_MEMORY 110  there is no memory for it
 *
 * Since 2.5. */
uint32_t cq_open_watch(cq_watch *watch) CQ_MUST_USE;

/* Closes a watch and its file descriptor. The watch is zeros then, and may be opened again. No watch tells of its threads any more. They
 * may go on, end and be given back as before.
 *
 *   CQ_MISUSED 304  also if somebody sleeps in it. Nothing changes
 *
 * Since 2.5. */
uint32_t cq_close_watch(cq_watch *watch);

/* From now on the watch tells of the thread: at once, if somebody calls for it now, and each time that it becomes wanted. No other watch
 * does any more. That ends with cq_unwatch_thread, cq_close_watch or cq_detach_thread.
 *
 *   CQ_NOT_RUNNING 204    the thread does not run
 *   CQ_OUT_OF_MEMORY 110  there is no memory for it
 *   CQ_BUSY 215           an environment uses the thread
 *
 * Since 2.5. */
uint32_t cq_watch_thread(cq_thread *thread, cq_watch *watch) CQ_MUST_USE;

/* From now on no watch tells that the thread becomes wanted. One may still tell that it became so before. It is no error if no watch
 * tells of the thread.
 *
 *   CQ_NOT_RUNNING 204  the thread does not run
 *   CQ_BUSY 215         an environment uses the thread
 *
 * Since 2.5. */
uint32_t cq_unwatch_thread(cq_thread *thread) CQ_MUST_USE;

/* From now on the watch also tells, under the number CQ_ALL_THREADS, that the stops of the service have changed: an environment asks for
 * one or no longer does, also one behind a door (cq_set_stop_notification_mode, cq_set_breakpoint, cq_clear_breakpoint,
 * cq_notify_frame_pop, its end). Then cq_may_stop_in says which code may have to stop. Ask it also once after this call, since what was
 * asked for before is not told. No other watch tells of these stops any more. That ends with cq_close_watch.
 *
 *   CQ_OUT_OF_MEMORY 110  there is no memory for it
 *   CQ_BUSY 215           the list of threads is in use
 *
 * Since 2.5. */
uint32_t cq_watch_stops(cq_service *service, cq_watch *watch) CQ_MUST_USE;

/* Writes the numbers of threads that have become wanted and were not told (cq_thread_number), as many as there is `room` for, and to
 * `count` how many these are: 1 to `room`. There may be more: call again, until the code is CQ_NONE. It never sleeps.
 *
 *   CQ_ILLEGAL_ARGUMENT 103  `room` is 0
 *   CQ_NONE 303              there is no such thread. Nothing is written
 *
 * Since 2.5. */
uint32_t cq_next_wanted(cq_watch *watch, uint32_t *threads, size_t room, uint64_t *count) CQ_MUST_USE;

/* The same, asleep until there is such a thread. If several sleep in a watch, each thread is told to one of them. `timeout_ns` is in
 * nanoseconds, from the first try that finds none. 0 is one try, and a negative one is for ever.
 *
 *   CQ_ILLEGAL_ARGUMENT 103  `room` is 0
 *   CQ_TIMED_OUT 214         the time is over. Nothing is written
 *
 * Since 2.5. */
uint32_t cq_wait_next_wanted(cq_watch *watch, int64_t timeout_ns, uint32_t *threads, size_t room, uint64_t *count) CQ_MUST_USE;

/* Writes a file descriptor for an event loop to `fd`: an eventfd, with EFD_NONBLOCK and EFD_CLOEXEC. The first call makes it, and each
 * later one gives the same. It is readable at first, and once a thread becomes wanted after cq_next_wanted gave CQ_NONE. It may also be
 * readable in vain. So when it is readable, call cq_next_wanted until the code is CQ_NONE, and then wait for it again.
 *
 * Do not read, write or close it: cq_next_wanted empties it, and cq_close_watch closes it.
 *
 *   CQ_SYSTEM 306  the operating system refused it: errno says why. Nothing is written
 *
 * Since 2.5. */
uint32_t cq_watch_fd(cq_watch *watch, int32_t *fd) CQ_MUST_USE;

#ifdef __cplusplus
}
#endif

#endif
