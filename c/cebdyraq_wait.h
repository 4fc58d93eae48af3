/* cebdyraq_wait.h: the functions of cebdyraq.h as ones that wait.
 *
 * A function that has to wait spins for at most some 20 microseconds, and hardly if that was in vain before. Then it sleeps until
 * another wakes it. It is for Linux. Nothing of it is proved. It uses only the functions of cebdyraq.h, so a program may have a
 * layer of its own in its place.
 *
 * CODES
 *
 * Each function has the arguments and the codes of its namesake in cebdyraq.h, except these, and what it says itself:
 *
 *   CQ_BUSY 215              is never given. The function tries again
 *   CQ_HELD 301, CQ_WAITING 302, CQ_NONE 303, CQ_BARRED 206, CQ_ALREADY_STOPPED 211, CQ_STILL_RUNNING 213
 *                            are never given. The function waits for what they stand for. (CQ_NONE has a meaning of its own at
 *                            cq_wait_any and cq_wait_collect_cancelled)
 *   CQ_FULL 216              is never given by a call at a thread. The function waits for room in the window
 *   CQ_TIMED_OUT 214         the time is over. Only functions with a `timeout_ns` give it
 *
 * TIME
 *
 * `timeout_ns` is in nanoseconds. 0 is one try, and a negative one is for ever. The time runs from the first try that
 * does not succeed. A time-out comes no earlier than that, and may come later.
 *
 * A handle is used by one call at a time, also while that call waits. A caller that waits holds no lock that another needs before it
 * hands over, resumes, or lets go.
 */
#ifndef CEBDYRAQ_WAIT_H
#define CEBDYRAQ_WAIT_H

#include "cebdyraq.h"

#ifdef __cplusplus
extern "C" {
#endif

/* One for all threads that use a service. Zeros at first, and then for these functions alone. It stays where it is as long as
 * one of them may use it. */
typedef struct { uint32_t news; uint32_t sleepers; } cq_sleepers;
typedef struct { cq_sleepers threads; cq_sleepers agents; } cq_signal;

/* Wakes all that sleep. It is two loads if nobody does.
 *
 * The functions below do it by themselves. A program that also uses functions of cebdyraq.h calls it after each that
 * may let another go on:
 *
 *     cq_start, cq_poll, cq_native, cq_block, cq_end, cq_attach_thread, cq_detach_thread, cq_reached, cq_leaves
 *     cq_resume_thread, cq_ensure_resumed, cq_end_stop, cq_attach_environment, cq_dispose_environment
 *     cq_gather_step, at the end of a trace
 *     cq_define_class, if environments wait for CQ_CLASS_PREPARE
 *     cq_meet, cq_next_stop, cq_set_stop_notification_mode, cq_set_breakpoint, cq_clear_breakpoint and cq_notify_frame_pop, if
 *     environments wait by cq_wait_any */
void cq_wake(cq_signal *signal);

/* ------------------------------------------------------------------------------------------------------------------
 * The service. These wait only while the list of threads is in use.
 */

/* cq_attach_thread. CQ_MISUSED 304, CQ_ILLEGAL_ARGUMENT 103, CQ_OUT_OF_MEMORY 110, CQ_FULL 216. */
uint32_t cq_wait_attach_thread(cq_service *service, cq_signal *signal, const uint8_t *name, size_t length,
                               int32_t priority, cq_thread *thread) CQ_MUST_USE;

/* cq_attach_environment. CQ_MISUSED 304, CQ_OUT_OF_MEMORY 110, CQ_FULL 216. */
uint32_t cq_wait_attach_environment(cq_service *service, cq_signal *signal, cq_env *env) CQ_MUST_USE;

/* ------------------------------------------------------------------------------------------------------------------
 * A thread of the runtime.
 */

/* cq_start. It sleeps while a trace has stopped the thread, which goes on only once all other threads of that trace have handed over:
 * hold no lock that one of them needs for that. After CQ_TIMED_OUT 214 the thread has not started.
 * CQ_NOT_NEW 210, CQ_FULL 216. */
uint32_t cq_wait_start(cq_thread *thread, cq_signal *signal, int64_t timeout_ns) CQ_MUST_USE;

/* A safe point. It returns at once if nobody calls for the thread (cq_poll_clear). Otherwise the thread polls, and sleeps while
 * it is suspended or stopped. With CQ_OK it runs on, perhaps with fewer frames (cq_take_pops).
 *
 * CQ_OK is its only code. It is also that of a thread that does not run and of a handle that is misused: nobody calls for those. */
uint32_t cq_wait_poll(cq_thread *thread, cq_signal *signal) CQ_MUST_USE;

/* cq_native. It waits only while an environment uses the thread. CQ_NOT_RUNNING 204, CQ_NO_NATIVE_FRAME 207,
 * CQ_OWN_SPENT 208. */
uint32_t cq_wait_native(cq_thread *thread, cq_signal *signal) CQ_MUST_USE;

/* cq_block. It waits only while an environment uses the thread. CQ_ILLEGAL_ARGUMENT 103, CQ_NOT_RUNNING 204,
 * CQ_OWN_SPENT 208. */
uint32_t cq_wait_block(cq_thread *thread, cq_signal *signal, uint32_t reason) CQ_MUST_USE;

/* cq_back. It sleeps while the thread is suspended or stopped. With CQ_OK the thread runs, perhaps with fewer frames
 * (cq_take_pops). After CQ_TIMED_OUT 214 it has not returned.
 * CQ_NOT_SAFE 205. */
uint32_t cq_wait_back(cq_thread *thread, cq_signal *signal, int64_t timeout_ns) CQ_MUST_USE;

/* cq_reached. It waits only while the list of threads is in use. CQ_OUT_OF_MEMORY 110, CQ_FULL 216. */
uint32_t cq_wait_reached(cq_thread *thread, cq_signal *signal, uint32_t method, uint32_t location, bool *stops) CQ_MUST_USE;

/* cq_leaves, likewise. */
uint32_t cq_wait_leaves(cq_thread *thread, cq_signal *signal, uint32_t method, uint32_t location, uint32_t frames,
                        bool *stops) CQ_MUST_USE;

/* The stop of a thread of which cq_reached or cq_leaves has told that it stops, and that has given its frames. It blocks, and sleeps
 * until each environment has ended the stop, and as long as the thread is suspended or stopped by a trace. With CQ_OK it runs, perhaps
 * with fewer frames (cq_take_pops).
 *
 * CQ_NOT_RUNNING 204, CQ_OWN_SPENT 208: it does not wait. CQ_FULL 216. */
uint32_t cq_wait_stop(cq_thread *thread, cq_signal *signal) CQ_MUST_USE;

/* cq_end. It waits only while an environment uses the thread, or the list of threads is in use. CQ_NOT_RUNNING 204, CQ_FULL 216. */
uint32_t cq_wait_end(cq_thread *thread, cq_signal *signal);

/* cq_detach_thread. It waits only while the list of threads is in use. CQ_MISUSED 304, CQ_FULL 216. */
uint32_t cq_wait_detach_thread(cq_thread *thread, cq_signal *signal) CQ_MUST_USE;

/* ------------------------------------------------------------------------------------------------------------------
 * An agent's environment. These wait only while the list of threads or a thread is in use, but for cq_wait_next_event,
 * cq_wait_ensure_resumed, cq_wait_collect_cancelled and the three that dispose of it.
 */

/* cq_meet. CQ_ILLEGAL_ARGUMENT 103, CQ_OUT_OF_MEMORY 110, CQ_FULL 216. */
uint32_t cq_wait_meet(cq_env *env, cq_signal *signal) CQ_MUST_USE;

/* cq_let_go. */
uint32_t cq_wait_let_go(cq_env *env, cq_signal *signal, uint32_t thread, bool *gone);

/* cq_let_go_of_all. Since 2.1. */
uint32_t cq_wait_let_go_of_all(cq_env *env, cq_signal *signal);

/* cq_get_all_threads. CQ_OUT_OF_MEMORY 110. */
uint32_t cq_wait_get_all_threads(cq_env *env, cq_signal *signal, uint32_t *threads, size_t room,
                                 uint64_t *count) CQ_MUST_USE;

/* cq_get_thread_info. CQ_INVALID_THREAD 10, CQ_THREAD_NOT_ALIVE 15, CQ_OUT_OF_MEMORY 110. */
uint32_t cq_wait_get_thread_info(cq_env *env, cq_signal *signal, uint32_t thread, cq_thread_info *info, uint8_t *name,
                                 size_t room) CQ_MUST_USE;

/* cq_cancel. CQ_OUT_OF_MEMORY 110. */
uint32_t cq_wait_cancel(cq_env *env, cq_signal *signal, const cq_ticket *ticket);

/* cq_discard. */
uint32_t cq_wait_discard(cq_env *env, cq_signal *signal, uint32_t thread, bool *discarded);

/* cq_collect_cancelled. It sleeps until the answer is there. With CQ_TIMED_OUT 214 it is not, and the call is out as before.
 * CQ_NONE 303: no call that was cancelled is out at the thread. Since 2.2. */
uint32_t cq_wait_collect_cancelled(cq_env *env, cq_signal *signal, uint32_t thread, int64_t timeout_ns, cq_answer *answer,
                                   cq_frame *frames, size_t room) CQ_MUST_USE;

/* cq_ensure_resumed. It sleeps until the thread has reached all calls of this environment that it has cancelled there. With
 * CQ_TIMED_OUT 214 it has not, so one of them may yet suspend it: call again. CQ_MUST_POSSESS_CAPABILITY 99, CQ_INVALID_THREAD 10,
 * CQ_THREAD_NOT_ALIVE 15, CQ_CALLS_SPENT 209. */
uint32_t cq_wait_ensure_resumed(cq_env *env, cq_signal *signal, uint32_t thread, int64_t timeout_ns) CQ_MUST_USE;

/* cq_set_event_notification_mode. CQ_ILLEGAL_ARGUMENT 103. */
uint32_t cq_wait_set_event_notification_mode(cq_env *env, cq_signal *signal, bool enabled, uint32_t kind) CQ_MUST_USE;

/* cq_dispose_environment. An environment that has or had can_suspend or can_pop_frame waits for each thread at which a call of it is
 * out, until the thread hands over or ends. One that runs and does neither keeps it for ever. It sleeps meanwhile, and looks ten times a
 * second.
 * CQ_OUT_OF_MEMORY 110, CQ_FULL 216. */
uint32_t cq_wait_dispose_environment(cq_env *env, cq_signal *signal) CQ_MUST_USE;

/* The same, for at most this time. After CQ_TIMED_OUT 214 the environment stays, as after CQ_BUSY of cq_dispose_environment.
 * CQ_OUT_OF_MEMORY 110, CQ_FULL 216. */
uint32_t cq_wait_dispose_environment_within(cq_env *env, cq_signal *signal, int64_t timeout_ns) CQ_MUST_USE;

/* Ends what an environment has begun, and disposes of it, for a caller that is not its user: the user is lost. A trace that it
 * gathers is given up, or brought to its end if all threads were seen standing. So each thread that it has stopped is let go.
 * Then it is cq_wait_dispose_environment_within. cq_stopper tells by its number which environment it is that stops a thread.
 *
 * The user uses the handle no more. If its thread has ended, it did so outside of the library's functions.
 *
 * While a thread is in use, letting it go may take longer than the time. After CQ_TIMED_OUT 214 the environment has no trace
 * any more, and stays as after CQ_BUSY of cq_dispose_environment.
 *
 * CQ_OUT_OF_MEMORY 110, CQ_FULL 216: as of cq_dispose_environment. */
uint32_t cq_wait_end_environment(cq_env *env, cq_signal *signal, int64_t timeout_ns) CQ_MUST_USE;

/* cq_next_event. It sleeps until there is an event, and for ever if events are disabled. CQ_TIMED_OUT 214. */
uint32_t cq_wait_next_event(cq_env *env, cq_signal *signal, int64_t timeout_ns, cq_event *event) CQ_MUST_USE;

/* cq_next_stop. It sleeps until there is a stop. CQ_TIMED_OUT 214, CQ_FULL 216. */
uint32_t cq_wait_next_stop(cq_env *env, cq_signal *signal, int64_t timeout_ns, cq_stop *stop) CQ_MUST_USE;

/* cq_end_stop. It wakes the thread. CQ_THREAD_NOT_SUSPENDED 13, CQ_FULL 216. */
uint32_t cq_wait_end_stop(cq_env *env, cq_signal *signal, uint32_t thread) CQ_MUST_USE;

/* ------------------------------------------------------------------------------------------------------------------
 * Calls at a thread. They sleep until the answer is there. The answer is written with CQ_OK, and nothing otherwise.
 *
 * A thread that runs and does not poll keeps a call waiting: without a time, for ever. When the time is over, a call that was
 * posted is cancelled (cq_cancel). It may still take place: a thread may be suspended after CQ_TIMED_OUT 214.
 * cq_wait_collect_cancelled tells whether it did. If there is no memory to cancel it, it stays out (cq_out_at).
 *
 * Before it posts, each discards the answers to cancelled calls at the thread (cq_discard). At a full window it
 * waits for room, which comes when the thread hands over. The room of a call of cebdyraq.h is free once its answer is
 * collected: the function does not do that, so a program collects before it fills the window.
 *
 * A thread of the service that has an environment gets no answer from itself: it cannot poll while it waits. State, words and a
 * resumption are answered at once. The other calls end with their time, and without one never.
 */

/* cq_get_thread_state. Writes the bits to `state`. */
uint32_t cq_wait_get_thread_state(cq_env *env, cq_signal *signal, uint32_t thread, int64_t timeout_ns,
                                  uint32_t *state) CQ_MUST_USE;

/* cq_get_frame_count. Writes the number of frames to `count`. CQ_THREAD_NOT_ALIVE 15. */
uint32_t cq_wait_get_frame_count(cq_env *env, cq_signal *signal, uint32_t thread, int64_t timeout_ns,
                                 uint32_t *count) CQ_MUST_USE;

/* cq_get_frame_location. Writes to `frame`. CQ_THREAD_NOT_ALIVE 15, CQ_NO_MORE_FRAMES 31. */
uint32_t cq_wait_get_frame_location(cq_env *env, cq_signal *signal, uint32_t thread, int32_t depth, int64_t timeout_ns,
                                    cq_frame *frame) CQ_MUST_USE;

/* cq_get_stack_trace. Writes as many frames as there is `room` for, and to `count` how many it found.
 * CQ_THREAD_NOT_ALIVE 15, CQ_ILLEGAL_ARGUMENT 103. */
uint32_t cq_wait_get_stack_trace(cq_env *env, cq_signal *signal, uint32_t thread, int32_t start, int32_t max_count,
                                 int64_t timeout_ns, cq_frame *frames, size_t room, uint32_t *count) CQ_MUST_USE;

/* cq_suspend_thread. With CQ_OK the thread stands. CQ_THREAD_NOT_ALIVE 15, CQ_THREAD_SUSPENDED 14. */
uint32_t cq_wait_suspend_thread(cq_env *env, cq_signal *signal, uint32_t thread, int64_t timeout_ns) CQ_MUST_USE;

/* cq_resume_thread. With CQ_OK the thread is woken. CQ_THREAD_NOT_ALIVE 15, CQ_THREAD_NOT_SUSPENDED 13. */
uint32_t cq_wait_resume_thread(cq_env *env, cq_signal *signal, uint32_t thread, int64_t timeout_ns) CQ_MUST_USE;

/* cq_pop_frame. CQ_THREAD_NOT_ALIVE 15, CQ_THREAD_NOT_SUSPENDED 13, CQ_NO_MORE_FRAMES 31, CQ_OPAQUE_FRAME 32. */
uint32_t cq_wait_pop_frame(cq_env *env, cq_signal *signal, uint32_t thread, int64_t timeout_ns) CQ_MUST_USE;

/* cq_get_thread_local_storage. Writes to `word`. CQ_THREAD_NOT_ALIVE 15. */
uint32_t cq_wait_get_thread_local_storage(cq_env *env, cq_signal *signal, uint32_t thread, int64_t timeout_ns,
                                          uint64_t *word) CQ_MUST_USE;

/* cq_set_thread_local_storage. CQ_THREAD_NOT_ALIVE 15. */
uint32_t cq_wait_set_thread_local_storage(cq_env *env, cq_signal *signal, uint32_t thread, uint64_t word,
                                          int64_t timeout_ns) CQ_MUST_USE;

/* SuspendThreadList: cq_wait_suspend_thread of each of `count` threads, and to `codes` one code for each. All are posted before
 * the first is waited for, so the threads come to their polls side by side, unless a window is full before: then the earlier
 * answers come first. A code of one stops none after it. The time is that of the whole list. Once it is over, each of the others
 * has one try.
 *
 * CQ_MUST_POSSESS_CAPABILITY 99 and CQ_OUT_OF_MEMORY 110 (malloc has no memory for the list) are of the whole call. Then no code
 * is written, and no thread is suspended. The whole call never gives CQ_TIMED_OUT. */
uint32_t cq_wait_suspend_thread_list(cq_env *env, cq_signal *signal, const uint32_t *threads, size_t count,
                                     int64_t timeout_ns, uint32_t *codes) CQ_MUST_USE;

/* ResumeThreadList: cq_wait_resume_thread of each of `count` threads, likewise.
 * The codes are those of cq_wait_suspend_thread_list. */
uint32_t cq_wait_resume_thread_list(cq_env *env, cq_signal *signal, const uint32_t *threads, size_t count,
                                    int64_t timeout_ns, uint32_t *codes) CQ_MUST_USE;

/* GetAllStackTraces: a trace is begun and gathered to its end. With CQ_OK it is there, for cq_gathered_stack, and `count` is of
 * how many threads it tells. The function sleeps until each thread that runs has handed over, and while another environment's
 * trace has stopped one. Threads that it has stopped sleep until all are let go.
 *
 * When the time is over before all of the threads stand, the trace is given up, with CQ_TIMED_OUT 214. What it has stopped is
 * let go before the function returns. If all were seen standing by then, it comes to its end, with CQ_OK. Either may take
 * longer than the time, but waits only while a thread is in use.
 *
 * The other codes are those of cq_gather_all_stack_traces, and then nothing was begun: CQ_ILLEGAL_ARGUMENT 103,
 * CQ_CALLS_SPENT 209, CQ_OUT_OF_MEMORY 110. */
uint32_t cq_wait_get_all_stack_traces(cq_env *env, cq_signal *signal, int32_t max_count, int64_t timeout_ns,
                                      uint64_t *count) CQ_MUST_USE;

/* GetThreadListStackTraces: the same of each of `thread_count` threads, in their order. The other codes are those of
 * cq_gather_thread_list_stack_traces: CQ_INVALID_THREAD 10, CQ_ILLEGAL_ARGUMENT 103, CQ_OUT_OF_MEMORY 110,
 * CQ_CALLS_SPENT 209. */
uint32_t cq_wait_get_thread_list_stack_traces(cq_env *env, cq_signal *signal, const uint32_t *threads,
                                              size_t thread_count, int32_t max_count, int64_t timeout_ns,
                                              uint64_t *count) CQ_MUST_USE;

/* Waits for any of several things. It sleeps until the answer to one of `count` calls is there, which were posted by functions of
 * cebdyraq.h, or until the list of threads has news (cq_has_news). It collects the answer, as cq_collect does: it writes to
 * `which` the index of the call, and returns the code of the call. If several answers are there, it takes one of them.
 *
 * It gives the news again and again until the environment looks: by cq_meet or, if events are enabled, by cq_next_event. So take
 * events until there is none: one that is left is no news. After a cq_meet that failed it gives the news until one succeeds. So a
 * program that cannot meet for lack of room or memory waits for calls alone, by cq_wait_collect, before it tries again.
 *
 *   CQ_NONE 303       no answer is there, and the list has news. Nothing is written
 *   CQ_TIMED_OUT 214  the calls are out as before */
uint32_t cq_wait_any(cq_env *env, cq_signal *signal, const cq_ticket *tickets, size_t count, int64_t timeout_ns,
                     size_t *which, cq_answer *answer, cq_frame *frames, size_t room) CQ_MUST_USE;

/* cq_collect, of a call that was posted by a function of cebdyraq.h. It sleeps until the answer is there, and for ever if no
 * call with this ticket is out. After CQ_TIMED_OUT 214 the call is out as before. */
uint32_t cq_wait_collect(cq_env *env, cq_signal *signal, const cq_ticket *ticket, int64_t timeout_ns, cq_answer *answer,
                         cq_frame *frames, size_t room) CQ_MUST_USE;

#ifdef __cplusplus
}
#endif

#endif
