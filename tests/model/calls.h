/* calls.h: each call of cebdyraq.h as one step, in a file that includes this. A call that needs a hold may be told CQ_BUSY in its place. */
#ifndef CALLS_H
#define CALLS_H

#include "explore.h"

bool is_told_busy(const char *what);
bool is_told_busy_unless_full(const char *what, cq_env *env, uint32_t thread);

#define ONE_STEP(call, ...) (step(#call), call(__VA_ARGS__))
#define OR_BUSY(call, ...) (is_told_busy(#call) ? CQ_BUSY : call(__VA_ARGS__))
/* A full window is told without a hold, so CQ_BUSY does not come in its place. */
#define OR_BUSY_UNLESS_FULL(call, env, thread, ...) \
    (is_told_busy_unless_full(#call, env, thread) ? CQ_BUSY : call(env, thread, __VA_ARGS__))

#define cq_poll_clear(...) ONE_STEP(cq_poll_clear, __VA_ARGS__)
#define cq_has_news(...) ONE_STEP(cq_has_news, __VA_ARGS__)

#define cq_attach_thread(...) OR_BUSY(cq_attach_thread, __VA_ARGS__)
#define cq_attach_environment(...) OR_BUSY(cq_attach_environment, __VA_ARGS__)
#define cq_start(...) OR_BUSY(cq_start, __VA_ARGS__)
#define cq_poll(...) OR_BUSY(cq_poll, __VA_ARGS__)
#define cq_native(...) OR_BUSY(cq_native, __VA_ARGS__)
#define cq_block(...) OR_BUSY(cq_block, __VA_ARGS__)
#define cq_back(...) OR_BUSY(cq_back, __VA_ARGS__)
#define cq_reached(...) OR_BUSY(cq_reached, __VA_ARGS__)
#define cq_leaves(...) OR_BUSY(cq_leaves, __VA_ARGS__)
#define cq_is_stopped(...) OR_BUSY(cq_is_stopped, __VA_ARGS__)
#define cq_end(...) OR_BUSY(cq_end, __VA_ARGS__)
#define cq_detach_thread(...) OR_BUSY(cq_detach_thread, __VA_ARGS__)
#define cq_meet(...) OR_BUSY(cq_meet, __VA_ARGS__)
#define cq_let_go(...) OR_BUSY(cq_let_go, __VA_ARGS__)
#define cq_let_go_of_all(...) OR_BUSY(cq_let_go_of_all, __VA_ARGS__)
#define cq_get_all_threads(...) OR_BUSY(cq_get_all_threads, __VA_ARGS__)
#define cq_get_thread_info(...) OR_BUSY(cq_get_thread_info, __VA_ARGS__)
#define cq_cancel(...) OR_BUSY(cq_cancel, __VA_ARGS__)
#define cq_discard(...) OR_BUSY(cq_discard, __VA_ARGS__)
#define cq_collect(...) OR_BUSY(cq_collect, __VA_ARGS__)
#define cq_collect_cancelled(...) OR_BUSY(cq_collect_cancelled, __VA_ARGS__)
#define cq_ensure_resumed(...) OR_BUSY(cq_ensure_resumed, __VA_ARGS__)
#define cq_set_event_notification_mode(...) OR_BUSY(cq_set_event_notification_mode, __VA_ARGS__)
#define cq_set_stop_notification_mode(...) OR_BUSY(cq_set_stop_notification_mode, __VA_ARGS__)
#define cq_dispose_environment(...) OR_BUSY(cq_dispose_environment, __VA_ARGS__)
#define cq_next_event(...) OR_BUSY(cq_next_event, __VA_ARGS__)
#define cq_next_stop(...) OR_BUSY(cq_next_stop, __VA_ARGS__)
#define cq_end_stop(...) OR_BUSY(cq_end_stop, __VA_ARGS__)
#define cq_gather_step(...) OR_BUSY(cq_gather_step, __VA_ARGS__)
#define cq_define_class_strings(...) OR_BUSY(cq_define_class_strings, __VA_ARGS__)

#define cq_get_thread_state(...) OR_BUSY(cq_get_thread_state, __VA_ARGS__)
#define cq_resume_thread(...) OR_BUSY(cq_resume_thread, __VA_ARGS__)
#define cq_get_thread_local_storage(...) OR_BUSY(cq_get_thread_local_storage, __VA_ARGS__)
#define cq_set_thread_local_storage(...) OR_BUSY(cq_set_thread_local_storage, __VA_ARGS__)
#define cq_get_frame_count(env, thread, ...) OR_BUSY_UNLESS_FULL(cq_get_frame_count, env, thread, __VA_ARGS__)
#define cq_get_frame_location(env, thread, ...) OR_BUSY_UNLESS_FULL(cq_get_frame_location, env, thread, __VA_ARGS__)
#define cq_get_stack_trace(env, thread, ...) OR_BUSY_UNLESS_FULL(cq_get_stack_trace, env, thread, __VA_ARGS__)
#define cq_suspend_thread(env, thread, ...) OR_BUSY_UNLESS_FULL(cq_suspend_thread, env, thread, __VA_ARGS__)
#define cq_pop_frame(env, thread, ...) OR_BUSY_UNLESS_FULL(cq_pop_frame, env, thread, __VA_ARGS__)

#endif
