/* model.h: what cebdyraq.h says, once more in plain C, for a program with one thread.
 *
 * Each function does what its namesake does, with handles of its own. None is ever busy, and memory always suffices.
 * fuzz.c asks the library and the model the same, and compares. */
#ifndef MODEL_H
#define MODEL_H

#include "../../c/cebdyraq.h"

uint32_t model_make(uint32_t depth, uint32_t envs, uint32_t window, uint32_t capabilities, cq_service *service);
uint32_t model_share(cq_service *service, cq_service *other);
uint32_t model_free(cq_service *service);
uint32_t model_attach_thread(cq_service *service, const uint8_t *name, size_t length, int32_t priority,
                             cq_thread *thread);
uint32_t model_attach_environment(cq_service *service, cq_env *env);

uint32_t model_thread_number(cq_thread *thread, uint32_t *number);
uint32_t model_start(cq_thread *thread);
uint32_t model_enter(cq_thread *thread, uint32_t method);
uint32_t model_enter_native(cq_thread *thread, uint32_t method);
uint32_t model_at(cq_thread *thread, uint32_t location);
uint32_t model_leave(cq_thread *thread);
uint32_t model_set_frames(cq_thread *thread, const cq_frame *frames, size_t count);
uint32_t model_set_newest_frames(cq_thread *thread, const cq_frame *frames, size_t count, uint64_t *kept);
uint32_t model_frame_count(cq_thread *thread, uint64_t *count);
uint32_t model_take_pops(cq_thread *thread, uint64_t *count);
bool model_poll_clear(cq_thread *thread);
uint32_t model_poll(cq_thread *thread);
uint32_t model_native(cq_thread *thread);
uint32_t model_block(cq_thread *thread, uint32_t reason);
uint32_t model_back(cq_thread *thread);
uint32_t model_end(cq_thread *thread);
uint32_t model_detach_thread(cq_thread *thread);

uint32_t model_meet(cq_env *env);
uint32_t model_let_go(cq_env *env, uint32_t thread, bool *gone);
uint32_t model_let_go_of_all(cq_env *env);
uint32_t model_get_all_threads(cq_env *env, uint32_t *threads, size_t room, uint64_t *count);
uint32_t model_get_thread_info(cq_env *env, uint32_t thread, cq_thread_info *info, uint8_t *name, size_t room);
uint32_t model_get_thread_state(cq_env *env, uint32_t thread, cq_answer *answer);
uint32_t model_get_frame_count(cq_env *env, uint32_t thread, cq_answer *answer);
uint32_t model_get_frame_location(cq_env *env, uint32_t thread, int32_t depth, cq_answer *answer);
uint32_t model_get_stack_trace(cq_env *env, uint32_t thread, int32_t start, int32_t max_count, cq_answer *answer,
                               cq_frame *frames, size_t room);
uint32_t model_suspend_thread(cq_env *env, uint32_t thread, cq_answer *answer);
uint32_t model_resume_thread(cq_env *env, uint32_t thread, cq_answer *answer);
uint32_t model_pop_frame(cq_env *env, uint32_t thread, cq_answer *answer);
uint32_t model_get_thread_local_storage(cq_env *env, uint32_t thread, cq_answer *answer);
uint32_t model_set_thread_local_storage(cq_env *env, uint32_t thread, uint64_t word, cq_answer *answer);
uint32_t model_collect(cq_env *env, const cq_ticket *ticket, cq_answer *answer, cq_frame *frames, size_t room);
uint32_t model_cancel(cq_env *env, const cq_ticket *ticket);
uint32_t model_discard(cq_env *env, uint32_t thread, bool *discarded);
uint32_t model_collect_cancelled(cq_env *env, uint32_t thread, cq_answer *answer, cq_frame *frames, size_t room);
uint32_t model_out_at(cq_env *env, uint32_t thread, uint32_t *count);
uint32_t model_gather_all_stack_traces(cq_env *env, int32_t max_count);
uint32_t model_gather_thread_list_stack_traces(cq_env *env, const uint32_t *threads, size_t count, int32_t max_count);
uint32_t model_gather_step(cq_env *env, bool *over);
uint32_t model_gather_give_up(cq_env *env);
uint32_t model_gathered(cq_env *env, uint64_t *count);
uint32_t model_gathered_stack(cq_env *env, uint64_t index, cq_stack_info *info, cq_frame *frames, size_t room);
uint32_t model_add_capabilities(cq_env *env, uint32_t capabilities);
uint32_t model_relinquish_capabilities(cq_env *env, uint32_t capabilities);
uint32_t model_get_capabilities(cq_env *env, uint32_t *capabilities);
uint32_t model_get_potential_capabilities(cq_env *env, uint32_t *capabilities);
uint32_t model_get_environment_local_storage(cq_env *env, uint64_t *word);
uint32_t model_set_environment_local_storage(cq_env *env, uint64_t word);
uint32_t model_set_event_notification_mode(cq_env *env, bool enabled, uint32_t kind);
uint32_t model_next_event(cq_env *env, cq_event *event);
uint32_t model_dispose_environment(cq_env *env);

/* A ticket is a name that the library chooses. The call that was posted last at the thread gets the library's. It gives
 * whether that is a new name among the calls that are out there. */
bool model_rename(cq_env *env, const cq_ticket *name);

/* What cq_has_news may say: `may_be` is false if nothing has happened since the environment last met the threads. `must_be` is
 * true if something has since it last asked the service anything. In between the header leaves it open. */
void model_has_news(cq_env *env, bool *must_be, bool *may_be);

#endif
