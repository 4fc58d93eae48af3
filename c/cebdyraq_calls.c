/* cebdyraq_calls.c: the functions of the proved half by which an environment or a door may call for a thread, each with a look at
 * whether somebody watches. Made from the headers by ci/generate.py. Do not edit.
 *
 * What the proved half has under the name of such a function, as cq_collect, is called cebdyraq_collect_proved here (ci/lib.py). */
#include "cebdyraq_serve.h"
#include "cebdyraq_watchers.h"

watchers cebdyraq_watchers;

uint32_t cebdyraq_meet_proved(cq_env *env);
uint32_t cq_meet(cq_env *env) {
    uint32_t result = cebdyraq_meet_proved(env);
    tell_watchers();
    return result;
}

bool cebdyraq_has_news_proved(cq_env *env);
bool cq_has_news(cq_env *env) {
    bool result = cebdyraq_has_news_proved(env);
    tell_watchers();
    return result;
}

uint32_t cebdyraq_let_go_proved(cq_env *env, uint32_t thread, bool *gone);
uint32_t cq_let_go(cq_env *env, uint32_t thread, bool *gone) {
    uint32_t result = cebdyraq_let_go_proved(env, thread, gone);
    tell_watchers();
    return result;
}

uint32_t cebdyraq_let_go_of_all_proved(cq_env *env);
uint32_t cq_let_go_of_all(cq_env *env) {
    uint32_t result = cebdyraq_let_go_of_all_proved(env);
    tell_watchers();
    return result;
}

uint32_t cebdyraq_get_all_threads_proved(cq_env *env, uint32_t *threads, size_t room, uint64_t *count);
uint32_t cq_get_all_threads(cq_env *env, uint32_t *threads, size_t room, uint64_t *count) {
    uint32_t result = cebdyraq_get_all_threads_proved(env, threads, room, count);
    tell_watchers();
    return result;
}

uint32_t cebdyraq_get_thread_info_proved(cq_env *env, uint32_t thread, cq_thread_info *info, uint8_t *name, size_t room);
uint32_t cq_get_thread_info(cq_env *env, uint32_t thread, cq_thread_info *info, uint8_t *name, size_t room) {
    uint32_t result = cebdyraq_get_thread_info_proved(env, thread, info, name, room);
    tell_watchers();
    return result;
}

uint32_t cebdyraq_get_thread_state_proved(cq_env *env, uint32_t thread, cq_answer *answer);
uint32_t cq_get_thread_state(cq_env *env, uint32_t thread, cq_answer *answer) {
    uint32_t result = cebdyraq_get_thread_state_proved(env, thread, answer);
    tell_watchers();
    return result;
}

uint32_t cebdyraq_get_frame_count_proved(cq_env *env, uint32_t thread, cq_answer *answer);
uint32_t cq_get_frame_count(cq_env *env, uint32_t thread, cq_answer *answer) {
    uint32_t result = cebdyraq_get_frame_count_proved(env, thread, answer);
    tell_watchers();
    return result;
}

uint32_t cebdyraq_get_frame_location_proved(cq_env *env, uint32_t thread, int32_t depth, cq_answer *answer);
uint32_t cq_get_frame_location(cq_env *env, uint32_t thread, int32_t depth, cq_answer *answer) {
    uint32_t result = cebdyraq_get_frame_location_proved(env, thread, depth, answer);
    tell_watchers();
    return result;
}

uint32_t cebdyraq_get_stack_trace_proved(cq_env *env, uint32_t thread, int32_t start, int32_t max_count, cq_answer *answer, cq_frame *frames, size_t room);
uint32_t cq_get_stack_trace(cq_env *env, uint32_t thread, int32_t start, int32_t max_count, cq_answer *answer, cq_frame *frames, size_t room) {
    uint32_t result = cebdyraq_get_stack_trace_proved(env, thread, start, max_count, answer, frames, room);
    tell_watchers();
    return result;
}

uint32_t cebdyraq_suspend_thread_proved(cq_env *env, uint32_t thread, cq_answer *answer);
uint32_t cq_suspend_thread(cq_env *env, uint32_t thread, cq_answer *answer) {
    uint32_t result = cebdyraq_suspend_thread_proved(env, thread, answer);
    tell_watchers();
    return result;
}

uint32_t cebdyraq_resume_thread_proved(cq_env *env, uint32_t thread, cq_answer *answer);
uint32_t cq_resume_thread(cq_env *env, uint32_t thread, cq_answer *answer) {
    uint32_t result = cebdyraq_resume_thread_proved(env, thread, answer);
    tell_watchers();
    return result;
}

uint32_t cebdyraq_pop_frame_proved(cq_env *env, uint32_t thread, cq_answer *answer);
uint32_t cq_pop_frame(cq_env *env, uint32_t thread, cq_answer *answer) {
    uint32_t result = cebdyraq_pop_frame_proved(env, thread, answer);
    tell_watchers();
    return result;
}

uint32_t cebdyraq_get_thread_local_storage_proved(cq_env *env, uint32_t thread, cq_answer *answer);
uint32_t cq_get_thread_local_storage(cq_env *env, uint32_t thread, cq_answer *answer) {
    uint32_t result = cebdyraq_get_thread_local_storage_proved(env, thread, answer);
    tell_watchers();
    return result;
}

uint32_t cebdyraq_set_thread_local_storage_proved(cq_env *env, uint32_t thread, uint64_t word, cq_answer *answer);
uint32_t cq_set_thread_local_storage(cq_env *env, uint32_t thread, uint64_t word, cq_answer *answer) {
    uint32_t result = cebdyraq_set_thread_local_storage_proved(env, thread, word, answer);
    tell_watchers();
    return result;
}

uint32_t cebdyraq_collect_proved(cq_env *env, const cq_ticket *ticket, cq_answer *answer, cq_frame *frames, size_t room);
uint32_t cq_collect(cq_env *env, const cq_ticket *ticket, cq_answer *answer, cq_frame *frames, size_t room) {
    uint32_t result = cebdyraq_collect_proved(env, ticket, answer, frames, room);
    tell_watchers();
    return result;
}

uint32_t cebdyraq_cancel_proved(cq_env *env, const cq_ticket *ticket);
uint32_t cq_cancel(cq_env *env, const cq_ticket *ticket) {
    uint32_t result = cebdyraq_cancel_proved(env, ticket);
    tell_watchers();
    return result;
}

uint32_t cebdyraq_discard_proved(cq_env *env, uint32_t thread, bool *discarded);
uint32_t cq_discard(cq_env *env, uint32_t thread, bool *discarded) {
    uint32_t result = cebdyraq_discard_proved(env, thread, discarded);
    tell_watchers();
    return result;
}

uint32_t cebdyraq_collect_cancelled_proved(cq_env *env, uint32_t thread, cq_answer *answer, cq_frame *frames, size_t room);
uint32_t cq_collect_cancelled(cq_env *env, uint32_t thread, cq_answer *answer, cq_frame *frames, size_t room) {
    uint32_t result = cebdyraq_collect_cancelled_proved(env, thread, answer, frames, room);
    tell_watchers();
    return result;
}

uint32_t cebdyraq_ensure_resumed_proved(cq_env *env, uint32_t thread);
uint32_t cq_ensure_resumed(cq_env *env, uint32_t thread) {
    uint32_t result = cebdyraq_ensure_resumed_proved(env, thread);
    tell_watchers();
    return result;
}

uint32_t cebdyraq_out_at_proved(cq_env *env, uint32_t thread, uint32_t *count);
uint32_t cq_out_at(cq_env *env, uint32_t thread, uint32_t *count) {
    uint32_t result = cebdyraq_out_at_proved(env, thread, count);
    tell_watchers();
    return result;
}

uint32_t cebdyraq_stopper_proved(cq_env *env, uint32_t thread, uint32_t *number);
uint32_t cq_stopper(cq_env *env, uint32_t thread, uint32_t *number) {
    uint32_t result = cebdyraq_stopper_proved(env, thread, number);
    tell_watchers();
    return result;
}

uint32_t cebdyraq_gather_all_stack_traces_proved(cq_env *env, int32_t max_count);
uint32_t cq_gather_all_stack_traces(cq_env *env, int32_t max_count) {
    uint32_t result = cebdyraq_gather_all_stack_traces_proved(env, max_count);
    tell_watchers();
    return result;
}

uint32_t cebdyraq_gather_thread_list_stack_traces_proved(cq_env *env, const uint32_t *threads, size_t count, int32_t max_count);
uint32_t cq_gather_thread_list_stack_traces(cq_env *env, const uint32_t *threads, size_t count, int32_t max_count) {
    uint32_t result = cebdyraq_gather_thread_list_stack_traces_proved(env, threads, count, max_count);
    tell_watchers();
    return result;
}

uint32_t cebdyraq_gather_step_proved(cq_env *env, bool *over);
uint32_t cq_gather_step(cq_env *env, bool *over) {
    uint32_t result = cebdyraq_gather_step_proved(env, over);
    tell_watchers();
    return result;
}

uint32_t cebdyraq_gather_give_up_proved(cq_env *env);
uint32_t cq_gather_give_up(cq_env *env) {
    uint32_t result = cebdyraq_gather_give_up_proved(env);
    tell_watchers();
    return result;
}

uint32_t cebdyraq_gathered_proved(cq_env *env, uint64_t *count);
uint32_t cq_gathered(cq_env *env, uint64_t *count) {
    uint32_t result = cebdyraq_gathered_proved(env, count);
    tell_watchers();
    return result;
}

uint32_t cebdyraq_gathered_stack_proved(cq_env *env, uint64_t index, cq_stack_info *info, cq_frame *frames, size_t room);
uint32_t cq_gathered_stack(cq_env *env, uint64_t index, cq_stack_info *info, cq_frame *frames, size_t room) {
    uint32_t result = cebdyraq_gathered_stack_proved(env, index, info, frames, room);
    tell_watchers();
    return result;
}

uint32_t cebdyraq_environment_number_proved(cq_env *env, uint32_t *number);
uint32_t cq_environment_number(cq_env *env, uint32_t *number) {
    uint32_t result = cebdyraq_environment_number_proved(env, number);
    tell_watchers();
    return result;
}

uint32_t cebdyraq_add_capabilities_proved(cq_env *env, uint32_t capabilities);
uint32_t cq_add_capabilities(cq_env *env, uint32_t capabilities) {
    uint32_t result = cebdyraq_add_capabilities_proved(env, capabilities);
    tell_watchers();
    return result;
}

uint32_t cebdyraq_relinquish_capabilities_proved(cq_env *env, uint32_t capabilities);
uint32_t cq_relinquish_capabilities(cq_env *env, uint32_t capabilities) {
    uint32_t result = cebdyraq_relinquish_capabilities_proved(env, capabilities);
    tell_watchers();
    return result;
}

uint32_t cebdyraq_get_capabilities_proved(cq_env *env, uint32_t *capabilities);
uint32_t cq_get_capabilities(cq_env *env, uint32_t *capabilities) {
    uint32_t result = cebdyraq_get_capabilities_proved(env, capabilities);
    tell_watchers();
    return result;
}

uint32_t cebdyraq_get_potential_capabilities_proved(cq_env *env, uint32_t *capabilities);
uint32_t cq_get_potential_capabilities(cq_env *env, uint32_t *capabilities) {
    uint32_t result = cebdyraq_get_potential_capabilities_proved(env, capabilities);
    tell_watchers();
    return result;
}

uint32_t cebdyraq_get_environment_local_storage_proved(cq_env *env, uint64_t *word);
uint32_t cq_get_environment_local_storage(cq_env *env, uint64_t *word) {
    uint32_t result = cebdyraq_get_environment_local_storage_proved(env, word);
    tell_watchers();
    return result;
}

uint32_t cebdyraq_set_environment_local_storage_proved(cq_env *env, uint64_t word);
uint32_t cq_set_environment_local_storage(cq_env *env, uint64_t word) {
    uint32_t result = cebdyraq_set_environment_local_storage_proved(env, word);
    tell_watchers();
    return result;
}

uint32_t cebdyraq_set_event_notification_mode_proved(cq_env *env, bool enabled, uint32_t kind);
uint32_t cq_set_event_notification_mode(cq_env *env, bool enabled, uint32_t kind) {
    uint32_t result = cebdyraq_set_event_notification_mode_proved(env, enabled, kind);
    tell_watchers();
    return result;
}

uint32_t cebdyraq_next_event_proved(cq_env *env, cq_event *event);
uint32_t cq_next_event(cq_env *env, cq_event *event) {
    uint32_t result = cebdyraq_next_event_proved(env, event);
    tell_watchers();
    return result;
}

uint32_t cebdyraq_dispose_environment_proved(cq_env *env);
uint32_t cq_dispose_environment(cq_env *env) {
    uint32_t result = cebdyraq_dispose_environment_proved(env);
    tell_watchers();
    return result;
}

uint32_t cebdyraq_get_loaded_classes_proved(cq_env *env, uint32_t *classes, size_t room, uint64_t *count);
uint32_t cq_get_loaded_classes(cq_env *env, uint32_t *classes, size_t room, uint64_t *count) {
    uint32_t result = cebdyraq_get_loaded_classes_proved(env, classes, room, count);
    tell_watchers();
    return result;
}

uint32_t cebdyraq_get_class_signature_proved(cq_env *env, uint32_t class_no, uint8_t *text, size_t room, uint64_t *length);
uint32_t cq_get_class_signature(cq_env *env, uint32_t class_no, uint8_t *text, size_t room, uint64_t *length) {
    uint32_t result = cebdyraq_get_class_signature_proved(env, class_no, text, room, length);
    tell_watchers();
    return result;
}

uint32_t cebdyraq_get_source_file_name_proved(cq_env *env, uint32_t class_no, uint8_t *text, size_t room, uint64_t *length);
uint32_t cq_get_source_file_name(cq_env *env, uint32_t class_no, uint8_t *text, size_t room, uint64_t *length) {
    uint32_t result = cebdyraq_get_source_file_name_proved(env, class_no, text, room, length);
    tell_watchers();
    return result;
}

uint32_t cebdyraq_get_class_methods_proved(cq_env *env, uint32_t class_no, uint32_t *methods, size_t room, uint64_t *count);
uint32_t cq_get_class_methods(cq_env *env, uint32_t class_no, uint32_t *methods, size_t room, uint64_t *count) {
    uint32_t result = cebdyraq_get_class_methods_proved(env, class_no, methods, room, count);
    tell_watchers();
    return result;
}

uint32_t cebdyraq_get_method_name_proved(cq_env *env, uint32_t method, cq_method_name *info, uint8_t *name, size_t name_room, uint8_t *signature, size_t signature_room);
uint32_t cq_get_method_name(cq_env *env, uint32_t method, cq_method_name *info, uint8_t *name, size_t name_room, uint8_t *signature, size_t signature_room) {
    uint32_t result = cebdyraq_get_method_name_proved(env, method, info, name, name_room, signature, signature_room);
    tell_watchers();
    return result;
}

uint32_t cebdyraq_get_method_declaring_class_proved(cq_env *env, uint32_t method, uint32_t *class_no);
uint32_t cq_get_method_declaring_class(cq_env *env, uint32_t method, uint32_t *class_no) {
    uint32_t result = cebdyraq_get_method_declaring_class_proved(env, method, class_no);
    tell_watchers();
    return result;
}

uint32_t cebdyraq_is_method_native_proved(cq_env *env, uint32_t method, bool *native);
uint32_t cq_is_method_native(cq_env *env, uint32_t method, bool *native) {
    uint32_t result = cebdyraq_is_method_native_proved(env, method, native);
    tell_watchers();
    return result;
}

uint32_t cebdyraq_get_line_number_table_proved(cq_env *env, uint32_t method, uint32_t *kind, cq_line_entry *entries, size_t room, uint64_t *count);
uint32_t cq_get_line_number_table(cq_env *env, uint32_t method, uint32_t *kind, cq_line_entry *entries, size_t room, uint64_t *count) {
    uint32_t result = cebdyraq_get_line_number_table_proved(env, method, kind, entries, room, count);
    tell_watchers();
    return result;
}

uint32_t cebdyraq_set_breakpoint_proved(cq_env *env, uint32_t method, uint32_t location);
uint32_t cq_set_breakpoint(cq_env *env, uint32_t method, uint32_t location) {
    uint32_t result = cebdyraq_set_breakpoint_proved(env, method, location);
    tell_watchers();
    return result;
}

uint32_t cebdyraq_clear_breakpoint_proved(cq_env *env, uint32_t method, uint32_t location);
uint32_t cq_clear_breakpoint(cq_env *env, uint32_t method, uint32_t location) {
    uint32_t result = cebdyraq_clear_breakpoint_proved(env, method, location);
    tell_watchers();
    return result;
}

uint32_t cebdyraq_set_stop_notification_mode_proved(cq_env *env, bool enabled, uint32_t kind, uint32_t thread);
uint32_t cq_set_stop_notification_mode(cq_env *env, bool enabled, uint32_t kind, uint32_t thread) {
    uint32_t result = cebdyraq_set_stop_notification_mode_proved(env, enabled, kind, thread);
    tell_watchers();
    return result;
}

uint32_t cebdyraq_notify_frame_pop_proved(cq_env *env, uint32_t thread, uint32_t frames);
uint32_t cq_notify_frame_pop(cq_env *env, uint32_t thread, uint32_t frames) {
    uint32_t result = cebdyraq_notify_frame_pop_proved(env, thread, frames);
    tell_watchers();
    return result;
}

uint32_t cebdyraq_next_stop_proved(cq_env *env, cq_stop *stop);
uint32_t cq_next_stop(cq_env *env, cq_stop *stop) {
    uint32_t result = cebdyraq_next_stop_proved(env, stop);
    tell_watchers();
    return result;
}

uint32_t cebdyraq_end_stop_proved(cq_env *env, uint32_t thread);
uint32_t cq_end_stop(cq_env *env, uint32_t thread) {
    uint32_t result = cebdyraq_end_stop_proved(env, thread);
    tell_watchers();
    return result;
}

uint32_t cebdyraq_door_connect_proved(cq_door *door, uint64_t now, uint32_t *connection);
uint32_t cq_door_connect(cq_door *door, uint64_t now, uint32_t *connection) {
    uint32_t result = cebdyraq_door_connect_proved(door, now, connection);
    tell_watchers();
    return result;
}

uint32_t cebdyraq_door_next_proved(cq_door *door, uint32_t connection, uint64_t now, uint64_t unix_time, uint32_t *action, uint64_t *room);
uint32_t cq_door_next(cq_door *door, uint32_t connection, uint64_t now, uint64_t unix_time, uint32_t *action, uint64_t *room) {
    uint32_t result = cebdyraq_door_next_proved(door, connection, now, unix_time, action, room);
    tell_watchers();
    return result;
}

uint32_t cebdyraq_door_feed_proved(cq_door *door, uint32_t connection, const uint8_t *bytes, size_t count, uint64_t now, uint64_t *taken);
uint32_t cq_door_feed(cq_door *door, uint32_t connection, const uint8_t *bytes, size_t count, uint64_t now, uint64_t *taken) {
    uint32_t result = cebdyraq_door_feed_proved(door, connection, bytes, count, now, taken);
    tell_watchers();
    return result;
}

uint32_t cebdyraq_door_end_proved(cq_door *door, uint32_t connection, uint64_t now);
uint32_t cq_door_end(cq_door *door, uint32_t connection, uint64_t now) {
    uint32_t result = cebdyraq_door_end_proved(door, connection, now);
    tell_watchers();
    return result;
}

uint32_t cebdyraq_door_output_proved(cq_door *door, uint32_t connection, uint8_t *bytes, size_t room, uint64_t *count);
uint32_t cq_door_output(cq_door *door, uint32_t connection, uint8_t *bytes, size_t room, uint64_t *count) {
    uint32_t result = cebdyraq_door_output_proved(door, connection, bytes, room, count);
    tell_watchers();
    return result;
}

uint32_t cebdyraq_door_written_proved(cq_door *door, uint32_t connection, uint64_t count, uint64_t now);
uint32_t cq_door_written(cq_door *door, uint32_t connection, uint64_t count, uint64_t now) {
    uint32_t result = cebdyraq_door_written_proved(door, connection, count, now);
    tell_watchers();
    return result;
}

uint32_t cebdyraq_door_disconnect_proved(cq_door *door, uint32_t connection);
uint32_t cq_door_disconnect(cq_door *door, uint32_t connection) {
    uint32_t result = cebdyraq_door_disconnect_proved(door, connection);
    tell_watchers();
    return result;
}

uint32_t cebdyraq_door_runtime_ends_proved(cq_door *door);
uint32_t cq_door_runtime_ends(cq_door *door) {
    uint32_t result = cebdyraq_door_runtime_ends_proved(door);
    tell_watchers();
    return result;
}

uint32_t cebdyraq_door_tick_proved(cq_door *door, uint64_t now, uint64_t *deadline);
uint32_t cq_door_tick(cq_door *door, uint64_t now, uint64_t *deadline) {
    uint32_t result = cebdyraq_door_tick_proved(door, now, deadline);
    tell_watchers();
    return result;
}

uint32_t cebdyraq_door_starts_suspended_proved(cq_door *door, bool suspended);
uint32_t cq_door_starts_suspended(cq_door *door, bool suspended) {
    uint32_t result = cebdyraq_door_starts_suspended_proved(door, suspended);
    tell_watchers();
    return result;
}

uint32_t cebdyraq_door_tells_variables_proved(cq_door *door, bool tells);
uint32_t cq_door_tells_variables(cq_door *door, bool tells) {
    uint32_t result = cebdyraq_door_tells_variables_proved(door, tells);
    tell_watchers();
    return result;
}

uint32_t cebdyraq_door_pops_frames_proved(cq_door *door, bool pops);
uint32_t cq_door_pops_frames(cq_door *door, bool pops) {
    uint32_t result = cebdyraq_door_pops_frames_proved(door, pops);
    tell_watchers();
    return result;
}

uint32_t cebdyraq_door_question_proved(cq_door *door, cq_question *question);
uint32_t cq_door_question(cq_door *door, cq_question *question) {
    uint32_t result = cebdyraq_door_question_proved(door, question);
    tell_watchers();
    return result;
}

uint32_t cebdyraq_door_tell_variables_proved(cq_door *door, const cq_variable *variables, size_t count, const uint8_t *names, size_t length);
uint32_t cq_door_tell_variables(cq_door *door, const cq_variable *variables, size_t count, const uint8_t *names, size_t length) {
    uint32_t result = cebdyraq_door_tell_variables_proved(door, variables, count, names, length);
    tell_watchers();
    return result;
}

uint32_t cebdyraq_door_tell_values_proved(cq_door *door, const cq_value *values, size_t count, const uint8_t *texts, size_t length);
uint32_t cq_door_tell_values(cq_door *door, const cq_value *values, size_t count, const uint8_t *texts, size_t length) {
    uint32_t result = cebdyraq_door_tell_values_proved(door, values, count, texts, length);
    tell_watchers();
    return result;
}

uint32_t cebdyraq_door_tell_none_proved(cq_door *door, uint32_t code);
uint32_t cq_door_tell_none(cq_door *door, uint32_t code) {
    uint32_t result = cebdyraq_door_tell_none_proved(door, code);
    tell_watchers();
    return result;
}

uint32_t cebdyraq_door_resumptions_proved(cq_door *door, uint64_t *count);
uint32_t cq_door_resumptions(cq_door *door, uint64_t *count) {
    uint32_t result = cebdyraq_door_resumptions_proved(door, count);
    tell_watchers();
    return result;
}

uint32_t cebdyraq_close_door_proved(cq_door *door);
uint32_t cq_close_door(cq_door *door) {
    uint32_t result = cebdyraq_close_door_proved(door);
    tell_watchers();
    return result;
}
