/* watch_told.c: which threads a watch tells of, and when. */
#include "../../c/cebdyraq_serve.h"
#include "watch.h"

enum { MANY = 2000 };
static uint64_t now = 1000000000000;

/* ------------------------------------------------------------------------------------------------------------------
 * Turns.
 */

static void once_a_turn(void) {
    cq_answer answer;
    cq_frame none;
    tells_nothing(&watch);
    call(0);
    call(0);
    SAME(cq_get_frame_count(&other, 0, &answer), CQ_WAITING);
    TELLS(&watch, 0);
    call(0);
    tells_nothing(&watch);
    hand_over(0);
    OK(cq_collect(&other, &answer.ticket, &answer, &none, 0));
    tells_nothing(&watch);
    call(0);
    hand_over(0);
    call(0);
    TELLS(&watch, 0);
    hand_over(0);
}

/* A thread that has handed over, and is wanted again, before it was told is told once. One that is not wanted any more is told in vain. */
static void late(void) {
    call(1);
    hand_over(1);
    call(1);
    hand_over(1);
    TELLS(&watch, 1);
}

static void as_many_as_there_is_room(void) {
    uint32_t told[2] = { 77, 77 }, sum = 0;
    uint64_t count = 0;
    for (uint32_t i = 0; i < THREADS; i++) call(i);
    OK(cq_next_wanted(&watch, told, 2, &count));
    SAME(count, 2);
    sum = told[0] + told[1];
    OK(cq_wait_next_wanted(&watch, 0, told, 2, &count));
    SAME(count, 1);
    SAME(sum + told[0], 0 + 1 + 2);
    tells_nothing(&watch);
    for (uint32_t i = 0; i < THREADS; i++) hand_over(i);
}

/* ------------------------------------------------------------------------------------------------------------------
 * Who calls, and how.
 */

static void collect(cq_answer *answer, uint32_t code) {
    cq_frame frames[2];
    cq_ticket ticket = answer->ticket;
    SAME(cq_collect(&env, &ticket, answer, frames, 2), code);
}

/* The thread is told, and answers. */
static void is_told(cq_answer *answer, uint32_t code) {
    TELLS(&watch, 2);
    OK(cq_poll(&threads[2]));
    tells_nothing(&watch);
    collect(answer, code);
}

static void by_each_call(void) {
    cq_answer answer;
    cq_frame frames[2];
    SAME(cq_get_frame_count(&env, 2, &answer), CQ_WAITING);
    is_told(&answer, CQ_OK);
    SAME(cq_get_frame_location(&env, 2, 0, &answer), CQ_WAITING);
    is_told(&answer, CQ_OK);
    SAME(cq_get_stack_trace(&env, 2, 0, 2, &answer, frames, 2), CQ_WAITING);
    is_told(&answer, CQ_OK);
    SAME(cq_pop_frame(&env, 2, &answer), CQ_WAITING);
    is_told(&answer, CQ_THREAD_NOT_SUSPENDED);
}

/* What is answered at once calls for nobody. */
static void not_by_others(void) {
    cq_answer answer;
    OK(cq_get_thread_state(&env, 2, &answer));
    OK(cq_set_thread_local_storage(&env, 2, 5, &answer));
    OK(cq_get_thread_local_storage(&env, 2, &answer));
    SAME(cq_resume_thread(&env, 2, &answer), CQ_THREAD_NOT_SUSPENDED);
    SAME(cq_ensure_resumed(&env, 2), CQ_OK);
    tells_nothing(&watch);
}

/* A thread that stands is never wanted. */
static void by_a_suspension(void) {
    cq_answer answer, count;
    SAME(cq_suspend_thread(&env, 1, &answer), CQ_WAITING);
    TELLS(&watch, 1);
    SAME(cq_poll(&threads[1]), CQ_HELD);
    collect(&answer, CQ_OK);
    OK(cq_get_frame_count(&env, 1, &count));
    SAME(cq_back(&threads[1]), CQ_BARRED);
    tells_nothing(&watch);
    OK(cq_resume_thread(&env, 1, &answer));
    OK(cq_back(&threads[1]));
    tells_nothing(&watch);
    call(1);
    TELLS(&watch, 1);
    hand_over(1);
}

static void not_while_it_is_away(void) {
    cq_answer answer;
    OK(cq_block(&threads[0], CQ_SLEEP));
    OK(cq_get_frame_count(&env, 0, &answer));
    OK(cq_suspend_thread(&env, 0, &answer));
    SAME(cq_back(&threads[0]), CQ_BARRED);
    OK(cq_resume_thread(&env, 0, &answer));
    tells_nothing(&watch);
    OK(cq_back(&threads[0]));
    OK(cq_enter_native(&threads[0], 8));
    OK(cq_native(&threads[0]));
    OK(cq_get_frame_count(&env, 0, &answer));
    OK(cq_back(&threads[0]));
    OK(cq_leave(&threads[0]));
    tells_nothing(&watch);
    call(0);
    TELLS(&watch, 0);
    hand_over(0);
}

static uint32_t step(void) {
    bool is_over = false;
    uint32_t code = cq_gather_step(&env, &is_over);
    return code == CQ_OK && is_over ? CQ_NONE : code;
}

static void step_to_end(void) {
    uint32_t code;
    while ((code = step()) == CQ_OK) {
    }
    SAME(code, CQ_NONE);
}

/* It stops one thread after another. */
static void by_a_trace(void) {
    uint32_t list[] = { 0, 1, 2 };
    OK(cq_gather_thread_list_stack_traces(&env, list, 3, 4));
    tells_nothing(&watch);
    for (uint32_t i = 0; i < THREADS; i++) {
        OK(step());
        TELLS(&watch, i);
    }
    while (step() == CQ_OK) {
    }
    SAME(step(), CQ_STILL_RUNNING);
    for (uint32_t i = 0; i < THREADS; i++) SAME(cq_poll(&threads[i]), CQ_HELD);
    step_to_end();
    for (uint32_t i = 0; i < THREADS; i++) OK(cq_back(&threads[i]));
}

/* The thread that it has stopped is wanted until it polls, and is told. */
static void by_a_trace_that_is_given_up(void) {
    uint32_t list[] = { 2, 0 };
    OK(cq_gather_thread_list_stack_traces(&env, list, 2, 4));
    OK(step());
    OK(cq_gather_give_up(&env));
    step_to_end();
    TELLS(&watch, 0);
    OK(cq_poll(&threads[0]));
}

/* ------------------------------------------------------------------------------------------------------------------
 * Doors.
 */

static cq_door door;

static void tick(void) {
    uint64_t deadline;
    now += 1000000;
    OK(cq_door_tick(&door, now, &deadline));
}

static void feed(const void *bytes, size_t count) {
    uint64_t taken = 0;
    OK(cq_door_feed(&door, 0, bytes, count, now, &taken));
    SAME(taken, count);
}

/* Answers what was fed, and takes what is written away. */
static void go_on(void) {
    uint8_t bytes[256];
    uint32_t action = CQ_DOOR_WRITE;
    uint64_t room, count;
    while (action == CQ_DOOR_WRITE) {
        OK(cq_door_next(&door, 0, now, 0, &action, &room));
        if (action == CQ_DOOR_WRITE) {
            OK(cq_door_output(&door, 0, bytes, sizeof bytes, &count));
            OK(cq_door_written(&door, 0, count, now));
        }
    }
}

static void close_door(void) {
    OK(cq_door_disconnect(&door, 0));
    while (cq_close_door(&door) == CQ_BUSY) tick();
}

static void by_a_door_for_http(void) {
    static const char request[] = "GET /threads HTTP/1.1\r\nHost: localhost\r\n\r\n";
    uint32_t connection = 7;
    OK(cq_open_door(&service, (const uint8_t *)"test", 4, 1234, now, &door));
    tick();
    tells_nothing(&watch);
    OK(cq_door_connect(&door, now, &connection));
    SAME(connection, 0);
    feed(request, sizeof request - 1);
    go_on();
    tick();
    TELLS(&watch, 0, 1, 2);
    for (uint32_t i = 0; i < THREADS; i++) OK(cq_poll(&threads[i]));
    tick();
    go_on();
    close_door();
    tells_nothing(&watch);
}

/* A request without data. */
static void ask(uint8_t set, uint8_t command) {
    uint8_t packet[11] = { 0, 0, 0, 11, 0, 0, 0, 1, 0, set, command };
    feed(packet, sizeof packet);
    go_on();
    tick();
    go_on();
}

static void by_a_debugger(void) {
    enum { MACHINE = 1, SUSPEND = 8, RESUME = 9 };
    uint32_t connection = 7;
    OK(cq_open_debugger(&service, (const uint8_t *)"test", 4, (const uint8_t *)"/", 1, now, &door));
    tick();
    OK(cq_door_connect(&door, now, &connection));
    SAME(connection, 0);
    feed("JDWP-Handshake", 14);
    go_on();
    tick();
    tells_nothing(&watch);
    ask(MACHINE, SUSPEND);
    TELLS(&watch, 0, 1, 2);
    for (uint32_t i = 0; i < THREADS; i++) SAME(cq_poll(&threads[i]), CQ_HELD);
    ask(MACHINE, RESUME);
    for (uint32_t i = 0; i < THREADS; i++) OK(cq_back(&threads[i]));
    close_door();
    tells_nothing(&watch);
}

/* ------------------------------------------------------------------------------------------------------------------
 * Threads that are watched, and that are not.
 */

static void wanted_before_it_is_watched(void) {
    OK(cq_unwatch_thread(&threads[1]));
    OK(cq_unwatch_thread(&threads[1]));
    call(1);
    tells_nothing(&watch);
    OK(cq_watch_thread(&threads[1], &watch));
    TELLS(&watch, 1);
    OK(cq_watch_thread(&threads[1], &watch));
    TELLS(&watch, 1);
    hand_over(1);
}

static void not_once_it_is_unwatched(void) {
    call(1);
    OK(cq_unwatch_thread(&threads[1]));
    may_tell(&watch, 1);
    hand_over(1);
    call(1);
    tells_nothing(&watch);
    call(0);
    TELLS(&watch, 0);
    OK(cq_watch_thread(&threads[1], &watch));
    TELLS(&watch, 1);
    hand_over(0);
    hand_over(1);
}

static void by_another_watch(void) {
    cq_watch second = { 0 };
    OK(cq_open_watch(&second));
    OK(cq_watch_thread(&threads[2], &second));
    call(2);
    call(0);
    TELLS(&second, 2);
    TELLS(&watch, 0);
    OK(cq_watch_thread(&threads[2], &watch));
    TELLS(&watch, 2);
    tells_nothing(&second);
    hand_over(2);
    call(2);
    OK(cq_watch_thread(&threads[2], &second));
    may_tell(&watch, 2);
    TELLS(&second, 2);
    hand_over(0);
    hand_over(2);
    OK(cq_close_watch(&second));
    call(2);
    tells_nothing(&watch);
    OK(cq_unwatch_thread(&threads[2]));
    OK(cq_watch_thread(&threads[2], &watch));
    TELLS(&watch, 2);
    hand_over(2);
}

/* A thread ends and is given back while it is watched, wanted and told. The next one is told under its own number. */
static void of_threads_that_come_and_go(void) {
    for (uint32_t i = 0; i < 5; i++) {
        cq_thread one = { 0 };
        cq_answer answer;
        uint32_t number = 0;
        OK(cq_attach_thread(&service, (const uint8_t *)"", 0, 5, &one));
        OK(cq_thread_number(&one, &number));
        OK(cq_start(&one));
        OK(cq_watch_thread(&one, &watch));
        OK(cq_meet(&env));
        SAME(cq_get_frame_count(&env, number, &answer), CQ_WAITING);
        if (i % 2) TELLS(&watch, number);
        OK(cq_end(&one));
        OK(cq_detach_thread(&one));
        may_tell(&watch, number);
        collect(&answer, CQ_THREAD_NOT_ALIVE);
        OK(cq_let_go_of_all(&env));
        tells_nothing(&watch);
    }
}

static void of_one_among_many(void) {
    static cq_thread many[MANY];
    cq_answer answer;
    for (uint32_t i = 0; i < MANY; i++) {
        OK(cq_attach_thread(&service, (const uint8_t *)"", 0, 5, &many[i]));
        OK(cq_start(&many[i]));
        OK(cq_watch_thread(&many[i], &watch));
    }
    OK(cq_meet(&env));
    tells_nothing(&watch);
    for (uint32_t i = 0; i < MANY; i += MANY / 4 - 1) {
        uint32_t number = 0;
        OK(cq_thread_number(&many[i], &number));
        SAME(cq_get_frame_count(&env, number, &answer), CQ_WAITING);
        TELLS(&watch, number);
        OK(cq_poll(&many[i]));
        collect(&answer, CQ_OK);
    }
    for (uint32_t i = 0; i < MANY; i++) {
        OK(cq_end(&many[i]));
        OK(cq_detach_thread(&many[i]));
    }
    OK(cq_let_go_of_all(&env));
}

/* ------------------------------------------------------------------------------------------------------------------
 * Stops.
 */

static uint32_t set_mode(cq_env *of, bool enabled) {
    return cq_set_stop_notification_mode(of, enabled, CQ_SINGLE_STEP, CQ_ALL_THREADS);
}

/* What was asked for before they are watched is not told. */
static void of_stops(void) {
    cq_service none = { 0 };
    cq_watch closed = { 0 };
    OK(set_mode(&env, true));
    tells_nothing(&watch);
    SAME(cq_watch_stops(&none, &watch), CQ_MISUSED);
    SAME(cq_watch_stops(&service, &closed), CQ_MISUSED);
    OK(cq_watch_stops(&service, &watch));
    tells_nothing(&watch);
    OK(set_mode(&env, false));
    TELLS(&watch, CQ_ALL_THREADS);
    OK(set_mode(&other, true));
    OK(set_mode(&env, true));
    call(1);
    TELLS(&watch, 1, CQ_ALL_THREADS);
    hand_over(1);
    OK(set_mode(&other, false));
    OK(set_mode(&env, false));
    TELLS(&watch, CQ_ALL_THREADS);
}

/* A thread that stops, and goes on, changes nothing of what is asked for. The step of it does. */
static void of_a_thread_that_stops(void) {
    bool stops = false;
    cq_stop stop;
    OK(set_mode(&env, true));
    TELLS(&watch, CQ_ALL_THREADS);
    OK(cq_reached(&threads[0], 7, 1, &stops));
    CHECK(stops);
    OK(cq_next_stop(&env, &stop));
    SAME(stop.thread, 0);
    OK(cq_end_stop(&env, 0));
    tells_nothing(&watch);
    OK(set_mode(&env, false));
    TELLS(&watch, CQ_ALL_THREADS);
}

static void of_stops_for_an_environment_that_ends(void) {
    cq_env ends = { 0 };
    OK(cq_attach_environment(&service, &ends));
    tells_nothing(&watch);
    OK(cq_dispose_environment(&ends));
    tells_nothing(&watch);
    OK(cq_attach_environment(&service, &ends));
    OK(set_mode(&ends, true));
    TELLS(&watch, CQ_ALL_THREADS);
    OK(cq_dispose_environment(&ends));
    TELLS(&watch, CQ_ALL_THREADS);
}

static void of_stops_by_another_watch(void) {
    cq_watch second = { 0 };
    OK(cq_open_watch(&second));
    OK(cq_watch_stops(&service, &second));
    OK(set_mode(&env, true));
    tells_nothing(&watch);
    TELLS(&second, CQ_ALL_THREADS);
    OK(cq_close_watch(&second));
    OK(set_mode(&env, false));
    tells_nothing(&watch);
}

void tells_what_is_wanted(void) {
    begin();
    once_a_turn();
    late();
    as_many_as_there_is_room();
    by_each_call();
    not_by_others();
    by_a_suspension();
    not_while_it_is_away();
    by_a_trace();
    by_a_trace_that_is_given_up();
    by_a_door_for_http();
    by_a_debugger();
    wanted_before_it_is_watched();
    not_once_it_is_unwatched();
    by_another_watch();
    of_threads_that_come_and_go();
    of_one_among_many();
    of_stops();
    of_a_thread_that_stops();
    of_stops_for_an_environment_that_ends();
    of_stops_by_another_watch();
    end();
}
