/* serving.c: servers of a service, and debuggers that attach to them. */
#include "calls.h"
#include "debuggers.h"
#include "scenarios.h"

#include "../../c/cebdyraq_serve.h"

#include <string.h>

static cq_server servers[2];
static debugger one, other;

/* ------------------------------------------------------------------------------------------------------------------
 * The runtime. The actor that has the debuggers awaits the ends of its threads.
 */

static int running;    /* threads */
static uint32_t over;  /* at which their ends are awaited */
static bool may_go_on; /* the debugger has resumed the threads that wait for it, or it or the server goes */

static void define(const char *signature, size_t methods) {
    static const cq_method_strings method = { .name = "run", .signature = "", .lines_kind = CQ_LINES_LOCATIONS, .first_line = 1 };
    uint32_t number, first, code;
    while ((code = cq_define_class_strings(&service, signature, NULL, &method, methods, &number, &first)) == CQ_BUSY) nap();
    OK(code);
}

static void make_threads(int count) {
    cq_thread *const threads[] = { &t0, &t1 };
    make(2, count, 0);
    memset(servers, 0, sizeof servers);
    running = count;
    may_go_on = false;
    define("La;", 1);
    for (int i = 0; i < count; i++) {
        OK(cq_start(threads[i]));
        OK(cq_enter(threads[i], 0));
    }
    goes_one_way = true;
}

static void make_runtime(void) { make_threads(1); }
static void make_runtime_of_two(void) { make_threads(2); }

static void end_thread(cq_thread *thread) {
    OK(cq_wait_end(thread, &the_signal));
    running--;
    wake_at(&over, 1);
}

static void await_ends(void) {
    step("await the threads' ends");
    while (running > 0) sleep_at(&over, 1, FOREVER_NS);
}

/* The thread reaches a line, and stops there if it has to. */
static void run_a_line(cq_thread *thread) {
    bool stops = false;
    OK(cq_wait_reached(thread, &the_signal, 0, 1, &stops));
    if (stops) OK(cq_wait_stop(thread, &the_signal));
}

static void run_and_end(cq_thread *thread) {
    await_search();
    run_a_line(thread);
    end_thread(thread);
}

static void run_0(void) { run_and_end(&t0); }
static void run_1(void) { run_and_end(&t1); }

static void run_twice_0(void) {
    await_search();
    run_a_line(&t0);
    OK(cq_wait_poll(&t0, &the_signal));
    run_a_line(&t0);
    end_thread(&t0);
}

/* The same by functions of cebdyraq.h, and cq_wake after them. */
static void run_by_tries_0(void) {
    bool stops = false;
    await_search();
    while (cq_reached(&t0, 0, 1, &stops) == CQ_BUSY) nap();
    while (cq_block(&t0, CQ_PARK) == CQ_BUSY) nap();
    cq_wake(&the_signal);
    while (stops && (cq_is_stopped(&t0, &stops) != CQ_OK || stops)) nap();
    OK(cq_wait_back(&t0, &the_signal, FOREVER_NS));
    end_thread(&t0);
}

static void come_back_and_end(cq_thread *thread) {
    OK(cq_wait_back(thread, &the_signal, FOREVER_NS));
    if (!may_go_on) fail("a thread goes on before it may");
    end_thread(thread);
}

static void load_and_end(cq_thread *thread, const char *class) {
    await_search();
    define(class, 0);
    OK(cq_wait_block(thread, &the_signal, CQ_PARK));
    OK(cq_server_tell_classes(&servers[0]));
    come_back_and_end(thread);
}

static void load_0(void) { load_and_end(&t0, "Lb;"); }
static void load_1(void) { load_and_end(&t1, "Lc;"); }

static void block_and_return_0(void) {
    await_search();
    OK(cq_wait_block(&t0, &the_signal, CQ_PARK));
    OK(cq_wait_back(&t0, &the_signal, FOREVER_NS));
    end_thread(&t0);
}

static void begin_suspended_0(void) {
    OK(cq_wait_block(&t0, &the_signal, CQ_PARK));
    await_search();
    OK(cq_server_await_resumption(&servers[0]));
    come_back_and_end(&t0);
}

/* ------------------------------------------------------------------------------------------------------------------
 * Servers, and what debuggers do. The search begins once each server sleeps for long.
 */

static const size_t WIDE = 4096, NARROW = 60;

static void listen_for_debuggers(int number) {
    OK(cq_debug_listen(&servers[number], &service, &the_signal, "", "tests", "/src"));
}

static void end_server(int number) { OK(cq_serve_end(&servers[number])); }

static void begin_at_rest(void) {
    while (!servers_rest()) nap();
    begin_search();
}

/* A server with a debugger, which has asked for events. */
static void begin_debugged(int number, debugger *by, size_t room, const char *events) {
    listen_for_debuggers(number);
    attach(by, number, room);
    ask_for(by, events);
}

static void begin_with(const char *events) {
    begin_debugged(0, &one, WIDE, events);
    begin_at_rest();
}

static void begin_attached(void) {
    listen_for_debuggers(0);
    attach(&one, 0, WIDE);
    begin_at_rest();
}

static void begin_unattached(void) {
    listen_for_debuggers(0);
    begin_at_rest();
}

static void finish(void) {
    await_ends();
    end_server(0);
}

/* The rest is not searched: there are enough that end a server or two. */
static void finish_both(void) {
    end_search();
    finish();
    end_server(1);
}

static void take_and_resume(debugger *by) {
    await_event(by);
    resume_thread(by);
}

/* A stop is told, and the thread stands until it is resumed. */
static void debug(void) {
    begin_with(LINE);
    take_and_resume(&one);
    finish();
}

static void debug_twice(void) {
    begin_with(LINE);
    take_and_resume(&one);
    take_and_resume(&one);
    end_search();
    finish();
}

/* The request for the line is read while the thread runs, and is taken back as the thread stops. */
static void ask_late(void) {
    begin_attached();
    ask_for(&one, LINE);
    end_server(0);
}

static void clear_line(void) {
    begin_with(LINE);
    ask(&one, 15, 2, "02 00000001");
    await_reply(&one);
    if (one.events > 0) resume_thread(&one);
    finish();
}

/* The debugger goes as the thread stops, or once it is told of the stop. */
static void go_at_once(void) {
    begin_with(LINE);
    hang_up(one.at);
    finish();
}

static void go_when_told(void) {
    begin_with(LINE);
    await_event(&one);
    hang_up(one.at);
    finish();
}

static void dispose_when_told(void) {
    begin_with(LINE);
    await_event(&one);
    ask(&one, 1, 6, "");
    finish();
}

/* Another debugger attaches as the first one goes. */
static void be_followed(void) {
    begin_with(LINE);
    hang_up(one.at);
    attach(&other, 0, WIDE);
    finish();
}

/* The server ends as the thread stops, or while nothing happens. */
static void end_debugged(void) {
    begin_with(LINE);
    end_server(0);
}

static void end_unattached(void) {
    begin_unattached();
    end_server(0);
}

/* A thread is suspended, and goes on. Until it has handed over the server sleeps for longer and longer. It takes more preemptions than the
 * bounds have before it sleeps for long. */
static void suspend_one(void) {
    begin_attached();
    one.thread = 1;
    ask(&one, 11, 2, "0000000000000001");
    await_reply(&one);
    resume_thread(&one);
    finish();
}

static void suspend_all(void) {
    begin_attached();
    ask(&one, 1, 8, "");
    await_reply(&one);
}

static void suspend_and_go(void) {
    suspend_all();
    hang_up(one.at);
    finish();
}

static void suspend_and_end(void) {
    suspend_all();
    end_server(0);
}

/* The server writes a reply that does not fit. */
static void debug_slowly(void) {
    begin_debugged(0, &one, NARROW, LINE);
    begin_at_rest();
    ask(&one, 1, 1, "");
    await_reply(&one);
    take_and_resume(&one);
    end_search();
    finish();
}

/* Another server writes an answer that its client does not read. */
static void debug_beside_client(void) {
    static const char request[] = "GET /metrics HTTP/1.1\r\nHost: a\r\n\r\n";
    uint8_t bytes[200];
    begin_debugged(0, &one, WIDE, LINE);
    OK(cq_serve(&servers[1], &service, &the_signal, "", "tests"));
    peer *client = dial(1, NARROW);
    say(client, request, sizeof request - 1);
    begin_at_rest();
    take_and_resume(&one);
    hear(client, bytes, sizeof bytes);
    finish_both();
}

/* Two servers, whose debuggers are both told, or the first alone. */
static void begin_both(const char *events) {
    begin_debugged(0, &one, WIDE, LINE);
    begin_debugged(1, &other, WIDE, events);
    begin_at_rest();
}

static void debug_both(void) {
    begin_both(LINE);
    take_and_resume(&one);
    take_and_resume(&other);
    finish_both();
}

static void debug_one(void) {
    begin_both(OTHER_LINE);
    take_and_resume(&one);
    finish_both();
}

static void debug_and_end_other(void) {
    begin_both(OTHER_LINE);
    end_server(1);
    take_and_resume(&one);
    finish();
}

/* Classes are told before the thread that has defined them runs on. */
static void take_class(void) {
    begin_with(CLASSES);
    await_event(&one);
    may_go_on = true;
    resume_all(&one);
    finish();
}

/* While the threads are suspended for one class, the other one waits. */
static void take_two_classes(void) {
    begin_with(CLASSES);
    await_event(&one);
    may_go_on = true;
    resume_all(&one);
    await_event(&one);
    resume_all(&one);
    finish();
}

static void take_none(void) {
    begin_attached();
    may_go_on = true;
    finish();
}

static void go_before_class(void) {
    begin_with(CLASSES);
    may_go_on = true;
    hang_up(one.at);
    finish();
}

static void end_before_class(void) {
    begin_with(CLASSES);
    may_go_on = true;
    end_server(0);
}

/* A runtime that waits for its first debugger, which others may come before: one that says nothing, and one who may not debug. */
static void begin_awaiting(void) {
    OK(cq_server_starts_suspended(&servers[0], true));
    begin_unattached();
}

static void attach_first(void) {
    attach(&one, 0, WIDE);
    await_event(&one);
    may_go_on = true;
    resume_all(&one);
    finish();
}

static void come_first(void) {
    begin_awaiting();
    attach_first();
}

static void come_after_a_probe(void) {
    begin_awaiting();
    hang_up(dial(0, WIDE));
    attach_first();
}

static void come_after_a_stranger(void) {
    begin_awaiting();
    dial_as_stranger(0);
    attach_first();
}

static void end_before_first(void) {
    begin_awaiting();
    may_go_on = true;
    end_server(0);
}

#define ONE { "debugger", "server", "thread 0" }
#define TWO_THREADS { "debugger", "server", "thread 0", "thread 1" }
#define TWO_SERVERS { "debuggers", "server 0", "server 1", "thread 0" }

static const scenario all[] = {
    { "stop_told", make_runtime, { debug, be_server_0, run_0 }, ONE },
    { "stop_told_by_wake", make_runtime, { debug, be_server_0, run_by_tries_0 }, ONE },
    { "stops_told", make_runtime, { debug_twice, be_server_0, run_twice_0 }, ONE },
    { "two_stops_told", make_runtime_of_two, { debug_twice, be_server_0, run_0, run_1 }, TWO_THREADS },
    { "line_asked_for", make_runtime, { ask_late, be_server_0, run_twice_0 }, ONE },
    { "line_cleared", make_runtime, { clear_line, be_server_0, run_0 }, ONE },
    { "debugger_goes", make_runtime, { go_at_once, be_server_0, run_0 }, ONE },
    { "told_debugger_goes", make_runtime, { go_when_told, be_server_0, run_0 }, ONE },
    { "told_debugger_disposes", make_runtime, { dispose_when_told, be_server_0, run_0 }, ONE },
    { "next_debugger", make_runtime, { be_followed, be_server_0, run_0 }, ONE },
    { "server_ends", make_runtime, { end_debugged, be_server_0, run_0 }, ONE },
    { "idle_server_ends", make_runtime, { end_unattached, be_server_0 }, ONE },
    { "suspended", make_runtime, { suspend_one, be_server_0, block_and_return_0 }, ONE },
    { "suspended_debugger_goes", make_runtime, { suspend_and_go, be_server_0, block_and_return_0 }, ONE },
    { "suspended_server_ends", make_runtime, { suspend_and_end, be_server_0, block_and_return_0 }, ONE },
    { "stop_told_slowly", make_runtime, { debug_slowly, be_server_0, run_0 }, ONE },
    { "stop_told_beside", make_runtime, { debug_beside_client, be_server_0, be_server_1, run_0 }, TWO_SERVERS },
    { "stop_told_to_both", make_runtime, { debug_both, be_server_0, be_server_1, run_0 }, TWO_SERVERS },
    { "stop_told_to_one", make_runtime, { debug_one, be_server_0, be_server_1, run_0 }, TWO_SERVERS },
    { "other_server_ends", make_runtime, { debug_and_end_other, be_server_0, be_server_1, run_0 }, TWO_SERVERS },
    { "class_told", make_runtime, { take_class, be_server_0, load_0 }, ONE },
    { "two_classes_told", make_runtime_of_two, { take_two_classes, be_server_0, load_0, load_1 }, TWO_THREADS },
    { "two_classes", make_runtime_of_two, { take_none, be_server_0, load_0, load_1 }, TWO_THREADS },
    { "class_told_to_none", make_runtime, { go_before_class, be_server_0, load_0 }, ONE },
    { "class_told_at_end", make_runtime, { end_before_class, be_server_0, load_0 }, ONE },
    { "first_debugger", make_runtime, { come_first, be_server_0, begin_suspended_0 }, ONE },
    { "first_after_a_probe", make_runtime, { come_after_a_probe, be_server_0, begin_suspended_0 }, ONE },
    { "first_after_a_stranger", make_runtime, { come_after_a_stranger, be_server_0, begin_suspended_0 }, ONE },
    { "no_first_debugger", make_runtime, { end_before_first, be_server_0, begin_suspended_0 }, ONE },
};
const chapter serving = { all, sizeof all / sizeof *all, true };
