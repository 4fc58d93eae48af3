/* debugger.c: a door for debuggers without sockets, whose time is the test's. What it writes is worked out from the protocol.
 *
 *     debugger [STREAMS [SEED]] */
#include "debugger.h"
#include "counted_heap.h"

cq_service service;
cq_thread worker, sleeper;
cq_door door;
uint64_t now = 1000 * SECOND;
static uint32_t request_id = 100;

/* ------------------------------------------------------------------------------------------------------------------
 * The runtime.
 */

static void define(void) {
    static const cq_method_strings work[] = {
        { .name = "outer", .lines_kind = CQ_LINES_LOCATIONS, .first_line = 3 },
        { .name = "inner", .lines_kind = CQ_LINES_LOCATIONS, .first_line = 9 },
    };
    static const cq_method_strings host[] = { { .name = "sleep", .lines_kind = CQ_LINES_NATIVE } };
    uint32_t class_no = 7, first = 7;
    OK(cq_define_class_strings(&service, "Lscripts/work;", "work.x", work, 2, &class_no, &first));
    SAME(first, 0);
    OK(cq_define_class_strings(&service, "Lhost;", NULL, host, 1, &class_no, &first));
    SAME(first, 2);
}

static void start(cq_thread *thread, const char *name) {
    OK(cq_attach_thread(&service, (const uint8_t *)name, strlen(name), 5, thread));
    OK(cq_start(thread));
}

static void end(cq_thread *thread) {
    OK(cq_end(thread));
    OK(cq_detach_thread(thread));
}

void begin_runtime(void) {
    cq_frame frames[] = { { 1, 11 }, { 0, 5 } };
    OK(cq_make(8, 3, 4, CQ_CAN_SUSPEND | CQ_CAN_POP_FRAME, &service));
    define();
    start(&worker, "worker");
    OK(cq_set_frames(&worker, frames, 2));
    start(&sleeper, "sleeper");
    OK(cq_enter_native(&sleeper, 2));
    OK(cq_block(&sleeper, CQ_SLEEP));
}

void end_runtime(void) {
    CHECK(goes_on(&sleeper));
    end(&sleeper);
    end(&worker);
    OK(cq_free(&service));
}

bool goes_on(cq_thread *thread) {
    uint32_t code = cq_back(thread);
    CHECK(code == CQ_OK || code == CQ_BARRED);
    return code == CQ_OK;
}

/* ------------------------------------------------------------------------------------------------------------------
 * Steps.
 */

void open_debugger(void) {
    OK(cq_open_debugger(&service, (const uint8_t *)"tests", 5, (const uint8_t *)"/src", 4, now, &door));
    tick_after(0);
}

void close_debugger(void) {
    OK(cq_close_door(&door));
}

uint64_t tick_after(uint64_t time) {
    uint64_t deadline = 0;
    now += time;
    OK(cq_door_tick(&door, now, &deadline));
    CHECK(deadline >= now);
    return deadline;
}

uint32_t action_now(void) {
    uint32_t action = 77;
    uint64_t room = UINT64_MAX;
    OK(cq_door_next(&door, 0, now, 0, &action, &room));
    CHECK(action <= CQ_DOOR_ASK && room <= LONGEST_PACKET);
    return action;
}

void feed_bytes(const void *bytes, size_t count) {
    uint64_t taken = 0;
    OK(cq_door_feed(&door, 0, bytes, count, now, &taken));
    SAME(taken, count);
}

void connect_debugger(void) {
    uint32_t connection = 77;
    OK(cq_door_connect(&door, now, &connection));
    SAME(connection, 0);
}

void detach(void) {
    OK(cq_door_disconnect(&door, 0));
}

/* Takes what is to be written, which is these bytes. */
static void take(const packet *wanted) {
    static uint8_t bytes[LONGEST_PACKET];
    uint64_t count = 0;
    SAME(action_now(), CQ_DOOR_WRITE);
    OK(cq_door_output(&door, 0, bytes, sizeof bytes, &count));
    check_bytes(bytes, count, wanted);
    OK(cq_door_written(&door, 0, count, now));
}

void attach(void) {
    static packet handshake;
    handshake.length = strlen(HANDSHAKE);
    memcpy(handshake.bytes, HANDSHAKE, handshake.length);
    connect_debugger();
    SAME(action_now(), CQ_DOOR_WAIT);
    feed_bytes(handshake.bytes, handshake.length);
    take(&handshake);
    SAME(action_now(), CQ_DOOR_WAIT);
}

void ask(uint8_t set, uint8_t command, const char *data) {
    static packet made;
    make_request(&made, ++request_id, set, command, data);
    feed_bytes(made.bytes, made.length);
}

void replied(uint16_t error, const char *data) {
    static packet wanted;
    make_reply(&wanted, request_id, error, data);
    take(&wanted);
}

void asks(uint8_t set, uint8_t command, const char *data, uint16_t error, const char *reply) {
    ask(set, command, data);
    replied(error, reply);
    SAME(action_now(), CQ_DOOR_WAIT);
}

uint64_t resumptions(void) {
    uint64_t count = 77;
    OK(cq_door_resumptions(&door, &count));
    return count;
}

/* ------------------------------------------------------------------------------------------------------------------
 * Codes.
 */

static void tells_of_empty_handles(void) {
    cq_door none = { 0 };
    cq_question question = { .kind = 3 };
    uint32_t number = 7;
    uint64_t count = 5;
    uint8_t byte = 9;
    SAME(cq_door_connect(&none, now, &number), CQ_MISUSED);
    SAME(cq_door_next(&none, 0, now, 0, &number, &count), CQ_MISUSED);
    SAME(cq_door_feed(&none, 0, &byte, 1, now, &count), CQ_MISUSED);
    SAME(cq_door_end(&none, 0, now), CQ_MISUSED);
    SAME(cq_door_output(&none, 0, &byte, 1, &count), CQ_MISUSED);
    SAME(cq_door_written(&none, 0, 1, now), CQ_MISUSED);
    SAME(cq_door_disconnect(&none, 0), CQ_MISUSED);
    SAME(cq_door_tick(&none, now, &count), CQ_MISUSED);
    SAME(cq_door_resumptions(&none, &count), CQ_MISUSED);
    SAME(cq_door_tells_variables(&none, true), CQ_MISUSED);
    SAME(cq_door_pops_frames(&none, true), CQ_MISUSED);
    SAME(cq_door_starts_suspended(&none, true), CQ_MISUSED);
    SAME(cq_door_runtime_ends(&none), CQ_MISUSED);
    SAME(cq_door_question(&none, &question), CQ_MISUSED);
    SAME(cq_door_tell_variables(&none, NULL, 0, NULL, 0), CQ_MISUSED);
    SAME(cq_door_tell_values(&none, NULL, 0, NULL, 0), CQ_MISUSED);
    SAME(cq_door_tell_none(&none, CQ_ABSENT_INFORMATION), CQ_MISUSED);
    SAME(cq_door_answer(&none, &variables), CQ_MISUSED);
    SAME(cq_close_door(&none), CQ_MISUSED);
    CHECK(number == 7 && count == 5 && byte == 9 && question.kind == 3);
}

static uint32_t opened(cq_service *of, const char *program, const char *path, cq_door *at) {
    return cq_open_debugger(of, (const uint8_t *)program, strlen(program), (const uint8_t *)path, strlen(path), now, at);
}

static void refuses_to_open(void) {
    cq_service none = { 0 };
    cq_door other = { 0 };
    cq_env envs[2] = { 0 };
    SAME(opened(&none, "tests", "/src", &other), CQ_MISUSED);
    SAME(opened(&service, "tests", "/src", &door), CQ_MISUSED);
    SAME(opened(&service, "\xff", "/src", &other), CQ_ILLEGAL_ARGUMENT);
    SAME(opened(&service, "tests", "/\xc3", &other), CQ_ILLEGAL_ARGUMENT);
    for (size_t i = 0; i < 2; i++) {
        OK(cq_attach_environment(&service, &envs[i]));
    }
    SAME(opened(&service, "tests", "/src", &other), CQ_FULL);
    SAME(other.kind, 0);
    for (size_t i = 0; i < 2; i++) {
        OK(cq_dispose_environment(&envs[i]));
    }
}

/* Nothing is done for a connection that is not there. */
static void has_no_connection(uint32_t at) {
    uint32_t number = 7;
    uint64_t count = 5;
    uint8_t byte = 9;
    SAME(cq_door_next(&door, at, now, 0, &number, &count), CQ_NONE);
    SAME(cq_door_feed(&door, at, &byte, 1, now, &count), CQ_NONE);
    SAME(cq_door_output(&door, at, &byte, 1, &count), CQ_NONE);
    SAME(cq_door_end(&door, at, now), CQ_NONE);
    SAME(cq_door_written(&door, at, 1, now), CQ_NONE);
    SAME(cq_door_disconnect(&door, at), CQ_NONE);
    CHECK(number == 7 && count == 5 && byte == 9);
}

/* There is one connection, and no second one beside it. */
static void has_one_connection(void) {
    uint32_t number = 7;
    has_no_connection(0);
    attach();
    SAME(cq_door_connect(&door, now, &number), CQ_FULL);
    SAME(number, 7);
    for (uint32_t at = 1; at < 20; at++) {
        has_no_connection(at);
    }
    has_no_connection(UINT32_MAX);
    SAME(cq_close_door(&door), CQ_BUSY);
    asks(11, 1, WORKER, 0, "s:worker");
    detach();
    has_no_connection(0);
}

/* A debugger is told that the runtime ends, with what it has suspended resumed, and is closed. The next one finds all as it is. */
static void tells_the_end(void) {
    static packet wanted;
    uint64_t before = resumptions();
    OK(cq_door_runtime_ends(&door));
    attach();
    asks(11, 2, SLEEPER, 0, "");
    ask(1, 1, "");
    OK(cq_door_runtime_ends(&door));
    make_request(&wanted, 0, 64, 100, "00 00000001 63 00000000");
    take(&wanted);
    SAME(resumptions(), before + 1);
    CHECK(goes_on(&sleeper));
    OK(cq_block(&sleeper, CQ_SLEEP));
    SAME(action_now(), CQ_DOOR_CLOSE);
    detach();
    attach();
    asks(11, 12, SLEEPER, 0, "00000000");
    detach();
}

/* A door for HTTP resumes nothing, and asks nothing. */
static void tells_of_http(void) {
    cq_door other = { 0 };
    cq_question question = { .kind = 3 };
    uint64_t count = 7;
    OK(cq_open_door(&service, (const uint8_t *)"tests", 5, 6060, now, &other));
    OK(cq_door_resumptions(&other, &count));
    SAME(count, 0);
    OK(cq_door_tells_variables(&other, true));
    OK(cq_door_pops_frames(&other, true));
    OK(cq_door_starts_suspended(&other, true));
    OK(cq_door_runtime_ends(&other));
    OK(cq_door_question(&other, &question));
    SAME(question.kind, CQ_QUESTION_NONE);
    SAME(cq_door_answer(&other, &variables), CQ_NONE);
    SAME(cq_door_tell_none(&other, CQ_ABSENT_INFORMATION), CQ_NONE);
    OK(cq_close_door(&other));
}

static void tells_misuse(void) {
    begin_runtime();
    open_debugger();
    tells_of_empty_handles();
    refuses_to_open();
    has_one_connection();
    tells_the_end();
    tells_of_http();
    close_debugger();
    SAME(cq_close_door(&door), CQ_MISUSED);
    end_runtime();
}

int main(int argc, char **argv) {
    uint64_t streams = argc > 1 ? strtoull(argv[1], NULL, 10) : 100000, seed = argc > 2 ? strtoull(argv[2], NULL, 10) : 1;
    tells_misuse();
    tells_what_there_is();
    suspends();
    tells_variables();
    pops_for_debuggers();
    lacks_memory();
    debugs_at_random(streams, seed);
    SAME(heap_blocks(), 0);
    return 0;
}
