/* debugger_variables.c: what a debugger asks of variables at a door, and what the runtime's functions answer. The worker is in `inner`,
 * which `outer` has called. */
#include "counted_heap.h"
#include "debugger.h"

#define OUTER "0000000600000000"
#define INNER "0000000600000001"
#define SLEEP "0000000600000002"
#define HOST "0000000400000001"
#define NEWEST "0000000000000000"
#define OLDEST "0000000000000001"
/* Texts and tables are numbered together, in the order in which they are told. */
#define TEXT "0000000a00000000"
#define TABLE "0000000c00000001"
#define ENTRY "0000000a00000002"
#define NEXT_ENTRY "0000000a00000003"
#define OBJECT "s:Ljava/lang/Object; "
#define SLOTS "00000006 00000000 73 00000001 5a 00000002 4c 00000003 4a 00000004 44 00000005 5b"

/* ------------------------------------------------------------------------------------------------------------------
 * The runtime.
 */

static uint32_t code_of_frame;  /* what it gives for frames */

static const uint8_t *bytes_of(const char *text) {
    return (const uint8_t *)text;
}

static uint32_t of_method(void *context, uint32_t method, cq_teller *teller) {
    CHECK(context == &service);
    if (method == 1) {
        OK(cq_tell_variable(teller, bytes_of("n"), 1, 3, 9, 4));
        OK(cq_tell_variable(teller, bytes_of("name"), 4, 0, 10, 2));
    }
    return method == 2 ? CQ_ABSENT_INFORMATION : CQ_OK;
}

static uint32_t of_frame(void *context, uint32_t thread, uint32_t depth, cq_teller *teller) {
    CHECK(context == &service);
    (void)thread, (void)depth;
    OK(cq_tell_text(teller, 0, bytes_of("Ann"), 3));
    OK(cq_tell_boolean(teller, 1, true));
    OK(cq_tell_nil(teller, 2));
    OK(cq_tell_integer(teller, 3, -7));
    OK(cq_tell_number(teller, 4, 1.5));
    OK(cq_tell_table(teller, 5));
    OK(cq_tell_entry(teller, bytes_of("k = 1"), 5));
    OK(cq_tell_entry(teller, bytes_of("l = 2"), 5));
    return code_of_frame;
}

const cq_variables variables = { &service, of_method, of_frame };

/* ------------------------------------------------------------------------------------------------------------------
 * Steps.
 */

/* A question is open, and is this one. */
static void is_asked(uint32_t kind, uint32_t method, uint32_t thread, uint32_t depth) {
    cq_question found = { 77, 77, 77, 77 };
    SAME(action_now(), CQ_DOOR_ASK);
    OK(cq_door_question(&door, &found));
    SAME(found.kind, kind);
    SAME(found.method, method);
    SAME(found.thread, thread);
    SAME(found.depth, depth);
}

static void is_not_asked(void) {
    cq_question found = { 77, 77, 77, 77 };
    OK(cq_door_question(&door, &found));
    SAME(found.kind | found.method | found.thread | found.depth, 0);
    SAME(cq_door_answer(&door, &variables), CQ_NONE);
    SAME(cq_door_tell_variables(&door, NULL, 0, NULL, 0), CQ_NONE);
    SAME(cq_door_tell_values(&door, NULL, 0, NULL, 0), CQ_NONE);
    SAME(cq_door_tell_none(&door, CQ_ABSENT_INFORMATION), CQ_NONE);
}

/* The open question is answered, and replied to so. */
static void answers(uint16_t error, const char *data) {
    OK(cq_door_answer(&door, &variables));
    is_not_asked();
    replied(error, data);
    SAME(action_now(), CQ_DOOR_WAIT);
}

static void asks_of_method(uint8_t command, const char *method, uint32_t number) {
    ask(6, command, method);
    is_asked(CQ_QUESTION_VARIABLES, number, 0, 0);
}

static void asks_of_frame(const char *frame, uint32_t depth) {
    ask(16, 1, frame);
    is_asked(CQ_QUESTION_VALUES, 0, 0, depth);
}

static void begin(void) {
    begin_runtime();
    open_debugger();
    attach();
    is_not_asked();
}

static void finish(void) {
    close_debugger();
    OK(cq_poll(&worker));
    end_runtime();
}

/* The debugger suspends the worker, which polls and stays. */
static void suspend_worker(void) {
    ask(11, 2, WORKER);
    SAME(action_now(), CQ_DOOR_WAIT);
    SAME(cq_poll(&worker), CQ_HELD);
    tick_after(MILLISECOND);
    replied(0, "");
}

static void resume_worker(void) {
    asks(11, 3, WORKER, 0, "");
    CHECK(goes_on(&worker));
}

/* ------------------------------------------------------------------------------------------------------------------
 * What is told.
 */

/* A runtime that has not said that it tells variables is not asked. */
static void tells_none_at_first(void) {
    begin();
    asks(6, 5, WORK INNER, 101, "");
    asks(6, 2, WORK INNER, 101, "");
    OK(cq_door_tells_variables(&door, true));
    asks_of_method(5, WORK OUTER, 0);
    answers(0, "00000000 00000000");
    OK(cq_door_tells_variables(&door, false));
    asks(6, 5, WORK INNER, 101, "");
    detach();
    finish();
}

static void tells_names(void) {
    asks_of_method(5, WORK INNER, 1);
    answers(0, "00000000 00000002 0000000000000009 s:n " OBJECT "00000000 00000004 00000003"
               "000000000000000a s:name " OBJECT "00000000 00000002 00000000");
    asks_of_method(2, WORK INNER, 1);
    answers(0, "00000000 00000002 0000000000000009 s:n " OBJECT "00000004 00000003"
               "000000000000000a s:name " OBJECT "00000002 00000000");
    asks(6, 5, HOST INNER, 23, "");
    asks(6, 5, NOBODY INNER, 21, "");
}

static void tells_texts(void) {
    asks(10, 1, TEXT, 0, "s:Ann");
    asks(13, 1, TABLE, 0, "00000002");
    asks(13, 2, TABLE "00000000 00000002", 0, "73 00000002 73" ENTRY "73" NEXT_ENTRY);
    asks(13, 2, TABLE "00000001 00000001", 0, "73 00000001 73" NEXT_ENTRY);
    asks(13, 2, TABLE "00000001 00000002", 504, "");
    asks(10, 1, NEXT_ENTRY, 0, "00000005 6c203d2032");
}

static void tells_of_frames(void) {
    suspend_worker();
    asks_of_frame(WORKER NEWEST SLOTS, 0);
    answers(0, "00000006 73" TEXT "5a01 4c0000000000000000 4afffffffffffffff9 443ff8000000000000 5b" TABLE);
    tells_texts();
    asks_of_frame(WORKER OLDEST "00000001 00000003 4a", 1);
    answers(0, "00000001 4afffffffffffffff9");
    asks(16, 3, WORKER NEWEST, 0, "4c0000000000000000");
    resume_worker();
    asks(16, 1, WORKER NEWEST "00000000", 13, "");
}

static void tells(void) {
    begin();
    OK(cq_door_tells_variables(&door, true));
    tells_names();
    tells_of_frames();
    detach();
    finish();
}

/* The runtime refuses: 13 and 110 are told as they are, others as 101. */
static void refuses(void) {
    static const uint32_t codes[][2] = { { CQ_THREAD_NOT_SUSPENDED, 13 }, { CQ_OUT_OF_MEMORY, 110 }, { CQ_ABSENT_INFORMATION, 101 },
                                         { CQ_FULL, 101 } };
    begin();
    OK(cq_door_tells_variables(&door, true));
    suspend_worker();
    for (size_t i = 0; i < sizeof codes / sizeof *codes; i++) {
        code_of_frame = codes[i][0];
        asks_of_frame(WORKER NEWEST SLOTS, 0);
        answers((uint16_t)codes[i][1], "");
    }
    code_of_frame = CQ_OK;
    resume_worker();
    detach();
    finish();
}

/* A malformed answer leaves the question open. */
static void takes_right_answers_alone(void) {
    cq_variable variable = { .slot = 1, .first = 1, .count = 1, .name_length = 2 };
    begin();
    OK(cq_door_tells_variables(&door, true));
    asks_of_method(5, WORK OUTER, 0);
    SAME(cq_door_tell_values(&door, NULL, 0, NULL, 0), CQ_NONE);
    SAME(cq_door_tell_variables(&door, &variable, 1, bytes_of("abc"), 3), CQ_ILLEGAL_ARGUMENT);
    SAME(cq_door_tell_variables(&door, &variable, 1, bytes_of("a\xff"), 2), CQ_ILLEGAL_ARGUMENT);
    is_asked(CQ_QUESTION_VARIABLES, 0, 0, 0);
    OK(cq_door_tell_variables(&door, &variable, 1, bytes_of("ab"), 2));
    replied(0, "00000000 00000001 0000000000000001 s:ab " OBJECT "00000000 00000001 00000001");
    detach();
    finish();
}

/* Further requests wait for the answer. */
static void keeps_the_order(void) {
    static uint8_t bytes[4096];
    uint64_t count = 0;
    begin();
    OK(cq_door_tells_variables(&door, true));
    ask(6, 5, WORK OUTER);
    ask(11, 1, SLEEPER);
    is_asked(CQ_QUESTION_VARIABLES, 0, 0, 0);
    OK(cq_door_output(&door, 0, bytes, sizeof bytes, &count));
    SAME(count, 0);
    tick_after(SECOND);
    is_asked(CQ_QUESTION_VARIABLES, 0, 0, 0);
    OK(cq_door_answer(&door, &variables));
    SAME(action_now(), CQ_DOOR_WRITE);
    OK(cq_door_output(&door, 0, bytes, HEAD + 8, &count));
    SAME(count, HEAD + 8);
    SAME(number_at(bytes, 4), HEAD + 8);
    OK(cq_door_written(&door, 0, count, now));
    replied(0, "s:sleeper");
    detach();
    finish();
}

/* A question is closed when the debugger goes, and the next one starts anew. */
static void forgets_a_question(void) {
    begin();
    OK(cq_door_tells_variables(&door, true));
    asks_of_method(5, WORK OUTER, 0);
    detach();
    is_not_asked();
    attach();
    is_not_asked();
    asks_of_method(5, WORK OUTER, 0);
    answers(0, "00000000 00000000");
    suspend_worker();
    asks(10, 1, TEXT, 20, "");
    asks(13, 1, TABLE, 20, "");
    resume_worker();
    detach();
    finish();
}

void tells_variables(void) {
    tells_none_at_first();
    tells();
    refuses();
    takes_right_answers_alone();
    keeps_the_order();
    forgets_a_question();
    SAME(heap_blocks(), 0);
}
