/* tells.c: cq_door_answer and cq_tell_.. alone. The four calls of a door that they make are the test's own: what reaches the door is
 * compared with what the runtime has told. */
#include "../../c/cebdyraq_serve.h"
#include "check.h"
#include "counted_heap.h"

enum { MOST_ITEMS = 4096, MOST_TEXT = 1 << 20, UNTOLD = 77 };

/* ------------------------------------------------------------------------------------------------------------------
 * The door.
 */

static struct {
    cq_question question;  /* that is open */
    uint32_t refusal;      /* of what is told, or CQ_OK */
    uint32_t none;         /* the code of the last cq_door_tell_none, or UNTOLD */
    size_t count, length;  /* of what was told */
    cq_variable variables[MOST_ITEMS];
    cq_value values[MOST_ITEMS];
    uint8_t texts[MOST_TEXT + 1];
} at_door;

uint32_t cq_door_question(cq_door *door, cq_question *question) {
    *question = at_door.question;
    return door->kind == 0 ? CQ_MISUSED : CQ_OK;
}

static uint32_t keep(size_t count, const uint8_t *texts, size_t length) {
    CHECK(count <= MOST_ITEMS && length <= MOST_TEXT);
    if (at_door.refusal == CQ_OK) {
        at_door.question = (cq_question){ 0 };
        at_door.count = count;
        at_door.length = length;
        memcpy(at_door.texts, texts, length);
        at_door.texts[length] = 0;
    }
    return at_door.refusal;
}

uint32_t cq_door_tell_variables(cq_door *door, const cq_variable *variables, size_t count, const uint8_t *names, size_t length) {
    SAME(at_door.question.kind, CQ_QUESTION_VARIABLES);
    CHECK(door->kind != 0);
    memcpy(at_door.variables, variables, count * sizeof *variables);
    return keep(count, names, length);
}

uint32_t cq_door_tell_values(cq_door *door, const cq_value *values, size_t count, const uint8_t *texts, size_t length) {
    SAME(at_door.question.kind, CQ_QUESTION_VALUES);
    CHECK(door->kind != 0);
    memcpy(at_door.values, values, count * sizeof *values);
    return keep(count, texts, length);
}

uint32_t cq_door_tell_none(cq_door *door, uint32_t code) {
    CHECK(door->kind != 0 && at_door.question.kind != CQ_QUESTION_NONE);
    at_door.question = (cq_question){ 0 };
    at_door.none = code;
    return CQ_OK;
}

/* ------------------------------------------------------------------------------------------------------------------
 * The runtime.
 */

/* What it does with a question: what `tells` tells, with a code of its own. */
typedef struct {
    void (*tells)(cq_teller *teller);
    uint32_t code;
    cq_question asked;
} runtime;

static uint32_t of_method(void *context, uint32_t method, cq_teller *teller) {
    runtime *r = context;
    r->asked = (cq_question){ .kind = CQ_QUESTION_VARIABLES, .method = method };
    r->tells(teller);
    return r->code;
}

static uint32_t of_frame(void *context, uint32_t thread, uint32_t depth, cq_teller *teller) {
    runtime *r = context;
    r->asked = (cq_question){ .kind = CQ_QUESTION_VALUES, .thread = thread, .depth = depth };
    r->tells(teller);
    return r->code;
}

static const cq_question OF_METHOD = { .kind = CQ_QUESTION_VARIABLES, .method = 9 };
static const cq_question OF_FRAME = { .kind = CQ_QUESTION_VALUES, .thread = 3, .depth = 5 };

/* Opens a question, and has it answered by such a runtime. */
static uint32_t answer_by(runtime *r, cq_question question) {
    cq_door door = { .kind = 1 };
    cq_variables variables = { r, of_method, of_frame };
    at_door.question = question;
    at_door.none = UNTOLD;
    at_door.count = at_door.length = UNTOLD;
    uint32_t code = cq_door_answer(&door, &variables);
    SAME(at_door.question.kind, CQ_QUESTION_NONE);
    SAME(heap_blocks(), 0);
    return code;
}

/* The question is answered by what is told. */
static void answers(cq_question question, void (*tells)(cq_teller *teller)) {
    runtime r = { .tells = tells };
    OK(answer_by(&r, question));
    CHECK(!memcmp(&r.asked, &question, sizeof question));
    SAME(at_door.none, UNTOLD);
}

/* ------------------------------------------------------------------------------------------------------------------
 * What is told.
 */

static const uint8_t *bytes_of(const char *text) {
    return (const uint8_t *)text;
}

static void check_variable(size_t at, uint32_t slot, uint32_t first, uint32_t count, uint32_t length) {
    cq_variable wanted = { slot, first, count, length };
    CHECK(!memcmp(&at_door.variables[at], &wanted, sizeof wanted));
}

static void check_value(size_t at, uint32_t slot, uint32_t kind, uint64_t bits) {
    cq_value wanted = { slot, kind, bits };
    CHECK(!memcmp(&at_door.values[at], &wanted, sizeof wanted));
}

static void tell_two(cq_teller *t) {
    OK(cq_tell_variable(t, bytes_of("sum"), 3, 2, 10, 4));
    OK(cq_tell_variable(t, bytes_of("h\xc3\xbcte!"), 5, 0, 0, UINT32_MAX));
    SAME(cq_tell_nil(t, 1), CQ_MISUSED);
    SAME(cq_tell_text(t, 1, bytes_of("no"), 2), CQ_MISUSED);
    SAME(cq_tell_table(t, 1), CQ_MISUSED);
    SAME(cq_tell_entry(t, bytes_of("no"), 2), CQ_MISUSED);
}

static void tell_each(cq_teller *t) {
    SAME(cq_tell_variable(t, bytes_of("no"), 2, 1, 1, 1), CQ_MISUSED);
    SAME(cq_tell_entry(t, bytes_of("no"), 2), CQ_MISUSED);
    OK(cq_tell_nil(t, 7));
    OK(cq_tell_boolean(t, 6, true));
    OK(cq_tell_boolean(t, 5, false));
    OK(cq_tell_integer(t, 4, -2));
    OK(cq_tell_number(t, 3, 1.5));
    OK(cq_tell_text(t, 2, bytes_of("a\xff"), 2));
    OK(cq_tell_table(t, 1));
    OK(cq_tell_entry(t, bytes_of("x = 1"), 5));
    OK(cq_tell_entry(t, bytes_of(""), 0));
    OK(cq_tell_table(t, 0));
    OK(cq_tell_nil(t, 8));
    SAME(cq_tell_entry(t, bytes_of("no"), 2), CQ_MISUSED);
}

static void tell_nothing(cq_teller *t) {
    (void)t;
}

static void tells_variables(void) {
    answers(OF_METHOD, tell_two);
    SAME(at_door.count, 2);
    check_variable(0, 2, 10, 4, 3);
    check_variable(1, 0, 0, INT32_MAX, 5);
    CHECK(!strcmp((const char *)at_door.texts, "sumh\xc3\xbcte"));
    answers(OF_METHOD, tell_nothing);
    SAME(at_door.count + at_door.length, 0);
}

static void tells_values(void) {
    answers(OF_FRAME, tell_each);
    SAME(at_door.count, 11);
    check_value(0, 7, CQ_VALUE_NIL, 0);
    check_value(1, 6, CQ_VALUE_BOOLEAN, 1);
    check_value(2, 5, CQ_VALUE_BOOLEAN, 0);
    check_value(3, 4, CQ_VALUE_INTEGER, UINT64_MAX - 1);
    check_value(4, 3, CQ_VALUE_NUMBER, 0x3ff8000000000000);
    check_value(5, 2, CQ_VALUE_TEXT, 2);
    check_value(6, 1, CQ_VALUE_TABLE, 2);
    check_value(7, 0, CQ_VALUE_ENTRY, 5);
    check_value(8, 0, CQ_VALUE_ENTRY, 0);
    check_value(9, 0, CQ_VALUE_TABLE, 0);
    check_value(10, 8, CQ_VALUE_NIL, 0);
    CHECK(!strcmp((const char *)at_door.texts, "a\xffx = 1"));
    answers(OF_FRAME, tell_nothing);
    SAME(at_door.count + at_door.length, 0);
}

/* ------------------------------------------------------------------------------------------------------------------
 * Bounds.
 */

static void tell_too_many_variables(cq_teller *t) {
    for (uint32_t i = 0; i < MOST_ITEMS; i++) {
        OK(cq_tell_variable(t, bytes_of("v"), 1, i, 1, 1));
    }
    SAME(cq_tell_variable(t, bytes_of("w"), 1, MOST_ITEMS, 1, 1), CQ_FULL);
}

/* The last entry of a table has no room. */
static void tell_too_many_values(cq_teller *t) {
    for (uint32_t i = 0; i + 3 < MOST_ITEMS; i++) {
        OK(cq_tell_integer(t, i, i));
    }
    OK(cq_tell_table(t, MOST_ITEMS));
    OK(cq_tell_entry(t, bytes_of("a"), 1));
    OK(cq_tell_entry(t, bytes_of("b"), 1));
    SAME(cq_tell_entry(t, bytes_of("c"), 1), CQ_FULL);
    SAME(cq_tell_table(t, 1), CQ_FULL);
    SAME(cq_tell_text(t, 1, bytes_of("d"), 1), CQ_FULL);
}

static void keeps_to_its_items(void) {
    answers(OF_METHOD, tell_too_many_variables);
    SAME(at_door.count, MOST_ITEMS);
    SAME(at_door.length, MOST_ITEMS);
    check_variable(MOST_ITEMS - 1, MOST_ITEMS - 1, 1, 1, 1);
    answers(OF_FRAME, tell_too_many_values);
    SAME(at_door.count, MOST_ITEMS);
    check_value(MOST_ITEMS - 3, MOST_ITEMS, CQ_VALUE_TABLE, 2);
    CHECK(!strcmp((const char *)at_door.texts, "ab"));
}

static uint8_t long_text[2 * MOST_TEXT];

/* Two texts leave room for two bytes. What follows is cut: to dots, and to nothing. */
static void tell_long_texts(cq_teller *t) {
    OK(cq_tell_text(t, 1, long_text, MOST_TEXT - 7));
    OK(cq_tell_text(t, 2, bytes_of("12345"), 5));
    OK(cq_tell_text(t, 3, bytes_of("abc"), 3));
    OK(cq_tell_text(t, 4, bytes_of("d"), 1));
    OK(cq_tell_text(t, 5, bytes_of(""), 0));
}

/* No character is cut in two: before the dots there is room for four bytes, and the third character would end at the fifth. */
static void tell_long_names(cq_teller *t) {
    OK(cq_tell_variable(t, long_text, MOST_TEXT - 7, 1, 1, 1));
    OK(cq_tell_variable(t, bytes_of("ab\xe2\x82\xac\xe2\x82\xac"), 8, 2, 1, 1));
}

static void tell_one_text(cq_teller *t) {
    OK(cq_tell_text(t, 1, long_text, sizeof long_text));
}

static void cuts_texts(void) {
    memset(long_text, 'x', sizeof long_text);
    answers(OF_FRAME, tell_long_texts);
    check_value(1, 2, CQ_VALUE_TEXT, 5);
    check_value(2, 3, CQ_VALUE_TEXT, 2);
    check_value(3, 4, CQ_VALUE_TEXT, 0);
    check_value(4, 5, CQ_VALUE_TEXT, 0);
    SAME(at_door.length, MOST_TEXT);
    CHECK(!strcmp((const char *)at_door.texts + MOST_TEXT - 8, "x12345.."));
    answers(OF_METHOD, tell_long_names);
    check_variable(1, 2, 1, 1, 5);
    CHECK(!strcmp((const char *)at_door.texts + MOST_TEXT - 8, "xab..."));
    answers(OF_FRAME, tell_one_text);
    check_value(0, 1, CQ_VALUE_TEXT, MOST_TEXT);
    CHECK(!strcmp((const char *)at_door.texts + MOST_TEXT - 5, "xx..."));
}

/* ------------------------------------------------------------------------------------------------------------------
 * Refusals.
 */

/* A runtime's code goes to the door as it is, and what it has told before does not. */
static void refuses_as_the_runtime_does(void) {
    static const uint32_t codes[] = { CQ_THREAD_NOT_SUSPENDED, CQ_OUT_OF_MEMORY, CQ_ABSENT_INFORMATION, CQ_FULL, 999 };
    for (size_t i = 0; i < sizeof codes / sizeof *codes; i++) {
        runtime r = { .tells = tell_each, .code = codes[i] };
        OK(answer_by(&r, OF_FRAME));
        SAME(at_door.none, codes[i]);
        SAME(at_door.count, UNTOLD);
    }
}

/* What the door refuses is answered all the same. */
static void answers_what_the_door_refuses(void) {
    static const uint32_t codes[] = { CQ_OUT_OF_MEMORY, CQ_ILLEGAL_ARGUMENT };
    for (size_t i = 0; i < sizeof codes / sizeof *codes; i++) {
        runtime r = { .tells = tell_two };
        at_door.refusal = codes[i];
        OK(answer_by(&r, OF_METHOD));
        SAME(at_door.none, codes[i]);
    }
    at_door.refusal = CQ_OK;
}

/* Without memory the runtime is not asked. */
static void lacks_memory(void) {
    runtime r = { .tells = tell_each };
    heap_refuse_after(0);
    OK(answer_by(&r, OF_FRAME));
    heap_refuse_after(-1);
    SAME(at_door.none, CQ_OUT_OF_MEMORY);
    SAME(r.asked.kind, CQ_QUESTION_NONE);
}

static void has_nothing_to_answer(void) {
    runtime r = { .tells = tell_each };
    cq_door none = { 0 };
    cq_variables variables = { &r, of_method, of_frame };
    SAME(answer_by(&r, (cq_question){ 0 }), CQ_NONE);
    SAME(cq_door_answer(&none, &variables), CQ_MISUSED);
    SAME(r.asked.kind, CQ_QUESTION_NONE);
    SAME(at_door.none, UNTOLD);
}

int main(void) {
    tells_variables();
    tells_values();
    keeps_to_its_items();
    cuts_texts();
    refuses_as_the_runtime_does();
    answers_what_the_door_refuses();
    lacks_memory();
    has_nothing_to_answer();
    return 0;
}
