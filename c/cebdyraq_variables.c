/* cebdyraq_variables.c: a runtime's functions answer what a debugger asks of variables (cebdyraq_serve.h).
 *
 * What they tell is brought together in one block, whose size is that of the longest answer. */
#include "cebdyraq_heap.h"
#include "cebdyraq_serve.h"

#include <string.h>

enum { MOST_ITEMS = 4096, MOST_TEXT = 1 << 20, NO_TABLE = MOST_ITEMS, ALIGN = 16 };
static const char DOTS[] = "...";

struct cq_teller {
    uint32_t kind;  /* of the question */
    size_t count;
    size_t length;
    size_t table;   /* the one whose entries may come next, or NO_TABLE */
    union {
        cq_variable variables[MOST_ITEMS];
        cq_value values[MOST_ITEMS];
    } items;
    uint8_t texts[MOST_TEXT];
};

static bool begins_character(uint8_t byte) {
    return (byte & 0xc0) != 0x80;
}

/* Adds a text behind the others, as much of it as there is room for. Returns its length there. */
static size_t add_text(cq_teller *t, const uint8_t *text, size_t length) {
    size_t room = MOST_TEXT - t->length, dots = 0;
    if (length > room) {
        dots = room < sizeof DOTS - 1 ? room : sizeof DOTS - 1;
        length = room - dots;
        while (length > 0 && !begins_character(text[length])) {
            length--;
        }
    }
    if (length > 0) {
        memcpy(t->texts + t->length, text, length);
    }
    memcpy(t->texts + t->length + length, DOTS, dots);
    t->length += length + dots;
    return length + dots;
}

/* Why an item of an answer to such a question is not added, or CQ_OK. */
static uint32_t refusal(const cq_teller *t, uint32_t kind) {
    return t->kind != kind ? CQ_MISUSED : t->count == MOST_ITEMS ? CQ_FULL : CQ_OK;
}

static uint32_t add_value(cq_teller *t, uint32_t slot, uint32_t kind, uint64_t bits) {
    uint32_t code = refusal(t, CQ_QUESTION_VALUES);
    if (code == CQ_OK) {
        t->items.values[t->count++] = (cq_value){ slot, kind, bits };
        t->table = NO_TABLE;
    }
    return code;
}

uint32_t cq_tell_variable(cq_teller *t, const uint8_t *name, size_t length, uint32_t slot, uint32_t first, uint32_t count) {
    uint32_t code = refusal(t, CQ_QUESTION_VARIABLES), told = count < INT32_MAX ? count : INT32_MAX;
    if (code == CQ_OK) {
        t->items.variables[t->count++] = (cq_variable){ slot, first, told, (uint32_t)add_text(t, name, length) };
    }
    return code;
}

uint32_t cq_tell_nil(cq_teller *t, uint32_t slot) {
    return add_value(t, slot, CQ_VALUE_NIL, 0);
}

uint32_t cq_tell_boolean(cq_teller *t, uint32_t slot, bool value) {
    return add_value(t, slot, CQ_VALUE_BOOLEAN, value);
}

uint32_t cq_tell_integer(cq_teller *t, uint32_t slot, int64_t value) {
    return add_value(t, slot, CQ_VALUE_INTEGER, (uint64_t)value);
}

uint32_t cq_tell_number(cq_teller *t, uint32_t slot, double value) {
    uint64_t bits;
    memcpy(&bits, &value, sizeof bits);
    return add_value(t, slot, CQ_VALUE_NUMBER, bits);
}

uint32_t cq_tell_text(cq_teller *t, uint32_t slot, const uint8_t *text, size_t length) {
    uint32_t code = add_value(t, slot, CQ_VALUE_TEXT, 0);
    if (code == CQ_OK) {
        t->items.values[t->count - 1].bits = add_text(t, text, length);
    }
    return code;
}

uint32_t cq_tell_table(cq_teller *t, uint32_t slot) {
    uint32_t code = add_value(t, slot, CQ_VALUE_TABLE, 0);
    if (code == CQ_OK) {
        t->table = t->count - 1;
    }
    return code;
}

uint32_t cq_tell_entry(cq_teller *t, const uint8_t *text, size_t length) {
    size_t table = t->table;
    if (table == NO_TABLE) {
        return CQ_MISUSED;
    }
    uint32_t code = add_value(t, 0, CQ_VALUE_ENTRY, 0);
    if (code == CQ_OK) {
        t->items.values[t->count - 1].bits = add_text(t, text, length);
        t->items.values[table].bits++;
        t->table = table;
    }
    return code;
}

/* Lets the runtime answer. */
static uint32_t ask(const cq_variables *of, const cq_question *question, cq_teller *t) {
    t->kind = question->kind;
    t->count = t->length = 0;
    t->table = NO_TABLE;
    return t->kind == CQ_QUESTION_VARIABLES ? of->of_method(of->context, question->method, t)
                                            : of->of_frame(of->context, question->thread, question->depth, t);
}

static uint32_t tell(cq_door *door, const cq_teller *t) {
    return t->kind == CQ_QUESTION_VARIABLES ? cq_door_tell_variables(door, t->items.variables, t->count, t->texts, t->length)
                                            : cq_door_tell_values(door, t->items.values, t->count, t->texts, t->length);
}

/* Answers, unless there is a code against it. */
static uint32_t try_to_answer(cq_door *door, const cq_variables *of, const cq_question *question) {
    tried got = rattle_alloc(sizeof(cq_teller), ALIGN);
    if (!got.ok) {
        return CQ_OUT_OF_MEMORY;
    }
    uint32_t code = ask(of, question, got.at);
    if (code == CQ_OK) {
        code = tell(door, got.at);
    }
    rattle_dealloc(got.at);
    return code;
}

uint32_t cq_door_answer(cq_door *door, const cq_variables *variables) {
    cq_question question;
    uint32_t code = cq_door_question(door, &question);
    if (code != CQ_OK) {
        return code;
    }
    if (question.kind == CQ_QUESTION_NONE) {
        return CQ_NONE;
    }
    code = try_to_answer(door, variables, &question);
    return code == CQ_OK ? CQ_OK : cq_door_tell_none(door, code);
}
