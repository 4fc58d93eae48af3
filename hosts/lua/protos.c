/* protos.c: see protos.h. */
#include "protos.h"

#include <lua.h>
#include <stdlib.h>
#include <string.h>

#include "reader.h"

enum { DEEPEST = 250 };  /* functions within functions; Lua itself compiles about 200 */

/* What is known of Lua's instructions. */
enum {
    OP_MOVE = 0,
    OP_LOADK = 3,
    OP_SETUPVAL = 10,
    OP_SETTABUP = 15,
    OP_SETTABLE = 16,
    OP_SETFIELD = 18,
    OP_CLOSURE = 79
};

/* The kinds of constants. */
enum { NIL = 0x00, NO = 0x01, YES = 0x11, INTEGER = 0x03, FLOAT = 0x13, SHORT_TEXT = 0x04, LONG_TEXT = 0x14 };

/* ------------------------------------------------------------------------------------------------------------------
 * Parts of a function.
 */

/* A constant that is a text, an upvalue with its name, or a local variable. Others have no name. */
struct item {
    struct part name;
    size_t start, end;  /* in the code: a local variable lives from here to there */
};

struct items {
    struct item *at;
    size_t count;
};

static struct item take_constant(struct reader *r) {
    unsigned kind = take_byte(r);
    if (kind == SHORT_TEXT || kind == LONG_TEXT)
        return (struct item){ .name = take_text(r) };
    if (kind == INTEGER || kind == FLOAT)
        take(r, kind == INTEGER ? sizeof(lua_Integer) : sizeof(lua_Number));
    else
        r->bad = r->bad || (kind != NIL && kind != NO && kind != YES);
    return (struct item){ 0 };
}

static struct item take_local(struct reader *r) {
    struct item local = { .name = take_text(r) };
    local.start = take_size(r);
    local.end = take_size(r);
    return local;
}

static struct item take_upvalue(struct reader *r) {
    return (struct item){ .name = take_text(r) };
}

/* Each item takes a byte or more. */
static struct items take_items(struct reader *r, struct item (*take_one)(struct reader *)) {
    struct items items = { NULL, take_size(r) };
    r->bad = r->bad || items.count > (size_t)(r->end - r->at);
    if (!r->bad)
        items.at = calloc(items.count + 1, sizeof *items.at);
    r->bad = r->bad || !items.at;
    for (size_t i = 0; i < items.count && !r->bad; i++)
        items.at[i] = take_one(r);
    return items;
}

/* The lines of the instructions, each as how much higher it is than the one before, or as FAR if it is named apart. A stripped
 * function has none. */
enum { FAR = -128 };

struct steps {
    const signed char *at;
    size_t count;
    uint32_t *far;
    size_t far_count;
};

static struct steps take_steps(struct reader *r, size_t code_count) {
    struct steps steps = { .count = take_size(r) };
    r->bad = r->bad || steps.count != code_count;
    steps.at = (const signed char *)take(r, steps.count);
    steps.far_count = take_size(r);
    r->bad = r->bad || steps.far_count > (size_t)(r->end - r->at);
    if (!r->bad)
        steps.far = calloc(steps.far_count + 1, sizeof *steps.far);
    r->bad = r->bad || !steps.far;
    for (size_t i = 0; i < steps.far_count && !r->bad; i++) {
        take_size(r);
        steps.far[i] = (uint32_t)take_line(r);
    }
    return steps;
}

static int by_number(const void *a, const void *b) {
    uint32_t x = *(const uint32_t *)a, y = *(const uint32_t *)b;
    return (x > y) - (x < y);
}

/* Puts lines in rising order, each once. Returns how many there are then. */
static size_t in_order(uint32_t *lines, size_t count) {
    size_t kept = 0;
    if (count)
        qsort(lines, count, sizeof *lines, by_number);
    for (size_t i = 0; i < count; i++)
        if (!kept || lines[kept - 1] != lines[i])
            lines[kept++] = lines[i];
    return kept;
}

/* The line of each instruction of a function that is defined at `line`. */
static uint32_t *lines_of(struct reader *r, const struct steps *steps, uint32_t line) {
    size_t far = 0;
    uint32_t *lines = calloc(steps->count + 1, sizeof *lines);
    r->bad = r->bad || !lines;
    for (size_t at = 0; at < steps->count && !r->bad; at++) {
        if (steps->at[at] != FAR)
            line += (uint32_t)(int32_t)steps->at[at];
        else if (far < steps->far_count)
            line = steps->far[far++];
        else
            r->bad = true;
        lines[at] = line;
    }
    return lines;
}

struct function {
    const unsigned char *code;
    size_t code_count;
    struct items constants, locals, upvalues;
    struct steps steps;
    uint32_t *lines;  /* of its instructions */
};

/* ------------------------------------------------------------------------------------------------------------------
 * Names, by what follows the instruction that makes a function.
 */

static uint32_t instruction(const struct function *f, size_t at) {
    uint32_t word = 0;
    memcpy(&word, f->code + at * sizeof word, sizeof word);
    return word;
}

static unsigned op_of(uint32_t word) { return word & 0x7f; }
static unsigned a_of(uint32_t word) { return word >> 7 & 0xff; }
static bool k_of(uint32_t word) { return word >> 15 & 1; }
static unsigned b_of(uint32_t word) { return word >> 16 & 0xff; }
static unsigned c_of(uint32_t word) { return word >> 24; }
static unsigned bx_of(uint32_t word) { return word >> 15; }

static struct part name_at(const struct items *items, size_t place) {
    return place < items->count ? items->at[place].name : (struct part){ NULL, 0 };
}

/* The variable that lives in a register at a place of the code: locals live in the order of their registers. */
static struct item local_at(const struct function *f, unsigned number, size_t at) {
    for (size_t i = 0; i < f->locals.count && f->locals.at[i].start <= at; i++)
        if (at < f->locals.at[i].end && number-- == 0)
            return f->locals.at[i];
    return (struct item){ 0 };
}

/* The variable that begins to live in this register here, or behind functions that are made for the variables after it:
 * f of `local function f`, and of `local f, g = function .., function ..`. */
static struct part name_of_local(const struct function *f, unsigned number, size_t at) {
    for (;; at++) {
        struct item local = local_at(f, number, at);
        if (local.name.at && local.start == at)
            return local.name;
        if (at >= f->code_count || op_of(instruction(f, at)) != OP_CLOSURE)
            return (struct part){ NULL, 0 };
    }
}

/* The constant that was last put into this register, if it is no variable's. */
static struct part name_in(const struct function *f, unsigned number, size_t at) {
    if (local_at(f, number, at).name.at)
        return (struct part){ NULL, 0 };
    while (at-- > 0) {
        uint32_t word = instruction(f, at);
        if (a_of(word) == number)
            return op_of(word) == OP_LOADK ? name_at(&f->constants, bx_of(word)) : (struct part){ NULL, 0 };
    }
    return (struct part){ NULL, 0 };
}

/* The name by which the instruction at `at` keeps what is in this register, or none. */
static struct part name_by(const struct function *f, unsigned number, size_t at) {
    uint32_t word = at < f->code_count ? instruction(f, at) : OP_CLOSURE;
    bool is_value = c_of(word) == number && !k_of(word);
    switch (op_of(word)) {
    case OP_MOVE:
        return b_of(word) == number ? local_at(f, a_of(word), at).name : (struct part){ NULL, 0 };
    case OP_SETUPVAL:
        return a_of(word) == number ? name_at(&f->upvalues, b_of(word)) : (struct part){ NULL, 0 };
    case OP_SETTABUP:
    case OP_SETFIELD:
        return is_value ? name_at(&f->constants, b_of(word)) : (struct part){ NULL, 0 };
    case OP_SETTABLE:
        return is_value ? name_in(f, b_of(word), at - 1) : (struct part){ NULL, 0 };
    default:
        return (struct part){ NULL, 0 };
    }
}

/* Names the functions within one, which are made one after the other. */
static void name_within(struct protos *protos, size_t own, const struct function *f) {
    size_t inner = own + 1, number = 0;
    for (size_t at = 0; at < f->code_count && inner < protos->count; at++) {
        uint32_t word = instruction(f, at);
        if (op_of(word) != OP_CLOSURE || bx_of(word) != number)
            continue;
        struct part name = name_of_local(f, a_of(word), at + 1);
        if (!name.at)
            name = name_by(f, a_of(word), at + 1);
        if (name.at)
            protos->at[inner].name = name;
        inner = protos->at[inner].next;
        number++;
    }
}

/* ------------------------------------------------------------------------------------------------------------------
 * Lines and variables.
 */

/* Keeps the lines from that of the instruction `first` on. */
static void keep_lines(struct proto *proto, struct function *f, size_t first) {
    size_t left = f->code_count > first ? f->code_count - first : 0;
    memmove(f->lines, f->lines + (f->code_count - left), left * sizeof *f->lines);
    proto->line_count = in_order(f->lines, left);
    proto->lines = f->lines;
    f->lines = NULL;
}

/* A variable that lives at these instructions, and the lines of them. */
static struct variable variable_at(const struct function *f, struct part name, size_t start, size_t end) {
    struct variable v = { .name = name, .start = start, .end = end, .first = UINT32_MAX };
    for (size_t at = start; at < end && at < f->code_count; at++) {
        v.first = f->lines[at] < v.first ? f->lines[at] : v.first;
        v.last = f->lines[at] > v.last ? f->lines[at] : v.last;
    }
    return v;
}

static void find_variables(struct reader *r, struct proto *proto, const struct function *f) {
    size_t count = f->locals.count + f->upvalues.count, found = 0;
    struct variable *all = calloc(count + 1, sizeof *all);
    r->bad = r->bad || !all;
    if (!all)
        return;
    for (size_t i = 0; i < f->locals.count; i++)
        all[found++] = variable_at(f, f->locals.at[i].name, f->locals.at[i].start, f->locals.at[i].end);
    for (size_t i = 0; i < f->upvalues.count; i++)
        all[found++] = variable_at(f, f->upvalues.at[i].name, 0, f->code_count);
    proto->variables = all;
    proto->variable_count = count;
    proto->local_count = f->locals.count;
}

/* ------------------------------------------------------------------------------------------------------------------
 * Functions.
 */

static uint64_t hash_of(const unsigned char *at, const unsigned char *end) {
    uint64_t hash = 0xcbf29ce484222325u;
    for (; at < end; at++)
        hash = (hash ^ *at) * 0x100000001b3u;
    return hash ? hash : 1;
}

/* Adds a function, and gives its place. */
static size_t add(struct reader *r, struct protos *protos) {
    if (protos->count == protos->room) {
        size_t room = protos->room ? protos->room * 2 : 16;
        struct proto *more = realloc(protos->at, room * sizeof *more);
        r->bad = r->bad || !more;
        if (!more)
            return 0;
        protos->at = more;
        protos->room = room;
    }
    protos->at[protos->count] = (struct proto){ 0 };
    return protos->count++;
}

static void read_functions(struct reader *r, struct protos *protos, int depth);

/* The name of the source is left out of the hash: a function within another has none, as it is the same. */
static void read_parts(struct reader *r, struct protos *protos, int depth, struct function *f) {
    size_t own = add(r, protos);
    take_text(r);
    const unsigned char *start = r->at;
    int line = take_line(r), last = take_line(r);
    take_byte(r);  /* how many parameters */
    bool takes_more = take_byte(r);
    take_byte(r);  /* how many registers */
    f->code_count = take_size(r);
    f->code = r->at;
    skip(r, f->code_count, sizeof(uint32_t));
    f->constants = take_items(r, take_constant);
    skip(r, take_size(r), 3);  /* where upvalues come from */
    read_functions(r, protos, depth + 1);
    f->steps = take_steps(r, f->code_count);
    f->locals = take_items(r, take_local);
    f->upvalues = take_items(r, take_upvalue);
    if (!r->bad)
        f->lines = lines_of(r, &f->steps, (uint32_t)line);
    if (r->bad)
        return;
    struct proto *proto = &protos->at[own];
    proto->name = line ? (struct part){ "function", 8 } : (struct part){ "main", 4 };
    proto->line = line;
    proto->last = last;
    proto->code = hash_of(start, r->at);
    proto->next = protos->count;
    find_variables(r, proto, f);
    keep_lines(proto, f, takes_more);
    name_within(protos, own, f);
}

static void read_function(struct reader *r, struct protos *protos, int depth) {
    struct function f = { 0 };
    read_parts(r, protos, depth, &f);
    free(f.constants.at);
    free(f.locals.at);
    free(f.upvalues.at);
    free(f.steps.far);
    free(f.lines);
}

static void read_functions(struct reader *r, struct protos *protos, int depth) {
    size_t count = take_size(r);
    r->bad = r->bad || depth > DEEPEST;
    for (size_t i = 0; i < count && !r->bad; i++)
        read_function(r, protos, depth);
}

static void expect_head(struct reader *r) {
    static const char format[] = LUA_SIGNATURE "\x54\x00\x19\x93\r\n\x1a\n";
    const unsigned char sizes[] = { sizeof(uint32_t), sizeof(lua_Integer), sizeof(lua_Number) };
    const lua_Integer integer = 0x5678;
    const lua_Number number = 370.5;
    expect(r, format, sizeof format - 1);
    expect(r, sizes, sizeof sizes);
    expect(r, &integer, sizeof integer);
    expect(r, &number, sizeof number);
}

int protos_read(const void *dump, size_t size, struct protos *protos) {
#ifdef CQLUA_PUBLIC_ONLY
    return -1;
#endif
    struct reader r = { dump, (const unsigned char *)dump + size, false };
    expect_head(&r);
    take_byte(&r);  /* how many upvalues */
    if (!r.bad)
        read_function(&r, protos, 0);
    return r.bad || r.at != r.end ? -1 : 0;
}

void protos_free(struct protos *protos) {
    for (size_t i = 0; i < protos->count; i++) {
        free(protos->at[i].lines);
        free(protos->at[i].variables);
    }
    free(protos->at);
}
