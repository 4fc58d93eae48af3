/* values.c: see values.h. Functions that may call a metamethod, or take memory and so start the collector, are not used:
 * luaL_tolstring, lua_tolstring of a number, and the like. */
#include "values.h"

#include <stdio.h>
#include <string.h>

#include "text.h"

enum {
    LONGEST = 1 << 16,  /* bytes of a text that are told, */
    LONGEST_PART = 256, /* of a text within a table, */
    MOST_ENTRIES = 100  /* and entries of a table */
};

static void add_words(struct text *to, const char *words) {
    text_add(to, words, strlen(words));
}

/* As tostring writes it: a number that looks like an integer gets a ".0". */
static void add_number(struct text *to, lua_Number number) {
    char words[64];
    snprintf(words, sizeof words - 2, LUA_NUMBER_FMT, number);
    if (!words[strspn(words, "-0123456789")])
        strcat(words, ".0");
    add_words(to, words);
}

static void add_integer(struct text *to, lua_Integer integer) {
    char words[32];
    snprintf(words, sizeof words, LUA_INTEGER_FMT, integer);
    add_words(to, words);
}

/* A function, a table, userdata or a thread. */
static void add_address(struct text *to, lua_State *L, int at) {
    char words[64];
    snprintf(words, sizeof words, "%s: %p", lua_typename(L, lua_type(L, at)), lua_topointer(L, at));
    add_words(to, words);
}

static void add_string(struct text *to, lua_State *L, int at) {
    size_t length;
    const char *bytes = lua_tolstring(L, at, &length);
    text_add(to, bytes, length);
}

static void add_value(struct text *to, lua_State *L, int at) {
    switch (lua_type(L, at)) {
    case LUA_TNIL:
        add_words(to, "nil");
        break;
    case LUA_TBOOLEAN:
        add_words(to, lua_toboolean(L, at) ? "true" : "false");
        break;
    case LUA_TNUMBER:
        if (lua_isinteger(L, at))
            add_integer(to, lua_tointeger(L, at));
        else
            add_number(to, lua_tonumber(L, at));
        break;
    case LUA_TSTRING:
        add_string(to, L, at);
        break;
    default:
        add_address(to, L, at);
    }
}

/* Adds a key or a value of a table. */
static void add_part(struct text *to, lua_State *L, int at) {
    char bytes[LONGEST_PART];
    struct text part = { .bytes = bytes, .room = sizeof bytes };
    add_value(&part, L, at);
    text_add(to, part.bytes, part.length);
}

/* Tells the key and the value on the top. */
static void tell_entry(lua_State *L, cq_teller *teller) {
    char bytes[2 * LONGEST_PART + 16];
    struct text entry = { .bytes = bytes, .room = sizeof bytes };
    add_part(&entry, L, -2);
    add_words(&entry, " = ");
    add_part(&entry, L, -1);
    cq_tell_entry(teller, (const uint8_t *)entry.bytes, entry.length);
}

/* The entries come in the order of next. */
static void tell_table(lua_State *L, uint32_t slot, struct telling *to) {
    int told = 0;
    cq_tell_table(to->teller, slot);
    lua_pushnil(L);
    while (lua_next(L, -2)) {
        if (told++ == MOST_ENTRIES || to->entries == 0) {
            cq_tell_entry(to->teller, (const uint8_t *)"...", 3);
            lua_pop(L, 2);
            return;
        }
        to->entries--;
        tell_entry(L, to->teller);
        lua_pop(L, 1);
    }
}

static void tell_text(lua_State *L, uint32_t slot, cq_teller *teller) {
    char bytes[LONGEST];
    struct text text = { .bytes = bytes, .room = sizeof bytes };
    add_value(&text, L, -1);
    cq_tell_text(teller, slot, (const uint8_t *)text.bytes, text.length);
}

void value_tell(lua_State *L, uint32_t slot, struct telling *to) {
    switch (lua_type(L, -1)) {
    case LUA_TNIL:
        cq_tell_nil(to->teller, slot);
        break;
    case LUA_TBOOLEAN:
        cq_tell_boolean(to->teller, slot, lua_toboolean(L, -1));
        break;
    case LUA_TNUMBER:
        if (lua_isinteger(L, -1))
            cq_tell_integer(to->teller, slot, lua_tointeger(L, -1));
        else
            cq_tell_number(to->teller, slot, lua_tonumber(L, -1));
        break;
    case LUA_TTABLE:
        tell_table(L, slot, to);
        break;
    default:
        tell_text(L, slot, to->teller);
    }
}
