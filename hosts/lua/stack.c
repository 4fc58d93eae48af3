/* stack.c: a Lua stack as frames of the service.
 *
 * A script knows the methods of the functions that it saw before by their addresses. The address of a function that was
 * collected may be used again. So a hit counts only if the method has the source and the line that Lua says. Then it is
 * the right method, or that of another function on the same line. A C function is known by its code, which stays as
 * long as the state. */
#include <string.h>

#include "chunks.h"
#include "host.h"
#include "links.h"
#include "stops.h"

const char *source_of(const lua_Debug *ar) {
    if (*ar->what == 'C')
        return "[C]";
    return *ar->source == '@' ? ar->source + 1 : ar->short_src;
}

static int line_of(const lua_Debug *ar) {
    if (*ar->what == 'C')
        return -1;
    return ar->linedefined < 0 ? 0 : ar->linedefined;
}

/* Asks the table for the function on the top of the stack. If no chunk has it, its name is the one by which it is
 * called now. */
static const struct method *ask(lua_State *L, lua_Debug *ar) {
    lua_getinfo(L, "n", ar);
    const char *name = ar->name ? ar->name : *ar->what == 'C' ? "?" : "function";
    struct function f = { source_of(ar), line_of(ar), ar->lastlinedefined, *ar->what == 'm' ? "main" : name, 0 };
    if (methods_are_many(&f))
        f.code = chunk_code(L);
    return methods_find(&f);
}

uint32_t stack_method(struct script *script, lua_State *L, lua_Debug *ar) {
    bool native = *ar->what == 'C';
    uintptr_t function = native ? (uintptr_t)lua_tocfunction(L, -1) : (uintptr_t)lua_topointer(L, -1);
    struct known *k = &script->known[(function >> 4 ^ function >> 14) & (KNOWN - 1)];
    bool hit = k->method && k->function == function && k->method->line == line_of(ar);
    if (!hit || (!native && strcmp(k->method->source, source_of(ar)))) {
        const struct method *m = ask(L, ar);
        if (!m)
            return METHOD_UNKNOWN;
        *k = (struct known){ function, m };
        if (!native)
            stops_meet(script, (struct methods){ m->number, 1 });
    }
    return k->method->number;
}

/* The function of the frame that was read before. It is in the stack still, so nothing else has its address. */
struct read {
    const void *function;
    cq_frame frame;
};

static int64_t location_of(const lua_Debug *ar) {
    return ar->currentline < 0 ? 0 : ar->currentline;
}

/* A frame. If its function calls itself, only the line is asked for. */
static cq_frame frame_of(struct script *script, lua_State *L, lua_Debug *ar, struct read *last) {
    lua_getinfo(L, "lf", ar);
    const void *function = lua_topointer(L, -1);
    if (function != last->function) {
        lua_getinfo(L, "S", ar);
        last->frame = (cq_frame){ stack_method(script, L, ar), *ar->what == 'C' ? -1 : 0 };
        last->function = function;
    }
    lua_pop(L, 1);
    if (last->frame.location >= 0)
        last->frame.location = location_of(ar);
    return last->frame;
}

/* Puts the main state's oldest frames over those that a whole stack would have from here on. */
static size_t add_oldest(struct script *script, cq_frame *frames, size_t count) {
    lua_State *L = script->chain[0];
    lua_Debug oldest[OLDEST];
    struct read last = { 0 };
    frames[count++] = (cq_frame){ METHOD_LEFT_OUT, -1 };
    for (int at = oldest_frames(L, oldest, OLDEST); at-- > 0;)
        frames[count++] = frame_of(script, L, &oldest[at], &last);
    return count;
}

void stack_cut(struct script *script, lua_State *L) {
    size_t at = script->links;
    while (at > 0 && script->chain[at - 1] != L)
        at--;
    if (at > 0)
        script->links = at;
    else if (script->links < CHAIN)
        script->chain[script->links++] = L;
}

size_t stack_read(struct script *script, lua_State *L, int level, cq_frame *frames) {
    struct walk walk;
    struct read last = { 0 };
    size_t count = 0;
    stack_cut(script, L);
    for (size_t link = script->links; link-- > 0; level = 0) {
        for (bool there = walk_begin(&walk, script->chain[link], level); there; there = walk_on(&walk)) {
            if (count == SHOWN)
                return add_oldest(script, frames, NEWEST);
            frames[count++] = frame_of(script, walk.L, &walk.ar, &last);
        }
    }
    return count;
}

/* Goes from the newest frame of all states to the one that is so many frames older. */
static bool walk_to(struct script *script, size_t number, struct walk *walk) {
    int level = script->given_level;
    for (size_t link = script->links; link-- > 0; level = 0)
        for (bool there = walk_begin(walk, script->chain[link], level); there; there = walk_on(walk))
            if (number-- == 0)
                return true;
    return false;
}

/* Goes to one of the frames that add_oldest has put behind the newest. */
static bool walk_to_oldest(struct script *script, size_t number, struct walk *walk) {
    lua_Debug oldest[OLDEST];
    size_t count = (size_t)oldest_frames(script->chain[0], oldest, OLDEST);
    if (number >= count)
        return false;
    walk->L = script->chain[0];
    walk->ar = oldest[count - 1 - number];
    return true;
}

bool stack_find(struct script *script, uint32_t depth, struct walk *walk) {
    bool late = script->given == script->frames;
    size_t number = depth - late;
    if (script->given[depth].method <= METHOD_OWN)
        return false;
    if (number > NEWEST && script->given[NEWEST + late].method == METHOD_LEFT_OUT)
        return walk_to_oldest(script, number - NEWEST - 1, walk);
    return walk_to(script, number, walk);
}
