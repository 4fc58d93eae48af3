/* variables.c: see variables.h.
 *
 * Lua gives the local variables that live in a frame one after the other, each with its name, and does not say at which instruction
 * the frame is. Their names and the line tell which of the method's variables they are. */
#include "variables.h"

#include <pthread.h>
#include <string.h>

#include "host.h"
#include "values.h"

enum { MOST_LOCALS = 256 };  /* that live at once; Lua itself allows 200 */

/* Lua has variables of its own, as "(for state)". */
static bool has_name(const struct variable *v) {
    return v->name.length && *v->name.at != '(';
}

uint32_t variables_of_method(void *context, uint32_t method, cq_teller *teller) {
    const struct method *m = methods_get(method);
    (void)context;
    if (!m->code)
        return CQ_ABSENT_INFORMATION;
    for (size_t i = 0; i < m->variable_count; i++) {
        const struct variable *v = &m->variables[i];
        if (v->first <= v->last && has_name(v))
            cq_tell_variable(teller, (const uint8_t *)v->name.at, v->name.length, (uint32_t)i, v->first, v->last - v->first + 1);
    }
    return CQ_OK;
}

/* ------------------------------------------------------------------------------------------------------------------
 * Which variables live in a frame.
 */

/* The local variables that live in a frame, in the order of their registers. */
struct living {
    const struct method *method;
    uint32_t line;
    const char *names[MOST_LOCALS];
    uint32_t slots[MOST_LOCALS];
    size_t count;
};

/* Behind the variables come values that Lua keeps in registers besides. */
static bool is_variable(const char *name) {
    return name && strcmp(name, "(temporary)") != 0;
}

static void read_names(const struct walk *walk, struct living *living) {
    const char *name = NULL;
    while (living->count < MOST_LOCALS && is_variable(name = lua_getlocal(walk->L, &walk->ar, (int)living->count + 1))) {
        lua_pop(walk->L, 1);
        living->names[living->count++] = name;
    }
    if (living->count < MOST_LOCALS && name)
        lua_pop(walk->L, 1);
}

static bool is_named(const struct variable *v, const char *name) {
    return strlen(name) == v->name.length && !memcmp(v->name.at, name, v->name.length);
}

static bool is_visible_at(const struct variable *v, uint32_t line) {
    return v->first <= line && line <= v->last;
}

/* Whether these are the variables that live at an instruction. Then it notes their slots. */
static bool live_at(struct living *living, size_t at) {
    size_t found = 0;
    for (size_t i = 0; i < living->method->local_count; i++) {
        const struct variable *v = &living->method->variables[i];
        if (at < v->start || at >= v->end)
            continue;
        if (found == living->count || !is_named(v, living->names[found]) || !is_visible_at(v, living->line))
            return false;
        living->slots[found++] = (uint32_t)i;
    }
    return found == living->count;
}

/* Looks for such an instruction. Only where a variable begins or ends do others live than before. */
static bool find_slots(struct living *living) {
    bool found = live_at(living, 0);
    for (size_t i = 0; i < living->method->local_count && !found; i++) {
        const struct variable *v = &living->method->variables[i];
        found = live_at(living, v->start) || live_at(living, v->end);
    }
    return found;
}

/* ------------------------------------------------------------------------------------------------------------------
 * Values.
 */

/* A variable that is visible at the line, and lives only later or earlier in it, is nil. */
static void tell_locals(struct walk *walk, const struct living *living, struct telling *to) {
    size_t told = 0;
    for (size_t i = 0; i < living->method->local_count; i++) {
        const struct variable *v = &living->method->variables[i];
        bool lives = told < living->count && living->slots[told] == i;
        if (lives) {
            lua_getlocal(walk->L, &walk->ar, (int)++told);
            if (has_name(v))
                value_tell(walk->L, (uint32_t)i, to);
            lua_pop(walk->L, 1);
        } else if (has_name(v) && is_visible_at(v, living->line)) {
            cq_tell_nil(to->teller, (uint32_t)i);
        }
    }
}

/* Those of the function on the top. */
static void tell_upvalues(lua_State *L, const struct method *method, struct telling *to) {
    for (size_t slot = method->local_count; slot < method->variable_count; slot++) {
        if (!lua_getupvalue(L, -1, (int)(slot - method->local_count) + 1))
            return;
        value_tell(L, (uint32_t)slot, to);
        lua_pop(L, 1);
    }
}

/* Tells the frame at which the walk is. */
static uint32_t tell_frame_at(struct walk *walk, const struct method *method, cq_teller *teller) {
    struct telling to = { teller, VALUES_ENTRIES };
    if (!lua_checkstack(walk->L, VALUES_PUSHED))
        return CQ_OUT_OF_MEMORY;
    lua_getinfo(walk->L, "l", &walk->ar);
    struct living living = { .method = method, .line = (uint32_t)walk->ar.currentline };
    read_names(walk, &living);
    if (!find_slots(&living))
        return CQ_ABSENT_INFORMATION;
    tell_locals(walk, &living, &to);
    lua_getinfo(walk->L, "f", &walk->ar);
    tell_upvalues(walk->L, method, &to);
    lua_pop(walk->L, 1);
    return CQ_OK;
}

static uint32_t tell_frame(struct script *script, uint32_t depth, cq_teller *teller) {
    struct walk walk;
    if (depth >= script->given_count)
        return CQ_THREAD_NOT_SUSPENDED;
    const struct method *method = methods_get(script->given[depth].method);
    return method->code && stack_find(script, depth, &walk) ? tell_frame_at(&walk, method, teller) : CQ_ABSENT_INFORMATION;
}

uint32_t variables_of_frame(void *context, uint32_t thread, uint32_t depth, cq_teller *teller) {
    struct host *host = context;
    struct script *script = thread < host->count ? &host->scripts[thread] : NULL;
    if (!script || pthread_mutex_trylock(&script->lock))
        return CQ_THREAD_NOT_SUSPENDED;
    uint32_t code = tell_frame(script, depth, teller);
    pthread_mutex_unlock(&script->lock);
    return code;
}
