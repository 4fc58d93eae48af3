/* stops.c: see stops.h. */
#include "stops.h"

#include <stdlib.h>

#include "links.h"

int stops_mask(const struct script *script) {
    return script->stops ? LUA_MASKCOUNT | LUA_MASKLINE | LUA_MASKRET : LUA_MASKCOUNT;
}

/* Puts the hook of the polls in place, with the events that are wanted now. */
static void set_hook(struct script *script, lua_State *L) {
    lua_sethook(L, script_hook, stops_mask(script), INSTRUCTIONS);
}

void stops_enter(struct script *script, lua_State *L) {
    if (script->stops && lua_gethookmask(L) != stops_mask(script))
        set_hook(script, L);
}

/* How many frames the stack has, as far as they are shown. */
static uint32_t frame_count(struct script *script, lua_State *L) {
    struct walk walk;
    uint32_t count = 0;
    stack_cut(script, L);
    for (size_t link = script->links; link-- > 0;)
        for (bool there = walk_begin(&walk, script->chain[link], 0); there && count < SHOWN; there = walk_on(&walk))
            count++;
    return count;
}

/* The method of the function that runs. */
static uint32_t method_of(struct script *script, lua_State *L, lua_Debug *ar) {
    lua_getinfo(L, "Slf", ar);
    uint32_t method = stack_method(script, L, ar);
    lua_pop(L, 1);
    return method;
}

/* ------------------------------------------------------------------------------------------------------------------
 * Where it may have to stop.
 */

static bool is_within(struct methods inner, struct methods outer) {
    return inner.first >= outer.first && (uint64_t)inner.first + inner.count <= (uint64_t)outer.first + outer.count;
}

static bool make_room(struct script *script) {
    if (script->met_count < script->met_room)
        return true;
    size_t room = script->met_room * 2 + 8;
    struct methods *more = realloc(script->met, room * sizeof *more);
    if (!more)
        return false;
    script->met = more;
    script->met_room = room;
    return true;
}

void stops_meet_any(struct script *script) {
    if (script->met_any)
        return;
    script->met_any = true;
    script->version = 0;
}

void stops_meet(struct script *script, struct methods methods) {
    for (size_t i = 0; i < script->met_count; i++)
        if (is_within(methods, script->met[i]))
            return;
    if (!make_room(script)) {
        stops_meet_any(script);
        return;
    }
    script->met[script->met_count++] = methods;
    script->version = 0;
}

/* Asks whether it may have to stop in a function that it has met. Of no function it asks too: a step may be wanted anywhere. */
static uint32_t ask(struct script *script, bool *may) {
    uint32_t code = cq_may_stop_in(&script->thread, 0, script->met_any ? UINT32_MAX : 0, may);
    for (size_t i = 0; i < script->met_count && code == CQ_OK && !*may; i++)
        code = cq_may_stop_in(&script->thread, script->met[i].first, script->met[i].count, may);
    return code;
}

/* Whether it may have to stop. The version is read before it asks, so that what changes meanwhile is asked later. What cannot be asked now
 * may be so. */
static bool may_stop(struct script *script) {
    bool may = false;
    if (!cq_may_stop(&script->thread))
        return false;
    uint64_t version = cq_stops_version(&script->thread);
    if (version == script->version)
        return script->stops;
    if (ask(script, &may) != CQ_OK)
        return true;
    script->version = version;
    return may;
}

/* Whether it may have to stop in this method. */
static bool may_stop_in(struct script *script, uint32_t method) {
    struct calm *calm = &script->calm[method & (CALM - 1)];
    bool may = true;
    uint64_t version = cq_stops_version(&script->thread);
    if (calm->method == method && calm->version == version)
        return false;
    if (cq_may_stop_in(&script->thread, method, 1, &may) != CQ_OK || may)
        return true;
    *calm = (struct calm){ method, version };
    return false;
}

/* ------------------------------------------------------------------------------------------------------------------
 * Stops.
 */

/* Tells where the script is. Returns whether it has to stop there. A C function has no lines. */
static bool tell(struct script *script, lua_State *L, lua_Debug *ar) {
    cq_signal *signal = &script->host->signal;
    bool stops = false;
    uint32_t method = method_of(script, L, ar), code = CQ_OK;
    if (*ar->what == 'C' || ar->currentline < 0 || !may_stop_in(script, method))
        return false;
    if (ar->event == LUA_HOOKLINE)
        code = cq_wait_reached(&script->thread, signal, method, (uint32_t)ar->currentline, &stops);
    else
        code = cq_wait_leaves(&script->thread, signal, method, (uint32_t)ar->currentline, frame_count(script, L), &stops);
    return !complain(script, "a line", code) && stops;
}

static void stop(struct script *script) {
    script_stand(script);
    uint32_t code = cq_wait_stop(&script->thread, &script->host->signal);
    script_go_on(script);
    complain(script, "a stop", code);
}

bool stops_notice(struct script *script, lua_State *L) {
    bool may = may_stop(script);
    if (may != script->stops) {
        script->stops = may;
        set_hook(script, L);
    }
    return may;
}

void stops_look(struct script *script, lua_State *L, lua_Debug *ar) {
    bool may = stops_notice(script, L);
    if (!may || (ar->event != LUA_HOOKLINE && ar->event != LUA_HOOKRET))
        return;
    if (tell(script, L, ar) && give_stack(script, L, 0, false))
        stop(script);
}
