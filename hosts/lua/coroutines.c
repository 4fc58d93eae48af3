/* coroutines.c: which coroutine resumed which. Lua does not tell it, and the frames of all of them are one stack. */
#include <lauxlib.h>
#include <lualib.h>

#include "host.h"
#include "nudge.h"
#include "stops.h"

/* Calls Lua's own coroutine.resume, which does not throw once it has a coroutine. */
static int resume_by(lua_CFunction own, lua_State *L, lua_State *coroutine) {
    struct script *script = script_of(L);
    stack_cut(script, L);
    size_t links = script->links;
    if (links < CHAIN)
        script->chain[script->links++] = coroutine;
    nudge_at(script, coroutine);
    stops_enter(script, coroutine);
    int results = own(L);
    stops_enter(script, L);
    nudge_back_at(script, L);
    script->links = links;
    return results;
}

/* coroutine.resume. Upvalue 1 is Lua's own. */
static int resume(lua_State *L) {
    lua_CFunction own = lua_tocfunction(L, lua_upvalueindex(1));
    lua_State *coroutine = lua_tothread(L, 1);
    return coroutine ? resume_by(own, L, coroutine) : own(L);
}

/* Throws the error on the top, as what coroutine.wrap gives does: with its place, and after the coroutine was closed.
 * */
static int throw_of(lua_State *L, lua_State *coroutine) {
    int code = lua_status(coroutine);
    if (code != LUA_OK && code != LUA_YIELD) {
        code = lua_resetthread(coroutine);
        lua_xmove(coroutine, L, 1);
    }
    if (code != LUA_ERRMEM && lua_type(L, -1) == LUA_TSTRING) {
        luaL_where(L, 1);
        lua_insert(L, -2);
        lua_concat(L, 2);
    }
    return lua_error(L);
}

/* What coroutine.wrap gives. Upvalue 1 is the coroutine, as in Lua's own function, and upvalue 2 coroutine.resume. It
 * is not Lua's own function, which throws out of the coroutine: the script would not be told that the coroutine is
 * over. */
static int resume_wrapped(lua_State *L) {
    lua_State *coroutine = lua_tothread(L, lua_upvalueindex(1));
    lua_pushvalue(L, lua_upvalueindex(1));
    lua_insert(L, 1);
    int results = resume_by(lua_tocfunction(L, lua_upvalueindex(2)), L, coroutine);
    return lua_toboolean(L, -results) ? results - 1 : throw_of(L, coroutine);
}

/* coroutine.wrap. Upvalue 1 is Lua's own, and upvalue 2 coroutine.resume. */
static int wrap(lua_State *L) {
    lua_tocfunction(L, lua_upvalueindex(1))(L);
    lua_getupvalue(L, -1, 1);
    lua_pushvalue(L, lua_upvalueindex(2));
    lua_pushcclosure(L, resume_wrapped, 2);
    return 1;
}

static int no_hook(lua_State *L) {
    return luaL_error(L, "there is no debug.sethook under cqlua, which needs the hook itself");
}

void open_coroutines(lua_State *L) {
    lua_getglobal(L, LUA_COLIBNAME);
    lua_getfield(L, -1, "wrap");
    lua_getfield(L, -2, "resume");
    lua_pushcclosure(L, wrap, 2);
    lua_setfield(L, -2, "wrap");
    lua_getfield(L, -1, "resume");
    lua_pushcclosure(L, resume, 1);
    lua_setfield(L, -2, "resume");
    lua_getglobal(L, LUA_DBLIBNAME);
    lua_pushcfunction(L, no_hook);
    lua_setfield(L, -2, "sethook");
    lua_pop(L, 2);
}
