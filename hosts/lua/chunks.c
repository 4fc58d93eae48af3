/* chunks.c: see chunks.h. */
#include "chunks.h"

#include <lauxlib.h>
#include <lualib.h>
#include <stdlib.h>
#include <string.h>

#include "host.h"
#include "stops.h"

/* ------------------------------------------------------------------------------------------------------------------
 * What lua_dump tells.
 */

struct dump {
    char *bytes;
    size_t size, room;
};

static int add(lua_State *L, const void *bytes, size_t size, void *arg) {
    struct dump *dump = arg;
    (void)L;
    if (size > dump->room - dump->size) {
        size_t room = 2 * dump->room + size;
        char *more = realloc(dump->bytes, room);
        if (!more)
            return 1;
        dump->bytes = more;
        dump->room = room;
    }
    memcpy(dump->bytes + dump->size, bytes, size);
    dump->size += size;
    return 0;
}

/* Reads the function on the top, whose names lie in the dump. Both are freed by `forget` in any case. */
static bool read_top(lua_State *L, struct dump *dump, struct protos *protos) {
    return !lua_dump(L, add, dump, 0) && !protos_read(dump->bytes, dump->size, protos);
}

static void forget(struct dump *dump, struct protos *protos) {
    protos_free(protos);
    free(dump->bytes);
}

void chunk_learn(lua_State *L) {
    struct dump dump = { 0 };
    struct protos protos = { 0 };
    lua_Debug ar;
    struct script *script = script_of(L);
    uint32_t first;
    if (!script->inspected)
        return;
    lua_pushvalue(L, -1);
    lua_getinfo(L, ">S", &ar);
    if (read_top(L, &dump, &protos) && methods_define(source_of(&ar), &protos, &first))
        stops_meet(script, (struct methods){ first, (uint32_t)protos.count });
    else
        stops_meet_any(script);
    forget(&dump, &protos);
    script_tell_classes(script, L);
}

uint64_t chunk_code(lua_State *L) {
    struct dump dump = { 0 };
    struct protos protos = { 0 };
    uint64_t code = read_top(L, &dump, &protos) ? protos.at[0].code : 0;
    forget(&dump, &protos);
    return code;
}

/* ------------------------------------------------------------------------------------------------------------------
 * Where Lua loads files.
 */

/* Learns the first of the results, if it is a chunk of a file. That of a text is not learned: a script may load new
 * texts again and again. */
static int learn_first(lua_State *L, int results) {
    lua_Debug ar;
    if (results == 0 || !lua_isfunction(L, -results) || lua_iscfunction(L, -results))
        return results;
    lua_pushvalue(L, -results);
    lua_pushvalue(L, -1);
    lua_getinfo(L, ">S", &ar);
    if (*ar.source == '@')
        chunk_learn(L);
    else
        stops_meet_any(script_of(L));
    lua_pop(L, 1);
    return results;
}

/* load, loadfile, and the searcher of require: Lua's own, which is upvalue 2, with its upvalue in its place. */
static int load_by_own(lua_State *L) {
    return learn_first(L, lua_tocfunction(L, lua_upvalueindex(2))(L));
}

static int results_of_file(lua_State *L, int status, lua_KContext context) {
    (void)status;
    (void)context;
    return lua_gettop(L) - 1;
}

/* dofile, as Lua has it. Its own calls the chunk before anybody sees it. */
static int run_file(lua_State *L) {
    const char *name = luaL_optstring(L, 1, NULL);
    lua_settop(L, 1);
    if (luaL_loadfile(L, name) != LUA_OK)
        return lua_error(L);
    learn_first(L, 1);
    lua_callk(L, 0, LUA_MULTRET, 0, results_of_file);
    return results_of_file(L, LUA_OK, 0);
}

/* Puts load_by_own in place of Lua's own function on the top. */
static void replace(lua_State *L) {
    if (!lua_getupvalue(L, -1, 1))
        lua_pushnil(L);
    lua_insert(L, -2);
    lua_pushcclosure(L, load_by_own, 2);
}

void open_chunks(lua_State *L) {
    lua_register(L, "dofile", run_file);
    lua_getglobal(L, "load");
    replace(L);
    lua_setglobal(L, "load");
    lua_getglobal(L, "loadfile");
    replace(L);
    lua_setglobal(L, "loadfile");
    lua_getglobal(L, LUA_LOADLIBNAME);
    lua_getfield(L, -1, "searchers");
    lua_rawgeti(L, -1, 2);
    replace(L);
    lua_rawseti(L, -2, 2);
    lua_pop(L, 2);
}
