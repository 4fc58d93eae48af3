/* blocking.c: functions in which a script waits. The thread hands its frames over before, and is inspected there.
 *
 * A function of Lua's own runs protected meanwhile, so that the thread comes back also when it throws. What would throw
 * because of its arguments is called as it is, without going away, so that the message is Lua's own. */
#include <lauxlib.h>
#include <lualib.h>
#include <stdio.h>
#include <string.h>
#include <time.h>

#include "host.h"
#include "nudge.h"

static int sleep_away(lua_State *L) {
    lua_Number seconds = luaL_checknumber(L, 1);
    luaL_argcheck(L, seconds >= 0 && seconds <= 1e9, 1, "seconds from 0 to 1e9 are wanted");
    struct timespec left = { (time_t)seconds, (long)((seconds - (lua_Number)(time_t)seconds) * 1e9) };
    bool away = script_block(script_of(L), L, CQ_SLEEP);
    while (nanosleep(&left, &left))
        continue;
    if (away)
        script_back(script_of(L));
    return 0;
}

/* Calls the function that is upvalue 1, in native code. */
static int call_away(lua_State *L) {
    lua_pushvalue(L, lua_upvalueindex(1));
    lua_insert(L, 1);
    bool away = script_native(script_of(L), L);
    int code = lua_pcall(L, lua_gettop(L) - 1, LUA_MULTRET, 0);
    if (away)
        script_back(script_of(L));
    return code == LUA_OK ? lua_gettop(L) : lua_error(L);
}

static int call_as_is(lua_State *L) {
    return lua_tocfunction(L, lua_upvalueindex(1))(L);
}

/* Whether the value is a file that is open and is the standard input. */
static bool is_input(lua_State *L, int index) {
    luaL_Stream *stream = luaL_testudata(L, index, LUA_FILEHANDLE);
    return stream && stream->closef && stream->f == stdin;
}

/* Whether io.input, which is upvalue 2, gives the standard input. */
static bool default_is_input(lua_State *L) {
    lua_pushvalue(L, lua_upvalueindex(2));
    lua_call(L, 0, 1);
    bool is = is_input(L, -1);
    lua_pop(L, 1);
    return is;
}

/* Whether the arguments from `first` on are formats that io.read knows. */
static bool are_formats(lua_State *L, int first) {
    for (int at = first; at <= lua_gettop(L); at++) {
        if (lua_type(L, at) == LUA_TNUMBER)
            continue;
        const char *format = lua_tostring(L, at);
        if (format && *format == '*')
            format++;
        if (!format || !*format || !strchr("nlLa", *format))
            return false;
    }
    return true;
}

static int io_read(lua_State *L) {
    return default_is_input(L) && are_formats(L, 1) ? call_away(L) : call_as_is(L);
}

static int file_read(lua_State *L) {
    return is_input(L, 1) && are_formats(L, 2) ? call_away(L) : call_as_is(L);
}

/* Calls Lua's own function, and lets the iterator that it gives go away for each line. */
static int lines(lua_State *L, bool away) {
    int results = call_as_is(L);
    if (away) {
        lua_pushvalue(L, -results);
        lua_pushcclosure(L, call_away, 1);
        lua_replace(L, -results - 1);
    }
    return results;
}

static int io_lines(lua_State *L) {
    return lines(L, lua_isnoneornil(L, 1) && default_is_input(L) && are_formats(L, 2));
}

static int file_lines(lua_State *L) {
    return lines(L, is_input(L, 1) && are_formats(L, 2));
}

static int execute(lua_State *L) {
    return lua_isnoneornil(L, 1) || lua_isstring(L, 1) ? call_away(L) : call_as_is(L);
}

/* os.exit. The thread is inspected here until the process ends, and its state may be closed. One script ends the
 * process. */
static int leave(lua_State *L) {
    static pthread_mutex_t one = PTHREAD_RECURSIVE_MUTEX_INITIALIZER_NP;
    int is_integer = 0;
    lua_tointegerx(L, 1, &is_integer);
    if (lua_isnoneornil(L, 1) || lua_isboolean(L, 1) || is_integer) {
        script_native(script_of(L), L);
        nudge_end(script_of(L));
        pthread_mutex_lock(&one);
    }
    return call_as_is(L);
}

/* Puts a function in place of the field of this name of the table on the top. The old one is its upvalue 1. */
static void replace(lua_State *L, const char *name, lua_CFunction function) {
    lua_getfield(L, -1, name);
    lua_getglobal(L, LUA_IOLIBNAME);
    lua_getfield(L, -1, "input");
    lua_remove(L, -2);
    lua_pushcclosure(L, function, 2);
    lua_setfield(L, -2, name);
}

void open_blocking(lua_State *L) {
    lua_register(L, "sleep", sleep_away);
    lua_getglobal(L, LUA_IOLIBNAME);
    replace(L, "read", io_read);
    replace(L, "lines", io_lines);
    luaL_getmetatable(L, LUA_FILEHANDLE);
    lua_getfield(L, -1, "__index");
    replace(L, "read", file_read);
    replace(L, "lines", file_lines);
    lua_getglobal(L, LUA_OSLIBNAME);
    replace(L, "execute", execute);
    replace(L, "exit", leave);
    lua_pop(L, 4);
}
