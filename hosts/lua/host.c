/* host.c: the life of a script, its safepoint, and how it hands its frames over. */
#include "host.h"

#include <errno.h>
#include <lauxlib.h>
#include <lualib.h>
#include <stdio.h>
#include <stdlib.h>
#include <string.h>
#include <sys/eventfd.h>
#include <unistd.h>

#include "chunks.h"
#include "links.h"
#include "nudge.h"
#include "stops.h"
#include "variables.h"

/* ------------------------------------------------------------------------------------------------------------------
 * Safepoints.
 */

void script_stand(struct script *script) {
    if (!script->stands)
        pthread_mutex_unlock(&script->lock);
    script->stands = true;
}

void script_go_on(struct script *script) {
    pthread_mutex_lock(&script->lock);
    script->stands = false;
}

struct script *script_of(lua_State *L) {
    return *(struct script **)lua_getextraspace(L);
}

static void poll(struct script *script) {
    script_stand(script);
    uint32_t code = cq_wait_poll(&script->thread, &script->host->signal);
    script_go_on(script);
    complain(script, "a poll", code);
}

/* The hook: that of the polls, of a nudge, or of a line. The Lua stack is read only when an agent calls for the thread. A
 * function that was just called has done nothing yet, and is left out. */
void script_hook(lua_State *L, lua_Debug *ar) {
    struct script *script = script_of(L);
    bool hooked = nudge_clear(L);
    nudge_at(script, L);
    if (script->inspected)
        stops_look(script, L, ar);
    if (!script->inspected || cq_poll_clear(&script->thread))
        nudge_take(script, hooked);
    else if (give_stack(script, L, ar->event == LUA_HOOKCALL, hooked))
        poll(script);
}

bool script_native(struct script *script, lua_State *L) {
    if (!script->inspected || script->away || !give_stack(script, L, 0, false))
        return false;
    script->away = !complain(script, "native code", cq_wait_native(&script->thread, &script->host->signal));
    return script->away;
}

bool script_block(struct script *script, lua_State *L, uint32_t reason) {
    if (!script->inspected || script->away || !give_stack(script, L, 0, false))
        return false;
    script->away = !complain(script, "blocking", cq_wait_block(&script->thread, &script->host->signal, reason));
    if (script->away)
        script_stand(script);
    return script->away;
}

void script_back(struct script *script) {
    script_stand(script);
    uint32_t code = cq_wait_back(&script->thread, &script->host->signal, -1);
    script_go_on(script);
    complain(script, "the return", code);
    script->away = false;
}

/* Returns from where it was away, if it was. Breakpoints that were set meanwhile are noticed at the next line. */
static void come_back(struct script *script, lua_State *L, bool away) {
    if (away)
        script_back(script);
    if (script->inspected)
        stops_notice(script, L);
}

void script_tell_classes(struct script *script, lua_State *L) {
    struct host *host = script->host;
    if (!script->inspected || !atomic_load(&host->listens))
        return;
    bool away = script_block(script, L, CQ_PARK);
    complain(script, "what a debugger is told", cq_server_tell_classes(&host->servers[DOOR_DEBUGGER]));
    come_back(script, L, away);
}

/* ------------------------------------------------------------------------------------------------------------------
 * A script's run.
 */

static int add_traceback(lua_State *L) {
    const char *message = luaL_tolstring(L, 1, NULL);
    luaL_traceback(L, L, message, 1);
    return 1;
}

/* Calls the chunk on the top. The message of an error, with its traceback, is left there. */
static int call(lua_State *L) {
    lua_pushcfunction(L, add_traceback);
    lua_insert(L, -2);
    int code = lua_pcall(L, 0, 0, -2);
    lua_remove(L, code == LUA_OK ? -1 : -2);
    return code;
}

/* Sleeps until a debugger has resumed the script, if it begins suspended. Returns whether it may begin. */
static bool await_debugger(struct script *script, lua_State *L) {
    struct host *host = script->host;
    if (!host->suspended_at)
        return true;
    bool away = script_block(script, L, CQ_PARK);
    while (sem_wait(&host->listening))
        continue;
    sem_post(&host->listening);
    bool listens = atomic_load(&host->listens);
    if (listens)
        complain(script, "the wait for a debugger", cq_server_await_resumption(&host->servers[DOOR_DEBUGGER]));
    come_back(script, L, away);
    return listens;
}

static int run_statement(lua_State *L, const char *statement) {
    int code = luaL_loadbuffer(L, statement, strlen(statement), "=(command line)");
    if (code != LUA_OK)
        return code;
    chunk_learn(L);
    return call(L);
}

/* Runs the file of the script, whose functions a debugger knows before it begins. */
static int run_file(struct script *script, lua_State *L) {
    int code = luaL_loadfile(L, script->path);
    if (code != LUA_OK)
        return code;
    chunk_learn(L);
    if (!await_debugger(script, L)) {
        lua_pushliteral(L, "no debugger can attach");
        return LUA_ERRRUN;
    }
    return call(L);
}

static int run_statements(lua_State *L, const struct host *host) {
    int code = LUA_OK;
    for (size_t i = 0; i < host->statement_count && code == LUA_OK; i++)
        code = run_statement(L, host->statements[i]);
    return code;
}

/* Lua's libraries, and the host's functions over them. What cannot be made throws. */
static int open_libraries(lua_State *L) {
    luaL_openlibs(L);
    open_coroutines(L);
    open_blocking(L);
    open_chunks(L);
    lua_newtable(L);
    lua_pushstring(L, script_of(L)->path);
    lua_rawseti(L, -2, 0);
    lua_setglobal(L, "arg");
    return 0;
}

static bool run_state(struct script *script, lua_State *L) {
    *(struct script **)lua_getextraspace(L) = script;
    script->chain[0] = L;
    script->links = 1;
    lua_gc(L, LUA_GCGEN, 0, 0);
    lua_pushcfunction(L, open_libraries);
    int code = lua_pcall(L, 0, 0, 0);
    nudge_clear(L);
    nudge_begin(script, L);
    if (code == LUA_OK)
        code = run_statements(L, script->host);
    if (code == LUA_OK)
        code = run_file(script, L);
    if (code != LUA_OK)
        fprintf(stderr, "cqlua: %s\n", lua_tostring(L, -1));
    nudge_end(script);
    script->given_count = 0;
    lua_close(L);
    return code == LUA_OK;
}

static const char *name_of(const struct script *script) {
    const char *slash = strrchr(script->path, '/');
    return slash ? slash + 1 : script->path;
}

/* The system's tools show its number and name. */
static void name_thread(struct script *script) {
    char name[16];
    snprintf(name, sizeof name, "%d %s", (int)(script - script->host->scripts) % 1000, name_of(script));
    pthread_setname_np(pthread_self(), name);
}

/* Tells that a script is over, and after the last one that all are. */
static void leave_host(struct host *host) {
    if (atomic_fetch_sub(&host->living, 1) == 1 && eventfd_write(host->ended, 1))
        perror("cqlua: eventfd");
}

static void *run_script(void *arg) {
    struct script *script = arg;
    cq_signal *signal = &script->host->signal;
    name_thread(script);
    nudge_thread(script);
    script_go_on(script);
    if (script->host->inspected)
        script->inspected = !complain(script, "the start", cq_wait_start(&script->thread, signal, -1));
    sem_post(&script->host->alive);
    lua_State *L = luaL_newstate();
    script->failed = !L || !run_state(script, L);
    if (!L)
        fprintf(stderr, "cqlua: %s: no memory for a state\n", script->path);
    if (script->inspected)
        complain(script, "the end", cq_wait_end(&script->thread, signal));
    if (script->host->inspected)
        complain(script, "the detachment", cq_wait_detach_thread(&script->thread, signal));
    script_stand(script);
    leave_host(script->host);
    return NULL;
}

/* ------------------------------------------------------------------------------------------------------------------
 * All scripts.
 */

/* Attaches a script by the last part of its path, or by a number if that is not UTF-8. */
static uint32_t attach(struct host *host, struct script *script) {
    const char *name = name_of(script);
    char other[32];
    snprintf(other, sizeof other, "script %zu", (size_t)(script - host->scripts));
    uint32_t code = cq_wait_attach_thread(&host->service, &host->signal, (const uint8_t *)name, strlen(name), 5,
                                          &script->thread);
    if (code == CQ_ILLEGAL_ARGUMENT)
        code = cq_wait_attach_thread(&host->service, &host->signal, (const uint8_t *)other, strlen(other), 5,
                                     &script->thread);
    return code;
}

static int refused(const char *what, uint32_t code) {
    fprintf(stderr, "cqlua: %s is refused with code %u: %s\n", what, code, cq_code_text(code));
    return -1;
}

int host_make(struct host *host, char **paths, size_t count, bool inspected) {
    host->scripts = calloc(count, sizeof *host->scripts);
    host->ended = eventfd(0, EFD_CLOEXEC);
    uint32_t code = inspected ? cq_make(FRAMES, 1 + DOORS, 8, CQ_CAN_SUSPEND, &host->service) : CQ_OK;
    if (code != CQ_OK)
        return refused("the service", code);
    if (!host->scripts || host->ended < 0 || sem_init(&host->alive, 0, 0) || sem_init(&host->listening, 0, 0)
        || methods_make(inspected ? &host->service : NULL)) {
        perror("cqlua");
        return -1;
    }
    links_learn();
    host->count = count;
    host->inspected = inspected;
    atomic_init(&host->living, count);
    for (size_t i = 0; i < count; i++) {
        struct script *script = &host->scripts[i];
        script->host = host;
        script->path = paths[i];
        pthread_mutex_init(&script->lock, NULL);
        code = inspected ? attach(host, script) : CQ_OK;
        if (code != CQ_OK)
            return refused(script->path, code);
    }
    return 0;
}

/* Opens the door for debuggers, for which the scripts wait. */
static int open_suspended(struct host *host) {
    int opened = host_open(host, DOOR_DEBUGGER, host->suspended_at);
    sem_post(&host->listening);
    return opened;
}

int host_start(struct host *host) {
    for (; host->started < host->count; host->started++) {
        struct script *script = &host->scripts[host->started];
        int error = pthread_create(&script->pthread, NULL, run_script, script);
        if (error) {
            fprintf(stderr, "cqlua: %s: %s\n", script->path, strerror(error));
            return -1;
        }
    }
    for (size_t i = 0; i < host->count; i++)
        while (sem_wait(&host->alive))
            continue;
    return host->suspended_at ? open_suspended(host) : 0;
}

bool host_join(struct host *host) {
    bool failed = false;
    for (size_t i = 0; i < host->started; i++) {
        pthread_join(host->scripts[i].pthread, NULL);
        failed = failed || host->scripts[i].failed;
    }
    return failed;
}

/* What is told of each door: before its address, and around a port. */
static const struct {
    const char *before, *protocol, *end;
} DOOR_TEXTS[DOORS] = {
    [DOOR_HTTP] = { "serves", "http://", "/" },
    [DOOR_DEBUGGER] = { "a debugger may attach at", "", "" },
};

static void tell_address(enum door door, const char *address, uint16_t port) {
    const char *host = *address == '[' ? "[::1]" : "127.0.0.1", *before = DOOR_TEXTS[door].before;
    if (port)
        fprintf(stderr, "cqlua: %s %s%s:%u%s\n", before, DOOR_TEXTS[door].protocol, host, port, DOOR_TEXTS[door].end);
    else
        fprintf(stderr, "cqlua: %s %s\n", before, address);
}

/* Sources are looked for in the current directory. */
static uint32_t open_debugger(struct host *host, const char *address) {
    char *path = getcwd(NULL, 0);
    cq_variables variables = { host, variables_of_method, variables_of_frame };
    uint32_t code = cq_server_variables(&host->servers[DOOR_DEBUGGER], &variables);
    if (code == CQ_OK)
        code = cq_server_starts_suspended(&host->servers[DOOR_DEBUGGER], host->suspended_at);
    if (!path)
        code = CQ_SYSTEM;
    if (code == CQ_OK)
        code = cq_debug_listen(&host->servers[DOOR_DEBUGGER], &host->service, &host->signal, address, "cqlua", path);
    free(path);
    return code;
}

static uint32_t open_door(struct host *host, enum door door, const char *address) {
    return door == DOOR_DEBUGGER ? open_debugger(host, address)
                                 : cq_serve(&host->servers[door], &host->service, &host->signal, address, "cqlua");
}

int host_open(struct host *host, enum door door, const char *address) {
    uint16_t port = 0;
    uint32_t code = open_door(host, door, address);
    if (code == CQ_SYSTEM) {
        fprintf(stderr, "cqlua: %s: %s\n", address, strerror(errno));
        return -1;
    }
    if (code != CQ_OK || (code = cq_server_port(&host->servers[door], &port)) != CQ_OK)
        return refused(address, code);
    if (door == DOOR_DEBUGGER)
        atomic_store(&host->listens, true);
    tell_address(door, address, port);
    return 0;
}

void host_free(struct host *host) {
    for (size_t i = 0; i < DOORS; i++)
        if (cq_serve_end(&host->servers[i]) != CQ_OK)
            fputs("cqlua: a server's environment stays\n", stderr);
    methods_end();
    if (host->inspected)
        cq_free(&host->service);
    close(host->ended);
    sem_destroy(&host->alive);
    sem_destroy(&host->listening);
    for (size_t i = 0; i < host->count; i++)
        free(host->scripts[i].met);
    free(host->scripts);
}
