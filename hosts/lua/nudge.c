/* nudge.c: see nudge.h. */
#include "nudge.h"

#include <errno.h>
#include <signal.h>
#include <stdio.h>
#include <time.h>

#include "stops.h"

static const int64_t LONG_NS = 100000;  /* a script that is longer between two instructions took its time there */

static _Thread_local struct script *own;

static int64_t read_ns(clockid_t clock) {
    struct timespec t;
    clock_gettime(clock, &t);
    return (int64_t)t.tv_sec * 1000000000 + t.tv_nsec;
}

/* The hook of the polls is left in place, with more events, and one instruction to go. */
static void set_hook(lua_State *L) {
    lua_sethook(L, script_hook, LUA_MASKCALL | LUA_MASKRET | LUA_MASKCOUNT, 1);
}

/* Sets the hook. In a deep stack it notes what that takes: of the processor's time, as other threads may run
 * meanwhile. */
static void set_hook_at_price(struct script *script, lua_State *L) {
    int64_t start = script->deep ? read_ns(CLOCK_THREAD_CPUTIME_ID) : 0;
    set_hook(L);
    if (!script->deep)
        return;
    atomic_store_explicit(&script->nudge_price, read_ns(CLOCK_THREAD_CPUTIME_ID) - start, memory_order_relaxed);
}

/* The handler, on the script's thread. lua_sethook may be called here. */
static void on_nudge(int signal) {
    int error = errno;
    lua_State *L = own ? atomic_load_explicit(&own->running, memory_order_relaxed) : NULL;
    (void)signal;
    if (own && !own->nudged) {
        if (L)
            set_hook_at_price(own, L);
        own->nudged_at = read_ns(CLOCK_MONOTONIC);
        own->nudged = true;
    }
    errno = error;
}

int nudge_open(void) {
    struct sigaction action = { .sa_handler = on_nudge, .sa_flags = SA_RESTART };
    if (!sigaction(SIGPROF, &action, NULL))
        return 0;
    perror("cqlua: SIGPROF");
    return -1;
}

void nudge_thread(struct script *script) {
    own = script;
    atomic_signal_fence(memory_order_seq_cst);
}

void nudge_end(struct script *script) {
    atomic_store_explicit(&script->running, NULL, memory_order_relaxed);
    atomic_signal_fence(memory_order_seq_cst);
}

void nudge_at(struct script *script, lua_State *L) {
    if (atomic_load_explicit(&script->running, memory_order_relaxed))
        atomic_store_explicit(&script->running, L, memory_order_relaxed);
    atomic_signal_fence(memory_order_seq_cst);
}

void nudge_back_at(struct script *script, lua_State *L) {
    nudge_at(script, L);
    if (script->nudged)
        set_hook(L);
}

void nudge_begin(struct script *script, lua_State *L) {
    atomic_store_explicit(&script->running, L, memory_order_relaxed);
    nudge_back_at(script, L);
}

bool nudge_clear(lua_State *L) {
    int mask = stops_mask(script_of(L));
    if (lua_gethookmask(L) == mask && lua_gethookcount(L) == INSTRUCTIONS)
        return false;
    bool hooked = lua_gethookcount(L) != INSTRUCTIONS;
    lua_sethook(L, script_hook, mask, INSTRUCTIONS);
    return hooked;
}

enum nudged nudge_take(struct script *script, bool hooked) {
    if (!script->nudged)
        return NUDGE_NONE;
    bool is_long = read_ns(CLOCK_MONOTONIC) - script->nudged_at > LONG_NS;
    script->nudged = false;
    return !is_long ? NUDGE_NONE : hooked ? NUDGE_HERE : NUDGE_LOST;
}

void nudge(struct script *script) {
    pthread_kill(script->pthread, SIGPROF);
}

int64_t nudge_price(const struct script *script) {
    return 2 * atomic_load_explicit(&script->nudge_price, memory_order_relaxed);
}

void nudge_depth(struct script *script, bool deep) {
    script->deep = deep;
    if (!deep)
        atomic_store_explicit(&script->nudge_price, 0, memory_order_relaxed);
}
