/* links.c: how Lua links its calls, and walks along these links. */
#include "links.h"

#include <lauxlib.h>
#include <stddef.h>
#include <string.h>

enum {
    CALLS = 4,    /* of a function that calls itself: three pairs of neighbours */
    WORDS = 4,    /* of a call that are looked at; each call has more */
    STATE = 1024  /* a base lies in the first bytes of its state, */
};

/* Where the links are. The oldest frame's older neighbour is the base of the state, which is no frame. */
static struct {
    bool known;
    size_t older, newer;  /* in a call */
    size_t base;          /* in a state */
} links;

static void *link_at(const void *call, size_t offset) {
    void *other;
    memcpy(&other, (const char *)call + offset, sizeof other);
    return other;
}

/* Whether the word at this offset leads from each call to the one that is `step` further on in the list. */
static bool leads(void *const *calls, size_t offset, int step) {
    for (int i = 0; i < CALLS; i++)
        if (i + step >= 0 && i + step < CALLS && link_at(calls[i], offset) != calls[i + step])
            return false;
    return true;
}

/* Looks for the links in these calls, which are all that there are, newest first. */
static bool find(lua_State *L, void *const *calls) {
    size_t older = WORDS, newer = WORDS;
    for (size_t word = 0; word < WORDS; word++) {
        if (leads(calls, word * sizeof(void *), 1))
            older = word;
        if (leads(calls, word * sizeof(void *), -1))
            newer = word;
    }
    if (older == WORDS || newer == WORDS)
        return false;
    links.older = older * sizeof(void *);
    links.newer = newer * sizeof(void *);
    const char *base = link_at(calls[CALLS - 1], links.older), *start = (const char *)L;
    if (base <= start || base >= start + STATE)
        return false;
    links.base = (size_t)(base - start);
    return link_at(base, links.newer) == calls[CALLS - 1];
}

/* Calls itself until there are so many calls, and looks at them. */
static int look(lua_State *L) {
    lua_Debug ar;
    void *calls[CALLS];
    int depth = 0;
    for (; depth < CALLS && lua_getstack(L, depth, &ar); depth++)
        calls[depth] = ar.i_ci;
    if (depth == CALLS) {
        links.known = find(L, calls);
        return 0;
    }
    lua_pushcfunction(L, look);
    lua_call(L, 0, 0);
    return 0;
}

void links_learn(void) {
#ifndef CQLUA_PUBLIC_ONLY
    lua_State *L = luaL_newstate();
    if (!L)
        return;
    lua_pushcfunction(L, look);
    lua_pcall(L, 0, 0, 0);
    lua_close(L);
#else
    (void)look;
#endif
}

static void *base_of(lua_State *L) {
    return (char *)L + links.base;
}

bool walk_begin(struct walk *walk, lua_State *L, int level) {
    walk->L = L;
    walk->level = level;
    return lua_getstack(L, level, &walk->ar);
}

bool walk_on(struct walk *walk) {
    walk->level++;
    if (!links.known)
        return lua_getstack(walk->L, walk->level, &walk->ar);
    walk->ar.i_ci = link_at(walk->ar.i_ci, links.older);
    return (void *)walk->ar.i_ci != base_of(walk->L);
}

int oldest_frames(lua_State *L, lua_Debug *oldest, int most) {
    lua_Debug newest;
    int count = 0;
    if (!links.known || !lua_getstack(L, 0, &newest))
        return 0;
    void *call = link_at(base_of(L), links.newer);
    for (; count < most; count++) {
        oldest[count].i_ci = call;
        if (call == (void *)newest.i_ci)
            return count + 1;
        call = link_at(call, links.newer);
    }
    return count;
}
