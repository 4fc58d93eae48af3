/* links.h: from one frame of a Lua stack to the next.
 *
 * lua_getstack counts from the newest frame, so a frame at level n costs n steps, and the oldest one the whole stack.
 * Lua keeps its calls as a list with links both ways. lua_Debug has the address of a call. Where the links are in it
 * is not public. So it is not taken for granted: links_learn looks for them in calls that lua_getstack itself has
 * named. If it does not find them, each step is lua_getstack's, and there are no oldest frames. */
#ifndef LINKS_H
#define LINKS_H

#include <lua.h>
#include <stdbool.h>

/* Finds out where the links are, once, before any other thread runs Lua. */
void links_learn(void);

/* A walk from newer frames to older ones. `ar` names the frame at which it is. */
struct walk {
    lua_State *L;
    lua_Debug ar;
    int level;
};

/* Begins at this level. False if there is no frame. */
bool walk_begin(struct walk *walk, lua_State *L, int level);

/* Goes on to the next older frame. False if there is none. */
bool walk_on(struct walk *walk);

/* Writes the oldest frames to `oldest`, the very oldest one first, at most so many. Returns how many there are, which
 * is 0 if the links were not found. There is at least one frame. */
int oldest_frames(lua_State *L, lua_Debug *oldest, int most);

#endif
