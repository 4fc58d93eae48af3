/* chunks.h: the functions of the chunks that Lua loads. They are found when a chunk is loaded, and defined as one
 * class, so that a class never grows. */
#ifndef CHUNKS_H
#define CHUNKS_H

#include <lua.h>
#include <stdint.h>

/* Defines the class of the chunk that was just loaded, and is on the top. It stays there. A debugger that is told of it may set
 * breakpoints before this returns. Where its functions cannot be read, as those of a stripped chunk, each is a class of its own once it
 * is met. */
void chunk_learn(lua_State *L);

/* The hash of the Lua function on the top, which tells it from others of the same lines. 0 if there is no memory. */
uint64_t chunk_code(lua_State *L);

/* Puts functions that the host sees in place of those by which Lua loads files. */
void open_chunks(lua_State *L);

#endif
