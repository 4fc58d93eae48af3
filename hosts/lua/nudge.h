/* nudge.h: how the profiler gets the stack at which a script is, and not the one of its next poll.
 *
 * A script polls after so many instructions of Lua's machine. While a C function runs, while the collector works,
 * there are none. So what is asked then would be answered by a function that runs later. The profiler nudges the
 * script's thread by a signal. Its handler sets a hook, as that of Lua's own program does, which Lua calls at the next
 * instruction, call or return. A C function that ran is then the newest frame, as it returns. */
#ifndef NUDGE_H
#define NUDGE_H

#include <stdbool.h>
#include <stdint.h>

#include "host.h"

/* What a nudge has shown of a script, at a poll. */
enum nudged {
    NUDGE_NONE,   /* there was none, or the script took no time since: its stack is where it was */
    NUDGE_HERE,   /* it took time, and was in the function on the top all along */
    NUDGE_LOST    /* it took time, and it is not known where */
};

/* Sets the handler. Returns 0, or -1 with a message. */
int nudge_open(void);

/* On the script's thread, before it polls: it may be nudged. */
void nudge_thread(struct script *script);

/* On the script's thread: nudges reach this state, also one that came before; and they do not any more, as it is
 * closed. */
void nudge_begin(struct script *script, lua_State *L);
void nudge_end(struct script *script);

/* On the script's thread: this is the state or coroutine that runs. After a coroutine, a nudge that came meanwhile is
 * done here again. */
void nudge_at(struct script *script, lua_State *L);
void nudge_back_at(struct script *script, lua_State *L);

/* In a hook: puts the hook of the polls back. Returns whether another one was set. */
bool nudge_clear(lua_State *L);

/* At a poll: what the last nudge shows, whether its hook was the one that is called now, and forgets it. */
enum nudged nudge_take(struct script *script, bool hooked);

/* Of an agent: nudges a script's thread, which has not been joined. */
void nudge(struct script *script);

/* At a poll: whether the stack is so deep that what a nudge takes matters. Lua marks all frames as a hook is set. */
void nudge_depth(struct script *script, bool deep);

/* Of an agent: what a nudge takes of the script's time, in nanoseconds, or 0 if the stack is not deep. */
int64_t nudge_price(const struct script *script);

#endif
