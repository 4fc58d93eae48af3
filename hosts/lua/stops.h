/* stops.h: breakpoints and steps.
 *
 * As long as an agent may want a script to stop in a function that the script has met, each of its states has a hook at each line and
 * each return besides that of the polls. A script notices at a poll that it is so, and at a line that it is so no more. A breakpoint in
 * another script costs it two loads at each poll. */
#ifndef STOPS_H
#define STOPS_H

#include "host.h"

/* The events of the hook that a script's states have between two nudges. */
int stops_mask(const struct script *script);

/* The script has met these methods: those of a chunk that it has loaded, or one of a function in its stack. */
void stops_meet(struct script *script, struct methods methods);

/* The script has loaded functions that are no methods yet, so each method may be one of them. */
void stops_meet_any(struct script *script);

/* On the script's thread: whether an agent may want it to stop. If so, the hook is called at each line from now on. */
bool stops_notice(struct script *script, lua_State *L);

/* In a hook: the script stops if an agent wants it to at this line or return. */
void stops_look(struct script *script, lua_State *L, lua_Debug *ar);

/* On the script's thread: this state or coroutine runs from now on. */
void stops_enter(struct script *script, lua_State *L);

#endif
