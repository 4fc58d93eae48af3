/* ending.h: a tool that is to write something at its end, when a signal or a script ends the process before. */
#ifndef ENDING_H
#define ENDING_H

#include <stdbool.h>

#include "host.h"

/* From here on SIGINT, SIGTERM and SIGHUP ask for the end, unless they are ignored, and so does `exit` on another
 * thread, which then waits. host->ended can be read then. Returns 0, or -1 with a message. */
int ending_watch(struct host *host);

/* Whether the end was asked for. */
bool ending_asked(void);

/* The tool has written what it had to. The process ends, if that was asked for: by the signal that came, or by `exit`.
 * */
void ending_done(void);

#endif
