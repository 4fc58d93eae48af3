/* debugged.h: a runtime of two threads that debuggers may attach to, and a debugger over a socket. */
#ifndef DEBUGGED_H
#define DEBUGGED_H

#include "client.h"
#include "jdwp.h"

extern cq_server debugged;

/* Begins to listen at an address, with both threads started: a worker that polls, and a sleeper. */
void begin_debugged(const char *address);

/* Ends both threads and the server. */
void end_debugged(void);

/* Waits until the worker has gone on. It fails after 20 s. */
void await_worker(void);

/* How often the worker has found, at a poll, that it is called for. */
unsigned long calls_for_worker(void);

/* A connection that has exchanged the handshake. */
int attached(void);

/* Whether the handshake is answered there. */
bool is_greeted(int socket);

/* Asks, and takes the reply: it has this error and data. */
void asks_at(int socket, uint8_t set, uint8_t command, const char *data, uint16_t error, const char *reply);

/* The debugger is told that the runtime ends, by its event of this number, and then the socket is closed. */
void hears_end(int socket, uint32_t number);

/* Milliseconds of a clock that never goes back. */
uint64_t clock_ms(void);

/* debug_users.c: who may attach. */
void takes_own_users(void);

/* debug_variables.c: variables of a runtime whose thread holds a lock while it runs. */
void tells_variables(void);

/* debug_starts.c: a runtime that waits for its first debugger. */
void starts_suspended(void);

/* debug_classes.c: threads that define a class, and run it once the debugger has been told of it. */
void tells_classes(void);

/* debug_ends.c: debuggers that are there when the server ends. */
void tells_the_end(void);

/* debug_stops.c: a thread that stops at a breakpoint time and again, and wakes the servers that look for it. */
void tells_stops(void);

#endif
