/* debugger.h: a door for debuggers in a test, a runtime behind it, and steps at its connection. */
#ifndef DEBUGGER_H
#define DEBUGGER_H

#include "../../c/cebdyraq_serve.h"
#include "jdwp.h"

#define MILLISECOND 1000000ULL
#define SECOND 1000000000ULL

/* The ids of the threads, and of the class of the first one's methods. */
#define WORKER "0000000000000001"
#define SLEEPER "0000000000000002"
#define NOBODY "0000000000000009"
#define WORK "0000000400000000"

extern cq_service service;
extern cq_thread worker, sleeper;
extern cq_door door;
extern uint64_t now;

/* ------------------------------------------------------------------------------------------------------------------
 * The runtime: a worker that runs in `inner`, which `outer` has called, and a sleeper that is blocked.
 */

/* Makes the service with its two classes and three methods, and starts both threads. */
void begin_runtime(void);

/* Ends both, which nobody has suspended. */
void end_runtime(void);

/* Whether a thread that stays at a safe point may go on; then it has. */
bool goes_on(cq_thread *thread);

/* ------------------------------------------------------------------------------------------------------------------
 * The door, and the debugger at it.
 */

void open_debugger(void);
void close_debugger(void);

/* Connects. `attach` also exchanges the handshake. */
void connect_debugger(void);
void attach(void);

/* Disconnects. */
void detach(void);

uint32_t action_now(void);

/* Feeds all of these bytes. */
void feed_bytes(const void *bytes, size_t count);

/* Ticks, after so many nanoseconds. Returns when the next tick is due. */
uint64_t tick_after(uint64_t time);

/* Sends a request. */
void ask(uint8_t set, uint8_t command, const char *data);

/* The reply to the last request is there, with this error and data, and nothing else. It is taken. */
void replied(uint16_t error, const char *data);

/* Asks, and is replied to at once. */
void asks(uint8_t set, uint8_t command, const char *data, uint16_t error, const char *reply);

/* How often the door has resumed a thread. */
uint64_t resumptions(void);

/* ------------------------------------------------------------------------------------------------------------------
 * Tests of other files.
 */

/* debugger_asks.c: what a debugger asks of threads and classes, and its replies. */
void tells_what_there_is(void);

/* debugger_suspends.c: suspensions and resumptions. */
void suspends(void);

/* debugger_variables.c: what the runtime tells of variables. */
void tells_variables(void);

/* Its functions. They tell of the methods and frames of the runtime above. */
extern const cq_variables variables;

/* debugger_pops.c: frames that are popped. */
void pops_for_debuggers(void);

/* debugger_memory.c: each allocation of a conversation is refused in turn. */
void lacks_memory(void);

/* debugger_random.c: random streams, whose requests have one reply each, and leave no thread suspended. */
void debugs_at_random(uint64_t streams, uint64_t seed);

#endif
