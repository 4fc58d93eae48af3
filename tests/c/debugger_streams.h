/* debugger_streams.h: random streams of a debugger's packets, and what has to be replied to. */
#ifndef DEBUGGER_STREAMS_H
#define DEBUGGER_STREAMS_H

#include "chance.h"
#include "jdwp.h"

enum { STREAM = 1 << 18, PACKETS = 40 };

extern uint8_t stream[STREAM];
extern size_t stream_length;

/* Makes a stream. Most of its packets are right. In others bytes are changed, missing, or too many; a few lengths are huge. The ids
 * of threads are mostly below `threads`. */
void make_stream(uint32_t threads);

/* The ids of the requests that have to be replied to, in their order, as the protocol says. */
extern uint32_t expected[PACKETS + STREAM / HEAD];
extern size_t expected_count;

/* Reads the stream, and notes them. */
void read_stream(void);

#endif
