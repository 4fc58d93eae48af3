/* served.h: a runtime of two threads that is served: one computes in two functions, the other sleeps. */
#ifndef SERVED_H
#define SERVED_H

#include "client.h"

extern cq_server server;
extern cq_service service;
extern cq_signal all_signal;

/* Begins to serve at an address, with both threads started. */
void begin_served(const char *address);

/* Ends both threads and the server. No block of memory is left. */
void end_served(void);

/* serve_wrong.c: each request that is refused. */
void refuses_what_is_wrong(void);

/* serve_fork.c: children of a fork, in which no server of the parent's runs. */
void forgets_in_a_child(void);

/* serve_few.c: a process that may have few files open. */
void serves_with_few_files(void);

/* serve_many.c: connections and profiles at their bounds, and readers for whom the system keeps megabytes of answers. */
void keeps_its_bounds(void);
void closes_slow_readers(void);

#endif
