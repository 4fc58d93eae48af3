/* explore.h: a few actors over one service, which run step by step in one thread of the operating system. A search goes through all of
 * their schedules within bounds. */
#ifndef EXPLORE_H
#define EXPLORE_H

#include "../../c/cebdyraq_wait.h"

enum { MOST_ACTORS = 4 };

typedef void (*body)(void);

/* What the actors do, once the service is set up. */
typedef struct {
    const char *name;
    body set_up;
    body acts[MOST_ACTORS];
    const char *actors[MOST_ACTORS];
} scenario;

/* The scenarios of one file. */
typedef struct { const scenario *all; size_t count; bool has_servers; } chapter;

/* What may happen in a run, and how often at most. */
typedef struct {
    int preemptions;  /* another goes on though the one that runs could, or a sleeper's time ends though another could go on */
    int busies;       /* a call is told CQ_BUSY: a third party holds what it needs */
    int early_ends;   /* a sleep ends for no reason */
} bounds;

/* The bounds that are left in this run. They are 0 while the service is set up. */
extern bounds left;

/* The clock of the run, in nanoseconds. Each look at it takes `tick_ns`. */
extern int64_t time_ns, tick_ns;

/* How many processors there are. With more than one, callers spin before they sleep. */
extern int processors_there;

/* Whether each run's service is being set up: then nothing is a step. */
extern bool is_set_up;

/* Whether the actors go one way alone, before and behind what is searched. A set-up sets it, and one of the actors begins and ends the
 * search. Whoever awaits the search sleeps until it begins. */
extern bool goes_one_way;
void begin_search(void);
void end_search(void);
void await_search(void);

/* The number of the actor that runs. */
int who_runs(void);

/* Goes one of so many ways. Each run goes another. */
int choose(int ways);

/* A step of the actor that runs. Before it another may go on. */
void step(const char *what);

/* The run is wrong, and ends here. */
void fail(const char *why);
void fail_with(const char *what, uint32_t code);
void tell_step(const char *what);

/* Sleeps until `word` is woken for one of these bits, or `end` has come; a negative one never does. Returns whether it has. The end of
 * a long sleep does not come if nobody else can go on, so whoever needs it sleeps for ever. */
bool sleep_at(const uint32_t *word, uint32_t bits, int64_t end);
bool sleep_long_at(const uint32_t *word, int64_t end);
void wake_at(const uint32_t *word, uint32_t bits);

/* How many sleep at it. */
uint32_t count_asleep(const uint32_t *word);

/* The layer forgets for how long it pays to spin (waits.c), the heap is empty again (system.c), and there are neither servers (servers.c)
 * nor sockets (sockets.c). */
void forget_spins(void);
void forget_heap(void);
void forget_servers(void);
void forget_sockets(void);
void use_heap(void);

/* How many servers are counted as looking for stops (servers.c). */
uint32_t count_looking(void);

#endif
