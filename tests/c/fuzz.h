/* fuzz.h: the handles of fuzz.c, each twice: the library's and the model's. */
#ifndef FUZZ_H
#define FUZZ_H

#include "check.h"
#include "model_parts.h"

typedef union { cq_service service; cq_thread thread; cq_env env; } any_handle;
typedef struct { any_handle real, model; } slot;

enum { SLOTS = 12, TICKETS = 12, FRAMES = 6 };

extern slot slots[SLOTS];
extern bool is_loud;

/* A random number below `bound`. */
uint32_t below(uint32_t bound);

/* A slot: mostly one with a handle of this kind, and sometimes any. */
slot *pick(uint32_t kind);
static inline slot *pick_empty(void) { return pick(EMPTY); }
static inline slot *pick_service(void) { return pick(A_SERVICE); }
static inline slot *pick_thread(void) { return pick(A_THREAD); }
static inline slot *pick_agent(void) { return pick(AN_ENV); }

/* A number that is mostly small, and sometimes at the edge of its type. */
int32_t pick_small(void);
uint32_t pick_number(void);

/* The library and the model give the same. Otherwise the program ends, and tells how to run it once more. */
void agree(const char *what, uint64_t real, uint64_t model);

/* Makes a service with two threads that run, and one or two environments that have met them. */
void furnish(void);

/* Makes a step of a trace at both. It gives the code, and whether the trace is over. */
uint32_t step_both(slot *agent, bool *over);

/* Makes one random call at a random handle. */
void any_call(void);
void forget_tickets(void);

#endif
