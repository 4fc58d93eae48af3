/* stress.h: what the threads and the agents of stress.c know of each other. */
#ifndef STRESS_H
#define STRESS_H

#include "check.h"
#include "counted_heap.h"

#include <pthread.h>
#include <stdatomic.h>

enum { DEPTH = 12, WINDOW = 8, WORKERS = 8, AGENTS = 4, MOST_THREADS = 64 };

/* The methods of a thread are its own: its number times METHODS, and then some. The upper half of them is native. */
enum { METHODS = 64, FIRST_NATIVE = 32, LOCATIONS = 1000 };

extern cq_signal signal_of_all;

typedef struct { uint64_t state; } dice;

/* A random number below `bound` (xorshift64*). */
static inline uint32_t roll(dice *d, uint32_t bound) {
    d->state ^= d->state >> 12;
    d->state ^= d->state << 25;
    d->state ^= d->state >> 27;
    return (uint32_t)((((d->state * 0x2545F4914F6CDD1DULL) >> 32) * bound) >> 32);
}

typedef struct {
    cq_service service;
    dice dice;
    uint64_t calls;    /* how many it is to make */
    uint32_t number;
} agent;

void *agent_main(void *given);

#endif
