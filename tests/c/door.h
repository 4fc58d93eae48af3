/* door.h: a door in a test, and steps at its connections. */
#ifndef DOOR_H
#define DOOR_H

#include "../../c/cebdyraq_serve.h"
#include "check.h"

#define SECOND 1000000000ULL

extern cq_door door;
extern uint64_t now;

uint32_t connected(void);
uint32_t action_of(uint32_t connection);
void tick_after(uint64_t time);

/* door_random.c: random streams, whose answers have to be whole ones, one for each request. */
void feeds_at_random(uint64_t streams, uint64_t seed);

#endif
