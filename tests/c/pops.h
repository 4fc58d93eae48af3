/* pops.h: what pops.c and pops_unwound.c share. */
#ifndef POPS_H
#define POPS_H

#include "check.h"

extern cq_service service;
extern cq_thread thread;
extern cq_env env, other;
extern const cq_frame THREE[3];

/* A service with a thread that has not started, and two environments that have met it and may pop. */
void begin(void);

/* Gives the thread back, which has ended, and all else. */
void finish(void);

/* The pops that the runtime was not told. It takes note of them. */
uint64_t pops(void);

/* A runtime with a stack of its own follows an agent that pops frame after frame. */
void unwind_own_stack(void);

#endif
