/* watch.h: threads that run, environments that call for them, and what a watch tells, in a test. */
#ifndef WATCH_H
#define WATCH_H

#include "../../c/cebdyraq_watch.h"
#include "check.h"

enum { THREADS = 3 };

extern cq_service service;
extern cq_thread threads[THREADS];
extern cq_env env, other;
extern cq_watch watch;

/* Makes them all, with a frame in each thread. The watch watches all threads. */
void begin(void);

/* Ends them, in whatever order. Nobody calls for the threads. */
void end(void);

/* A call of `env` that waits for the thread. */
void call(uint32_t thread);

/* The thread polls, and each call of `env` at it is answered. */
void hand_over(uint32_t thread);

/* The watch tells of these threads, in any order, and of no other. */
void tells(cq_watch *from, size_t count, const uint32_t *wanted);

#define TELLS(from, ...) tells(from, sizeof((uint32_t[]){ __VA_ARGS__ }) / sizeof(uint32_t), (uint32_t[]){ __VA_ARGS__ })

void tells_nothing(cq_watch *from);

/* It may tell of this thread, which it no longer watches, that it became wanted before. */
void may_tell(cq_watch *from, uint32_t thread);

/* watch_told.c: what is told. */
void tells_what_is_wanted(void);

/* watch_others.c: callers that sleep, file descriptors, and children. */
void wakes_others(void);

#endif
