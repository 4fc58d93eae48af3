/* scenarios.h: what the scenarios have in common. */
#ifndef SCENARIOS_H
#define SCENARIOS_H

#include "explore.h"

extern const chapter *const chapters[];
enum { CHAPTERS = 5 };

extern cq_service service;
extern cq_signal the_signal;
extern cq_thread t0, t1;   /* numbers 0 and 1 */
extern cq_env a, b, c;     /* of agents */
extern uint32_t the_window;

enum { FOREVER_NS = -1 };

/* All of these are empty. */
void forget_service(void);

/* A service with so many threads and environments. Each environment has met the threads and may suspend them and pop their frames. */
void make(uint32_t window, int threads, int environments);

/* The thread starts, and has a frame. */
void let_run(cq_thread *thread);

/* What a call may give, or the run is wrong. */
void may_give(const char *what, uint32_t code, uint32_t this, uint32_t other);
#define OK(call) may_give(#call, call, CQ_OK, CQ_OK)
#define OK_OR(other, call) may_give(#call, call, other, other)
#define OK_OR_EITHER(this, other, call) may_give(#call, call, this, other)

/* A time-out comes no earlier than that. */
void check_time(int64_t began, int64_t least);

/* Whether a call whose time began then was over before it was done. Otherwise it gave CQ_OK, or the other code. */
bool was_over(const char *what, uint32_t code, int64_t began, int64_t least, uint32_t other);

/* A wait of 50 microseconds that nobody ends, as the layer's own after CQ_BUSY. */
void nap(void);

/* A thread that polls and ends, and one that also goes native in between. */
void poll_and_end_0(void);
void poll_and_end_1(void);
void poll_go_native_and_end_0(void);
void poll_go_native_and_end_1(void);
void start_end_and_go_0(void);

/* One thread that runs, and two environments. Two of each. */
void make_one(void);
void make_two(void);

#endif
