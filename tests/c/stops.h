/* stops.h: a service with two threads and two environments (stops.c, stops_threads.c). */
#ifndef STOPS_H
#define STOPS_H

#include "check.h"

/* The methods of its one class. */
enum { TABLE, LINES, NATIVE, UNKNOWN };

extern cq_service service;
extern cq_thread first, second;
extern cq_env env, other;

void begin(void);
void finish(void);
void check_threads(void);

#endif
