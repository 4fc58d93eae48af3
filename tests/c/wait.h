/* wait.h: a thread and an environment, and those who wait, for wait.c and the files beside it. */
#ifndef WAIT_H
#define WAIT_H

#include "check.h"

#include <pthread.h>
#include <stdatomic.h>

#define MILLISECOND 1000000
#define SECOND 1000000000

/* A wait that is ended by a wake-up ends long before this. */
static const int64_t LONG = 60 * (int64_t)SECOND;

enum { WINDOW = 8 };

extern cq_signal signal_of_all;
extern cq_service service;
extern cq_thread thread;      /* number 0. It runs */
extern cq_env env;            /* it has met the thread, and may suspend it */
extern atomic_int at;         /* how far the other thread of the operating system is */

int64_t now_ns(void);
void rest(int64_t time);
void await(int wanted);
pthread_t run(void *(*body)(void *));
void join(pthread_t id);

/* Calls at a full window. */
void full_windows(void);

/* Waits for any of several things. */
void waits_for_any(void);

/* Calls that are cancelled. */
void cancelled_calls(void);

/* Agents that wait for one thread. */
void crowds(void);

/* Suspensions that are taken back. */
void suspensions_taken_back(void);

/* What wakes environments that wait for news, or for a stop. */
void news(void);

/* Environments that are disposed of while a call is out. */
void environments_disposed_of(void);

#endif
