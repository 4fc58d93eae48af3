/* system.h: what stands for the operating system, and for atomic steps. */
#ifndef SYSTEM_H
#define SYSTEM_H

#define _GNU_SOURCE
#include <sched.h>
#include <stdint.h>
#include <time.h>

uint32_t load_word(const uint32_t *at, const char *what);
uint32_t add_to_word(uint32_t *at, uint32_t more, const char *what);
uint32_t subtract_from_word(uint32_t *at, uint32_t less, const char *what);
long call_futex(uint32_t *word, int operation, uint32_t value, const int64_t *until, uint32_t bits);
int read_clock(clockid_t clock, struct timespec *at);
int read_affinity(pid_t process, size_t size, cpu_set_t *set);

#endif
