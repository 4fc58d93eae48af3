/* chance.h: random numbers, which a seed gives again. */
#ifndef CHANCE_H
#define CHANCE_H

#include <stdint.h>

/* A program defines it once. */
extern uint64_t chance;

static inline void seed_chance(uint64_t seed) {
    chance = seed * 0x9E3779B97F4A7C15ULL | 1;
}

/* A random number below `bound` (xorshift64*). */
static inline uint32_t below(uint32_t bound) {
    chance ^= chance >> 12;
    chance ^= chance << 25;
    chance ^= chance >> 27;
    return (uint32_t)(((chance * 0x2545F4914F6CDD1DULL >> 32) * bound) >> 32);
}

#endif
