/* Chance that a seed decides: the same numbers on every machine. */
#ifndef CHANCE_H
#define CHANCE_H

#include <stdint.h>

extern uint64_t chance_seed;

static inline uint64_t chance(void) {
    uint64_t z = chance_seed += UINT64_C(0x9e3779b97f4a7c15);
    z = (z ^ z >> 30) * UINT64_C(0xbf58476d1ce4e5b9);
    z = (z ^ z >> 27) * UINT64_C(0x94d049bb133111eb);
    return z ^ z >> 31;
}

/* A number below n, for n of 1 to 2^32. */
static inline uint32_t below(uint64_t n) { return (uint32_t)((chance() >> 32) * n >> 32); }

/* A number from least to most. */
static inline uint32_t from_to(uint32_t least, uint32_t most) { return least + below((uint64_t)most - least + 1); }

static inline int one_in(uint32_t n) { return below(n) == 0; }

/* One of the numbers named. */
#define one_of(...) ((const uint64_t[]){__VA_ARGS__}[below(sizeof((const uint64_t[]){__VA_ARGS__}) / sizeof(uint64_t))])

#endif
