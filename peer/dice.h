/* Random numbers from a seed: the same seed gives the same numbers on every machine. */
#ifndef PEER_DICE_H
#define PEER_DICE_H

#include "libc.h"

struct dice {
    uint64_t state;
};

/* The next 64 random bits (splitmix64). */
static inline uint64_t roll(struct dice *dice)
{
    uint64_t z = dice->state += 0x9e3779b97f4a7c15u;
    z = (z ^ z >> 30) * 0xbf58476d1ce4e5b9u;
    z = (z ^ z >> 27) * 0x94d049bb133111ebu;
    return z ^ z >> 31;
}

/* A number below n; n is not 0. */
static inline uint32_t below(struct dice *dice, uint32_t n)
{
    return (uint32_t)((roll(dice) >> 32) * n >> 32);
}

/* A number from least to most. */
static inline uint32_t between(struct dice *dice, uint32_t least, uint32_t most)
{
    return least + below(dice, most - least + 1);
}

/* True this many times in a hundred. */
static inline bool chance(struct dice *dice, unsigned percent)
{
    return below(dice, 100) < percent;
}

#endif
