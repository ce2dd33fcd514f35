/* Numbers at random, the same ones for the same seed. */
#ifndef CHANCE_H
#define CHANCE_H

#include <stdint.h>

struct chance {
    uint64_t state; /* the seed to begin with */
};

/* A number below the limit, which is above 0. */
uint64_t below(struct chance *chance, uint64_t limit);

/* Happens once in so many times. */
int one_in(struct chance *chance, uint64_t times);

#endif
