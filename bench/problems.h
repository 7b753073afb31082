/* What the benchmarks share: the problems, the library's solve of one, and the clock. */
#ifndef PROBLEMS_H
#define PROBLEMS_H

#include "gantry.h"

enum { PROBLEMS = 4, ANSWER = GANTRY_ANSWER_BYTES(GANTRY_MAX_COMMANDS) };

struct problem {
    const char *name;
    int calls; /* in a round of measuring */
    int n, nx, nr, b, sweeps;
    uint8_t image[GANTRY_MAX_IMAGE_BYTES];
    uint8_t state[GANTRY_STATE_BYTES(GANTRY_MAX_STATES)];
    uint8_t target[GANTRY_TARGET_BYTES(GANTRY_MAX_TARGETS)];
    uint8_t start[GANTRY_START_BYTES(GANTRY_MAX_COMMANDS)];
    size_t image_len;
};

static inline void put(uint8_t *at, int64_t value)
{
    uint32_t bits = (uint32_t)value;
    for (int i = 0; i < 4; i++)
        at[i] = (uint8_t)(bits >> (24 - 8 * i));
}

static inline int64_t get(const uint8_t *at)
{
    return (int32_t)((uint32_t)at[0] << 24 | (uint32_t)at[1] << 16 | (uint32_t)at[2] << 8 | at[3]);
}

static inline int64_t word(const struct problem *p, int index) { return get(p->image + 4 * index); }

/* The last one is the slowest known. */
void make_problems(struct problem *all);

/* The slowest known for ranges wider than one value. */
void make_slowest_ranges(struct problem *p);

uint32_t library(const struct problem *p, uint8_t *answer);

/* Seconds, of a clock that runs steadily. */
double now(void);

#endif
