/* Words as the library has them, big-endian, for the examples. */
#ifndef WORDS_H
#define WORDS_H

#include <stdint.h>

static inline void put_words(uint8_t *at, const int32_t *values, int count)
{
    for (int i = 0; i < 4 * count; i++)
        at[i] = (uint8_t)((uint32_t)values[i / 4] >> (24 - 8 * (i % 4)));
}

static inline uint32_t get_word(const uint8_t *at)
{
    return (uint32_t)at[0] << 24 | (uint32_t)at[1] << 16 | (uint32_t)at[2] << 8 | at[3];
}

/* The sweeps of an image, its word 5: what an ask costs. */
static inline uint32_t get_sweeps(const uint8_t *image)
{
    return get_word(image + 4 * 5);
}

/* Command k, of an answer or of a commit. */
static inline int get_command(const uint8_t *from, int k)
{
    return (int32_t)get_word(from + 4 * k);
}

/* D: how many counts the commands are from the best sequence at most. It stands behind the commands and their bounds. */
static inline unsigned long long get_distance(const uint8_t *answer, int commands)
{
    const uint8_t *at = answer + 8 * commands;
    return (unsigned long long)get_word(at) << 32 | get_word(at + 4);
}

#endif
