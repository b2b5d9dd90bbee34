/* Numbers that look random and are the same at each run. */
#ifndef RANDOM_H
#define RANDOM_H

#include <stddef.h>
#include <stdint.h>

/* A number under the limit, by xorshift; the state isn't 0. */
static inline unsigned random_under(uint64_t *state, unsigned limit)
{
    *state ^= *state << 13;
    *state ^= *state >> 7;
    *state ^= *state << 17;
    return (unsigned)((*state >> 32) * limit >> 32);
}

static inline void random_bytes(uint64_t seed, uint8_t *bytes, size_t n)
{
    for (size_t i = 0; i < n; i++)
        bytes[i] = (uint8_t)random_under(&seed, 256);
}

#endif
