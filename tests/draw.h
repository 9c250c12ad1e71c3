/*
 * Numbers drawn at random, for the drivers in C: a xorshift generator, which a
 * driver seeds once, by its first word if it is given one.
 */
#ifndef TESTS_DRAW_H
#define TESTS_DRAW_H

#include <stddef.h>
#include <stdint.h>
#include <stdlib.h>

static uint64_t state;

static inline void seed(int argc, char **argv, uint64_t otherwise)
{
    state = argc > 1 ? strtoull(argv[1], NULL, 10) : otherwise;
    if (state == 0)
        state = 1;
}

static inline uint32_t draw(void)
{
    state ^= state << 13;
    state ^= state >> 7;
    state ^= state << 17;
    return (uint32_t)(state >> 32);
}

static inline void fill(uint8_t *bytes, size_t len)
{
    for (size_t i = 0; i < len; i++)
        bytes[i] = (uint8_t)draw();
}

static inline size_t below(size_t n)
{
    return draw() % n;
}

static inline int16_t between(int least, int most)
{
    return (int16_t)(least + (int)below((size_t)(most - least) + 1));
}

#endif
