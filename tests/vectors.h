/*
 * Vectors as the bytes that the library takes, for the drivers in C: a component
 * is two bytes, the lower first.
 */
#ifndef TESTS_VECTORS_H
#define TESTS_VECTORS_H

#include <stdint.h>

static inline void put_component(uint8_t *to, int16_t z)
{
    to[0] = (uint8_t)((uint16_t)z & 255);
    to[1] = (uint8_t)((uint16_t)z >> 8);
}

#endif
