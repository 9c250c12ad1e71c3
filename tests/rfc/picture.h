/*
 * What the sides of the comparison with RFC 6386 share: a picture, a place in
 * it, a vector as it is sent, and the samples of a predicted macroblock.
 */
#ifndef RFC_PICTURE_H
#define RFC_PICTURE_H

#include <stddef.h>
#include <stdint.h>

enum { MOST_MBS = 5, MOST_STRIDE = MOST_MBS * 16 + 24, MOST_BYTES = MOST_MBS * 16 * MOST_STRIDE };

/* height rows of width samples: the first bytes of every stride */
typedef struct {
    size_t stride, width, height, len;
    uint8_t bytes[MOST_BYTES];
} Plane;

/* Y, U and V of cols by rows macroblocks */
typedef struct {
    size_t cols, rows;
    Plane planes[3];
} Picture;

/* of a macroblock */
typedef struct {
    size_t col, row;
} Place;

/* in quarters of a luma pixel */
typedef struct {
    int16_t row, col;
} Vector;

/* 256 Y, 64 U, 64 V */
enum { Y_LEN = 256, SAMPLES_LEN = 384 };

#endif
