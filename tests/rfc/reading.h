/* A plain reading of the project's definition of prediction (crates/rfc6386/specs: Vector, Filter, Picture, Macroblock), by the sample. */
#ifndef RFC_READING_H
#define RFC_READING_H

#include <stdbool.h>

#include "picture.h"

typedef struct {
    bool sixtap;
    bool lower_luma, lower_chroma;
    /* Not the definition's, but 20.14's: a split macroblock's chroma averages the vectors as they are stored, wrapped at sixteen bits. */
    bool average_stored;
} Rule;

/* Whole prediction takes the first vector alone. */
void read_luma(const Picture *p, Place at, bool split, const Vector *vectors, Rule rule, uint8_t *y);
void read_chroma(const Picture *p, Place at, bool split, const Vector *vectors, Rule rule, uint8_t *u_and_v);

#endif
