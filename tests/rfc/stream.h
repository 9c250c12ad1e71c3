/* Frames written as bytes, and decoded by the whole reference decoder of RFC 6386. */
#ifndef RFC_STREAM_H
#define RFC_STREAM_H

#include <stdbool.h>

#include "picture.h"

/* A key frame of this version and size is decoded, all grey; then this picture is put in its place. */
void stream_picture(const Picture *p, unsigned version);

/* The most that a component can be in a frame where no neighbour has a vector. */
enum { MOST_SENT = 1023 };

/*
 * An interframe is decoded, in which this macroblock alone is predicted from
 * the picture, with no residue; the picture stays the last frame.  Components
 * are in -MOST_SENT..MOST_SENT.  Gives whether the decoder took the frame, and
 * the macroblock that it then shows.
 */
bool stream_predict(unsigned version, Place at, bool split, const Vector *vectors, uint8_t *samples);

#endif
