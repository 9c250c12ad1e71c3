/* The reference decoder of RFC 6386, section 20, made to predict one macroblock. */
#ifndef RFC_REFERENCE_H
#define RFC_REFERENCE_H

#include <stdbool.h>

#include "picture.h"

/* A key frame of this version and size has been decoded, and this is what it shows. All memory around it holds `around`. */
void reference_picture(const Picture *p, unsigned version, uint8_t around);

/*
 * The macroblock of the next frame, which has the version of the key frame. A
 * component is doubled and kept in sixteen bits, as the decoder does in reading
 * it. Gives whether 20.11 marks the macroblock as one that reaches past the
 * edge; with `mark` it is predicted as if marked in any case.
 */
bool reference_predict(Place at, bool split, const Vector *vectors, bool mark, uint8_t *samples);

#endif
