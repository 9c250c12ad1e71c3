/* Samples into and out of the decoder's own pictures. */
#ifndef RFC_IMAGE_H
#define RFC_IMAGE_H

#include "vpx_image.h"

#include "picture.h"

void image_put(const vpx_image_t *img, const Picture *p);
void image_take(const vpx_image_t *img, Place at, uint8_t *samples);

#endif
