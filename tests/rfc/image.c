/* See image.h.  Compiled with the listings of the RFC. */
#include "image.h"

#include <string.h>

void image_put(const vpx_image_t *img, const Picture *p)
{
    for (size_t n = 0; n < 3; n++) {
        const Plane *from = &p->planes[n];
        for (size_t r = 0; r < from->height; r++)
            memcpy(img->planes[n] + (ptrdiff_t)r * img->stride[n], from->bytes + r * from->stride, from->width);
    }
}

void image_take(const vpx_image_t *img, Place at, uint8_t *samples)
{
    for (size_t n = 0; n < 3; n++) {
        size_t side = n == 0 ? 16 : 8;
        for (size_t r = 0; r < side; r++, samples += side)
            memcpy(samples, img->planes[n] + (ptrdiff_t)(at.row * side + r) * img->stride[n] + at.col * side, side);
    }
}
