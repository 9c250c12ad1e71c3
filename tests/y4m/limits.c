/*
 * limits.c: frames of the largest sizes, read, looked at sample by sample, and
 * written back.  Wants about 1.3 GB of memory.
 */
#include <stdint.h>
#include <stdio.h>
#include <stdlib.h>
#include <string.h>

#include "threshowl.h"

static void need(int holds, const char *what) {
    if (!holds) {
        (void)fprintf(stderr, "limits: %s\n", what);
        exit(1);
    }
}

static size_t nearest(size_t i, size_t n) {
    return i < n ? i : n - 1;
}

/* Each sample of a padded plane is the nearest of the plane in the file. */
static void look(const uint8_t *file, size_t w, size_t h, const uint8_t *out, size_t pw, size_t ph) {
    for (size_t r = 0; r < ph; r++) {
        const uint8_t *row = file + nearest(r, h) * w;
        need(memcmp(out + r * pw, row, w) == 0, "a sample differs");
        for (size_t c = w; c < pw; c++) {
            need(out[r * pw + c] == row[w - 1], "a sample of the padding differs");
        }
    }
}

static void try_size(size_t w, size_t h) {
    size_t cw = THRESHOWL_Y4M_HALF(w), ch = THRESHOWL_Y4M_HALF(h);
    size_t pw = THRESHOWL_Y4M_PADDED(w), ph = THRESHOWL_Y4M_PADDED(h);
    size_t len = THRESHOWL_Y4M_FRAME_LEN(w, h), padded = THRESHOWL_Y4M_PADDED_LEN(w, h);
    uint8_t *file = malloc(len), *out = malloc(padded), *back = malloc(len);
    uint64_t told;
    uint64_t state = 88172645463325252u;
    need(file != NULL && out != NULL && back != NULL, "no memory");
    for (size_t i = 0; i < len; i++) {
        state ^= state << 13;
        state ^= state >> 7;
        state ^= state << 17;
        file[i] = (uint8_t)state;
    }
    memcpy(file, "FRAME\n", 6);
    need(threshowl_y4m_read_frame(file, len - 1, w, h, out, padded, &told) == THRESHOWL_SHORT_FRAME && told == 0, "14 is due");
    need(threshowl_y4m_read_frame(file, len, w, h, out, padded - 1, &told) == THRESHOWL_BAD_OUT && told == 0, "7 is due");
    need(threshowl_y4m_read_frame(file, len, w, h, out, padded, &told) == THRESHOWL_DONE && told == len, "0 is due");
    look(file + 6, w, h, out, pw, ph);
    look(file + 6 + w * h, cw, ch, out + pw * ph, pw / 2, ph / 2);
    look(file + 6 + w * h + cw * ch, cw, ch, out + pw * ph + pw / 2 * (ph / 2), pw / 2, ph / 2);
    need(threshowl_y4m_write_frame(out, padded - 1, w, h, back, len, &told) == THRESHOWL_SHORT_FRAME && told == 0, "14 is due");
    need(threshowl_y4m_write_frame(out, padded, w, h, back, len - 1, &told) == THRESHOWL_BAD_OUT && told == 0, "7 is due");
    need(threshowl_y4m_write_frame(out, padded, w, h, back, len, &told) == THRESHOWL_DONE && told == len, "0 is due");
    need(memcmp(file, back, len) == 0, "a byte differs when it is written");
    (void)printf("  %zu by %zu: %zu bytes read, %zu samples looked at, written back\n", w, h, len, padded);
    free(file);
    free(out);
    free(back);
}

int main(void) {
    try_size(16384, 16384);
    try_size(16383, 16383);
    try_size(16369, 16370);
    try_size(1, 16384);
    try_size(16384, 1);
    try_size(1920, 1080);
    return 0;
}
