/*
 * wrong.c: the three calls got wrong, in the ways of which the driver must catch
 * each.  Linked to the host in the library's place, with MISTAKE from 1 to 14.
 */
#include <stdbool.h>
#include <stdint.h>
#include <string.h>

#include "threshowl.h"

enum {
    HALVES_DOWN = 1,
    FOURTEEN_AFTER_SEVEN,
    PADDED_WITH_ZEROS,
    TWO_SPACES_TAKEN,
    HEADER_OF_257_TAKEN,
    THIRTEEN_AT_END,
    END_BEFORE_SIZES,
    SECOND_WIDTH_TAKEN,
    SIX_DIGITS_TAKEN,
    NAME_IN_SMALL_TAKEN,
    MARK_ALONE_REFUSED,
    REST_WRITTEN,
    TAKEN_NOT_SET,
    ONE_BYTE_TOO_FAR
};

typedef struct {
    uint64_t width, height, colours;
    bool good;
} Told;

static uint64_t size_of(const uint8_t *word, size_t len) {
    uint64_t worth = 0;
    if (len > (MISTAKE == SIX_DIGITS_TAKEN ? 6 : 5)) {
        return 0;
    }
    for (size_t i = 0; i < len; i++) {
        if (word[i] < '0' || word[i] > '9') {
            return 0;
        }
        worth = 10 * worth + (uint64_t)(word[i] - '0');
    }
    return worth <= 16384 ? worth : 0;
}

static void tell(Told *told, const uint8_t *word, size_t len) {
    if (len == 0) {
        told->good = told->good && MISTAKE == TWO_SPACES_TAKEN;
        return;
    }
    uint64_t *size = word[0] == 'W' ? &told->width : word[0] == 'H' ? &told->height : NULL;
    if (MISTAKE == NAME_IN_SMALL_TAKEN && word[0] == 'w') {
        size = &told->width;
    }
    if (size != NULL) {
        if ((*size != 0 && MISTAKE != SECOND_WIDTH_TAKEN) || size_of(word + 1, len - 1) == 0) {
            told->good = false;
        }
        *size = size_of(word + 1, len - 1);
    }
    if (word[0] == 'C' && (told->colours++ > 0 || len != 8 || memcmp(word, "C420jpeg", 8) != 0)) {
        told->good = false;
    }
}

uint32_t threshowl_y4m_header(const uint8_t *file, size_t file_len, uint64_t *width, uint64_t *height, uint64_t *taken) {
    size_t limit = MISTAKE == HEADER_OF_257_TAKEN ? 257 : 256;
    size_t most = file_len < limit ? file_len : limit;
    const uint8_t *newline = memchr(file, '\n', most);
    Told told = {0, 0, 0, true};
    *width = *height = *taken = 0;
    if (newline == NULL) {
        return 12;
    }
    size_t len = (size_t)(newline - file);
    if (len < 9 || memcmp(file, "YUV4MPEG2", 9) != 0 || (len > 9 && file[9] != ' ')) {
        return 12;
    }
    for (size_t at = 9; at < len;) {
        size_t end = at + 1;
        while (end < len && file[end] != ' ') {
            end++;
        }
        tell(&told, file + at + 1, end - at - 1);
        at = end;
    }
    if (!told.good || told.width == 0 || told.height == 0) {
        return 12;
    }
    *width = told.width;
    *height = told.height;
    *taken = len + 1;
    return 0;
}

static size_t half(size_t n) {
    return MISTAKE == HALVES_DOWN && n > 1 ? n / 2 : (n + 1) / 2;
}

static size_t frame_len(size_t w, size_t h) {
    return 6 + w * h + 2 * half(w) * half(h);
}

static bool sized(size_t w, size_t h) {
    return w >= 1 && w <= 16384 && h >= 1 && h <= 16384;
}

/* One plane: from rows of w to rows of pw, or back. Gives the samples read and written. */
static void pad(const uint8_t **from, size_t w, size_t h, uint8_t **to, size_t pw, size_t ph) {
    for (size_t r = 0; r < ph; r++) {
        for (size_t c = 0; c < pw; c++) {
            size_t row = r < h ? r : h - 1;
            (*to)[r * pw + c] = c < w ? (*from)[row * w + c] : MISTAKE == PADDED_WITH_ZEROS ? 0 : (*from)[row * w + w - 1];
        }
    }
    *from += w * h;
    *to += pw * ph;
}

static void crop(const uint8_t **from, size_t pw, size_t ph, uint8_t **to, size_t w, size_t h) {
    for (size_t r = 0; r < h; r++) {
        memcpy(*to + r * w, *from + r * pw, w);
    }
    *from += pw * ph;
    *to += w * h;
}

uint32_t threshowl_y4m_read_frame(const uint8_t *file, size_t file_len, size_t width, size_t height, uint8_t *out,
                                  size_t out_len, uint64_t *taken) {
    if (MISTAKE != TAKEN_NOT_SET) {
        *taken = 0;
    }
    if (MISTAKE == END_BEFORE_SIZES && file_len == 0) {
        return 0;
    }
    if (!sized(width, height)) {
        return 1;
    }
    if (file_len == 0) {
        return MISTAKE == THIRTEEN_AT_END ? 13 : 0;
    }
    if (file_len < 6 || memcmp(file, "FRAME\n", 6) != 0 || (MISTAKE == MARK_ALONE_REFUSED && file_len == 6)) {
        return 13;
    }
    size_t padded = THRESHOWL_Y4M_PADDED_LEN(width, height);
    size_t pw = THRESHOWL_Y4M_PADDED(width), ph = THRESHOWL_Y4M_PADDED(height);
    if (MISTAKE == FOURTEEN_AFTER_SEVEN && out_len < padded) {
        return 7;
    }
    if (file_len < frame_len(width, height)) {
        return 14;
    }
    if (out_len < padded) {
        return 7;
    }
    const uint8_t *from = file + 6;
    uint8_t *to = out;
    pad(&from, width, height, &to, pw, ph);
    pad(&from, half(width), half(height), &to, pw / 2, ph / 2);
    pad(&from, half(width), half(height), &to, pw / 2, ph / 2);
    if (MISTAKE == REST_WRITTEN) {
        memset(to, 0, out_len - padded);
    }
    *taken = frame_len(width, height);
    if (MISTAKE == ONE_BYTE_TOO_FAR) {
        *taken += 0 * ((const volatile uint8_t *)file)[file_len];
    }
    return 0;
}

uint32_t threshowl_y4m_write_frame(const uint8_t *frame, size_t frame_len_, size_t width, size_t height, uint8_t *out,
                                   size_t out_len, uint64_t *written) {
    *written = 0;
    if (!sized(width, height)) {
        return 1;
    }
    if (frame_len_ < THRESHOWL_Y4M_PADDED_LEN(width, height)) {
        return 14;
    }
    if (out_len < frame_len(width, height)) {
        return 7;
    }
    size_t pw = THRESHOWL_Y4M_PADDED(width), ph = THRESHOWL_Y4M_PADDED(height);
    const uint8_t *from = frame;
    uint8_t *to = out + 6;
    memcpy(out, "FRAME\n", 6);
    crop(&from, pw, ph, &to, width, height);
    crop(&from, pw / 2, ph / 2, &to, half(width), half(height));
    crop(&from, pw / 2, ph / 2, &to, half(width), half(height));
    *written = frame_len(width, height);
    return 0;
}
