/*
 * wrong.c: mending got wrong, in the ways of which the driver must catch each.
 * Linked to the host in the library's place, with MISTAKE from 1 to 7.
 */
#include <stdint.h>
#include <string.h>

#include "threshowl.h"

enum {
    SUM_WRAPS = 1,
    EMPTY_FRAME_ENDS,
    ONE_BYTE_MAY_LACK,
    SEVEN_BEFORE_FIFTEEN,
    COUNT_OF_EIGHT_BYTES,
    REST_WRITTEN,
    ONE_BYTE_TOO_FAR
};

static uint32_t number(const uint8_t *bytes) {
    return bytes[0] | (uint32_t)bytes[1] << 8 | (uint32_t)bytes[2] << 16 | (uint32_t)bytes[3] << 24;
}

/* Where the frame at byte `at` ends, or 0. */
static size_t end_of(const uint8_t *file, size_t len, size_t at) {
    if (len - at < 12) {
        return 0;
    }
    uint32_t size = number(file + at);
    size_t end = at + 12 + (size_t)size;
    if (MISTAKE == SUM_WRAPS) {
        end = (uint32_t)end;
        return end <= len && end > at ? end : 0;
    }
    if (MISTAKE == EMPTY_FRAME_ENDS && size == 0) {
        return 0;
    }
    if (MISTAKE == ONE_BYTE_MAY_LACK && end == len + 1) {
        return len;
    }
    return end <= len ? end : 0;
}

uint32_t threshowl_ivf_mend(const uint8_t *file, size_t file_len, uint8_t *out, size_t out_len, uint64_t *old_count,
                            uint64_t *new_count, uint64_t *dropped) {
    size_t at = 32;
    uint64_t count = 0;
    *old_count = *new_count = *dropped = 0;
    if (MISTAKE == SEVEN_BEFORE_FIFTEEN && out_len < 32) {
        return 7;
    }
    if (file_len < 32 || memcmp(file, "DKIF", 4) != 0 || file[6] != 32 || file[7] != 0) {
        return 15;
    }
    for (size_t end = end_of(file, file_len, at); end != 0; end = end_of(file, file_len, at)) {
        at = end;
        count++;
    }
    if (out_len < at) {
        return 7;
    }
    memcpy(out, file, MISTAKE == REST_WRITTEN && out_len >= file_len ? file_len : at);
    for (int i = 0; i < (MISTAKE == COUNT_OF_EIGHT_BYTES ? 8 : 4); i++) {
        out[24 + i] = (uint8_t)(count >> 8 * i);
    }
    *old_count = number(file + 24);
    *new_count = count;
    *dropped = file_len - at;
    if (MISTAKE == ONE_BYTE_TOO_FAR) {
        *dropped += 0 * ((const volatile uint8_t *)file)[file_len];
    }
    return 0;
}
