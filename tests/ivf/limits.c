/*
 * limits.c: threshowl_ivf_mend at the sizes where it starts to refuse.
 *
 * The files are mapped sparsely: untouched pages are zeros and take no memory,
 * and zeros are frames of size 0.  What a call should leave is worked out from
 * the few bytes that are set, and every byte of the output is looked at.  Takes
 * up to 2 GB of memory for the output.
 *
 * Exit status: 0 all as it should be, 1 something is not, 2 no memory.
 */
#define _GNU_SOURCE

#include <inttypes.h>
#include <stdint.h>
#include <stdio.h>
#include <stdlib.h>
#include <string.h>
#include <sys/mman.h>

#include "threshowl.h"

#define LIMIT ((size_t)2147483647)
#define FAR ((size_t)1 << 40)

static uint8_t *sparse(size_t len) {
    uint8_t *map = mmap(NULL, len, PROT_READ | PROT_WRITE, MAP_PRIVATE | MAP_ANONYMOUS | MAP_NORESERVE, -1, 0);
    if (map == MAP_FAILED) {
        perror("limits");
        exit(2);
    }
    return map;
}

static void put4(uint8_t *to, uint32_t n) {
    for (int i = 0; i < 4; i++) {
        to[i] = (uint8_t)(n >> 8 * i);
    }
}

/* A case: a file of zeros under a good header, whose first frame says a size. */
typedef struct {
    const char *name;
    size_t len, room;
    uint32_t size;
    uint32_t number;
    uint64_t count;
    size_t kept;
} Case;

static int is_zero(const uint8_t *bytes, size_t len) {
    static const uint8_t zeros[1 << 16];
    for (size_t at = 0; at < len; at += sizeof zeros) {
        if (memcmp(bytes + at, zeros, len - at < sizeof zeros ? len - at : sizeof zeros) != 0) {
            return 0;
        }
    }
    return 1;
}

static int try_case(const Case *c) {
    static const uint8_t start[32] = {'D', 'K', 'I', 'F', 0, 0, 32, 0, [24] = 9, [28] = 1, 2, 3, 4};
    uint8_t *file = sparse(c->len);
    uint8_t *out = sparse(c->room);
    uint64_t old_count = 1, new_count = 1, dropped = 1;
    memcpy(file, start, sizeof start);
    put4(file + 32, c->size);
    uint32_t number = threshowl_ivf_mend(file, c->len, out, c->room, &old_count, &new_count, &dropped);
    int done = c->number == 0;
    int right = number == c->number && old_count == (done ? 9 : 0) && new_count == (done ? c->count : 0) &&
                dropped == (done ? c->len - c->kept : 0);
    if (done) {
        /* Those bytes of the mended file that are not zeros are compared, and cleared. */
        uint8_t due[36];
        memcpy(due, start, sizeof start);
        put4(due + 24, (uint32_t)c->count);
        put4(due + 32, c->size);
        size_t shown = c->kept < sizeof due ? c->kept : sizeof due;
        right = right && memcmp(out, due, shown) == 0;
        memset(out, 0, shown);
    }
    right = right && is_zero(out, c->room);
    printf("  %-52s %s: number %" PRIu32 ", frames %" PRIu64 ", dropped %" PRIu64 "\n", c->name, right ? "as due" : "WRONG",
           number, new_count, dropped);
    fflush(stdout);
    munmap(file, c->len);
    munmap(out, c->room);
    return right;
}

int main(void) {
    const uint32_t all = (uint32_t)(LIMIT - 44);
    const Case cases[] = {
        {"the limit, in one frame", LIMIT, LIMIT, all, 0, 1, LIMIT},
        {"the limit, in one frame; just a byte too little room", LIMIT, LIMIT - 1, all, 7, 0, 0},
        {"the limit; its frame lacks one byte", LIMIT, LIMIT, all + 1, 0, 0, 32},
        {"the limit; its frame says 2^32 - 1 bytes", LIMIT, LIMIT, UINT32_MAX, 0, 0, 32},
        {"the limit; its frame says 2^32 - 12 bytes", LIMIT, 4096, UINT32_MAX - 11, 0, 0, 32},
        {"the limit, in frames of size 0", LIMIT, LIMIT, 0, 0, (LIMIT - 32) / 12, LIMIT - (LIMIT - 32) % 12},
        {"the limit, in frames of size 0; no room", LIMIT, 32, 0, 7, 0, 0},
        {"one byte more", LIMIT + 1, LIMIT + 1, all, 15, 0, 0},
        {"one byte more, and no room either", LIMIT + 1, 1, all, 15, 0, 0},
        {"2^32 + 32 bytes", ((size_t)1 << 32) + 32, 4096, 0, 15, 0, 0},
        {"2^40 bytes", FAR, 4096, 0, 15, 0, 0},
    };
    int right = 1;
    for (size_t i = 0; i < sizeof cases / sizeof cases[0]; i++) {
        right = try_case(&cases[i]) && right;
    }
    return right ? 0 : 1;
}
