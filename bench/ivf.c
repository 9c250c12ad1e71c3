/*
 * ivf.c: times threshowl_ivf_mend beside memcpy of the same bytes, in one run.
 *
 * Both read the same file and write the same output, by turns; the best of the
 * rounds counts.  The files lie in memory, with frames of half to one and a half
 * times the size named, and a last frame that is cut.  The goal is a ratio of
 * 1.3 at most.
 */
#define _POSIX_C_SOURCE 200809L

#include <stdint.h>
#include <stdio.h>
#include <stdlib.h>
#include <string.h>
#include <time.h>

#include "threshowl.h"

#define MOST ((size_t)500000000)

static uint64_t state = 88172645463325252u;

static uint64_t drawn(uint64_t below) {
    state ^= state << 13;
    state ^= state >> 7;
    state ^= state << 17;
    return state % below;
}

static double seconds(void) {
    struct timespec t;
    (void)clock_gettime(CLOCK_MONOTONIC, &t);
    return (double)t.tv_sec + 1e-9 * (double)t.tv_nsec;
}

static void put4(uint8_t *to, uint32_t n) {
    for (int i = 0; i < 4; i++) {
        to[i] = (uint8_t)(n >> 8 * i);
    }
}

/* A recording of len bytes; the frames that fit, then one that says too much. */
static void record(uint8_t *file, size_t len, uint32_t size) {
    size_t at = 32;
    memset(file, 0, 32);
    memcpy(file, "DKIF", 4);
    file[6] = 32;
    for (;;) {
        uint32_t n = size == 0 ? 0 : size / 2 + (uint32_t)drawn(size);
        if (len - at < 12 || len - at - 12 < n) {
            break;
        }
        put4(file + at, n);
        at += 12 + (size_t)n;
    }
    if (len - at >= 4) {
        put4(file + at, UINT32_MAX);
    }
}

static void time_both(const uint8_t *file, uint8_t *out, size_t len, uint32_t size) {
    double mending = 1e9, copying = 1e9;
    uint64_t old_count, new_count = 0, dropped;
    int rounds = len > 50000000 ? 12 : len > 1000000 ? 40 : 1000;
    for (int i = 0; i < rounds; i++) {
        double a = seconds();
        uint32_t number = threshowl_ivf_mend(file, len, out, len, &old_count, &new_count, &dropped);
        double b = seconds();
        memcpy(out, file, len);
        double c = seconds();
        /* What was copied counts as used. */
        __asm__ volatile("" : : "r"(out) : "memory");
        if (number != 0) {
            exit(1);
        }
        mending = b - a < mending ? b - a : mending;
        copying = c - b < copying ? c - b : copying;
    }
    printf("%10zu %10u %10llu %12.1f %12.1f %8.2f\n", len, size, (unsigned long long)new_count, 1e6 * mending, 1e6 * copying,
           mending / copying);
    (void)fflush(stdout);
}

int main(void) {
    static const size_t lens[] = {100000, 2000000, 20000000, MOST};
    static const uint32_t sizes[] = {50000, 5000, 1000, 300, 100, 0};
    uint8_t *file = malloc(MOST);
    uint8_t *out = malloc(MOST);
    if (file == NULL || out == NULL) {
        return 2;
    }
    memset(file, 1, MOST);
    memset(out, 2, MOST);
    printf("%10s %10s %10s %12s %12s %8s\n", "bytes", "data", "frames", "mending, us", "copying, us", "ratio");
    for (size_t i = 0; i < sizeof lens / sizeof lens[0]; i++) {
        for (size_t j = 0; j < sizeof sizes / sizeof sizes[0]; j++) {
            record(file, lens[i], sizes[j]);
            time_both(file, out, lens[i], sizes[j]);
        }
    }
    free(file);
    free(out);
    return 0;
}
