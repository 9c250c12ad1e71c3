/*
 * y4m.c: times threshowl_y4m_read_frame and threshowl_y4m_write_frame beside
 * memcpy of the frame's bytes, in one run.
 *
 * The three take turns: a frame is read from the file into planes, planes are
 * written to an output, and a frame of the file is copied to that output.  The
 * files lie in memory: one frame, which stays in the cache, or as many as make
 * 200 MB; then each of the three takes another frame, so that none finds in the
 * cache what another has just left there.  Ratios are of the best of the rounds,
 * and of their medians.  The goal is 1.5 at most for 1920 by 1080.
 */
#define _POSIX_C_SOURCE 200809L

#include <stdint.h>
#include <stdio.h>
#include <stdlib.h>
#include <string.h>
#include <time.h>

#include "threshowl.h"

enum { ROUNDS = 600 };

static double reading[ROUNDS], writing[ROUNDS], copying[ROUNDS];

static double seconds(void) {
    struct timespec t;
    (void)clock_gettime(CLOCK_MONOTONIC, &t);
    return (double)t.tv_sec + 1e-9 * (double)t.tv_nsec;
}

static int by_size(const void *a, const void *b) {
    const double *x = a, *y = b;
    return (*x > *y) - (*x < *y);
}

static void sort(double *times) {
    qsort(times, ROUNDS, sizeof *times, by_size);
}

/* A third of the file lies between the frames that the three take. */
static void time_rounds(const uint8_t *file, size_t w, size_t h, size_t frames, uint8_t *planes, uint8_t *out) {
    size_t len = THRESHOWL_Y4M_FRAME_LEN(w, h), padded = THRESHOWL_Y4M_PADDED_LEN(w, h);
    for (size_t i = 0; i < ROUNDS; i++) {
        size_t first = i % frames, second = (i + frames / 3) % frames, third = (i + 2 * frames / 3) % frames;
        uint64_t taken, written;
        double a = seconds();
        uint32_t read = threshowl_y4m_read_frame(file + first * len, len, w, h, planes + first * padded, padded, &taken);
        double b = seconds();
        uint32_t wrote = threshowl_y4m_write_frame(planes + second * padded, padded, w, h, out + second * len, len, &written);
        double c = seconds();
        memcpy(out + third * len, file + third * len, len);
        double d = seconds();
        /* What was copied counts as used. */
        __asm__ volatile("" : : "r"(out) : "memory");
        if (read != THRESHOWL_DONE || wrote != THRESHOWL_DONE || taken != len || written != len) {
            exit(1);
        }
        reading[i] = b - a;
        writing[i] = c - b;
        copying[i] = d - c;
    }
}

static void time_size(size_t w, size_t h, size_t bytes) {
    size_t len = THRESHOWL_Y4M_FRAME_LEN(w, h), padded = THRESHOWL_Y4M_PADDED_LEN(w, h);
    size_t frames = bytes / len == 0 ? 1 : bytes / len;
    uint8_t *file = malloc(frames * len), *out = malloc(frames * len), *planes = malloc(frames * padded);
    if (file == NULL || out == NULL || planes == NULL) {
        exit(2);
    }
    memset(file, 1, frames * len);
    memset(out, 2, frames * len);
    memset(planes, 3, frames * padded);
    for (size_t i = 0; i < frames; i++) {
        memcpy(file + i * len, "FRAME\n", 6);
    }
    time_rounds(file, w, h, frames, planes, out);
    sort(reading);
    sort(writing);
    sort(copying);
    size_t m = ROUNDS / 2;
    (void)printf("%5zu x %-5zu %7zu %11.1f %11.1f %11.1f %7.2f %7.2f %9.2f %7.2f\n", w, h, frames, 1e6 * reading[0], 1e6 * writing[0],
                 1e6 * copying[0], reading[0] / copying[0], writing[0] / copying[0], reading[m] / copying[m], writing[m] / copying[m]);
    (void)fflush(stdout);
    free(file);
    free(out);
    free(planes);
}

int main(void) {
    static const size_t sizes[][2] = {{1920, 1080}, {1919, 1079}, {3840, 2160}, {1280, 720}, {640, 480}, {176, 144}};
    (void)printf("%34s, us %26s %22s\n", "best of 600", "ratio of the best", "of the medians");
    (void)printf("%13s %7s %11s %11s %11s %7s %7s %9s %7s\n", "samples", "frames", "reading", "writing", "copying", "reading", "writing",
                 "reading", "writing");
    for (size_t i = 0; i < sizeof sizes / sizeof sizes[0]; i++) {
        time_size(sizes[i][0], sizes[i][1], 0);
        time_size(sizes[i][0], sizes[i][1], 200000000);
    }
    return 0;
}
