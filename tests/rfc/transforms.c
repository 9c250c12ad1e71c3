/*
 * The inverse transforms that RFC 6386 prints beside the project's: those of
 * sections 14.3 and 14.4, those of the reference decoder (20.8), a plain reading
 * at full width, and finished macroblocks of the library.
 *
 *   transforms [SEED]
 *
 * What is printed stores sixteen bits between the passes.  Exit status: 0 where
 * it differs from the reading exactly where a number of the first pass leaves
 * sixteen bits, and the library's macroblocks differ from the reference decoder's
 * only where one of Y2 does; 1 otherwise.
 */
#include <inttypes.h>
#include <stdio.h>
#include <stdlib.h>
#include <string.h>

#include "../draw.h"
#include "printed.h"
#include "threshowl.h"

enum { Y2_LIMIT = 16383, LIMIT = 4095, ROUNDS = 2000000, MACROBLOCKS = 300000 };

static int failures = 0;

static void expect(int holds, const char *what)
{
    if (!holds) {
        fprintf(stderr, "NOT AS IT SHOULD BE: %s\n", what);
        failures++;
    }
}

/* ---- the plain reading: whole numbers, which int holds */

static int floored(int n, int by)
{
    return n >= 0 ? n / by : -((-n + by - 1) / by);
}

static int by_sine(int n) { return floored(n * 35468, 65536); }
static int by_cosine(int n) { return n + floored(n * 20091, 65536); }

typedef void Kernel(const int *in, int *out);

static void wht(const int *in, int *out)
{
    out[0] = in[0] + in[3] + in[1] + in[2];
    out[1] = in[1] - in[2] + in[0] - in[3];
    out[2] = in[0] + in[3] - in[1] - in[2];
    out[3] = in[0] - in[3] - in[1] + in[2];
}

static void dct(const int *in, int *out)
{
    const int even = by_cosine(in[1]) + by_sine(in[3]);
    const int odd = by_sine(in[1]) - by_cosine(in[3]);
    out[0] = in[0] + in[2] + even;
    out[1] = in[0] - in[2] + odd;
    out[2] = in[0] - in[2] - odd;
    out[3] = in[0] + in[2] - even;
}

/* Both passes; returns whether a number of the first leaves sixteen bits. */
static int transform(Kernel *kernel, int rounding, const short *in, int *out)
{
    int i, j, leaves = 0, first[16], four[4], made[4];
    for (j = 0; j < 4; j++) {
        for (i = 0; i < 4; i++)
            four[i] = in[4 * i + j];
        kernel(four, made);
        for (i = 0; i < 4; i++) {
            first[4 * i + j] = made[i];
            leaves |= made[i] < -32768 || made[i] > 32767;
        }
    }
    for (i = 0; i < 4; i++) {
        kernel(first + 4 * i, made);
        for (j = 0; j < 4; j++)
            out[4 * i + j] = floored(made[j] + rounding, 8);
    }
    return leaves;
}

static int same(const int *due, const short *got)
{
    int i;
    for (i = 0; i < 16; i++)
        if (due[i] != got[i])
            return 0;
    return 1;
}

/* ---- blocks */

enum { ALL_VALUES, SPARSE, EXTREMES, SMALL, KINDS };

static short number(int kind, int limit)
{
    switch (kind) {
    case ALL_VALUES: return between(-limit, limit);
    case SPARSE: return below(6) ? 0 : between(-limit, limit);
    case EXTREMES: return (short)(below(3) == 0 ? 0 : below(2) ? limit : -limit);
    default: return between(-limit / 8, limit / 8);
    }
}

static void block(int kind, int limit, short *numbers)
{
    int i;
    for (i = 0; i < 16; i++)
        numbers[i] = number(kind, limit);
}

typedef struct {
    const char *name;
    uint64_t blocks, leaving, differ, otherwise;
} Tally;

static void count(Tally *t, int leaves, int differs)
{
    t->blocks++;
    t->leaving += (uint64_t)leaves;
    t->differ += (uint64_t)differs;
    t->otherwise += (uint64_t)(leaves != differs);
}

static void print(const Tally *t)
{
    printf("  %-44s %10" PRIu64 " %10" PRIu64 " %10" PRIu64 "\n", t->name, t->blocks, t->leaving, t->differ);
}

/* On a prediction of 128 the reference decoder shows a number of its transform where that lies in
   -128..127; the others are compared as they are clamped. */
static int shown(const int *due, const unsigned char *got)
{
    int i;
    for (i = 0; i < 16; i++) {
        const int n = 128 + due[i];
        if (got[i] != (n < 0 ? 0 : n > 255 ? 255 : n))
            return 0;
    }
    return 1;
}

static void wht_blocks(void)
{
    Tally text = {"WHT, 14.3", 0, 0, 0, 0}, decoder = {"WHT, 20.8", 0, 0, 0, 0};
    int round, due[16];
    short in[16], out[16];
    for (round = 0; round < ROUNDS; round++) {
        int leaves;
        block(round % KINDS, Y2_LIMIT, in);
        leaves = transform(wht, 3, in, due);
        vp8_short_inv_walsh4x4_c(in, out);
        count(&text, leaves, !same(due, out));
        vp8_dixie_walsh(in, out);
        count(&decoder, leaves, !same(due, out));
    }
    print(&text);
    print(&decoder);
    expect(!text.otherwise && !decoder.otherwise, "the WHT differs exactly where its first pass leaves sixteen bits");
}

/* first: how large the first number of a block may be. */
static void dct_blocks(const char *text_name, const char *decoder_name, int first)
{
    Tally text = {text_name, 0, 0, 0, 0}, decoder = {decoder_name, 0, 0, 0, 0};
    unsigned char grey[16], recon[16];
    int round, due[16];
    short in[16], out[16];
    memset(grey, 128, sizeof grey);
    for (round = 0; round < ROUNDS; round++) {
        int leaves;
        block(round % KINDS, LIMIT, in);
        in[0] = number(round / KINDS % KINDS, first);
        leaves = transform(dct, 4, in, due);
        short_idct4x4llm_c(in, out, 8);
        count(&text, leaves, !same(due, out));
        vp8_dixie_idct_add(recon, grey, 4, in);
        count(&decoder, leaves, !shown(due, recon));
    }
    print(&text);
    print(&decoder);
    expect(!text.otherwise, "the DCT of 14.4 differs exactly where its first pass leaves sixteen bits");
    expect(decoder.differ <= decoder.leaving && (first > LIMIT || decoder.leaving == 0),
           "the DCT of 20.8 differs only there");
}

/* Every first number, all others 0. */
static void firsts_alone(void)
{
    int value, due[16], differ = 0;
    for (value = -32768; value <= 32767; value++) {
        short in[16] = {(short)value}, out[16];
        transform(wht, 3, in, due);
        vp8_short_inv_walsh4x4_c(in, out);
        differ += !same(due, out);
        vp8_short_inv_walsh4x4_1_c(in, out);
        differ += !same(due, out);
        transform(dct, 4, in, due);
        short_idct4x4llm_c(in, out, 8);
        differ += !same(due, out);
    }
    printf("First numbers alone, all 65536: %d differ\n", differ);
    expect(differ == 0, "a first number alone is transformed alike");
}

/* ---- macroblocks: the library, and what the reference decoder makes of the same coefficients */

static uint8_t plane_y[256], plane_u[64], plane_v[64];

#define PICTURE plane_y, sizeof plane_y, plane_u, sizeof plane_u, plane_v, sizeof plane_v, 16, 8, 8, 1, 1, 0, 0

static void decoded_plane(const uint8_t *plane, int blocks, const short *numbers, uint8_t *out)
{
    const int stride = 4 * blocks;
    int b;
    for (b = 0; b < blocks * blocks; b++) {
        const int at = b / blocks * 4 * stride + b % blocks * 4;
        vp8_dixie_idct_add(out + at, plane + at, stride, numbers + 16 * b);
    }
}

static void decoded(const short *y2, const short *numbers, uint8_t *out)
{
    short own[384], dc[16];
    int b;
    memcpy(own, numbers, sizeof own);
    if (y2 != NULL) {
        vp8_dixie_walsh(y2, dc);
        for (b = 0; b < 16; b++)
            own[16 * b] = dc[b];
    }
    decoded_plane(plane_y, 4, own, out);
    decoded_plane(plane_u, 2, own + 256, out + 256);
    decoded_plane(plane_v, 2, own + 320, out + 320);
}

static void draw_plane(uint8_t *plane, size_t len)
{
    size_t i;
    for (i = 0; i < len; i++)
        plane[i] = (uint8_t)below(256);
}

static void macroblocks(void)
{
    Tally whole = {"macroblocks, whole", 0, 0, 0, 0}, split = {"macroblocks, split", 0, 0, 0, 0};
    static const uint8_t vectors[THRESHOWL_VECTORS_LEN] = {0};
    uint8_t due[THRESHOWL_OUT_LEN], out[THRESHOWL_OUT_LEN];
    int16_t all[THRESHOWL_COEFFICIENTS];
    int round, b, unused[16];
    for (round = 0; round < MACROBLOCKS; round++) {
        int leaves;
        draw_plane(plane_y, sizeof plane_y);
        draw_plane(plane_u, sizeof plane_u);
        draw_plane(plane_v, sizeof plane_v);
        block(round % KINDS, Y2_LIMIT, all);
        for (b = 1; b < 25; b++)
            block(round / KINDS % KINDS, LIMIT, all + 16 * b);
        leaves = transform(wht, 3, all, unused);
        decoded(all, all + 16, due);
        expect(threshowl_reconstruct_whole(PICTURE, 0, 0, THRESHOWL_SIXTAP, 0, 0, all, THRESHOWL_COEFFICIENTS, out,
                                           sizeof out) == THRESHOWL_DONE, "a good call is done");
        count(&whole, leaves, memcmp(due, out, sizeof out) != 0);
        decoded(NULL, all + 16, due);
        expect(threshowl_reconstruct_split(PICTURE, vectors, sizeof vectors, THRESHOWL_SIXTAP, 0, 0, all + 16,
                                           THRESHOWL_SPLIT_COEFFICIENTS, out, sizeof out) == THRESHOWL_DONE,
               "a good call is done");
        count(&split, 0, memcmp(due, out, sizeof out) != 0);
    }
    print(&whole);
    print(&split);
    expect(whole.differ <= whole.leaving && split.differ == 0, "macroblocks differ only where Y2's first pass leaves sixteen bits");
}

/* The smallest Y2 that tells: by its sum, and then its count of numbers. */
static void smallest(void)
{
    int16_t all[THRESHOWL_COEFFICIENTS] = {0};
    uint8_t due[THRESHOWL_OUT_LEN], out[THRESHOWL_OUT_LEN];
    short dc[16];
    int full[16];
    memset(plane_y, 128, sizeof plane_y);
    all[0] = all[4] = Y2_LIMIT;
    all[8] = 2;
    transform(wht, 3, all, full);
    vp8_short_inv_walsh4x4_c(all, dc);
    decoded(all, all + 16, due);
    threshowl_reconstruct_whole(PICTURE, 0, 0, THRESHOWL_SIXTAP, 0, 0, all, THRESHOWL_COEFFICIENTS, out, sizeof out);
    printf("Y2 numbers 0 and 4 of 16383, number 8 of 2: first number %d, printed %d; Y(0,0) on 128: %u, decoded %u\n", full[0],
           dc[0], out[0], due[0]);
    all[8] = 1;
    expect(!transform(wht, 3, all, full), "with one less it stays inside sixteen bits");
}

int main(int argc, char **argv)
{
    seed(argc, argv, 6386);
    printf("%-46s %10s %10s %10s\n", "", "compared", "leaving", "differ");
    wht_blocks();
    dct_blocks("DCT, 14.4, firsts in -4095..4095", "DCT, 20.8, the same", LIMIT);
    dct_blocks("DCT, 14.4, firsts of sixteen bits", "DCT, 20.8, the same", 32767);
    firsts_alone();
    macroblocks();
    smallest();
    return failures ? EXIT_FAILURE : EXIT_SUCCESS;
}
