/*
 * Prediction by version, run: every version number, whole and split, in both
 * modes, on good input, with each other fault alone, and with every other fault
 * at once.
 *
 *   versions [SEED]
 *
 * Versions 0 to 3 must answer what the call with their table and flag answers;
 * where `standard` is not 0, Y is that of the call with the flag off.  All others
 * must be refused with 10, whatever else is at fault.  A refused call must keep
 * every byte of its output.  Exit status: 0 as it should be, 1 not.
 */
#include <inttypes.h>
#include <stdbool.h>
#include <stdio.h>
#include <string.h>

#include "../draw.h"
#include "threshowl.h"

enum { COLS = 3, ROWS = 2, Y_STRIDE = COLS * 16 + 5, U_STRIDE = COLS * 8 + 3, V_STRIDE = COLS * 8 };
enum { Y_LEN = Y_STRIDE * ROWS * 16, U_LEN = U_STRIDE * ROWS * 8, V_LEN = V_STRIDE * ROWS * 8 };
enum { VERSIONS = 256, KEPT = 0x5A, OUT = THRESHOWL_OUT_LEN };

/* What a call is given besides its planes' bytes. */
typedef struct {
    size_t y_len, u_len, v_len, y_stride, u_stride, v_stride, cols, rows, col, row;
    uint8_t vectors[THRESHOWL_VECTORS_LEN];
    size_t vectors_len, out_len;
} Call;

typedef struct {
    uint32_t number;
    uint8_t out[OUT];
} Answer;

static uint8_t y[Y_LEN], u[U_LEN], v[V_LEN];

/* ---- calls */

/* A component of at most 16 luma pixels, or any. */
static void draw_component(uint8_t *to)
{
    uint32_t drawn = draw();
    int16_t z = (int16_t)(draw() & 1 ? drawn : (drawn & 127) - 64);
    to[0] = (uint8_t)((uint16_t)z & 255);
    to[1] = (uint8_t)((uint16_t)z >> 8);
}

static Call draw_call(void)
{
    Call c = {Y_LEN, U_LEN, V_LEN, Y_STRIDE, U_STRIDE, V_STRIDE, COLS, ROWS,
              draw() % COLS, draw() % ROWS, {0}, THRESHOWL_VECTORS_LEN, OUT};
    for (size_t i = 0; i < sizeof c.vectors; i += 2)
        draw_component(c.vectors + i);
    return c;
}

static int16_t component(const uint8_t *from)
{
    return (int16_t)(uint16_t)(from[0] | from[1] << 8);
}

#define PICTURE(c) \
    y, (c)->y_len, u, (c)->u_len, v, (c)->v_len, (c)->y_stride, (c)->u_stride, (c)->v_stride, (c)->cols, (c)->rows, (c)->col, (c)->row
#define VECTOR(c) component((c)->vectors), component((c)->vectors + 2)
#define VECTORS(c) (c)->vectors, (c)->vectors_len

static Answer by_version(bool split, const Call *c, uint8_t version, uint8_t standard)
{
    Answer a;
    memset(a.out, KEPT, OUT);
    a.number = split ? threshowl_predict_split_by_version(PICTURE(c), VECTORS(c), version, standard, a.out, c->out_len)
                     : threshowl_predict_whole_by_version(PICTURE(c), VECTOR(c), version, standard, a.out, c->out_len);
    return a;
}

static Answer by_codes(bool split, const Call *c, uint8_t filter, uint8_t full_pixel)
{
    Answer a;
    memset(a.out, KEPT, OUT);
    a.number = split ? threshowl_predict_split(PICTURE(c), VECTORS(c), filter, full_pixel, a.out, c->out_len)
                     : threshowl_predict_whole(PICTURE(c), VECTOR(c), filter, full_pixel, a.out, c->out_len);
    return a;
}

/* ---- faults */

static void no_columns(Call *c) { c->cols = 0; }
static void narrow(Call *c) { c->v_stride = V_STRIDE - 1; }
static void short_plane(Call *c) { c->u_len = 0; }
static void outside(Call *c) { c->row = ROWS; }
static void short_vectors(Call *c) { c->vectors_len = THRESHOWL_VECTORS_LEN - 1; }
static void short_out(Call *c) { c->out_len = OUT - 1; }

static void (*const faults[])(Call *) = {no_columns, narrow, short_plane, outside, short_vectors, short_out};

enum { FAULTS = sizeof faults / sizeof faults[0] };

/* ---- sweeps */

/* Calls, those that are wrong, and those of version 3 whose Y is not that of the
   other mode. */
static uint64_t calls, wrong, differ;

static void count(bool good, const char *what, bool split, unsigned version, const Call *c)
{
    calls++;
    if (good)
        return;
    if (wrong++ < 5)
        printf("  wrong: %s, %s, version %u, at %zu %zu\n", what, split ? "split" : "whole", version, c->col, c->row);
}

static bool same(const Answer *a, const Answer *b)
{
    return a->number == b->number && memcmp(a->out, b->out, OUT) == 0;
}

static Answer answer_due(bool split, const Call *c, unsigned version, uint8_t standard)
{
    const uint8_t filter = version == 0 ? THRESHOWL_SIXTAP : THRESHOWL_BILINEAR;
    Answer due;
    if (version > 3) {
        due.number = THRESHOWL_RESERVED_VERSION;
        memset(due.out, KEPT, OUT);
        return due;
    }
    due = by_codes(split, c, filter, version == 3);
    if (standard != 0) {
        const Answer unlowered = by_codes(split, c, filter, 0);
        differ += version == 3 && memcmp(due.out, unlowered.out, 256) != 0;
        memcpy(due.out, unlowered.out, 256);
    }
    return due;
}

static void check(const char *what, bool split, unsigned version, uint8_t standard, const Call *c)
{
    const Answer got = by_version(split, c, (uint8_t)version, standard);
    const Answer due = answer_due(split, c, version, standard);
    count(same(&got, &due), what, split, version, c);
}

static void every_version(const char *what, const Call *c)
{
    for (unsigned version = 0; version < VERSIONS; version++) {
        const uint8_t standard = (uint8_t)(1 + draw() % 255);
        check(what, false, version, 0, c);
        check(what, true, version, 0, c);
        check(what, false, version, standard, c);
        check(what, true, version, standard, c);
    }
}

static void with_faults(const Call *good)
{
    Call all = *good;
    for (size_t i = 0; i < FAULTS; i++) {
        Call one = *good;
        faults[i](&one);
        every_version("one fault", &one);
        faults[i](&all);
    }
    every_version("every fault", &all);
}

int main(int argc, char **argv)
{
    seed(argc, argv, 4);
    for (int turn = 0; turn < 200; turn++) {
        fill(y, sizeof y);
        fill(u, sizeof u);
        fill(v, sizeof v);
        const Call c = draw_call();
        every_version("good input", &c);
        with_faults(&c);
    }
    printf("%" PRIu64 " calls by version, %" PRIu64 " wrong; the modes differ in Y in %" PRIu64 "\n", calls, wrong, differ);
    return wrong == 0 && differ != 0 ? 0 : 1;
}
