/*
 * Merging by quarters beside split prediction, run: threshowl_predict_quarters
 * must give split's number and leave split's bytes, on every pattern of equal
 * vectors that it tells apart and with faults.
 *
 *   quarters [SEED]
 *
 * The patterns: sixteen equal vectors; every subset of the quarters equal within
 * themselves, and the others of four different ones; halves; the quarters of each
 * subset equal to one another; one odd vector at each of the sixteen places, of
 * all and of each quarter.  Each at every macroblock of a small picture, inside
 * and at its edges and corners, by both tables and with the flag on and off; the
 * vectors are small, of any size, about the two ends of -16384..16383, or differ
 * in that they double alike.  A refused call must keep every byte of its output.
 * Exit status: 0 as it should be, 1 not.
 */
#include <inttypes.h>
#include <stdbool.h>
#include <stdio.h>
#include <string.h>

#include "../draw.h"
#include "../vectors.h"
#include "threshowl.h"

enum { COLS = 4, ROWS = 3, Y_STRIDE = COLS * 16 + 5, U_STRIDE = COLS * 8 + 3, V_STRIDE = COLS * 8 };
enum { Y_LEN = Y_STRIDE * ROWS * 16, U_LEN = U_STRIDE * ROWS * 8, V_LEN = V_STRIDE * ROWS * 8 };
enum { KEPT = 0x5A, MARGIN = 16, OUT = THRESHOWL_OUT_LEN, VECTORS_LEN = THRESHOWL_VECTORS_LEN, BLOCKS = 16 };

typedef struct {
    int16_t row, col;
} Mv;

/* What a call is given besides its planes' bytes. */
typedef struct {
    size_t y_len, u_len, v_len, y_stride, u_stride, v_stride, cols, rows, col, row;
    Mv vectors[BLOCKS];
    size_t vectors_len, out_len;
    uint8_t filter, full_pixel;
} Call;

typedef struct {
    uint32_t number;
    uint8_t out[OUT + MARGIN];
} Answer;

static uint8_t y[Y_LEN], u[U_LEN], v[V_LEN];

/* ---- vectors */

typedef int16_t (*Component)(void);

static int16_t small(void) { return between(-70, 70); }
static int16_t any(void) { return between(-32768, 32767); }
static int16_t about_the_ends(void) { return (int16_t)((draw() & 1 ? 16383 : -16384) + between(-9, 9)); }
static int16_t whole(void) { return (int16_t)(between(-12, 12) * 4); }

static const Component kinds[] = {small, any, about_the_ends, whole};

enum { KINDS = sizeof kinds / sizeof kinds[0] };

static Mv draw_mv(Component kind)
{
    const int16_t row = kind(), col = kind();
    return (Mv){row, col};
}

/* Another vector: drawn anew, off by one in one component, or one that doubles
   to the same. */
static Mv other_than(Mv m, Component kind)
{
    int16_t *const component = draw() & 1 ? &m.row : &m.col;
    const Mv old = m;
    switch (below(3)) {
    case 0: *component = (int16_t)(uint16_t)(*component + 1); break;
    case 1: *component = (int16_t)(uint16_t)(*component ^ 0x8000); break;
    default: m = draw_mv(kind); break;
    }
    if (m.row == old.row && m.col == old.col)
        m.row ^= 1;
    return m;
}

static size_t quarter_of(size_t block)
{
    return block / 8 * 2 + block % 4 / 2;
}

/* ---- calls */

static Call good_call(void)
{
    return (Call){Y_LEN, U_LEN, V_LEN, Y_STRIDE, U_STRIDE, V_STRIDE, COLS, ROWS, 0, 0, {{0, 0}}, VECTORS_LEN, OUT, 0, 0};
}

typedef uint32_t Predict(const uint8_t *, size_t, const uint8_t *, size_t, const uint8_t *, size_t, size_t, size_t, size_t, size_t, size_t,
                         size_t, size_t, const uint8_t *, size_t, uint8_t, uint8_t, uint8_t *, size_t);

static Answer run(Predict *predict, const Call *c)
{
    Answer a;
    uint8_t bytes[VECTORS_LEN];
    for (size_t b = 0; b < BLOCKS; b++) {
        put_component(bytes + 4 * b, c->vectors[b].row);
        put_component(bytes + 4 * b + 2, c->vectors[b].col);
    }
    memset(a.out, KEPT, sizeof a.out);
    a.number = predict(y, c->y_len, u, c->u_len, v, c->v_len, c->y_stride, c->u_stride, c->v_stride, c->cols, c->rows, c->col, c->row,
                       bytes, c->vectors_len, c->filter, c->full_pixel, a.out, c->out_len);
    return a;
}

static bool kept(const Answer *a)
{
    for (size_t i = 0; i < sizeof a->out; i++)
        if (a->out[i] != KEPT)
            return false;
    return true;
}

/* ---- the comparison: calls, those that are wrong, those refused */

static uint64_t calls, wrong, refused;

static void compare(const char *what, const Call *c)
{
    const Answer got = run(threshowl_predict_quarters, c), due = run(threshowl_predict_split, c);
    calls++;
    refused += got.number != THRESHOWL_DONE;
    if (got.number == due.number && memcmp(got.out, due.out, sizeof got.out) == 0
        && (got.number == THRESHOWL_DONE || kept(&got)))
        return;
    if (wrong++ < 5)
        printf("  wrong: %s, at %zu %zu, filter %u, full pixel %u\n", what, c->col, c->row, c->filter, c->full_pixel);
}

/* By both tables and flags, at every place. */
static void everywhere(const char *what, Call c)
{
    for (c.row = 0; c.row < ROWS; c.row++)
        for (c.col = 0; c.col < COLS; c.col++)
            for (unsigned codes = 0; codes < 4; codes++) {
                c.filter = codes & 1;
                c.full_pixel = (uint8_t)(codes & 2);
                compare(what, &c);
            }
}

/* ---- patterns */

/* The quarters in `equal` have one vector each, all the same one where `same`
   says so; in the others each block has its own. */
static void subset(Component kind, unsigned equal, bool same)
{
    Call c = good_call();
    Mv of_quarter[4];
    const Mv one = draw_mv(kind);
    for (size_t q = 0; q < 4; q++)
        of_quarter[q] = same ? one : q == 0 ? one : other_than(of_quarter[q - 1], kind);
    for (size_t b = 0; b < BLOCKS; b++) {
        const size_t q = quarter_of(b);
        const bool first = b % 2 == 0 && b / 4 % 2 == 0;
        c.vectors[b] = (equal >> q & 1) || first ? of_quarter[q] : other_than(c.vectors[b - (b % 2 ? 1 : 4)], kind);
    }
    everywhere(same ? "equal quarters that are alike" : "equal quarters", c);
}

static void halves(Component kind, bool beside)
{
    Call c = good_call();
    const Mv first = draw_mv(kind), second = other_than(first, kind);
    for (size_t b = 0; b < BLOCKS; b++)
        c.vectors[b] = (beside ? b % 4 < 2 : b < 8) ? first : second;
    everywhere("halves", c);
}

/* All equal but one; and the quarters equal but for one block of one of them. */
static void odd_one(Component kind, size_t odd)
{
    Call c = good_call();
    Mv of_quarter[4] = {draw_mv(kind), draw_mv(kind), draw_mv(kind), draw_mv(kind)};
    for (size_t b = 0; b < BLOCKS; b++)
        c.vectors[b] = of_quarter[0];
    c.vectors[odd] = other_than(of_quarter[0], kind);
    everywhere("one odd vector", c);
    for (size_t b = 0; b < BLOCKS; b++)
        c.vectors[b] = of_quarter[quarter_of(b)];
    c.vectors[odd] = other_than(of_quarter[quarter_of(odd)], kind);
    everywhere("one odd vector of a quarter", c);
}

static void patterns(Component kind)
{
    for (unsigned equal = 0; equal < 16; equal++) {
        subset(kind, equal, false);
        subset(kind, equal, true);
    }
    halves(kind, false);
    halves(kind, true);
    for (size_t odd = 0; odd < BLOCKS; odd++)
        odd_one(kind, odd);
}

/* ---- faults, each of them drawn at random */

static void faulty(void)
{
    Call c = good_call();
    const Mv one = draw_mv(kinds[below(KINDS)]);
    for (size_t b = 0; b < BLOCKS; b++)
        c.vectors[b] = draw() & 1 ? one : draw_mv(small);
    c.col = below(COLS);
    c.row = below(ROWS);
    c.filter = draw() & 1;
    if (below(8) == 0) c.cols = below(2) ? 0 : 1025;
    if (below(8) == 0) c.v_stride = below(2) ? V_STRIDE - 1 : 32769;
    if (below(8) == 0) c.u_len = below(U_LEN);
    if (below(8) == 0) c.row = ROWS + below(3);
    if (below(8) == 0) c.filter = (uint8_t)(2 + below(254));
    if (below(8) == 0) c.vectors_len = below(VECTORS_LEN);
    if (below(8) == 0) c.out_len = below(OUT);
    compare("faults", &c);
}

int main(int argc, char **argv)
{
    seed(argc, argv, 7);
    for (int turn = 0; turn < 40; turn++) {
        fill(y, sizeof y);
        fill(u, sizeof u);
        fill(v, sizeof v);
        for (size_t kind = 0; kind < KINDS; kind++)
            patterns(kinds[kind]);
        for (int i = 0; i < 2000; i++)
            faulty();
    }
    printf("%" PRIu64 " calls beside split, %" PRIu64 " of them refused, %" PRIu64 " wrong\n", calls, refused, wrong);
    return wrong == 0 && refused != 0 ? 0 : 1;
}
