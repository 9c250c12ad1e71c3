/*
 * Whole frames beside single calls, run: threshowl_predict_frame must leave in
 * every plane what threshowl_predict_whole and threshowl_predict_split give for
 * each macroblock, and every other byte as it was.
 *
 *   frame [SEED]
 *
 * Frames of 1 by 1 to 12 by 9 macroblocks, with rows of any length and planes of
 * any length past the last row, all noise; references that are three pictures,
 * two or one; orders of both kinds, each kind of vector and each pattern of equal
 * ones; both tables, the flag on and off.  Then the same with faults drawn at
 * random, several at a time: the number must be that of a plain reading of the
 * header, and not one byte may change.  Bytes past each output's length are
 * looked at too.  Exit status: 0 as it should be, 1 not.
 */
#include <inttypes.h>
#include <stdbool.h>
#include <stdio.h>
#include <string.h>

#include "../draw.h"
#include "../vectors.h"
#include "threshowl.h"

enum { COLS = 12, ROWS = 9, GAP = 9, TAIL = 40, MARGIN = 16, BLOCKS = 16, ORDER = THRESHOWL_ORDER_LEN, REFERENCES = 3, PLANES = 3 };
enum { PLANE = (COLS * 16 + GAP) * ROWS * 16 + TAIL, ORDERS = COLS * ROWS * ORDER };

/* A plane in memory, as long as the longest. */
typedef uint8_t Bytes[PLANE + MARGIN];

/* What a call is given besides bytes. */
typedef struct {
    size_t cols, rows;
    size_t strides[PLANES], out_strides[PLANES];
    size_t lens[REFERENCES][PLANES], out_lens[PLANES], orders_len;
    size_t picture[REFERENCES]; /* which of the pictures below each reference is */
    uint8_t filter, full_pixel;
} Call;

static Bytes pictures[REFERENCES][PLANES], before[PLANES], out[PLANES], due[PLANES];
static uint8_t orders[ORDERS];

static size_t side(size_t plane)
{
    return plane == 0 ? 16 : 8;
}

static size_t needed(size_t cols, size_t rows, size_t plane, size_t stride)
{
    return (rows * side(plane) - 1) * stride + cols * side(plane);
}

/* ---- orders */

typedef struct {
    int16_t row, col;
} Mv;

typedef int16_t (*Component)(void);

static int16_t small(void) { return between(-70, 70); }
static int16_t any(void) { return between(-32768, 32767); }
static int16_t about_the_ends(void) { return (int16_t)((draw() & 1 ? 16383 : -16384) + between(-9, 9)); }
static int16_t whole(void) { return (int16_t)(between(-12, 12) * 4); }
static int16_t none(void) { return 0; }

static const Component kinds[] = {small, any, about_the_ends, whole, none};

static int16_t component(const uint8_t *from)
{
    return (int16_t)(uint16_t)(from[0] | from[1] << 8);
}

/* Sixteen vectors of one kind: one, one a quarter, one a half, or each its own. */
static void draw_order(uint8_t *order)
{
    const Component kind = kinds[below(sizeof kinds / sizeof kinds[0])];
    const size_t pattern = below(5);
    Mv own[BLOCKS];
    for (size_t b = 0; b < BLOCKS; b++) {
        own[b].row = kind();
        own[b].col = kind();
    }
    order[0] = (uint8_t)below(REFERENCES);
    order[1] = (uint8_t)below(2);
    for (size_t b = 0; b < BLOCKS; b++) {
        const size_t of[] = {0, b / 8 * 2 + b % 4 / 2, b / 8, b % 4 / 2, b};
        put_component(order + 2 + 4 * b, own[of[pattern]].row);
        put_component(order + 4 + 4 * b, own[of[pattern]].col);
    }
}

/* ---- calls */

static Call good_call(size_t cols, size_t rows)
{
    Call c = {.cols = cols, .rows = rows, .orders_len = cols * rows * ORDER};
    const size_t different = 1 + below(REFERENCES);
    for (size_t p = 0; p < PLANES; p++) {
        c.strides[p] = cols * side(p) + below(GAP + 1);
        c.out_strides[p] = cols * side(p) + below(GAP + 1);
        c.out_lens[p] = needed(cols, rows, p, c.out_strides[p]) + below(TAIL + 1);
    }
    for (size_t r = 0; r < REFERENCES; r++) {
        c.picture[r] = r % different;
        for (size_t p = 0; p < PLANES; p++)
            c.lens[r][p] = needed(cols, rows, p, c.strides[p]) + below(TAIL + 1);
    }
    c.filter = draw() & 1;
    c.full_pixel = (uint8_t)(draw() & 1 ? 0 : 1 + below(255));
    for (size_t k = 0; k < cols * rows; k++)
        draw_order(orders + k * ORDER);
    return c;
}

static const uint8_t *reference(const Call *c, size_t r, size_t p)
{
    return pictures[c->picture[r]][p];
}

static uint32_t predict_frame(const Call *c)
{
    return threshowl_predict_frame(
        reference(c, 0, 0), c->lens[0][0], reference(c, 0, 1), c->lens[0][1], reference(c, 0, 2), c->lens[0][2],
        reference(c, 1, 0), c->lens[1][0], reference(c, 1, 1), c->lens[1][1], reference(c, 1, 2), c->lens[1][2],
        reference(c, 2, 0), c->lens[2][0], reference(c, 2, 1), c->lens[2][1], reference(c, 2, 2), c->lens[2][2],
        c->strides[0], c->strides[1], c->strides[2], c->cols, c->rows, orders, c->orders_len, c->filter, c->full_pixel,
        out[0], c->out_lens[0], out[1], c->out_lens[1], out[2], c->out_lens[2],
        c->out_strides[0], c->out_strides[1], c->out_strides[2]);
}

/* The single call of one order. */
static uint32_t predict(const Call *c, size_t col, size_t row, uint8_t samples[THRESHOWL_OUT_LEN])
{
    const uint8_t *const o = orders + (row * c->cols + col) * ORDER;
    const uint8_t *const y = reference(c, o[0], 0), *const u = reference(c, o[0], 1), *const v = reference(c, o[0], 2);
    const size_t *const lens = c->lens[o[0]], *const s = c->strides;
    return o[1] == THRESHOWL_WHOLE
               ? threshowl_predict_whole(y, lens[0], u, lens[1], v, lens[2], s[0], s[1], s[2], c->cols, c->rows, col, row, component(o + 2),
                                         component(o + 4), c->filter, c->full_pixel, samples, THRESHOWL_OUT_LEN)
               : threshowl_predict_split(y, lens[0], u, lens[1], v, lens[2], s[0], s[1], s[2], c->cols, c->rows, col, row, o + 2,
                                         THRESHOWL_VECTORS_LEN, c->filter, c->full_pixel, samples, THRESHOWL_OUT_LEN);
}

/* ---- the comparison: frames, macroblocks in them, calls refused, those that are wrong */

static uint64_t frames, macroblocks, refused, wrong;

static void begin(void)
{
    for (size_t p = 0; p < PLANES; p++) {
        memcpy(out[p], before[p], sizeof out[p]);
        memcpy(due[p], before[p], sizeof due[p]);
    }
}

static void note(const char *what, const Call *c, bool right)
{
    if (!right && wrong++ < 5)
        printf("  wrong: %s, %zu by %zu, filter %u, full pixel %u\n", what, c->cols, c->rows, c->filter, c->full_pixel);
}

static bool as_due(void)
{
    for (size_t p = 0; p < PLANES; p++)
        if (memcmp(out[p], due[p], sizeof out[p]) != 0)
            return false;
    return true;
}

static void put(const Call *c, size_t p, size_t col, size_t row, const uint8_t *samples)
{
    for (size_t r = 0; r < side(p); r++)
        memcpy(due[p] + (row * side(p) + r) * c->out_strides[p] + col * side(p), samples + r * side(p), side(p));
}

static void compare(const Call *c)
{
    uint8_t samples[THRESHOWL_OUT_LEN];
    bool right;
    begin();
    right = predict_frame(c) == THRESHOWL_DONE;
    for (size_t row = 0; row < c->rows; row++)
        for (size_t col = 0; col < c->cols; col++) {
            right &= predict(c, col, row, samples) == THRESHOWL_DONE;
            put(c, 0, col, row, samples);
            put(c, 1, col, row, samples + 256);
            put(c, 2, col, row, samples + 320);
        }
    frames++;
    macroblocks += c->cols * c->rows;
    note("a frame", c, right && as_due());
}

/* ---- faults */

static bool bad_stride(const Call *c, size_t p, size_t stride)
{
    return stride < c->cols * side(p) || stride > 32768;
}

static bool too_short(const Call *c, size_t p, size_t len, size_t stride)
{
    return len < needed(c->cols, c->rows, p, stride);
}

static uint32_t number_due(const Call *c)
{
    if (c->cols < 1 || c->cols > 1024 || c->rows < 1 || c->rows > 1024)
        return 1;
    for (size_t p = 0; p < PLANES; p++)
        if (bad_stride(c, p, c->strides[p]))
            return 2;
    for (size_t r = 0; r < REFERENCES; r++)
        for (size_t p = 0; p < PLANES; p++)
            if (too_short(c, p, c->lens[r][p], c->strides[p]))
                return 3;
    if (c->filter > 1)
        return 5;
    for (size_t p = 0; p < PLANES; p++)
        if (bad_stride(c, p, c->out_strides[p]) || too_short(c, p, c->out_lens[p], c->out_strides[p]))
            return 7;
    if (c->orders_len != c->cols * c->rows * ORDER)
        return 9;
    for (size_t k = 0; k < c->cols * c->rows; k++)
        if (orders[k * ORDER] > 2 || orders[k * ORDER + 1] > 1)
            return 9;
    return 0;
}

static void faulty(void)
{
    Call c = good_call(1 + below(COLS), 1 + below(ROWS));
    const size_t p = below(PLANES), k = below(c.cols * c.rows);
    if (below(8) == 0) *(draw() & 1 ? &c.cols : &c.rows) = draw() & 1 ? 0 : 1025;
    if (below(8) == 0) c.strides[p] = draw() & 1 ? c.cols * side(p) - 1 : 32769;
    if (below(8) == 0) c.lens[below(REFERENCES)][p] = needed(c.cols, c.rows, p, c.strides[p]) - 1 - below(3);
    if (below(8) == 0) c.filter = (uint8_t)(2 + below(254));
    if (below(8) == 0) c.out_strides[p] = draw() & 1 ? c.cols * side(p) - 1 : 32769;
    if (below(8) == 0) c.out_lens[p] = needed(c.cols, c.rows, p, c.out_strides[p]) - 1 - below(3);
    if (below(8) == 0) c.orders_len = draw() & 1 ? c.orders_len - 1 - below(ORDER) : below(c.orders_len);
    if (below(8) == 0) orders[k * ORDER] = (uint8_t)(3 + below(253));
    if (below(8) == 0) orders[k * ORDER + 1] = (uint8_t)(2 + below(254));
    const uint32_t number = number_due(&c);
    if (number == 0) {
        compare(&c);
        return;
    }
    begin();
    const bool right = predict_frame(&c) == number;
    refused++;
    note("a fault", &c, right && as_due());
}

int main(int argc, char **argv)
{
    seed(argc, argv, 11);
    for (int turn = 0; turn < 12; turn++) {
        for (size_t p = 0; p < PLANES; p++) {
            for (size_t r = 0; r < REFERENCES; r++)
                fill(pictures[r][p], sizeof pictures[r][p]);
            fill(before[p], sizeof before[p]);
        }
        for (size_t rows = 1; rows <= ROWS; rows++)
            for (size_t cols = 1; cols <= COLS; cols++) {
                const Call c = good_call(cols, rows);
                compare(&c);
            }
        for (int i = 0; i < 1000; i++)
            faulty();
    }
    printf("%" PRIu64 " frames, %" PRIu64 " macroblocks beside single calls, %" PRIu64 " calls refused, %" PRIu64 " wrong\n", frames, macroblocks,
           refused, wrong);
    return wrong == 0 && refused != 0 ? 0 : 1;
}
