/*
 * How many samples are fetched, and how many clipped, counted another way:
 * threshowl_predict_report beside a list of coordinates that is written out here,
 * block by block, beside sums at full width, sample by sample, and beside the calls
 * without a report.
 *
 *   report [SEED]
 *
 * For whole, split, merging and by quarters: the number, the bytes and the counts,
 * on noise, on checkerboards of 0 and 255, on stripes and on a smooth picture; by
 * every pair of fractions, and on every class of vectors (whole pixels, fractions on
 * one axis or both, of any size, about the two ends of -16384..16383), equal, equal
 * by quarters or mixed, at every macroblock of a small picture, by both tables and
 * with the flag on and off; and with faults drawn at random, where the counts must
 * be 0 and every byte of the output kept.  Then threshowl_add_clipped, on totals
 * drawn about the last that fits.  Exit status: 0 as it should be, 1 not.
 */
#include <inttypes.h>
#include <stdbool.h>
#include <stdio.h>
#include <string.h>

#include "../draw.h"
#include "../vectors.h"
#include "threshowl.h"

enum { COLS = 4, ROWS = 3, Y_STRIDE = COLS * 16 + 5, U_STRIDE = COLS * 8 + 3, V_STRIDE = COLS * 8 };
enum { Y_LEN = Y_STRIDE * ROWS * 16, U_LEN = U_STRIDE * ROWS * 8, V_LEN = V_STRIDE * ROWS * 8 };
enum { KEPT = 0x5A, MARGIN = 16, OUT = THRESHOWL_OUT_LEN, VECTORS_LEN = THRESHOWL_VECTORS_LEN, BLOCKS = 16 };
enum { WHOLE, SPLIT, MERGING, QUARTERS, KINDS };

typedef struct {
    int16_t row, col;
} Mv;

static uint8_t y[Y_LEN], u[U_LEN], v[V_LEN];

typedef struct {
    const uint8_t *samples;
    long stride, width, height;
} Plane;

enum { OF_Y, OF_U, OF_V };

static const Plane planes[] = {{y, Y_STRIDE, COLS * 16, ROWS * 16}, {u, U_STRIDE, COLS * 8, ROWS * 8}, {v, V_STRIDE, COLS * 8, ROWS * 8}};

typedef struct {
    size_t col, row;
    Mv mvs[BLOCKS];
    uint8_t filter, full_pixel;
} Case;

/* ---- what is due: the coordinates of one plane after the other, and the samples that are clipped */

typedef struct {
    long col, row;
} Coordinate;

static Coordinate list[4096];
static size_t listed;
static uint64_t low, high;

static long clamp(long z, long size)
{
    return z < 0 ? 0 : z >= size ? size - 1 : z;
}

static long floor_by(long z, long by)
{
    return z >= 0 ? z / by : -((-z + by - 1) / by);
}

/* RFC 6386, section 18.3; bilinear in the middle two. */
static const long taps[2][8][6] = {{{0, 0, 128, 0, 0, 0},
                                    {0, -6, 123, 12, -1, 0},
                                    {2, -11, 108, 36, -8, 1},
                                    {0, -9, 93, 50, -6, 0},
                                    {3, -16, 77, 77, -16, 3},
                                    {0, -6, 50, 93, -9, 0},
                                    {1, -8, 36, 108, -11, 2},
                                    {0, -1, 12, 123, -6, 0}},
                                   {{0, 0, 128, 0, 0, 0},
                                    {0, 0, 112, 16, 0, 0},
                                    {0, 0, 96, 32, 0, 0},
                                    {0, 0, 80, 48, 0, 0},
                                    {0, 0, 64, 64, 0, 0},
                                    {0, 0, 48, 80, 0, 0},
                                    {0, 0, 32, 96, 0, 0},
                                    {0, 0, 16, 112, 0, 0}}};

static long weighed(const long *t, const long *six)
{
    long sum = 64;
    for (int i = 0; i < 6; i++)
        sum += t[i] * six[i];
    return floor_by(sum, 128);
}

static long sample_at(const Plane *p, long x, long y0)
{
    return p->samples[clamp(y0, p->height) * p->stride + clamp(x, p->width)];
}

static long across(const Plane *p, const long (*table)[6], long fraction, long x, long y0)
{
    long six[6];
    for (long i = 0; i < 6; i++)
        six[i] = sample_at(p, x + i - 2, y0);
    return weighed(table[fraction], six);
}

/* The sample before it is clamped: by the last pass with a fraction, out of a first pass that is. */
static long unclamped(const Plane *p, const long (*table)[6], long row_fraction, long col_fraction, long x, long y0)
{
    long six[6];
    if (row_fraction == 0)
        return across(p, table, col_fraction, x, y0);
    for (long i = 0; i < 6; i++)
        six[i] = clamp(across(p, table, col_fraction, x, y0 + i - 2), 256);
    return weighed(table[row_fraction], six);
}

/* A block of n samples a side at x, y of a plane, by a vector in eighths. */
static void block(const Case *c, int of, long n, long x, long y0, long row, long col)
{
    const Plane *p = &planes[of];
    const long row_fraction = row - 8 * floor_by(row, 8), col_fraction = col - 8 * floor_by(col, 8);
    const bool whole = row_fraction == 0 && col_fraction == 0;
    const long side = whole ? n : n + 5, before = whole ? 0 : 2;
    x += floor_by(col, 8);
    y0 += floor_by(row, 8);
    for (long r = 0; r < side; r++)
        for (long k = 0; k < side; k++)
            list[listed++] = (Coordinate){clamp(x - before + k, p->width), clamp(y0 - before + r, p->height)};
    for (long r = 0; r < n; r++)
        for (long k = 0; k < n; k++) {
            const long z = unclamped(p, taps[c->filter], row_fraction, col_fraction, x + k, y0 + r);
            low += z < 0;
            high += z > 255;
        }
}

static long lowered(long z, bool full)
{
    return full ? 8 * floor_by(z, 8) : z;
}

static long stored(int16_t z)
{
    return (int16_t)(uint16_t)(2u * (uint16_t)z);
}

/* z / 8 to the nearest, a half away from zero. */
static long nearest(long z)
{
    return z >= 0 ? (z + 4) / 8 : -((-z + 4) / 8);
}

static void luma(const Case *c, long n, long x, long y0)
{
    const Mv m = c->mvs[y0 / 4 * 4 + x / 4];
    const bool full = c->full_pixel != 0;
    block(c, OF_Y, n, (long)c->col * 16 + x, (long)c->row * 16 + y0, lowered(stored(m.row), full), lowered(stored(m.col), full));
}

static void list_whole(const Case *c)
{
    const bool full = c->full_pixel != 0;
    const Mv m = c->mvs[0];
    luma(c, 16, 0, 0);
    for (int of = OF_U; of <= OF_V; of++)
        block(c, of, 8, (long)c->col * 8, (long)c->row * 8, lowered(nearest(stored(m.row) * 4), full), lowered(nearest(stored(m.col) * 4), full));
}

static void list_split_chroma(const Case *c)
{
    const bool full = c->full_pixel != 0;
    for (int of = OF_U; of <= OF_V; of++)
        for (size_t q = 0; q < 4; q++) {
            const size_t b = q / 2 * 8 + q % 2 * 2, four[] = {b, b + 1, b + 4, b + 5};
            long row = 0, col = 0;
            for (size_t i = 0; i < 4; i++) {
                row += 2L * c->mvs[four[i]].row;
                col += 2L * c->mvs[four[i]].col;
            }
            block(c, of, 4, (long)c->col * 8 + (long)(q % 2) * 4, (long)c->row * 8 + (long)(q / 2) * 4, lowered(nearest(row), full), lowered(nearest(col), full));
        }
}

static bool same(Mv a, Mv b)
{
    return a.row == b.row && a.col == b.col;
}

static bool one_vector(const Case *c, long x, long y0, long n)
{
    for (long r = y0; r < y0 + n; r++)
        for (long k = x; k < x + n; k++)
            if (!same(c->mvs[r / 4 * 4 + k / 4], c->mvs[y0 / 4 * 4 + x / 4]))
                return false;
    return true;
}

static void list_square(const Case *c, long x, long y0, long n)
{
    if (one_vector(c, x, y0, n)) {
        luma(c, n, x, y0);
        return;
    }
    list_square(c, x, y0, n / 2);
    list_square(c, x + n / 2, y0, n / 2);
    list_square(c, x, y0 + n / 2, n / 2);
    list_square(c, x + n / 2, y0 + n / 2, n / 2);
}

static void list_split(const Case *c)
{
    for (long b = 0; b < BLOCKS; b++)
        luma(c, 4, b % 4 * 4, b / 4 * 4);
    list_split_chroma(c);
}

static bool inside(int16_t z)
{
    return z >= -16384 && z <= 16383;
}

static uint64_t due_count(const Case *c, unsigned kind)
{
    listed = 0;
    low = high = 0;
    switch (kind) {
    case WHOLE: list_whole(c); break;
    case SPLIT: list_split(c); break;
    case MERGING:
        if (one_vector(c, 0, 0, 16) && inside(c->mvs[0].row) && inside(c->mvs[0].col))
            list_whole(c);
        else
            list_split(c);
        break;
    default:
        list_square(c, 0, 0, 16);
        list_split_chroma(c);
    }
    return listed;
}

/* ---- calls */

typedef struct {
    size_t y_len, u_len, v_len, y_stride, u_stride, v_stride, cols, rows, vectors_len, out_len;
    uint8_t kind;
} Rest;

static const Rest good = {Y_LEN, U_LEN, V_LEN, Y_STRIDE, U_STRIDE, V_STRIDE, COLS, ROWS, VECTORS_LEN, OUT, WHOLE};

typedef struct {
    uint32_t number;
    uint64_t fetched, low, high;
    uint8_t out[OUT + MARGIN];
} Answer;

static void put_vectors(uint8_t *bytes, const Case *c)
{
    for (size_t b = 0; b < BLOCKS; b++) {
        put_component(bytes + 4 * b, c->mvs[b].row);
        put_component(bytes + 4 * b + 2, c->mvs[b].col);
    }
}

static Answer report(const Case *c, const Rest *r)
{
    Answer a;
    uint8_t bytes[VECTORS_LEN];
    put_vectors(bytes, c);
    memset(a.out, KEPT, sizeof a.out);
    a.fetched = a.low = a.high = 12345;
    a.number = threshowl_predict_report(y, r->y_len, u, r->u_len, v, r->v_len, r->y_stride, r->u_stride, r->v_stride, r->cols, r->rows, c->col,
                                        c->row, bytes, r->vectors_len, r->kind, c->filter, c->full_pixel, a.out, r->out_len, &a.fetched,
                                        &a.low, &a.high);
    return a;
}

/* The call without a report. */
static Answer plain(const Case *c, unsigned kind)
{
    Answer a;
    uint8_t bytes[VECTORS_LEN];
    put_vectors(bytes, c);
    memset(a.out, KEPT, sizeof a.out);
    if (kind == WHOLE)
        a.number = threshowl_predict_whole(y, Y_LEN, u, U_LEN, v, V_LEN, Y_STRIDE, U_STRIDE, V_STRIDE, COLS, ROWS, c->col, c->row,
                                           c->mvs[0].row, c->mvs[0].col, c->filter, c->full_pixel, a.out, OUT);
    else
        a.number = threshowl_predict_split(y, Y_LEN, u, U_LEN, v, V_LEN, Y_STRIDE, U_STRIDE, V_STRIDE, COLS, ROWS, c->col, c->row, bytes,
                                           VECTORS_LEN, c->filter, c->full_pixel, a.out, OUT);
    a.fetched = due_count(c, kind);
    a.low = low;
    a.high = high;
    return a;
}

static uint64_t calls, wrong, refused, lows, highs, least[KINDS], most[KINDS];

static void complain(const char *what, const Case *c, unsigned kind, const Answer *a)
{
    if (wrong++ < 5)
        printf("  wrong: %s, kind %u at %zu %zu, filter %u, full pixel %u: number %" PRIu32 ", %" PRIu64 " fetched, %" PRIu64
               " and %" PRIu64 " clipped\n",
               what, kind, c->col, c->row, c->filter, c->full_pixel, a->number, a->fetched, a->low, a->high);
}

static void compare(const Case *c)
{
    for (uint8_t kind = 0; kind < KINDS; kind++) {
        Rest r = good;
        r.kind = kind;
        const Answer got = report(c, &r), due = plain(c, kind);
        calls++;
        lows += got.low;
        highs += got.high;
        if (got.number != due.number || got.fetched != due.fetched || got.low != due.low || got.high != due.high ||
            memcmp(got.out, due.out, sizeof got.out) != 0)
            complain("answer", c, kind, &got);
        if (least[kind] == 0 || got.fetched < least[kind]) least[kind] = got.fetched;
        if (got.fetched > most[kind]) most[kind] = got.fetched;
    }
}

/* ---- vectors */

typedef int16_t (*Component)(void);

static int16_t small(void) { return between(-70, 70); }
static int16_t any(void) { return between(-32768, 32767); }
static int16_t about_the_ends(void) { return (int16_t)((draw() & 1 ? 16383 : -16384) + between(-9, 9)); }
static int16_t whole_pixels(void) { return (int16_t)(between(-12, 12) * 8); }
static int16_t some_whole(void) { return draw() & 1 ? whole_pixels() : small(); }

static const Component classes[] = {small, any, about_the_ends, whole_pixels, some_whole};

enum { CLASSES = sizeof classes / sizeof classes[0] };

static Mv draw_mv(Component of)
{
    const int16_t row = of(), col = of();
    return (Mv){row, col};
}

/* All equal, the quarters in `equal` equal within themselves, or all drawn. */
static void draw_vectors(Case *c, Component of)
{
    const unsigned equal = draw() % 17;
    const Mv one = draw_mv(of);
    Mv of_quarter[4];
    for (size_t q = 0; q < 4; q++)
        of_quarter[q] = draw_mv(of);
    for (size_t b = 0; b < BLOCKS; b++) {
        const size_t q = b / 8 * 2 + b % 4 / 2;
        c->mvs[b] = equal == 16 ? one : equal >> q & 1 ? of_quarter[q] : draw_mv(of);
    }
}

/* ---- faults, each of them drawn at random: its number, nothing fetched, nothing written */

static void faulty(void)
{
    static const uint32_t numbers[] = {THRESHOWL_BAD_SIZE,    THRESHOWL_BAD_STRIDE,      THRESHOWL_BAD_STRIDE,
                                       THRESHOWL_SHORT_PLANE, THRESHOWL_OUTSIDE_PICTURE, THRESHOWL_BAD_FILTER,
                                       THRESHOWL_BAD_VECTORS, THRESHOWL_BAD_OUT,         THRESHOWL_BAD_ORDERS};
    const size_t fault = below(sizeof numbers / sizeof numbers[0]);
    Case c = {below(COLS), below(ROWS), {{0, 0}}, draw() & 1, draw() & 1};
    Rest r = good;
    draw_vectors(&c, small);
    r.kind = (uint8_t)below(KINDS);
    switch (fault) {
    case 0: r.cols = draw() & 1 ? 0 : 1025; break;
    case 1: r.y_stride = COLS * 16 - 1; break;
    case 2: r.v_stride = 32769; break;
    case 3: r.u_len = U_LEN - U_STRIDE; break;
    case 4: c.row = ROWS; break;
    case 5: c.filter = (uint8_t)(2 + below(254)); break;
    case 6: r.vectors_len = below(64); break;
    case 7: r.out_len = OUT - 1 - below(300); break;
    default: r.kind = (uint8_t)(KINDS + below(252)); break;
    }
    const Answer got = report(&c, &r);
    calls++;
    refused++;
    bool kept = got.fetched == 0 && got.low == 0 && got.high == 0 && got.number == numbers[fault];
    for (size_t i = 0; i < sizeof got.out; i++)
        kept = kept && got.out[i] == KEPT;
    if (!kept)
        complain("fault", &c, r.kind, &got);
}

/* ---- pictures */

static uint8_t noise(size_t x, size_t y0)
{
    (void)x, (void)y0;
    return (uint8_t)draw();
}

static uint8_t checkerboard(size_t x, size_t y0) { return (x + y0) % 2 ? 255 : 0; }
static uint8_t squares(size_t x, size_t y0) { return (x / 2 + y0 / 2) % 2 ? 255 : 0; }
static uint8_t stripes(size_t x, size_t y0) { return (x + 3 * y0) / 4 % 2 ? 255 : 0; }
static uint8_t either(size_t x, size_t y0) { return noise(x, y0) & 1 ? 255 : 0; }
static uint8_t smooth(size_t x, size_t y0) { return (uint8_t)(2 * x + 3 * y0); }

typedef uint8_t (*Painting)(size_t x, size_t y0);

static const Painting paintings[] = {noise, checkerboard, squares, stripes, either, smooth};

enum { PAINTINGS = sizeof paintings / sizeof paintings[0] };

static void paint(Painting of)
{
    for (size_t i = 0; i < Y_LEN; i++)
        y[i] = of(i % Y_STRIDE, i / Y_STRIDE);
    for (size_t i = 0; i < U_LEN; i++)
        u[i] = of(i % U_STRIDE, i / U_STRIDE);
    for (size_t i = 0; i < V_LEN; i++)
        v[i] = of(i % V_STRIDE, i / V_STRIDE);
}

static void everywhere(Case *c)
{
    for (c->row = 0; c->row < ROWS; c->row++)
        for (c->col = 0; c->col < COLS; c->col++)
            compare(c);
}

/* One vector for each pair of chroma's fractions, sixteen times: luma has the even ones. */
static void fractions(void)
{
    Case c = {0, 0, {{0, 0}}, 0, 0};
    for (int16_t pair = 0; pair < 64; pair++)
        for (c.filter = 0; c.filter < 2; c.filter++) {
            for (size_t b = 0; b < BLOCKS; b++)
                c.mvs[b] = (Mv){(int16_t)(pair / 8 - 8), (int16_t)(pair % 8 + 8)};
            everywhere(&c);
        }
}

/* ---- running totals */

static uint64_t total(void)
{
    const uint64_t some = draw() % 5;
    return draw() & 1 ? some : UINT64_MAX - some;
}

static void add(void)
{
    const uint64_t was_low = total(), was_high = total(), mb_low = total(), mb_high = total();
    const bool fits = mb_low <= UINT64_MAX - was_low && mb_high <= UINT64_MAX - was_high;
    uint64_t sum_low = was_low, sum_high = was_high;
    const uint32_t number = threshowl_add_clipped(&sum_low, &sum_high, mb_low, mb_high);
    calls++;
    refused += !fits;
    if (number != (fits ? THRESHOWL_DONE : THRESHOWL_FULL_TOTALS) || sum_low != (fits ? was_low + mb_low : was_low) ||
        sum_high != (fits ? was_high + mb_high : was_high)) {
        if (wrong++ < 5)
            printf("  wrong: totals\n");
    }
}

int main(int argc, char **argv)
{
    static const char *const names[] = {"whole", "split", "merging", "quarters"};
    seed(argc, argv, 20261116);
    for (size_t picture = 0; picture < PAINTINGS; picture++) {
        paint(paintings[picture]);
        fractions();
    }
    for (int turn = 0; turn < 2000; turn++) {
        Case c = {0, 0, {{0, 0}}, 0, 0};
        if (turn % 20 == 0)
            paint(paintings[below(PAINTINGS)]);
        draw_vectors(&c, classes[below(CLASSES)]);
        c.filter = draw() & 1;
        c.full_pixel = below(4) == 0;
        everywhere(&c);
    }
    for (int turn = 0; turn < 20000; turn++)
        faulty();
    for (int turn = 0; turn < 100000; turn++)
        add();
    for (unsigned kind = 0; kind < KINDS; kind++)
        printf("%-9s %" PRIu64 " to %" PRIu64 " samples fetched\n", names[kind], least[kind], most[kind]);
    printf("%" PRIu64 " samples clipped low, %" PRIu64 " high\n", lows, highs);
    printf("%" PRIu64 " calls, %" PRIu64 " of them refused, %" PRIu64 " wrong\n", calls, refused, wrong);
    return wrong != 0;
}
