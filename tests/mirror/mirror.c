/*
 * Mirrored cameras, run: flips pictures, places and vectors, calls the library
 * on both, and compares the second answer with the first one flipped.
 *
 *   mirror [SEED]
 *
 * Three sweeps must find no difference: every component in range on one axis;
 * pictures, strides, places and vectors drawn at random; and sixteen vectors,
 * equal or mixed, split and merging.  Two must find some, since the law asks
 * for what they leave out: a component of -16384, and full-pixel on.  Exit
 * status: 0 as it should be, 1 not.
 */
#include <inttypes.h>
#include <stdbool.h>
#include <stdio.h>
#include <string.h>

#include "../draw.h"
#include "threshowl.h"

enum { MOST_MBS = 4, MOST_STRIDE = MOST_MBS * 16 + 24, MOST_BYTES = MOST_MBS * 16 * MOST_STRIDE };

/* Which axes are turned round. */
typedef struct {
    bool columns;
    bool rows;
} Mirror;

static const Mirror MIRRORS[] = {{true, false}, {false, true}, {true, true}};

typedef struct {
    size_t stride, width, height, len;
    uint8_t bytes[MOST_BYTES];
} Plane;

typedef struct {
    size_t cols, rows;
    Plane y, u, v;
} Picture;

typedef struct {
    size_t col, row;
} Place;

typedef struct {
    int16_t row, col;
} Vector;

typedef struct {
    uint32_t number;
    uint8_t samples[THRESHOWL_OUT_LEN];
} Answer;

typedef enum { WHOLE, SPLIT, MERGING } Kind;

/* ---- numbers drawn at random */

/* In -16383..16383: near, far, and the ends of the range. */
static int16_t in_range(void)
{
    switch (below(4)) {
    case 0: return between(-40, 40);
    case 1: return between(-600, 600);
    case 2: return between(-16383, 16383);
    default: return (int16_t)(below(2) ? between(16376, 16383) : between(-16383, -16376));
    }
}

static int16_t any_number(void)
{
    return below(2) ? in_range() : between(-32768, 32767);
}

/* ---- pictures */

static void draw_plane(Plane *p, size_t width, size_t height, size_t margin)
{
    p->width = width;
    p->height = height;
    p->stride = width + margin;
    p->len = (height - 1) * p->stride + width + below(20);
    if (p->len > MOST_BYTES)
        p->len = MOST_BYTES;
    size_t kind = below(4);
    for (size_t i = 0; i < p->len; i++) {
        size_t x = i % p->stride, at = i / p->stride;
        uint8_t byte = (uint8_t)draw();
        if (kind == 1)
            byte = byte & 1 ? 255 : 0;
        else if (kind == 2)
            byte = (x + at) & 1 ? 255 : 0;
        else if (kind == 3)
            byte = (uint8_t)(x * 5 + at * 3);
        p->bytes[i] = byte;
    }
}

static void draw_picture(Picture *p)
{
    p->cols = 1 + below(MOST_MBS);
    p->rows = 1 + below(MOST_MBS);
    draw_plane(&p->y, p->cols * 16, p->rows * 16, below(25));
    draw_plane(&p->u, p->cols * 8, p->rows * 8, below(9));
    draw_plane(&p->v, p->cols * 8, p->rows * 8, below(9));
}

/* ---- what a mirror makes of each */

static size_t turn(bool turned, size_t n, size_t i)
{
    return turned ? n - 1 - i : i;
}

/* Samples alone move: bytes past the width and past the last sample stay. */
static void mirror_plane(Mirror m, const Plane *from, Plane *to)
{
    *to = *from;
    for (size_t y = 0; y < from->height; y++)
        for (size_t x = 0; x < from->width; x++)
            to->bytes[y * from->stride + x] =
                from->bytes[turn(m.rows, from->height, y) * from->stride + turn(m.columns, from->width, x)];
}

static void mirror_picture(Mirror m, const Picture *from, Picture *to)
{
    to->cols = from->cols;
    to->rows = from->rows;
    mirror_plane(m, &from->y, &to->y);
    mirror_plane(m, &from->u, &to->u);
    mirror_plane(m, &from->v, &to->v);
}

static Place mirror_place(Mirror m, const Picture *p, Place at)
{
    return (Place){turn(m.columns, p->cols, at.col), turn(m.rows, p->rows, at.row)};
}

static int16_t negated(bool turned, int16_t z)
{
    return (int16_t)(turned ? -z : z);
}

static Vector mirror_vector(Mirror m, Vector v)
{
    return (Vector){negated(m.rows, v.row), negated(m.columns, v.col)};
}

static void mirror_vectors(Mirror m, const Vector *from, Vector *to)
{
    for (size_t b = 0; b < 16; b++)
        to[b] = mirror_vector(m, from[turn(m.rows, 4, b / 4) * 4 + turn(m.columns, 4, b % 4)]);
}

static void mirror_block(Mirror m, size_t n, const uint8_t *from, uint8_t *to)
{
    for (size_t r = 0; r < n; r++)
        for (size_t c = 0; c < n; c++)
            to[r * n + c] = from[turn(m.rows, n, r) * n + turn(m.columns, n, c)];
}

static void mirror_answer(Mirror m, const Answer *from, Answer *to)
{
    to->number = from->number;
    mirror_block(m, 16, from->samples, to->samples);
    mirror_block(m, 8, from->samples + 256, to->samples + 256);
    mirror_block(m, 8, from->samples + 320, to->samples + 320);
}

/* ---- calls; whole takes the first vector */

static void put16(uint8_t *to, int16_t z)
{
    to[0] = (uint8_t)((uint16_t)z & 255);
    to[1] = (uint8_t)((uint16_t)z >> 8);
}

static Answer call(Kind kind, const Picture *p, Place at, const Vector *vectors, uint8_t filter, uint8_t full_pixel)
{
    Answer a;
    memset(a.samples, 99, sizeof a.samples);
    if (kind == WHOLE) {
        a.number = threshowl_predict_whole(p->y.bytes, p->y.len, p->u.bytes, p->u.len, p->v.bytes, p->v.len,
                                           p->y.stride, p->u.stride, p->v.stride, p->cols, p->rows, at.col, at.row,
                                           vectors[0].row, vectors[0].col, filter, full_pixel,
                                           a.samples, sizeof a.samples);
        return a;
    }
    uint8_t bytes[THRESHOWL_VECTORS_LEN];
    for (size_t b = 0; b < 16; b++) {
        put16(bytes + 4 * b, vectors[b].row);
        put16(bytes + 4 * b + 2, vectors[b].col);
    }
    a.number = (kind == SPLIT ? threshowl_predict_split : threshowl_predict_merging)(
        p->y.bytes, p->y.len, p->u.bytes, p->u.len, p->v.bytes, p->v.len, p->y.stride, p->u.stride,
        p->v.stride, p->cols, p->rows, at.col, at.row, bytes, sizeof bytes, filter, full_pixel, a.samples, sizeof a.samples);
    return a;
}

/* ---- sweeps */

typedef struct {
    const char *what;
    bool may_differ;
    uint64_t pairs, differ;
} Sweep;

/* One pair of calls: is the second the first, mirrored? */
static void compare(Sweep *s, Kind kind, Mirror m, const Picture *p, const Picture *flipped, Place at,
                    const Vector *vectors, uint8_t filter, uint8_t full_pixel)
{
    Vector turned[16];
    if (kind == WHOLE)
        turned[0] = mirror_vector(m, vectors[0]);
    else
        mirror_vectors(m, vectors, turned);
    Answer first = call(kind, p, at, vectors, filter, full_pixel);
    Answer second = call(kind, flipped, mirror_place(m, p, at), turned, filter, full_pixel);
    Answer due;
    mirror_answer(m, &first, &due);
    s->pairs++;
    if (first.number == THRESHOWL_DONE && second.number == THRESHOWL_DONE &&
        memcmp(due.samples, second.samples, sizeof due.samples) == 0)
        return;
    s->differ++;
    if (!s->may_differ && s->differ <= 5)
        printf("  differs: kind %d, mirror %d %d, vector %d %d, filter %d, %zu by %zu, at %zu %zu, numbers %" PRIu32 " %" PRIu32 "\n",
               (int)kind, m.columns, m.rows, vectors[0].row, vectors[0].col, filter, p->cols, p->rows, at.col, at.row,
               first.number, second.number);
}

static Picture picture, flipped;

static Mirror draw_all(Place *at)
{
    Mirror m = MIRRORS[below(3)];
    draw_picture(&picture);
    mirror_picture(m, &picture, &flipped);
    *at = (Place){below(picture.cols), below(picture.rows)};
    return m;
}

/* A component on an axis that is turned round is in range; the other is any number. */
static Vector draw_vector(Mirror m)
{
    int16_t row = m.rows ? in_range() : any_number();
    int16_t col = m.columns ? in_range() : any_number();
    return (Vector){row, col};
}

static void every_component(Sweep *s)
{
    for (int axis = 0; axis < 2; axis++) {
        Mirror m = MIRRORS[axis];
        for (int z = -16383; z <= 16383; z++) {
            if ((z + 16383) % 1024 == 0) {
                draw_picture(&picture);
                mirror_picture(m, &picture, &flipped);
            }
            int16_t other = any_number();
            Vector v = axis == 0 ? (Vector){other, (int16_t)z} : (Vector){(int16_t)z, other};
            Place at = {below(picture.cols), below(picture.rows)};
            for (uint8_t filter = 0; filter < 2; filter++)
                compare(s, WHOLE, m, &picture, &flipped, at, &v, filter, 0);
        }
    }
}

static void any_whole(Sweep *s)
{
    for (int i = 0; i < 200000; i++) {
        Place at;
        Mirror m = draw_all(&at);
        Vector v = draw_vector(m);
        compare(s, WHOLE, m, &picture, &flipped, at, &v, (uint8_t)below(2), 0);
    }
}

static void any_split(Sweep *s)
{
    for (int i = 0; i < 100000; i++) {
        Place at;
        Mirror m = draw_all(&at);
        Vector vs[16];
        bool equal = below(2);
        for (size_t b = 0; b < 16; b++)
            vs[b] = b > 0 && equal ? vs[0] : draw_vector(m);
        uint8_t filter = (uint8_t)below(2);
        compare(s, SPLIT, m, &picture, &flipped, at, vs, filter, 0);
        compare(s, MERGING, m, &picture, &flipped, at, vs, filter, 0);
    }
}

/* -16384 on the axis that is turned round: its negation doubles to the same bits. */
static void out_of_range(Sweep *s)
{
    for (int i = 0; i < 1000; i++) {
        Place at;
        draw_picture(&picture);
        int axis = (int)below(2);
        Mirror m = MIRRORS[axis];
        mirror_picture(m, &picture, &flipped);
        at = (Place){below(picture.cols), below(picture.rows)};
        Vector v = axis == 0 ? (Vector){0, -16384} : (Vector){-16384, 0};
        compare(s, WHOLE, m, &picture, &flipped, at, &v, (uint8_t)below(2), 0);
    }
}

static void full_pixel_on(Sweep *s)
{
    for (int i = 0; i < 1000; i++) {
        Place at;
        Mirror m = draw_all(&at);
        Vector v = draw_vector(m);
        compare(s, WHOLE, m, &picture, &flipped, at, &v, (uint8_t)below(2), 1);
    }
}

static bool as_it_should(const Sweep *s)
{
    bool good = s->may_differ ? s->differ > 0 : s->differ == 0;
    printf("%-46s %8" PRIu64 " pairs, %6" PRIu64 " differ%s%s\n", s->what, s->pairs, s->differ,
           s->may_differ ? ", and some must" : "", good ? "" : ": WRONG");
    return good;
}

int main(int argc, char **argv)
{
    seed(argc, argv, 11);
    Sweep every = {"every component in range, whole", false, 0, 0};
    Sweep whole = {"any picture and vector, whole", false, 0, 0};
    Sweep split = {"any picture and vectors, split and merging", false, 0, 0};
    Sweep range = {"a component of -16384, whole", true, 0, 0};
    Sweep pixel = {"full-pixel on, whole", true, 0, 0};
    every_component(&every);
    any_whole(&whole);
    any_split(&split);
    out_of_range(&range);
    full_pixel_on(&pixel);
    bool good = as_it_should(&every);
    good = as_it_should(&whole) && good;
    good = as_it_should(&split) && good;
    good = as_it_should(&range) && good;
    good = as_it_should(&pixel) && good;
    return good ? 0 : 1;
}
