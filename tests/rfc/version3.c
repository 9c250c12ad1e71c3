/*
 * Which vectors version 3 lowers to whole pixels: the reference decoder of RFC
 * 6386 predicts macroblocks, and a plain reading of the project's definition
 * predicts them under four rules: neither luma nor chroma lowered, both (the
 * Rust's), chroma alone, luma alone.
 *
 *   version3 [SEED]
 *
 * A rule is that of the reference decoder if it never differs while every
 * component is in -16384..16383.  Beyond, whole macroblocks are still to be
 * alike, and split ones once their chroma averages vectors as 20.14 stores
 * them.  Versions 0 to 2 are the control.  Exit status: 0 where chroma alone is
 * that rule and the other three are not, 1 otherwise.
 *
 * With WITH_LIBRARY the library's prediction by version is compared with the
 * reading of the mode that `standard` chooses, on every macroblock.
 */
#include <inttypes.h>
#include <stdio.h>
#include <string.h>

#include "../draw.h"
#include "reading.h"
#include "reference.h"
#include "stream.h"
#ifdef WITH_LIBRARY
#include "threshowl.h"
#endif

/* ---- numbers drawn at random */

static int16_t inside(void)
{
    switch (below(5)) {
    case 0: return between(-8, 8);
    case 1: return between(-40, 40);
    case 2: return between(-600, 600);
    case 3: return between(-16384, 16383);
    default: return (int16_t)(below(2) ? between(16376, 16383) : between(-16384, -16377));
    }
}

static int16_t beyond(void)
{
    switch (below(3)) {
    case 0: return (int16_t)(below(2) ? between(16384, 32767) : between(-32768, -16385));
    case 1: return (int16_t)(below(2) ? between(16384, 16424) : between(-16425, -16385));
    default: return (int16_t)(below(2) ? between(32728, 32767) : between(-32768, -32728));
    }
}

static bool is_inside(Vector v)
{
    return v.row >= -16384 && v.row <= 16383 && v.col >= -16384 && v.col <= 16383;
}

/* ---- pictures */

typedef enum { BLACK, NOISE, EXTREMES, CHECKED, KINDS } Kind;

static void draw_plane(Plane *p, Kind kind, size_t width, size_t height)
{
    p->width = width;
    p->height = height;
    p->stride = width + below(25);
    p->len = (height - 1) * p->stride + width;
    for (size_t i = 0; i < p->len; i++) {
        uint8_t byte = kind == BLACK ? 0 : (uint8_t)draw();
        if (kind == EXTREMES)
            byte = byte & 1 ? 255 : 0;
        else if (kind == CHECKED)
            byte = (i % p->stride + i / p->stride) & 1 ? 255 : 0;
        p->bytes[i] = byte;
    }
}

static Picture picture;
static unsigned version;

static void show(void)
{
    reference_picture(&picture, version, (uint8_t)draw());
}

static void draw_picture(Kind kind, size_t cols, size_t rows)
{
    picture.cols = cols;
    picture.rows = rows;
    for (size_t n = 0; n < 3; n++) {
        size_t side = n == 0 ? 16 : 8;
        draw_plane(&picture.planes[n], kind, cols * side, rows * side);
    }
    show();
}

static Place draw_place(void)
{
    return (Place){below(picture.cols), below(picture.rows)};
}

/* ---- rules */

enum { NEITHER, BOTH, CHROMA, LUMA, RULES };
static const char *const NAMES[RULES] = {"neither", "both", "chroma", "luma"};

/* What a rule asks for in the version at hand: version 3 alone lowers. */
static Rule rule_of(int rule, bool average_stored)
{
    return (Rule){version == 0, version == 3 && (rule == BOTH || rule == LUMA), version == 3 && (rule == BOTH || rule == CHROMA),
                  average_stored};
}

static void read_by(Rule rule, Place at, bool split, const Vector *vectors, uint8_t *samples)
{
    read_luma(&picture, at, split, vectors, rule, samples);
    read_chroma(&picture, at, split, vectors, rule, samples + Y_LEN);
}

/* ---- the library */

typedef struct {
    uint64_t compared, differ;
} Pairs;

static Pairs by_mode[2];

#ifdef WITH_LIBRARY
static void put16(uint8_t *to, int16_t z)
{
    to[0] = (uint8_t)((uint16_t)z & 255);
    to[1] = (uint8_t)((uint16_t)z >> 8);
}

static uint32_t call(Place at, bool split, const Vector *vectors, uint8_t standard, uint8_t *out)
{
    const Plane *y = &picture.planes[0], *u = &picture.planes[1], *v = &picture.planes[2];
    if (!split)
        return threshowl_predict_whole_by_version(y->bytes, y->len, u->bytes, u->len, v->bytes, v->len, y->stride, u->stride, v->stride,
                                                  picture.cols, picture.rows, at.col, at.row, vectors[0].row, vectors[0].col,
                                                  (uint8_t)version, standard, out, SAMPLES_LEN);
    uint8_t bytes[64];
    for (size_t b = 0; b < 16; b++) {
        put16(bytes + 4 * b, vectors[b].row);
        put16(bytes + 4 * b + 2, vectors[b].col);
    }
    return threshowl_predict_split_by_version(y->bytes, y->len, u->bytes, u->len, v->bytes, v->len, y->stride, u->stride, v->stride,
                                              picture.cols, picture.rows, at.col, at.row, bytes, sizeof bytes,
                                              (uint8_t)version, standard, out, SAMPLES_LEN);
}

static void compare_library(Place at, bool split, const Vector *vectors, const uint8_t *due, int mode)
{
    uint8_t got[SAMPLES_LEN];
    memset(got, 99, sizeof got);
    uint32_t number = call(at, split, vectors, mode == 0 ? 0 : (uint8_t)(1 + below(255)), got);
    by_mode[mode].compared++;
    by_mode[mode].differ += number != 0 || memcmp(due, got, sizeof got) != 0;
}
#else
static void compare_library(Place at, bool split, const Vector *vectors, const uint8_t *due, int mode)
{
    (void)at, (void)split, (void)vectors, (void)due, (void)mode;
}
#endif

/* ---- comparisons */

typedef struct {
    uint64_t compared, differ[RULES], differ_averaging_stored;
} Tally;

static bool differ(const uint8_t *a, const uint8_t *b, size_t from, size_t to)
{
    return memcmp(a + from, b + from, to - from) != 0;
}

/* The readings of the two modes, and the two that are neither, are put together from these. */
static void judge(Tally *t, Place at, bool split, const Vector *vectors, const uint8_t *due)
{
    uint8_t none[SAMPLES_LEN], all[SAMPLES_LEN], stored[SAMPLES_LEN], standard[SAMPLES_LEN];
    read_by(rule_of(NEITHER, false), at, split, vectors, none);
    read_by(rule_of(BOTH, false), at, split, vectors, all);
    read_by(rule_of(CHROMA, true), at, split, vectors, stored);
    memcpy(standard, none, Y_LEN);
    memcpy(standard + Y_LEN, all + Y_LEN, SAMPLES_LEN - Y_LEN);

    bool luma[2] = {differ(due, none, 0, Y_LEN), differ(due, all, 0, Y_LEN)};
    bool chroma[2] = {differ(due, none, Y_LEN, SAMPLES_LEN), differ(due, all, Y_LEN, SAMPLES_LEN)};
    t->compared++;
    for (int rule = 0; rule < RULES; rule++)
        t->differ[rule] += luma[rule == BOTH || rule == LUMA] || chroma[rule == BOTH || rule == CHROMA];
    t->differ_averaging_stored += differ(due, stored, 0, SAMPLES_LEN);
    compare_library(at, split, vectors, all, 0);
    compare_library(at, split, vectors, standard, 1);
}

/* by version 3 or not, whole or split, in range or beyond; those from streams, all in range, by the first two */
static Tally tallies[2][2][2], streams[2][2];
/* macroblocks that 20.11 does not mark, predicted as they are and as if marked: 20.14 has a function for each */
static Pairs alike[2][2];
static uint64_t refused;

static void compare(Place at, bool split, const Vector *vectors)
{
    uint8_t due[SAMPLES_LEN], again[SAMPLES_LEN];
    if (!reference_predict(at, split, vectors, false, due)) {
        reference_predict(at, split, vectors, true, again);
        alike[version == 3][split].compared++;
        alike[version == 3][split].differ += differ(due, again, 0, SAMPLES_LEN);
    }
    bool in_range = true;
    for (size_t b = 0; b < (split ? 16 : 1); b++)
        in_range = in_range && is_inside(vectors[b]);
    judge(&tallies[version == 3][split][!in_range], at, split, vectors, due);
}

static void compare_stream(Place at, bool split, const Vector *vectors)
{
    uint8_t due[SAMPLES_LEN];
    if (stream_predict(version, at, split, vectors, due))
        judge(&streams[version == 3][split], at, split, vectors, due);
    else
        refused++;
}

/* ---- sweeps */

/* Every sixteen-bit component on each axis. */
static void every_component(int by)
{
    for (int z = -32768; z <= 32767; z += by)
        for (int axis = 0; axis < 2; axis++) {
            if ((z + 32768) / by % 512 == 0)
                draw_picture((Kind)(1 + below(KINDS - 1)), 1 + below(2), 1 + below(2));
            int16_t other = below(2) ? 0 : inside();
            Vector v = axis == 0 ? (Vector){other, (int16_t)z} : (Vector){(int16_t)z, other};
            compare(draw_place(), false, &v);
        }
}

/* Every near vector at every place of three by three macroblocks: edges, corners and the middle. */
static void every_place(int most)
{
    draw_picture(NOISE, 3, 3);
    for (int row = -most; row <= most; row++)
        for (int col = -most; col <= most; col++)
            for (size_t n = 0; n < 9; n++) {
                Vector v = {(int16_t)row, (int16_t)col};
                compare((Place){n % 3, n / 3}, false, &v);
            }
}

static Vector draw_vector(bool far)
{
    Vector v = {inside(), inside()};
    if (far && below(2))
        v.row = beyond();
    if (far && below(2))
        v.col = beyond();
    return v;
}

static void any_whole(int times)
{
    for (int i = 0; i < times; i++) {
        if (i % 20 == 0)
            draw_picture((Kind)(1 + below(KINDS - 1)), 1 + below(MOST_MBS), 1 + below(MOST_MBS));
        Vector v = draw_vector(i % 4 == 0);
        compare(draw_place(), false, &v);
    }
}

/* Sixteen vectors near one another, by quarters, equal but for one, or any. */
static void any_split(int times)
{
    for (int i = 0; i < times; i++) {
        if (i % 20 == 0)
            draw_picture((Kind)(1 + below(KINDS - 1)), 1 + below(MOST_MBS), 1 + below(MOST_MBS));
        bool far = i % 4 == 0;
        size_t kind = below(4);
        Vector vs[16], first = kind == 0 ? (Vector){between(-60, 60), between(-60, 60)} : draw_vector(far);
        for (size_t b = 0; b < 16; b++) {
            if (kind == 0)
                vs[b] = (Vector){(int16_t)(first.row + between(-9, 9)), (int16_t)(first.col + between(-9, 9))};
            else if (kind == 1)
                vs[b] = b % 4 % 2 == 0 && b / 4 % 2 == 0 ? draw_vector(far) : vs[b % 2 == 1 ? b - 1 : b - 4];
            else
                vs[b] = kind == 2 ? first : draw_vector(far);
        }
        if (kind == 2)
            vs[below(16)] = draw_vector(far);
        compare(draw_place(), true, vs);
    }
}

static Vector draw_sent(void)
{
    static const int MOST[] = {3, 40, 300, MOST_SENT};
    int most = MOST[below(4)];
    return (Vector){between(-most, most), between(-most, most)};
}

/* Through the whole decoder, from bytes. */
static void any_stream(int times)
{
    for (int i = 0; i < times; i++) {
        if (i % 20 == 0) {
            draw_picture((Kind)(1 + below(KINDS - 1)), 1 + below(MOST_MBS), 1 + below(MOST_MBS));
            stream_picture(&picture, version);
        }
        Vector vs[16];
        for (size_t b = 0; b < 16; b++)
            vs[b] = b > 0 && below(4) ? vs[b - 1] : draw_sent();
        compare_stream(draw_place(), below(2), vs);
    }
}

/* The last key frame was of one version, the frame is of another. */
static Pairs by_key_table, by_own_table;

static void other_key_frame(unsigned key, int times)
{
    draw_picture(NOISE, 3, 3);
    stream_picture(&picture, key);
    for (int i = 0; i < times; i++) {
        uint8_t due[SAMPLES_LEN], own[SAMPLES_LEN], keys[SAMPLES_LEN];
        Vector vs[16];
        for (size_t b = 0; b < 16; b++)
            vs[b] = draw_sent();
        Place at = draw_place();
        bool split = below(2);
        if (!stream_predict(version, at, split, vs, due)) {
            refused++;
            continue;
        }
        Rule rule = rule_of(CHROMA, false);
        read_by(rule, at, split, vs, own);
        rule.sixtap = key == 0;
        read_by(rule, at, split, vs, keys);
        by_own_table.compared++;
        by_own_table.differ += differ(due, own, 0, SAMPLES_LEN);
        by_key_table.compared++;
        by_key_table.differ += differ(due, keys, 0, SAMPLES_LEN);
    }
}

/* ---- the smallest inputs */

/* What is tried: a rule, against a frame of version 3 after a key frame of some version. */
typedef struct {
    int rule;
    bool split;
    unsigned key;
} Trial;

/* The first sample of a macroblock that the rule has otherwise than the reference decoder, or SAMPLES_LEN. */
static size_t first_difference(Trial t, const Vector *vectors, uint8_t *read, uint8_t *due)
{
    Place only = {0, 0};
    if (t.key == version) {
        reference_predict(only, t.split, vectors, false, due);
    } else {
        stream_picture(&picture, t.key);
        refused += !stream_predict(version, only, t.split, vectors, due);
    }
    read_by(rule_of(t.rule, false), only, t.split, vectors, read);
    size_t i = 0;
    while (i < SAMPLES_LEN && read[i] == due[i])
        i++;
    return i;
}

/* Where sample i of a macroblock stands. */
typedef struct {
    size_t plane, row, col;
} Spot;

static Spot spot(size_t i)
{
    if (i < Y_LEN)
        return (Spot){0, i / 16, i % 16};
    return (Spot){i < Y_LEN + 64 ? 1 : 2, (i - Y_LEN) % 64 / 8, i % 8};
}

static void put_spot(size_t i)
{
    Spot s = spot(i);
    printf("%c(%zu,%zu)", "YUV"[s.plane], s.row, s.col);
}

static void light_up(size_t i, unsigned light)
{
    Spot s = spot(i);
    Plane *p = &picture.planes[s.plane];
    p->bytes[s.row * p->stride + s.col] = (uint8_t)light;
    show();
}

/* Whether these vectors can show a difference at all: on one of some pictures of noise. */
static bool can_differ(Trial t, const Vector *vectors)
{
    uint8_t read[SAMPLES_LEN], due[SAMPLES_LEN];
    for (int i = 0; i < 8; i++) {
        draw_picture(i % 2 ? NOISE : EXTREMES, 1, 1);
        if (first_difference(t, vectors, read, due) < SAMPLES_LEN)
            return true;
    }
    return false;
}

/* One sample of a black picture is lit, as dimly as can be. */
static bool smallest_light(Trial t, const Vector *vectors, size_t b)
{
    uint8_t read[SAMPLES_LEN], due[SAMPLES_LEN];
    for (unsigned light = 1; light < 256; light++)
        for (size_t i = 0; i < SAMPLES_LEN; i++) {
            draw_picture(BLACK, 1, 1);
            light_up(i, light);
            size_t at = first_difference(t, vectors, read, due);
            if (at == SAMPLES_LEN)
                continue;
            printf("  %-7s, %s:", NAMES[t.rule], t.split ? "split" : "whole");
            if (t.split)
                printf(" block %zu", b);
            printf(" vector (%d,%d), ", vectors[b].row, vectors[b].col);
            put_spot(i);
            printf(" = %u; ", light);
            put_spot(at);
            printf(" is %u, in the reference decoder %u\n", read[at], due[at]);
            return true;
        }
    return false;
}

/* Vectors along one axis, from those of `size` on, left, up, right, down; in a split macroblock one block has it, the others zero. */
static void smallest(Trial t, int size)
{
    for (; size <= 32767; size++)
        for (int turn = 0; turn < 4; turn++) {
            int z = turn < 2 ? -size : size;
            for (size_t b = 0; b < (t.split ? 16 : 1); b++) {
                Vector vs[16] = {{0, 0}};
                vs[b] = turn % 2 ? (Vector){(int16_t)z, 0} : (Vector){0, (int16_t)z};
                if (can_differ(t, vs) && smallest_light(t, vs, b))
                    return;
            }
        }
}

/* ---- the report */

static void put_tally(const char *what, const Tally *t)
{
    printf("%-34s %9" PRIu64, what, t->compared);
    for (int rule = 0; rule < RULES; rule++)
        printf(" %8" PRIu64, t->differ[rule]);
    printf(" %8" PRIu64 "\n", t->differ_averaging_stored);
}

/* Chroma alone never differs, and any other rule does in version 3. Where `far` all differ, until vectors are averaged as stored. */
static bool is_chroma_alone(const Tally *t, bool three, bool far)
{
    bool good = t->compared > 0 && t->differ_averaging_stored == 0;
    for (int rule = 0; rule < RULES; rule++)
        good = good && (t->differ[rule] > 0) == (far || (three && rule != CHROMA));
    return good;
}

static bool as_it_should(void)
{
    bool good = refused == 0 && by_key_table.compared > 0 && by_key_table.differ == 0 && by_own_table.differ > 0;
    for (int three = 0; three < 2; three++)
        for (int split = 0; split < 2; split++) {
            good = good && alike[three][split].compared > 0 && alike[three][split].differ == 0;
            good = good && is_chroma_alone(&streams[three][split], three, false);
            for (int far = 0; far < 2; far++)
                good = good && is_chroma_alone(&tallies[three][split][far], three, split && far);
        }
    for (int mode = 0; mode < 2; mode++)
        good = good && by_mode[mode].differ == 0;
    return good;
}

int main(int argc, char **argv)
{
    seed(argc, argv, 10);
    for (version = 0; version < 4; version++) {
        every_component(version == 3 ? 1 : 8);
        every_place(version == 3 ? 36 : 12);
        any_whole(version == 3 ? 100000 : 20000);
        any_split(version == 3 ? 100000 : 20000);
        any_stream(version == 3 ? 20000 : 4000);
        for (unsigned key = 0; key < 4; key++)
            if (key != version)
                other_key_frame(key, 400);
    }
    version = 3;

    printf("macroblocks that differ from the reference decoder if version 3 lowers\n");
    printf("%-34s %9s", "", "compared");
    for (int rule = 0; rule < RULES; rule++)
        printf(" %8s", NAMES[rule]);
    printf(" %8s\n", "chroma*");
    put_tally("version 3, whole, in range", &tallies[1][0][0]);
    put_tally("version 3, whole, beyond", &tallies[1][0][1]);
    put_tally("version 3, split, in range", &tallies[1][1][0]);
    put_tally("version 3, split, beyond", &tallies[1][1][1]);
    put_tally("version 3, whole, from bytes", &streams[1][0]);
    put_tally("version 3, split, from bytes", &streams[1][1]);
    put_tally("versions 0 to 2, whole, in range", &tallies[0][0][0]);
    put_tally("versions 0 to 2, whole, beyond", &tallies[0][0][1]);
    put_tally("versions 0 to 2, split, in range", &tallies[0][1][0]);
    put_tally("versions 0 to 2, split, beyond", &tallies[0][1][1]);
    put_tally("versions 0 to 2, whole, from bytes", &streams[0][0]);
    put_tally("versions 0 to 2, split, from bytes", &streams[0][1]);
    printf("* and split chroma averages vectors as stored, in sixteen bits\n");
    printf("both functions of 20.14, where no edge is near:\n");
    for (int three = 1; three >= 0; three--)
        for (int split = 0; split < 2; split++)
            printf("  %s, %s: %" PRIu64 " compared, %" PRIu64 " differ\n", three ? "version 3" : "versions 0 to 2",
                   split ? "split" : "whole", alike[three][split].compared, alike[three][split].differ);
    printf("after a key frame of another version, from bytes: %" PRIu64 " compared, %" PRIu64
           " differ with that key frame's table, %" PRIu64 " with their own version's\n",
           by_key_table.compared, by_key_table.differ, by_own_table.differ);
    printf("frames from bytes that the decoder refused: %" PRIu64 "\n", refused);
    for (int mode = 0; mode < 2; mode++)
        if (by_mode[mode].compared > 0)
            printf("the library, standard %s: %" PRIu64 " calls, %" PRIu64 " differ from the reading\n", mode == 0 ? "0" : "not 0",
                   by_mode[mode].compared, by_mode[mode].differ);

    if (!as_it_should()) {
        printf("WRONG: chroma alone is not the reference decoder's rule, or another rule is too\n");
        return 1;
    }
    printf("chroma alone is the reference decoder's rule; the smallest inputs where another differs, in a black macroblock, one sample lit:\n");
    for (int rule = 0; rule < RULES; rule++)
        if (rule != CHROMA) {
            smallest((Trial){rule, false, version}, 1);
            smallest((Trial){rule, true, version}, 1);
        }
    printf("and chroma alone beyond the range:\n");
    smallest((Trial){CHROMA, true, version}, 16384);
    printf("and after a key frame of version 0, from bytes:\n");
    smallest((Trial){CHROMA, false, 0}, 1);
    return refused == 0 ? 0 : 1;
}
