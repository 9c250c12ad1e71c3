/*
 * The dequantisation factors that RFC 6386 prints beside the project's, and
 * macroblocks from levels beside those from the levels times the printed factors.
 *
 *   factors [SEED]
 *
 * Exit status: 0 where nothing differs, 1 otherwise.
 */
#include <inttypes.h>
#include <stdio.h>
#include <stdlib.h>
#include <string.h>

#include "../draw.h"
#include "quantiser.h"
#include "threshowl.h"

enum { DRAWN = 2000000, MACROBLOCKS = 300000, LEVELS = THRESHOWL_COEFFICIENTS, GUARD = 16 };

/* Of the test archive: the project's own factors. */
uint16_t shim_factor(uint8_t which, int32_t y_ac_qi, int32_t y_dc_delta, int32_t y2_dc_delta, int32_t y2_ac_delta,
                     int32_t uv_dc_delta, int32_t uv_ac_delta);

static uint64_t failures = 0;

static void print(const char *what, uint64_t compared, uint64_t differ)
{
    printf("%-56s %10" PRIu64 " %8" PRIu64 "\n", what, compared, differ);
    failures += differ;
}

static void own_factors(int base, const int *deltas, int *factors)
{
    uint8_t i;
    for (i = 0; i < FACTORS; i++)
        factors[i] = shim_factor(i, base, deltas[0], deltas[1], deltas[2], deltas[3], deltas[4]);
}

/* ---- the tables */

static void tables(void)
{
    static const int none[DELTAS] = {0};
    uint64_t differ = 0;
    int ac, index, factors[FACTORS];
    for (ac = 0; ac < 2; ac++)
        for (index = 0; index < STEPS; index++) {
            own_factors(index, none, factors);
            differ += step_of_14(ac, index) != factors[ac] || step_of_20(ac, index) != factors[ac];
        }
    print("steps of both tables, sections 14.1 and 20.3", 2 * STEPS, differ);
}

/* ---- the factors */

static uint64_t alike(int base, const int *deltas)
{
    int due[FACTORS], made[FACTORS];
    printed_factors(base, deltas, due);
    own_factors(base, deltas, made);
    return memcmp(due, made, sizeof due) != 0;
}

static void every_delta(void)
{
    uint64_t compared = 0, differ = 0;
    int base, which, delta;
    for (base = 0; base < STEPS; base++)
        for (which = 0; which < DELTAS; which++)
            for (delta = -15; delta <= 15; delta++, compared++) {
                int deltas[DELTAS] = {0};
                deltas[which] = delta;
                differ += alike(base, deltas);
            }
    print("every base index, each delta from -15 to 15", compared, differ);
}

static void any_deltas(void)
{
    uint64_t differ = 0;
    int round, i;
    for (round = 0; round < DRAWN; round++) {
        const int most = round % 2 ? 15 : 30000;
        int deltas[DELTAS];
        for (i = 0; i < DELTAS; i++)
            deltas[i] = between(-most, most);
        differ += alike(round % 2 ? (int)below(STEPS) : between(-30000, 30000), deltas);
    }
    print("base and deltas at random, within streams and beyond", DRAWN, differ);
}

/* The reference decoder adds in int, which a sum of two great numbers leaves; here the sum is exact. */
static int64_t clamped(int64_t index)
{
    return index < 0 ? 0 : index > STEPS - 1 ? STEPS - 1 : index;
}

static void extremes(void)
{
    static const int32_t sharp[] = {INT32_MIN, INT32_MIN + 1, INT32_MIN + 127, INT32_MIN + 128, -65536, -129, -128, -127, -2,
                                    -1, 0, 1, 2, 63, 126, 127, 128, 129, 65535, INT32_MAX - 128, INT32_MAX - 127,
                                    INT32_MAX - 126, INT32_MAX - 1, INT32_MAX};
    const size_t count = sizeof sharp / sizeof sharp[0];
    uint64_t differ = 0;
    size_t i, j;
    int k;
    for (i = 0; i < count; i++)
        for (j = 0; j < count; j++) {
            /* With a base of 0 to 127 and no delta the printed functions do for any index, one factor at a time. */
            const int index = (int)clamped((int64_t)sharp[i] + sharp[j]);
            const int deltas[DELTAS] = {sharp[j], sharp[j], sharp[j], sharp[j], sharp[j]};
            static const int none[DELTAS] = {0};
            int due[FACTORS], y[FACTORS], made[FACTORS];
            printed_factors(index, none, due);
            printed_factors((int)clamped(sharp[i]), none, y);
            due[1] = y[1];
            own_factors(sharp[i], deltas, made);
            for (k = 0; k < FACTORS; k++)
                differ += due[k] != made[k];
        }
    print("factors at the ends of 32 bits", count * count * FACTORS, differ);
}

/* ---- macroblocks: from levels, and from their products with the printed factors */

static uint8_t plane_y[256], plane_u[64], plane_v[64];
static const uint8_t vectors[THRESHOWL_VECTORS_LEN] = {4, 0, 252, 255, 1};

#define PICTURE plane_y, sizeof plane_y, plane_u, sizeof plane_u, plane_v, sizeof plane_v, 16, 8, 8, 1, 1, 0, 0
#define QUANTISER base, deltas[0], deltas[1], deltas[2], deltas[3], deltas[4]

static int factor_of(const int *factors, size_t i)
{
    const int plane = i < 16 ? 1 : i < 272 ? 0 : 2;
    return factors[2 * plane + (i % 16 != 0)];
}

/* Any; small; as large as the domain lets them be; one of these in eight. */
static int16_t level(int kind, int factor, size_t i)
{
    const int most = (i < 16 ? 16383 : 4095) / factor;
    switch (kind) {
    case 0: return between(-32768, 32767);
    case 1: return between(-3, 3);
    case 2: return (int16_t)(below(40) ? between(-most, most) : below(2) ? most : -most);
    default: return (int16_t)(below(8) ? 0 : between(-most, most));
    }
}

static uint32_t from_levels(int form, int base, const int *deltas, uint8_t skip, const int16_t *levels, size_t count, uint8_t *out)
{
    switch (form) {
    case 0: return threshowl_reconstruct_whole_from_levels(PICTURE, 3, -5, THRESHOWL_SIXTAP, 0, skip, levels, count, QUANTISER,
                                                           out, THRESHOWL_OUT_LEN);
    case 1: return threshowl_reconstruct_whole_pixel_from_levels(PICTURE, 16, -8, 0, skip, levels, count, QUANTISER, out,
                                                                 THRESHOWL_OUT_LEN);
    default: return threshowl_reconstruct_split_from_levels(PICTURE, vectors, sizeof vectors, THRESHOWL_BILINEAR, 0, skip,
                                                            levels, count, QUANTISER, out, THRESHOWL_OUT_LEN);
    }
}

static uint32_t from_products(int form, uint8_t skip, const int16_t *products, size_t count, uint8_t *out)
{
    switch (form) {
    case 0: return threshowl_reconstruct_whole(PICTURE, 3, -5, THRESHOWL_SIXTAP, 0, skip, products, count, out,
                                               THRESHOWL_OUT_LEN);
    case 1: return threshowl_reconstruct_whole_pixel(PICTURE, 16, -8, 0, skip, products, count, out, THRESHOWL_OUT_LEN);
    default: return threshowl_reconstruct_split(PICTURE, vectors, sizeof vectors, THRESHOWL_BILINEAR, 0, skip, products, count,
                                                out, THRESHOWL_OUT_LEN);
    }
}

static void macroblocks(int form, const char *name)
{
    static const size_t counts[] = {0, 1, 16, 383, 384, 385, 399, 400, 401, 416};
    const size_t first = form == 2 ? 16 : 0;
    uint64_t differ = 0, refused = 0;
    int round, i;
    for (round = 0; round < MACROBLOCKS; round++) {
        int16_t levels[LEVELS + 16], products[LEVELS + 16] = {0};
        uint8_t due[THRESHOWL_OUT_LEN + GUARD], out[THRESHOWL_OUT_LEN + GUARD];
        const int base = below(16) ? (int)below(STEPS) : between(-300, 300);
        const int kind = round % 4;
        const uint8_t skip = (uint8_t)(below(8) ? 0 : draw());
        const size_t count = below(16) ? LEVELS - first : counts[below(sizeof counts / sizeof counts[0])];
        int deltas[DELTAS], factors[FACTORS];
        uint32_t number;
        size_t at;
        for (i = 0; i < DELTAS; i++)
            deltas[i] = between(-15, 15);
        printed_factors(base, deltas, factors);
        for (at = 0; at < LEVELS + 16; at++) {
            const int factor = factor_of(factors, at < LEVELS ? at : 0);
            int product;
            levels[at] = level(kind, factor, at);
            /* A product beyond sixteen bits is beyond the domain, and so are their ends. */
            product = levels[at] * factor;
            products[at] = (int16_t)(product > INT16_MAX ? INT16_MAX : product < INT16_MIN ? INT16_MIN : product);
        }
        fill(plane_y, sizeof plane_y);
        fill(plane_u, sizeof plane_u);
        fill(plane_v, sizeof plane_v);
        fill(due, sizeof due);
        memcpy(out, due, sizeof out);
        number = from_products(form, skip, products + first, count, due);
        differ += from_levels(form, base, deltas, skip, levels + first, count, out) != number || memcmp(due, out, sizeof out) != 0;
        refused += number != THRESHOWL_DONE;
    }
    print(name, MACROBLOCKS, differ);
    printf("  of these refused: %" PRIu64 "\n", refused);
}

int main(int argc, char **argv)
{
    seed(argc, argv, 6386);
    printf("%-56s %10s %8s\n", "", "compared", "differ");
    tables();
    every_delta();
    any_deltas();
    extremes();
    macroblocks(0, "macroblocks from levels, whole");
    macroblocks(1, "macroblocks from levels, whole pixel");
    macroblocks(2, "macroblocks from levels, split");
    return failures ? EXIT_FAILURE : EXIT_SUCCESS;
}
