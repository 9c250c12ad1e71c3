/*
 * host.c: a host without a C library.
 *
 * It has what include/threshowl.h says that the library wants of a host, and is
 * linked with the whole archive and nothing else: were any other symbol needed,
 * the link would fail.  It calls each function once.
 *
 * Exit status: 0 when numbers and bytes are as they should be, else the number
 * of the first call that is not, counted from 1.
 */
#include <stddef.h>
#include <stdint.h>

#include "threshowl.h"

/* ---- What the library wants of a host ---- */

void *memcpy(void *to, const void *from, size_t len);
void *memset(void *to, int value, size_t len);

/* volatile: else a compiler may make of the loop a call of the function itself. */
void *memcpy(void *to, const void *from, size_t len)
{
    volatile uint8_t *t = (uint8_t *)to;
    const uint8_t *f = (const uint8_t *)from;
    size_t i;
    for (i = 0; i < len; i++) {
        t[i] = f[i];
    }
    return to;
}

void *memset(void *to, int value, size_t len)
{
    volatile uint8_t *t = (uint8_t *)to;
    size_t i;
    for (i = 0; i < len; i++) {
        t[i] = (uint8_t)value;
    }
    return to;
}

/* ---- Prediction: a picture of one macroblock, one luma pixel to the right ---- */

enum { COL = 4, OLD = 0xAA, V_STRIDE = 13 };

static uint8_t y[256], u[64], v[V_STRIDE * 7 + 8], due[THRESHOWL_OUT_LEN], out[THRESHOWL_OUT_LEN];
static uint8_t vectors[THRESHOWL_VECTORS_LEN];

#define PLANES y, sizeof y, u, sizeof u, v, sizeof v
#define PICTURE PLANES, 16, 8, V_STRIDE, 1, 1, 0, 0
#define VECTORS vectors, sizeof vectors

static int same(const uint8_t *a, const uint8_t *b, size_t len)
{
    size_t i;
    for (i = 0; i < len; i++) {
        if (a[i] != b[i]) {
            return 0;
        }
    }
    return 1;
}

/* Ramps along the rows.  Luma moves by a whole pixel, chroma by half of one:
   under bilinear it is then halfway to the next sample.  At the right edge both
   repeat the last column. */
static void prepare(void)
{
    size_t row, col, i;
    for (row = 0; row < 16; row++) {
        for (col = 0; col < 16; col++) {
            y[row * 16 + col] = (uint8_t)(16 * col + row);
            due[row * 16 + col] = (uint8_t)(16 * (col < 15 ? col + 1 : 15) + row);
        }
    }
    for (row = 0; row < 8; row++) {
        for (col = 0; col < 8; col++) {
            size_t half = col < 7 ? 15 : 0;
            u[row * 8 + col] = (uint8_t)(30 * col + row);
            v[row * V_STRIDE + col] = (uint8_t)(250 - 30 * col - row);
            due[256 + row * 8 + col] = (uint8_t)(30 * col + row + half);
            due[320 + row * 8 + col] = (uint8_t)(250 - 30 * col - row - half);
        }
    }
    for (i = 0; i < 16; i++) {
        vectors[4 * i + 2] = COL;
    }
}

/* Whether a call that gave this number left in out what is due.  Then out is
   overwritten, so that the next call has to write it. */
static int predicted(uint32_t number)
{
    int holds = number == THRESHOWL_DONE && same(out, due, sizeof out);
    memset(out, OLD, sizeof out);
    return holds;
}

static int whole(void)
{
    return predicted(threshowl_predict_whole(PICTURE, 0, COL, THRESHOWL_BILINEAR, 0, out, sizeof out));
}

static int split(void)
{
    return predicted(threshowl_predict_split(PICTURE, VECTORS, THRESHOWL_BILINEAR, 0, out, sizeof out));
}

static int merging(void)
{
    return predicted(threshowl_predict_merging(PICTURE, VECTORS, THRESHOWL_BILINEAR, 0, out, sizeof out));
}

static int quarters(void)
{
    return predicted(threshowl_predict_quarters(PICTURE, VECTORS, THRESHOWL_BILINEAR, 0, out, sizeof out));
}

static int report(void)
{
    uint64_t fetched = 0, low = 1, high = 1;
    return predicted(threshowl_predict_report(PICTURE, VECTORS, 2, THRESHOWL_BILINEAR, 0, out, sizeof out, &fetched, &low, &high)) &&
           fetched >= 384 && low == 0 && high == 0;
}

static int add_clipped(void)
{
    uint64_t low = 5, high = UINT64_MAX;
    return threshowl_add_clipped(&low, &high, 1, 0) == THRESHOWL_DONE && low == 6 && high == UINT64_MAX &&
           threshowl_add_clipped(&low, &high, 1, 1) == THRESHOWL_FULL_TOTALS && low == 6 && high == UINT64_MAX;
}

static int whole_by_version(void)
{
    return predicted(threshowl_predict_whole_by_version(PICTURE, 0, COL, 1, 0, out, sizeof out));
}

static int split_by_version(void)
{
    return predicted(threshowl_predict_split_by_version(PICTURE, VECTORS, 2, 1, out, sizeof out));
}

/* A frame of the one macroblock, split from altref, with rows of V that are longer
   than they need be. */
static int predict_frame(void)
{
    static uint8_t frame_y[256], frame_u[64], frame_v[8 * V_STRIDE], order[THRESHOWL_ORDER_LEN];
    order[0] = THRESHOWL_ALTREF;
    order[1] = THRESHOWL_SPLIT;
    memcpy(order + 2, vectors, sizeof vectors);
    return threshowl_predict_frame(PLANES, PLANES, PLANES, 16, 8, V_STRIDE, 1, 1, order, sizeof order, THRESHOWL_BILINEAR, 0, frame_y,
                                   sizeof frame_y, frame_u, sizeof frame_u, frame_v, sizeof frame_v, 16, 8, V_STRIDE) == THRESHOWL_DONE
           && same(frame_y, due, 256) && same(frame_u, due + 256, 64) && same(frame_v, due + 320, 8)
           && same(frame_v + V_STRIDE, due + 328, 8) && frame_v[8] == 0;
}

/* ---- Decoded macroblocks: the same, with the residue added ---- */

static int16_t coefficients[THRESHOWL_COEFFICIENTS];

/* What is due where Y2 adds two to each sample of Y, and the first number of each
   block of U and V takes three from it. */
static void add_residue(void)
{
    size_t i;
    coefficients[0] = 2 * 8 * 8;
    for (i = 0; i < 256; i++) {
        due[i] = (uint8_t)(due[i] < 253 ? due[i] + 2 : 255);
    }
    for (i = 0; i < 8; i++) {
        coefficients[272 + 16 * i] = -3 * 8;
    }
    for (i = 256; i < THRESHOWL_OUT_LEN; i++) {
        due[i] = (uint8_t)(due[i] < 3 ? 0 : due[i] - 3);
    }
}

static int reconstruct_whole(void)
{
    add_residue();
    return predicted(threshowl_reconstruct_whole(PICTURE, 0, COL, THRESHOWL_BILINEAR, 0, 0, coefficients,
                                                 THRESHOWL_COEFFICIENTS, out, sizeof out));
}

/* What Y2 gave is here each block's own first number. */
static int reconstruct_split(void)
{
    size_t i;
    for (i = 0; i < 16; i++) {
        coefficients[16 + 16 * i] = 2 * 8;
    }
    return predicted(threshowl_reconstruct_split(PICTURE, VECTORS, THRESHOWL_BILINEAR, 0, 0, coefficients + 16,
                                                 THRESHOWL_SPLIT_COEFFICIENTS, out, sizeof out));
}

/* Chroma is moved by half a pixel: full-pixel alone leaves no fraction. */
static int reconstruct_whole_pixel(void)
{
    uint32_t number = threshowl_reconstruct_whole_pixel(PICTURE, 0, COL, 0, 0, coefficients,
                                                        THRESHOWL_COEFFICIENTS, out, sizeof out);
    return number == THRESHOWL_FRACTION_LEFT
           && threshowl_reconstruct_whole_pixel(PICTURE, 0, COL, 1, 0, coefficients, THRESHOWL_COEFFICIENTS,
                                                out, sizeof out) == THRESHOWL_DONE
           && same(out, due, 256);
}

/* ---- And from levels: at base index 0 the first of a Y2 block is multiplied by 8, that of another by 4 ---- */

static int16_t levels[THRESHOWL_COEFFICIENTS];

#define INDICES 0, 0, 0, 0, 0, 0

static int reconstruct_whole_from_levels(void)
{
    size_t i;
    levels[0] = 2 * 8;
    for (i = 0; i < 8; i++) {
        levels[272 + 16 * i] = -3 * 2;
    }
    return predicted(threshowl_reconstruct_whole_from_levels(PICTURE, 0, COL, THRESHOWL_BILINEAR, 0, 0, levels,
                                                             THRESHOWL_COEFFICIENTS, INDICES, out, sizeof out));
}

static int reconstruct_whole_pixel_from_levels(void)
{
    uint32_t number = threshowl_reconstruct_whole_pixel_from_levels(PICTURE, 0, COL, 0, 0, levels,
                                                                    THRESHOWL_COEFFICIENTS, INDICES, out, sizeof out);
    return number == THRESHOWL_FRACTION_LEFT
           && threshowl_reconstruct_whole_pixel_from_levels(PICTURE, 0, COL, 1, 0, levels, THRESHOWL_COEFFICIENTS,
                                                            INDICES, out, sizeof out) == THRESHOWL_DONE
           && same(out, due, 256);
}

static int reconstruct_split_from_levels(void)
{
    size_t i;
    for (i = 0; i < 16; i++) {
        levels[16 + 16 * i] = 2 * 2;
    }
    return predicted(threshowl_reconstruct_split_from_levels(PICTURE, VECTORS, THRESHOWL_BILINEAR, 0, 0, levels + 16,
                                                             THRESHOWL_SPLIT_COEFFICIENTS, INDICES, out, sizeof out));
}

/* ---- Recordings: a complete frame, then five bytes of another ---- */

static int mend(void)
{
    /* The header counts nine frames; the one that is there has three bytes of data. */
    static uint8_t file[32 + 15 + 5] = {
        'D', 'K', 'I', 'F', 0, 0, 32, [24] = 9, [32] = 3, [44] = 7, 8, 9, 200
    };
    static uint8_t mended[sizeof file], wanted[sizeof file];
    uint64_t old_count = OLD, new_count = OLD, dropped = OLD;
    uint32_t number;
    memset(mended, OLD, sizeof mended);
    memset(wanted, OLD, sizeof wanted);
    memcpy(wanted, file, 47);
    wanted[24] = 1;
    number = threshowl_ivf_mend(file, sizeof file, mended, sizeof mended,
                                &old_count, &new_count, &dropped);
    return number == THRESHOWL_DONE && old_count == 9 && new_count == 1 && dropped == 5
           && same(mended, wanted, sizeof wanted);
}

/* ---- Pictures: a header, and a frame of 3 by 1 samples, read and written ---- */

static const uint8_t film[] = "YUV4MPEG2 W3 H1\nFRAME\nabcUuVv";

enum { FILM_HEADER = 16, FILM_FRAME = 13, FILM_LEN = FILM_HEADER + FILM_FRAME };

static int header(void)
{
    uint64_t width = OLD, height = OLD, taken = OLD;
    return threshowl_y4m_header(film, FILM_LEN, &width, &height, &taken) == THRESHOWL_DONE
           && width == 3 && height == 1 && taken == FILM_HEADER;
}

static int frame(void)
{
    static uint8_t padded[THRESHOWL_Y4M_PADDED_LEN(3, 1)], back[FILM_FRAME];
    uint64_t taken = OLD, written = OLD;
    return threshowl_y4m_read_frame(film + FILM_HEADER, FILM_FRAME, 3, 1, padded, sizeof padded, &taken) == THRESHOWL_DONE
           && taken == FILM_FRAME && padded[2] == 'c' && padded[255] == 'c' && padded[319] == 'u' && padded[383] == 'v'
           && threshowl_y4m_write_frame(padded, sizeof padded, 3, 1, back, sizeof back, &written) == THRESHOWL_DONE
           && written == FILM_FRAME && same(back, film + FILM_HEADER, FILM_FRAME);
}

/* ---- Where the program begins and ends (Linux, x86-64) ---- */

static int (*const calls[])(void) = {whole, split, merging, quarters, report, add_clipped, whole_by_version, split_by_version, predict_frame,
                                    reconstruct_whole, reconstruct_split, reconstruct_whole_pixel,
                                    reconstruct_whole_from_levels, reconstruct_whole_pixel_from_levels,
                                    reconstruct_split_from_levels, mend, header, frame};

int run(void);

int run(void)
{
    size_t i;
    prepare();
    for (i = 0; i < sizeof calls / sizeof calls[0]; i++) {
        if (!calls[i]()) {
            return (int)i + 1;
        }
    }
    return 0;
}

__asm__(".globl _start\n"
        "_start:\n"
        "    xor %ebp, %ebp\n"
        "    call run\n"
        "    mov %eax, %edi\n"
        "    mov $60, %eax\n"
        "    syscall\n");
