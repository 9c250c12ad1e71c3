/*
 * takeover.c: what libvpx's VP8 decoder calls, once the linker was told
 * --wrap=vp8_build_inter_predictors_mb, in the place of its own prediction of a
 * macroblock from an earlier frame.  It hands the macroblock to threshowl and
 * puts the 384 samples that come back where the decoder wants them.
 *
 * libvpx has vectors in eighths of a luma pixel, all even, and bounds those that
 * point far outside before it predicts, since its frames have 32 pixels of
 * border.  Here they go in as they were read, in quarters, and the picture is
 * the frame without its border.
 */
#include <stddef.h>
#include <stdint.h>
#include <stdio.h>
#include <stdlib.h>
#include <string.h>

#include "vp8/decoder/onyxd_int.h"

#include "takeover.h"
#include "threshowl.h"

TakeoverCounts takeover_counts;

/* Any value but 0: the reference decoder's reading of version 3, which is libvpx's. */
#ifndef STANDARD
#define STANDARD 1
#endif

/* Where the macroblock stands, in macroblocks. */
typedef struct {
    int cols, rows, col, row;
} Place;

/* The picture that a macroblock is predicted from: its first samples. */
typedef struct {
    const uint8_t *y, *u, *v;
    size_t y_len, uv_len, y_stride, uv_stride;
} Reference;

static Place place_of(const MACROBLOCKD *xd)
{
    Place at;

    at.col = -xd->mb_to_left_edge / 128;
    at.row = -xd->mb_to_top_edge / 128;
    at.cols = at.col + 1 + xd->mb_to_right_edge / 128;
    at.rows = at.row + 1 + xd->mb_to_bottom_edge / 128;
    return at;
}

/* `pre` points to the macroblock at the same place of the earlier frame. */
static Reference reference_of(const MACROBLOCKD *xd, Place at)
{
    ptrdiff_t y_stride = xd->pre.y_stride;
    ptrdiff_t uv_stride = xd->pre.uv_stride;
    ptrdiff_t uv_back = at.row * 8 * uv_stride + at.col * 8;
    Reference from;

    from.y = xd->pre.y_buffer - (at.row * 16 * y_stride + at.col * 16);
    from.u = xd->pre.u_buffer - uv_back;
    from.v = xd->pre.v_buffer - uv_back;
    from.y_len = (size_t)((at.rows * 16 - 1) * y_stride + at.cols * 16);
    from.uv_len = (size_t)((at.rows * 8 - 1) * uv_stride + at.cols * 8);
    from.y_stride = (size_t)y_stride;
    from.uv_stride = (size_t)uv_stride;
    return from;
}

/* The decoder that the macroblock belongs to: it runs in one thread, and so has one. */
static uint8_t version_of(const MACROBLOCKD *xd)
{
    const VP8D_COMP *decoder = (const VP8D_COMP *)(const void *)((const char *)xd - offsetof(VP8D_COMP, mb));

    return (uint8_t)decoder->common.version;
}

static void put_vector(uint8_t *to, MV eighths)
{
    uint16_t row = (uint16_t)(eighths.row / 2);
    uint16_t col = (uint16_t)(eighths.col / 2);

    to[0] = (uint8_t)(row & 255);
    to[1] = (uint8_t)(row >> 8);
    to[2] = (uint8_t)(col & 255);
    to[3] = (uint8_t)(col >> 8);
}

static void put_plane(unsigned char *to, int stride, const uint8_t *from, size_t side)
{
    for (size_t row = 0; row < side; row++) {
        memcpy(to, from + row * side, side);
        to += stride;
    }
}

uint32_t takeover_predict(const MACROBLOCKD *xd, uint8_t version, uint8_t *out)
{
    const MODE_INFO *info = xd->mode_info_context;
    Place at = place_of(xd);
    Reference from = reference_of(xd, at);
    uint8_t vectors[THRESHOWL_VECTORS_LEN];

    if (info->mbmi.mode != SPLITMV)
        return threshowl_predict_whole_by_version(
            from.y, from.y_len, from.u, from.uv_len, from.v, from.uv_len,
            from.y_stride, from.uv_stride, from.uv_stride,
            (size_t)at.cols, (size_t)at.rows, (size_t)at.col, (size_t)at.row,
            (int16_t)(info->mbmi.mv.as_mv.row / 2), (int16_t)(info->mbmi.mv.as_mv.col / 2),
            version, STANDARD, out, THRESHOWL_OUT_LEN);

    for (size_t block = 0; block < 16; block++)
        put_vector(vectors + 4 * block, info->bmi[block].mv.as_mv);
    return threshowl_predict_split_by_version(
        from.y, from.y_len, from.u, from.uv_len, from.v, from.uv_len,
        from.y_stride, from.uv_stride, from.uv_stride,
        (size_t)at.cols, (size_t)at.rows, (size_t)at.col, (size_t)at.row,
        vectors, sizeof vectors, version, STANDARD, out, THRESHOWL_OUT_LEN);
}

/* ---- counts: what the comparison was about */

/* Whether a square of luma, moved by its vector, is not within the picture. */
static bool leaves(Place at, int x, int y, int side, MV eighths)
{
    int left = at.col * 16 + x + (eighths.col >> 3);
    int top = at.row * 16 + y + (eighths.row >> 3);
    int across = (eighths.col & 7) != 0;
    int down = (eighths.row & 7) != 0;

    return left < 0 || top < 0 || left + side + across > at.cols * 16 || top + side + down > at.rows * 16;
}

static void count(const MACROBLOCKD *xd)
{
    const MODE_INFO *info = xd->mode_info_context;
    TakeoverCounts *counts = &takeover_counts;
    Place at = place_of(xd);

    counts->clamped += info->mbmi.need_to_clamp_mvs != 0;
    if (info->mbmi.mode != SPLITMV) {
        counts->whole++;
        counts->fractions += ((info->mbmi.mv.as_mv.row | info->mbmi.mv.as_mv.col) & 7) != 0;
        counts->whole_outside += leaves(at, 0, 0, 16, info->mbmi.mv.as_mv);
        return;
    }
    counts->split++;
    counts->split_in_16 += info->mbmi.partitioning == 3;
    for (int block = 0; block < 16; block++)
        counts->blocks_outside += leaves(at, block % 4 * 4, block / 4 * 4, 4, info->bmi[block].mv.as_mv);
}

/* ---- the call that is taken over */

void __wrap_vp8_build_inter_predictors_mb(MACROBLOCKD *xd);

void __wrap_vp8_build_inter_predictors_mb(MACROBLOCKD *xd)
{
    uint8_t out[THRESHOWL_OUT_LEN];
    uint32_t number = takeover_predict(xd, version_of(xd), out);

    if (number != THRESHOWL_DONE) {
        fprintf(stderr, "threshowl refused a macroblock with %u\n", (unsigned)number);
        exit(1);
    }
    if (takeover_counts.wanted)
        count(xd);
    put_plane(xd->dst.y_buffer, xd->dst.y_stride, out, 16);
    put_plane(xd->dst.u_buffer, xd->dst.uv_stride, out + 256, 8);
    put_plane(xd->dst.v_buffer, xd->dst.uv_stride, out + 320, 8);
}
