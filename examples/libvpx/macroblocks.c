/*
 * macroblocks.c: single macroblocks through libvpx's prediction and through
 * threshowl, with vectors that no encoder would send.
 *
 *   macroblocks COUNT [SEED]
 *
 * Each is drawn anew: a picture of 1 to 5 macroblocks either way, filled at
 * random, a version, a place, one vector or a way to split and its vectors, which
 * are short, or lie about where libvpx begins to bound them, or are any.  All 384
 * samples are compared.  One difference is known: in version 3 libvpx leaves the
 * chroma of some macroblocks as it was (docs/DIFFERENCES.md, section 5).  It is
 * counted, and has to show exactly where it is due.
 *
 * Exit status: 0 nothing else differs, 1 something does, 2 bad usage.
 */
#include <inttypes.h>
#include <stdbool.h>
#include <stdint.h>
#include <stdio.h>
#include <stdlib.h>
#include <string.h>

#include "vp8/common/entropymode.h"
#include "vp8/common/findnearmv.h"
#include "vp8/common/reconinter.h"
#include "vp8/decoder/onyxd_int.h"
#include "vp8_rtcd.h"
#include "vpx_scale/vpx_scale.h"
#include "vpx_scale_rtcd.h"

#include "../../tests/draw.h"
#include "takeover.h"
#include "threshowl.h"

enum { BORDER = VP8BORDERINPIXELS, LARGEST = 5, UNTOUCHED = 0x5A };

/* ---- a picture, its samples, and the place in it */

static void fill_plane(unsigned char *to, int stride, int width, int height)
{
    int kind = (int)below(3);

    for (int row = 0; row < height; row++)
        for (int col = 0; col < width; col++)
            to[row * stride + col] = (unsigned char)(kind == 0 ? draw() : kind == 1 ? 255 * (draw() & 1) : (draw() & 15) + 120);
}

static YV12_BUFFER_CONFIG new_frame(int cols, int rows)
{
    YV12_BUFFER_CONFIG frame;

    memset(&frame, 0, sizeof frame);
    if (vp8_yv12_alloc_frame_buffer(&frame, cols * 16, rows * 16, BORDER) != 0) {
        fputs("macroblocks: no memory\n", stderr);
        exit(2);
    }
    return frame;
}

static void draw_samples(YV12_BUFFER_CONFIG *frame)
{
    fill_plane(frame->y_buffer, frame->y_stride, frame->y_width, frame->y_height);
    fill_plane(frame->u_buffer, frame->uv_stride, frame->uv_width, frame->uv_height);
    fill_plane(frame->v_buffer, frame->uv_stride, frame->uv_width, frame->uv_height);
    vp8_yv12_extend_frame_borders(frame);
}

static void set_place(MACROBLOCKD *xd, const YV12_BUFFER_CONFIG *from, const YV12_BUFFER_CONFIG *to)
{
    int cols = from->y_width / 16;
    int rows = from->y_height / 16;
    int col = (int)below((size_t)cols);
    int row = (int)below((size_t)rows);

    xd->pre = *from;
    xd->pre.y_buffer += row * 16 * from->y_stride + col * 16;
    xd->pre.u_buffer += row * 8 * from->uv_stride + col * 8;
    xd->pre.v_buffer += row * 8 * from->uv_stride + col * 8;
    xd->dst = *to;
    xd->mb_to_left_edge = -col * 128;
    xd->mb_to_right_edge = (cols - 1 - col) * 128;
    xd->mb_to_top_edge = -row * 128;
    xd->mb_to_bottom_edge = (rows - 1 - row) * 128;
}

/* As vp8/decoder/decodeframe.c sets it up for a frame. */
static void set_version(MACROBLOCKD *xd, int version)
{
    bool bilinear = version > 0;

    xd->subpixel_predict = bilinear ? vp8_bilinear_predict4x4 : vp8_sixtap_predict4x4;
    xd->subpixel_predict8x4 = bilinear ? vp8_bilinear_predict8x4 : vp8_sixtap_predict8x4;
    xd->subpixel_predict8x8 = bilinear ? vp8_bilinear_predict8x8 : vp8_sixtap_predict8x8;
    xd->subpixel_predict16x16 = bilinear ? vp8_bilinear_predict16x16 : vp8_sixtap_predict16x16;
    xd->fullpixel_mask = version == 3 ? ~7 : ~0;
}

/* ---- vectors, in eighths and even, as libvpx has them */

static short draw_component(int to_low, int to_high)
{
    switch (below(4)) {
    case 0:
        return (short)(2 * between(-64, 64));
    case 1:
        return (short)(to_low - 19 * 8 + 2 * between(-20, 20));
    case 2:
        return (short)(to_high + 18 * 8 + 2 * between(-20, 20));
    default:
        return (short)(2 * between(-16384, 16383));
    }
}

static int_mv draw_vector(const MACROBLOCKD *xd)
{
    int_mv vector;

    vector.as_mv.row = draw_component(xd->mb_to_top_edge, xd->mb_to_bottom_edge);
    vector.as_mv.col = draw_component(xd->mb_to_left_edge, xd->mb_to_right_edge);
    return vector;
}

static bool past_bounds(const MACROBLOCKD *xd, int_mv vector)
{
    return vp8_check_mv_bounds(&vector, xd->mb_to_left_edge - LEFT_TOP_MARGIN, xd->mb_to_right_edge + RIGHT_BOTTOM_MARGIN,
                               xd->mb_to_top_edge - LEFT_TOP_MARGIN, xd->mb_to_bottom_edge + RIGHT_BOTTOM_MARGIN) != 0;
}

/* As vp8/decoder/decodemv.c leaves it. */
static void draw_mode(const MACROBLOCKD *xd, MODE_INFO *info)
{
    int_mv vectors[16];

    memset(info, 0, sizeof *info);
    info->mbmi.ref_frame = LAST_FRAME;
    if (draw() & 1) {
        info->mbmi.mode = NEWMV;
        info->mbmi.mv = draw_vector(xd);
        info->mbmi.need_to_clamp_mvs = past_bounds(xd, info->mbmi.mv);
        return;
    }
    info->mbmi.mode = SPLITMV;
    info->mbmi.is_4x4 = 1;
    info->mbmi.partitioning = (uint8_t)below(4);
    for (int part = 0; part < 16; part++)
        vectors[part] = part > 0 && below(3) == 0 ? vectors[part - 1] : draw_vector(xd);
    for (int block = 0; block < 16; block++) {
        info->bmi[block].mv = vectors[vp8_mbsplits[info->mbmi.partitioning][block]];
        info->mbmi.need_to_clamp_mvs |= past_bounds(xd, info->bmi[block].mv);
    }
    info->mbmi.mv = info->bmi[15].mv;
}

/* ---- both predictions */

/* Whether libvpx will leave chroma alone: version 3, one vector, and the chroma vector is past 9.5 pixels
   above or left of the picture only once it is lowered. */
static bool left_alone(const MACROBLOCKD *xd)
{
    MV vector = xd->mode_info_context->mbmi.mv.as_mv;
    bool above = vector.row >= xd->mb_to_top_edge - 152 && vector.row < xd->mb_to_top_edge - 144;
    bool before = vector.col >= xd->mb_to_left_edge - 152 && vector.col < xd->mb_to_left_edge - 144;

    return xd->mode_info_context->mbmi.mode != SPLITMV && xd->fullpixel_mask == ~7 && (above || before);
}

static bool same(const unsigned char *got, int stride, const uint8_t *due, int side)
{
    for (int row = 0; row < side; row++)
        if (memcmp(got + row * stride, due + row * side, (size_t)side) != 0)
            return false;
    return true;
}

static bool untouched(const unsigned char *got, int stride)
{
    uint8_t due[64];

    memset(due, UNTOUCHED, sizeof due);
    return same(got, stride, due, 8);
}

typedef struct {
    uint64_t whole, split, bounded, alone;
} Tally;

static bool compare(MACROBLOCKD *xd, int version, Tally *tally)
{
    const MB_MODE_INFO *mode = &xd->mode_info_context->mbmi;
    uint8_t out[THRESHOWL_OUT_LEN];
    bool alone = left_alone(xd);

    tally->whole += mode->mode != SPLITMV;
    tally->split += mode->mode == SPLITMV;
    tally->bounded += mode->need_to_clamp_mvs;
    tally->alone += alone;
    memset(xd->dst.buffer_alloc, UNTOUCHED, (size_t)xd->dst.frame_size);
    vp8_build_inter_predictors_mb(xd);
    if (takeover_predict(xd, (uint8_t)version, out) != THRESHOWL_DONE || !same(xd->dst.y_buffer, xd->dst.y_stride, out, 16))
        return false;
    if (alone)
        return untouched(xd->dst.u_buffer, xd->dst.uv_stride) && untouched(xd->dst.v_buffer, xd->dst.uv_stride);
    return same(xd->dst.u_buffer, xd->dst.uv_stride, out + 256, 8) && same(xd->dst.v_buffer, xd->dst.uv_stride, out + 320, 8);
}

static void describe(const MACROBLOCKD *xd, int version)
{
    const MODE_INFO *info = xd->mode_info_context;

    printf("differs: version %d, edges at %d %d %d %d, mode %d, partitioning %d, vectors", version, xd->mb_to_left_edge,
           xd->mb_to_right_edge, xd->mb_to_top_edge, xd->mb_to_bottom_edge, info->mbmi.mode, info->mbmi.partitioning);
    for (int block = 0; block < (info->mbmi.mode == SPLITMV ? 16 : 1); block++) {
        MV vector = info->mbmi.mode == SPLITMV ? info->bmi[block].mv.as_mv : info->mbmi.mv.as_mv;

        printf(" (%d,%d)", vector.row, vector.col);
    }
    putchar('\n');
}

static MACROBLOCKD macroblock;

int main(int count, char **words)
{
    MACROBLOCKD *xd = &macroblock;
    MODE_INFO info;
    Tally tally = {0, 0, 0, 0};
    uint64_t differ = 0;

    if (count < 2 || count > 3) {
        fputs("usage: macroblocks COUNT [SEED]\n", stderr);
        return 2;
    }
    state = count == 3 ? strtoull(words[2], NULL, 10) : 1;
    vp8_rtcd();
    vpx_scale_rtcd();
    YV12_BUFFER_CONFIG to = new_frame(1, 1);
    xd->mode_info_context = &info;

    for (uint64_t left = strtoull(words[1], NULL, 10); left > 0;) {
        YV12_BUFFER_CONFIG from = new_frame(1 + (int)below(LARGEST), 1 + (int)below(LARGEST));

        /* libvpx reads both frames by one stride. */
        vp8_yv12_de_alloc_frame_buffer(&to);
        to = new_frame(from.y_width / 16, from.y_height / 16);
        for (int turn = 0; turn < 64 && left > 0; turn++, left--) {
            int version = (int)below(4);

            if (turn % 16 == 0)
                draw_samples(&from);
            set_version(xd, version);
            set_place(xd, &from, &to);
            vp8_build_block_doffsets(xd);
            draw_mode(xd, &info);
            if (!compare(xd, version, &tally) && ++differ <= 10)
                describe(xd, version);
        }
        vp8_yv12_de_alloc_frame_buffer(&from);
    }
    printf("  %" PRIu64 " whole and %" PRIu64 " split, %" PRIu64 " of them bounded by libvpx; %" PRIu64
           " whose chroma libvpx leaves as it was; %" PRIu64 " differ otherwise\n",
           tally.whole, tally.split, tally.bounded, tally.alone, differ);
    return differ != 0;
}
