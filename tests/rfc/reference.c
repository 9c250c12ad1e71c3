/*
 * See reference.h.  Compiled with the listings of the RFC (tests/rfc/listings):
 * 20.8, 20.14 and 20.22 beside it; 20.11 inside it, whose test for the edge is
 * a static function.  What decode_frame of 20.4 does around prediction is done
 * here: the key frame becomes the last frame, then a new frame is begun.
 */
#include "modemv.c"
#include "predict.h"

#include <string.h>

#include "image.h"
#include "reference.h"

static struct vp8_decoder_ctx ctx;
static struct mb_info *row_of_mbs[MOST_MBS];
static struct mb_info mbs[MOST_MBS * MOST_MBS];
static short coefficients[MOST_MBS * 25 * 16];

void reference_picture(const Picture *p, unsigned version, uint8_t around)
{
    vp8_dixie_predict_destroy(&ctx);
    memset(&ctx, 0, sizeof ctx);
    ctx.mb_cols = (unsigned)p->cols;
    ctx.mb_rows = (unsigned)p->rows;
    ctx.mb_info_rows = row_of_mbs;
    for (size_t r = 0; r < p->rows; r++)
        row_of_mbs[r] = mbs + r * p->cols;
    ctx.token_hdr.partitions = 1;
    ctx.tokens[0].coeffs = coefficients;

    ctx.frame_hdr.version = version;
    ctx.frame_hdr.is_keyframe = 1;
    ctx.frame_hdr.frame_size_updated = 1;
    ctx.frame_hdr.kf.w = ctx.mb_cols * 16;
    ctx.frame_hdr.kf.h = ctx.mb_rows * 16;
    vp8_dixie_predict_init(&ctx);
    for (int i = 0; i < NUM_REF_FRAMES; i++) {
        const vpx_image_t *img = &ctx.frame_strg[i].img;
        memset(img->img_data, around, (size_t)img->w * img->h * 3 / 2);
    }
    image_put(&ctx.ref_frames[CURRENT_FRAME]->img, p);
    ctx.ref_frames[LAST_FRAME] = vp8_dixie_ref_frame(ctx.ref_frames[CURRENT_FRAME]);

    ctx.frame_hdr.is_keyframe = 0;
    ctx.frame_hdr.frame_size_updated = 0;
    vp8_dixie_predict_init(&ctx);
}

static union mv stored(Vector v)
{
    union mv mv;
    mv.d.x = (int16_t)(v.col * 2);
    mv.d.y = (int16_t)(v.row * 2);
    return mv;
}

/* The statements of 20.11, on names as they are there. */
static void mark_split(struct mb_info *this, int x, int y)
{
    union mv chroma_mv[4] = {{{0}}};
    int b, w = ctx.mb_cols * 16, h = ctx.mb_rows * 16;
#include "split_mark.h"
}

static void set_vectors(struct mb_info *mb, Place at, bool split, const Vector *vectors)
{
    int x = (int)at.col * 16, y = (int)at.row * 16;
    memset(mb, 0, sizeof *mb);
    mb->base.ref_frame = LAST_FRAME;
    mb->base.y_mode = mb->base.uv_mode = split ? SPLITMV : NEWMV;
    mb->base.mv = stored(vectors[split ? 15 : 0]);
    if (split) {
        for (int b = 0; b < 16; b++)
            mb->split.mvs[b] = stored(vectors[b]);
        mark_split(mb, x, y);
    } else {
        mb->base.need_mc_border = need_mc_border(mb->base.mv, x, y, 16, (int)ctx.mb_cols * 16, (int)ctx.mb_rows * 16);
    }
}

bool reference_predict(Place at, bool split, const Vector *vectors, bool mark, uint8_t *samples)
{
    struct mb_info *mb = row_of_mbs[at.row] + at.col;
    set_vectors(mb, at, split, vectors);
    bool marked = mb->base.need_mc_border;
    if (mark)
        mb->base.need_mc_border = 1;
    vp8_dixie_predict_process_row(&ctx, (unsigned)at.row, (unsigned)at.col, 1);
    image_take(&ctx.ref_frames[CURRENT_FRAME]->img, at, samples);
    return marked;
}
