/*
 * See stream.h.  Compiled with the listings of the RFC (tests/rfc/listings),
 * whose tables and trees the writer takes.  What is written follows sections
 * 7, 9, 16, 17 and 19; whatever a frame can leave out is left out.
 */
#include "dixie.h"
#include "modemv_data.h"
#include "vp8_prob_data.h"

#include <stdlib.h>
#include <string.h>

#include "image.h"
#include "stream.h"

/* ---- coded bits: the low end of the interval, in as many bits as it takes, and its length */

enum { MOST_BITS = 65536, SKIP_PROB = 128, INTER_PROB = 128, LAST_PROB = 128 };

static uint8_t bits[MOST_BITS];
static size_t bits_len;
static unsigned low, range;

static void begin(void)
{
    bits_len = 0;
    low = 0;
    range = 255;
}

static void carry(void)
{
    size_t i = bits_len - 1;
    while (bits[i] == 1)
        bits[i--] = 0;
    bits[i] = 1;
}

static void put(bool bit, int probability)
{
    unsigned split = 1 + ((range - 1) * (unsigned)probability) / 256;
    if (bit) {
        low += split;
        range -= split;
    } else {
        range = split;
    }
    if (low >= 256) {
        carry();
        low -= 256;
    }
    for (; range < 128; range *= 2) {
        bits[bits_len++] = (uint8_t)(low / 128);
        low = low % 128 * 2;
    }
}

static void put_number(unsigned n, int width)
{
    while (width-- > 0)
        put(n >> width & 1, 128);
}

static size_t finish(uint8_t *to)
{
    for (int i = 7; i >= 0; i--)
        bits[bits_len++] = (uint8_t)(low >> i & 1);
    while (bits_len % 8 != 0)
        bits[bits_len++] = 0;
    for (size_t i = 0; i < bits_len / 8; i++) {
        to[i] = 0;
        for (size_t j = 0; j < 8; j++)
            to[i] = (uint8_t)(to[i] << 1 | bits[i * 8 + j]);
    }
    return bits_len / 8;
}

/* A leaf of a tree from node i on; gives whether it is there. */
static bool put_leaf(const int *tree, const unsigned char *probs, int leaf, int i, bool write)
{
    for (int bit = 0; bit < 2; bit++) {
        int next = tree[i + bit];
        if (next > 0 ? put_leaf(tree, probs, leaf, next, false) : -next == leaf) {
            if (write) {
                put(bit, probs[i / 2]);
                if (next > 0)
                    put_leaf(tree, probs, leaf, next, true);
            }
            return true;
        }
    }
    return false;
}

static void put_tree(const int *tree, const unsigned char *probs, int leaf)
{
    put_leaf(tree, probs, leaf, 0, true);
}

/* ---- the header of a frame, 9.3 to 9.11 */

static void put_header(bool key)
{
    if (key)
        put_number(0, 2);               /* colour space, clamping */
    put_number(0, 1);                   /* no segments */
    put_number(0, 1 + 6 + 3 + 1);       /* loop filter: normal, level 0, sharpness 0, no deltas */
    put_number(0, 2);                   /* one partition of tokens */
    put_number(0, 7 + 5);               /* quantizer 0, no deltas */
    if (!key)
        put_number(0, 1 + 1 + 2 + 2 + 2); /* golden and altref stay, no signs turned */
    put_number(1, 1);                   /* probabilities stay */
    if (!key)
        put_number(0, 1);               /* the last frame stays */
    for (int i = 0; i < BLOCK_TYPES; i++)
        for (int j = 0; j < COEFF_BANDS; j++)
            for (int k = 0; k < PREV_COEFF_CONTEXTS; k++)
                for (int l = 0; l < ENTROPY_NODES; l++)
                    put(false, k_coeff_entropy_update_probs[i][j][k][l]);
    put_number(1, 1);                   /* macroblocks say that they have no residue */
    put_number(SKIP_PROB, 8);
    if (key)
        return;
    put_number(INTER_PROB, 8);
    put_number(LAST_PROB, 8);
    put_number(128, 8);
    put_number(0, 2);                   /* intra modes have their probabilities */
    for (int i = 0; i < 2; i++)
        for (int j = 0; j < MV_PROB_CNT; j++)
            put(false, k_mv_entropy_update_probs[i][j]);
}

/* ---- vectors, 16.3, 16.4 and 17.2 */

static void put_component(int z, const unsigned char *probs)
{
    enum { IS_LONG, SIGN, SHORT, LONG = SHORT + 7 };
    unsigned n = (unsigned)abs(z);
    put(n > 7, probs[IS_LONG]);
    if (n > 7) {
        for (int i = 0; i < 3; i++)
            put(n >> i & 1, probs[LONG + i]);
        for (int i = 9; i > 3; i--)
            put(n >> i & 1, probs[LONG + i]);
        if (n > 15)
            put(n >> 3 & 1, probs[LONG + 3]);
    } else {
        put_tree(small_mv_tree, probs + SHORT, (int)n);
    }
    if (n > 0)
        put(z < 0, probs[SIGN]);
}

static void put_vector(Vector v)
{
    put_component(v.row, k_default_mv_probs[0]);
    put_component(v.col, k_default_mv_probs[1]);
}

static bool is_zero(Vector v)
{
    return v.row == 0 && v.col == 0;
}

/* which probabilities a block's mode has, by the vectors left of it and above */
static int context(Vector left, Vector above)
{
    if (left.row == above.row && left.col == above.col)
        return is_zero(left) ? 4 : 3;
    return is_zero(above) ? 2 : is_zero(left) ? 1 : 0;
}

static void put_split(const Vector *vectors)
{
    const Vector none = {0, 0};
    put_tree(split_mv_tree, split_mv_probs, SPLITMV_4X4);
    for (int b = 0; b < 16; b++) {
        Vector left = b % 4 == 0 ? none : vectors[b - 1], above = b < 4 ? none : vectors[b - 4];
        put_tree(submv_ref_tree, submv_ref_probs2[context(left, above)], NEW4X4);
        put_vector(vectors[b]);
    }
}

/* ---- macroblocks and frames */

static void put_intra(bool key)
{
    if (!key)
        put(false, INTER_PROB);
    put_tree(key ? kf_y_mode_tree : y_mode_tree, key ? kf_y_mode_probs : k_default_y_mode_probs, DC_PRED);
    put_tree(uv_mode_tree, key ? kf_uv_mode_probs : k_default_uv_mode_probs, DC_PRED);
}

static void put_inter(bool split, const Vector *vectors)
{
    put(true, INTER_PROB);
    put(false, LAST_PROB);
    put_tree(mv_ref_tree, mv_counts_to_probs[0], split ? SPLITMV : NEWMV);
    if (split)
        put_split(vectors);
    else
        put_vector(vectors[0]);
}

static void put_tag(uint8_t *to, bool key, unsigned version, size_t len)
{
    size_t tag = (key ? 0 : 1) | version << 1 | 1 << 4 | len << 5;
    for (int i = 0; i < 3; i++)
        to[i] = (uint8_t)(tag >> 8 * i);
}

static struct vp8_decoder_ctx ctx;

/* The bits that are written, as a frame; sixteen bytes for the tokens, of which none is wanted. */
static bool decode(bool key, unsigned version)
{
    static uint8_t frame[MOST_BITS / 8 + 64];
    size_t head = 3;
    if (key) {
        const unsigned w = ctx.mb_cols * 16, h = ctx.mb_rows * 16;
        const uint8_t start[7] = {0x9d, 0x01, 0x2a, (uint8_t)w, (uint8_t)(w >> 8), (uint8_t)h, (uint8_t)(h >> 8)};
        memcpy(frame + head, start, sizeof start);
        head += sizeof start;
    }
    size_t len = finish(frame + head);
    put_tag(frame, key, version, len);
    memset(frame + head + len, 0, 16);
    ctx.error.setjmp = 1;
    return vp8_dixie_decode_frame(&ctx, frame, (unsigned)(head + len + 16)) == VPX_CODEC_OK;
}

void stream_picture(const Picture *p, unsigned version)
{
    vp8_dixie_decode_destroy(&ctx);
    memset(&ctx, 0, sizeof ctx);
    vp8_dixie_decode_init(&ctx);
    ctx.mb_cols = (unsigned)p->cols;
    ctx.mb_rows = (unsigned)p->rows;
    begin();
    put_header(true);
    for (size_t i = 0; i < p->cols * p->rows; i++) {
        put(true, SKIP_PROB);
        put_intra(true);
    }
    if (!decode(true, version))
        abort();
    image_put(&ctx.ref_frames[LAST_FRAME]->img, p);
}

bool stream_predict(unsigned version, Place at, bool split, const Vector *vectors, uint8_t *samples)
{
    begin();
    put_header(false);
    for (size_t row = 0; row < ctx.mb_rows; row++)
        for (size_t col = 0; col < ctx.mb_cols; col++) {
            put(true, SKIP_PROB);
            if (row == at.row && col == at.col)
                put_inter(split, vectors);
            else
                put_intra(false);
        }
    if (!decode(false, version))
        return false;
    image_take(&ctx.ref_frames[CURRENT_FRAME]->img, at, samples);
    return true;
}
