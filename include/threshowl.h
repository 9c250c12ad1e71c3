/*
 * threshowl.h: VP8 inter prediction of one macroblock or of a whole frame, and
 * the decoded macroblock, for C11 and C++17.
 *
 * Four functions predict a macroblock from a reference picture: whole (one
 * vector), split (sixteen vectors), merging (sixteen vectors, taken for one
 * where all are equal and no picture could tell) and quarters (sixteen vectors,
 * of which equal ones are taken together in luma, by squares).  Two more do the
 * first two by the version number of a frame's tag, three add the residue to a
 * whole, a whole-pixel or a split prediction, three more add it from quantised
 * levels, and one predicts every macroblock of a frame, straight into the
 * frame.  Link libthreshowl.a.  It needs two symbols of the host, memcpy and
 * memset as C has them, and no others.
 *
 *
 * The reference picture
 *
 * It has mb_cols by mb_rows macroblocks, and three planes of bytes, row after
 * row: Y of mb_cols * 16 by mb_rows * 16 samples, U and V of mb_cols * 8 by
 * mb_rows * 8 samples each.  y_stride, u_stride and v_stride are the bytes from
 * one row of that plane to the next, at least its width and at most 32768; they
 * need not be equal.  y_len, u_len and v_len are the bytes that each plane has:
 * (height - 1) * stride + width are needed, and more do no harm.  What stands
 * past the end of a row, or after the last row, has no part in the answer.  A
 * sample sought outside the picture is that of the nearest edge.
 *
 * mb_col and mb_row say which macroblock is predicted, counted from 0.
 *
 *
 * Vectors
 *
 * A vector has a row and a column in quarters of a luma pixel, both int16_t;
 * down and right are positive.  Every value is taken.
 *
 *   whole            takes mv_row and mv_col.
 *   the other three  take 64 bytes: the vectors of the sixteen 4x4 luma blocks
 *                    in raster order, each as row then column, each number
 *                    little-endian.
 *
 * filter is THRESHOWL_SIXTAP or THRESHOWL_BILINEAR.  full_pixel is 0 for off,
 * and any other value is on: then every luma and chroma vector is lowered to
 * whole pixels.
 *
 * A frame's version says both: 0 is six-tap, 1 to 3 are bilinear, and 3 has
 * full-pixel on.  The functions by version take that number as it stands in the
 * frame's tag.  All others are reserved, and refused.  standard chooses between
 * two readings of full-pixel, which differ in version 3 alone, in Y:
 *
 *   0                luma and chroma vectors are lowered, as with full_pixel.
 *   any other        chroma vectors alone are, as in the reference decoder of
 *                    RFC 6386: the choice for streams of version 3.
 *
 *
 * The answer
 *
 * Each function gives back a number.  With 0 the call is done, and out holds
 * the prediction: 256 samples of Y (16 by 16), 64 of U (8 by 8), 64 of V (8 by
 * 8), each row after row without gaps.  With any other number the call is
 * refused, and not one byte of out is changed.
 *
 * The tests are made in the order of their numbers, so the number given is the
 * lowest that applies; 10 alone comes before every other.  Sums in them are exact
 * and never wrap.
 *
 *
 * What the caller owes
 *
 * - Each pointer points to as many bytes as the length beside it says.  It is
 *   not NULL, even where that length is 0: any valid pointer serves there.
 * - out overlaps no plane and not the vectors.  The planes and the vectors are
 *   only read, and may overlap one another.
 * - While a call runs, no other thread writes to what it reads, or reads or
 *   writes its out.
 *
 * Beyond that a call may be given every value of every argument, and returns.
 *
 * The functions keep no state, allocate nothing and call nothing of the host's
 * but memcpy and memset: any number of threads may call them at once.
 */
#ifndef THRESHOWL_H
#define THRESHOWL_H

#include <stddef.h>
#include <stdint.h>

#ifdef __cplusplus
extern "C" {
#endif

/* Filter codes: VP8 version 0 takes six-tap, the versions above it bilinear. */
#define THRESHOWL_SIXTAP 0
#define THRESHOWL_BILINEAR 1

/* Lengths that split, merging and quarters want of vectors, and all want of out. */
#define THRESHOWL_VECTORS_LEN 64
#define THRESHOWL_OUT_LEN 384

/* The numbers that a call gives back. */
enum {
    /* Done: none of those below applies, and out holds the prediction. */
    THRESHOWL_DONE = 0,

    /* mb_cols or mb_rows is not in 1..1024. */
    THRESHOWL_BAD_SIZE = 1,

    /* y_stride is below mb_cols * 16, u_stride or v_stride is below
       mb_cols * 8, or any of the three is above 32768. */
    THRESHOWL_BAD_STRIDE = 2,

    /* y_len, u_len or v_len is below what its plane needs, which is
       (height - 1) * stride + width, with that plane's stride. */
    THRESHOWL_SHORT_PLANE = 3,

    /* mb_col is not below mb_cols, or mb_row is not below mb_rows. */
    THRESHOWL_OUTSIDE_PICTURE = 4,

    /* filter is neither THRESHOWL_SIXTAP nor THRESHOWL_BILINEAR. */
    THRESHOWL_BAD_FILTER = 5,

    /* vectors_len is not 64.  Whole prediction never gives this number. */
    THRESHOWL_BAD_VECTORS = 6,

    /* out_len is not 384. */
    THRESHOWL_BAD_OUT = 7,

    /* A vector leaves a fraction of a pixel, in luma or in chroma.
       threshowl_reconstruct_whole_pixel alone gives this number, and the one
       like it from levels. */
    THRESHOWL_FRACTION_LEFT = 8,

    /* orders_len is not 66 * mb_cols * mb_rows, or a code in the orders is none;
       or there is no such kind of prediction.  threshowl_predict_frame and
       threshowl_predict_report alone give this number. */
    THRESHOWL_BAD_ORDERS = 9,

    /* version is above 3, whatever else is at fault.  The functions by version
       alone give this number. */
    THRESHOWL_RESERVED_VERSION = 10,

    /* coefficients_len, or levels_len, is not what it should be; or, with skip
       off, a coefficient lies beyond its range.  The functions that add the
       residue alone give this number. */
    THRESHOWL_BAD_COEFFICIENTS = 11,

    /* A running total would leave 64 bits.  threshowl_add_clipped alone gives
       this number. */
    THRESHOWL_FULL_TOTALS = 16
};

/*
 * One vector for the whole macroblock.  Gives 0, 1, 2, 3, 4, 5 or 7.
 */
uint32_t threshowl_predict_whole(
    const uint8_t *y, size_t y_len,
    const uint8_t *u, size_t u_len,
    const uint8_t *v, size_t v_len,
    size_t y_stride, size_t u_stride, size_t v_stride,
    size_t mb_cols, size_t mb_rows,
    size_t mb_col, size_t mb_row,
    int16_t mv_row, int16_t mv_col,
    uint8_t filter, uint8_t full_pixel,
    uint8_t *out, size_t out_len);

/*
 * A vector for each 4x4 luma block; each 4x4 chroma block takes the average of
 * the vectors of the four luma blocks that it covers.  Gives 0 to 7.
 */
uint32_t threshowl_predict_split(
    const uint8_t *y, size_t y_len,
    const uint8_t *u, size_t u_len,
    const uint8_t *v, size_t v_len,
    size_t y_stride, size_t u_stride, size_t v_stride,
    size_t mb_cols, size_t mb_rows,
    size_t mb_col, size_t mb_row,
    const uint8_t *vectors, size_t vectors_len,
    uint8_t filter, uint8_t full_pixel,
    uint8_t *out, size_t out_len);

/*
 * Gives the number and the samples of threshowl_predict_split on every input,
 * sooner where the vectors are the same one, sixteen times, with row and column
 * from -16384 to 16383: there it makes one whole prediction.  Outside that range
 * whole and split prediction differ in chroma, and it does not merge.
 */
uint32_t threshowl_predict_merging(
    const uint8_t *y, size_t y_len,
    const uint8_t *u, size_t u_len,
    const uint8_t *v, size_t v_len,
    size_t y_stride, size_t u_stride, size_t v_stride,
    size_t mb_cols, size_t mb_rows,
    size_t mb_col, size_t mb_row,
    const uint8_t *vectors, size_t vectors_len,
    uint8_t filter, uint8_t full_pixel,
    uint8_t *out, size_t out_len);

/*
 * Gives the number and the samples of threshowl_predict_split on every input,
 * sooner where vectors are equal: luma whose sixteen vectors are the same one is
 * predicted in one go, else each 8x8 quarter whose four are, else by 4x4 blocks.
 * Chroma is predicted as split does it, so that there is no range on the vectors.
 */
uint32_t threshowl_predict_quarters(
    const uint8_t *y, size_t y_len,
    const uint8_t *u, size_t u_len,
    const uint8_t *v, size_t v_len,
    size_t y_stride, size_t u_stride, size_t v_stride,
    size_t mb_cols, size_t mb_rows,
    size_t mb_col, size_t mb_row,
    const uint8_t *vectors, size_t vectors_len,
    uint8_t filter, uint8_t full_pixel,
    uint8_t *out, size_t out_len);

/*
 * A prediction that also says how many samples it fetched from the three planes:
 * a block of n samples a side fetches n * n where its vector has no fraction, else
 * (n + 5) * (n + 5).  kind 0 is whole, by the first vector, 1 split, 2 merging, and
 * 3 by quarters; any other gives 9, after all else.  Whole fetches 384 to 779,
 * split 384 to 1944, the other two at most what split does, and with full_pixel all
 * of them 384.
 *
 * And how many of its 384 samples were clipped, low and high: a sample whose last
 * filter step, the vertical one where the row has a fraction, else the horizontal
 * one, came to less than 0 or more than 255 before it was clamped.  A copied sample
 * is not clipped, and what the first of two steps clips does not count.  Under
 * bilinear, and with full_pixel, both are 0; merging and by quarters have split's.
 *
 * *fetched, *clipped_low and *clipped_high are always set, to 0 where the call
 * refuses.
 */
uint32_t threshowl_predict_report(
    const uint8_t *y, size_t y_len,
    const uint8_t *u, size_t u_len,
    const uint8_t *v, size_t v_len,
    size_t y_stride, size_t u_stride, size_t v_stride,
    size_t mb_cols, size_t mb_rows,
    size_t mb_col, size_t mb_row,
    const uint8_t *vectors, size_t vectors_len,
    uint8_t kind, uint8_t filter, uint8_t full_pixel,
    uint8_t *out, size_t out_len,
    uint64_t *fetched, uint64_t *clipped_low, uint64_t *clipped_high);

/*
 * Adds one macroblock's totals of clipped samples to two running ones.  Gives 0, or
 * 16 (THRESHOWL_FULL_TOTALS) where either sum would leave 64 bits: both running
 * totals are then as they were.
 */
uint32_t threshowl_add_clipped(uint64_t *low, uint64_t *high, uint64_t mb_low, uint64_t mb_high);

/*
 * Whole prediction with the table and the rule of a frame's version.  Gives 10,
 * or 0, 1, 2, 3, 4 or 7.
 */
uint32_t threshowl_predict_whole_by_version(
    const uint8_t *y, size_t y_len,
    const uint8_t *u, size_t u_len,
    const uint8_t *v, size_t v_len,
    size_t y_stride, size_t u_stride, size_t v_stride,
    size_t mb_cols, size_t mb_rows,
    size_t mb_col, size_t mb_row,
    int16_t mv_row, int16_t mv_col,
    uint8_t version, uint8_t standard,
    uint8_t *out, size_t out_len);

/*
 * Split prediction with them.  Gives 10, or 0 to 4, 6 or 7.
 */
uint32_t threshowl_predict_split_by_version(
    const uint8_t *y, size_t y_len,
    const uint8_t *u, size_t u_len,
    const uint8_t *v, size_t v_len,
    size_t y_stride, size_t u_stride, size_t v_stride,
    size_t mb_cols, size_t mb_rows,
    size_t mb_col, size_t mb_row,
    const uint8_t *vectors, size_t vectors_len,
    uint8_t version, uint8_t standard,
    uint8_t *out, size_t out_len);

/*
 * Whole frames
 *
 * One call predicts all macroblocks of a frame from three references, last,
 * golden and altref, and writes them to the planes of a frame.  The references
 * share sizes and strides, and may be the same planes.
 *
 * orders    66 bytes for each macroblock, row after row: the code of its
 *           reference, 0 last, 1 golden or 2 altref; its kind, 0 whole or 1
 *           split; and sixteen vectors, 64 bytes as above, of which whole takes
 *           the first and does not look at the others.
 * out_y, out_u, out_v
 *           planes of the sizes of the references', with strides of their own,
 *           to which the same limits apply, and lengths by these.
 *
 * With 0 each macroblock holds what threshowl_predict_whole or
 * threshowl_predict_split gives for its order, and every byte between width and
 * stride and after the last row is as it was.  With any other number the call is
 * refused, and not one byte of the three is changed: all orders are looked at
 * before the first byte is written.
 *
 * The tests are made in the order of their numbers: 1, 2 and 3 of all
 * references, then 5; 7 (THRESHOWL_BAD_OUT) where a plane of out is such as 2 or
 * 3 would refuse, read with its own stride; 9 (THRESHOWL_BAD_ORDERS) last.
 *
 * What is written overlaps nothing else that is handed over; what is read may
 * overlap what is read.  No pointer is NULL.
 */
#define THRESHOWL_ORDER_LEN 66
#define THRESHOWL_LAST 0
#define THRESHOWL_GOLDEN 1
#define THRESHOWL_ALTREF 2
#define THRESHOWL_WHOLE 0
#define THRESHOWL_SPLIT 1

/*
 * Gives 0, 1, 2, 3, 5, 7 or 9.
 */
uint32_t threshowl_predict_frame(
    const uint8_t *last_y, size_t last_y_len,
    const uint8_t *last_u, size_t last_u_len,
    const uint8_t *last_v, size_t last_v_len,
    const uint8_t *golden_y, size_t golden_y_len,
    const uint8_t *golden_u, size_t golden_u_len,
    const uint8_t *golden_v, size_t golden_v_len,
    const uint8_t *altref_y, size_t altref_y_len,
    const uint8_t *altref_u, size_t altref_u_len,
    const uint8_t *altref_v, size_t altref_v_len,
    size_t y_stride, size_t u_stride, size_t v_stride,
    size_t mb_cols, size_t mb_rows,
    const uint8_t *orders, size_t orders_len,
    uint8_t filter, uint8_t full_pixel,
    uint8_t *out_y, size_t out_y_len,
    uint8_t *out_u, size_t out_u_len,
    uint8_t *out_v, size_t out_v_len,
    size_t out_y_stride, size_t out_u_stride, size_t out_v_stride);

/*
 * Decoded macroblocks
 *
 * Three functions predict a macroblock and add its residue.  They take what the
 * prediction takes, and:
 *
 * skip           0 for off; with any other value the coefficients are not looked
 *                at, and out holds the prediction itself.
 * coefficients   dequantised, 4x4 blocks one after the other, sixteen numbers
 *                each in raster order: Y2, then sixteen blocks of Y, four of U
 *                and four of V, 400 numbers in all.  Split has no Y2, and takes
 *                384.  They are aligned as int16_t are, are only read, and out
 *                does not overlap them.
 *
 * Y2 is transformed first, and what that gives stands in for the first number of
 * each Y block: the one that is handed over there is not looked at.  Then each
 * block is transformed (RFC 6386, sections 14.3 and 14.4; what a first pass leaves
 * is not cut to sixteen bits), and added to the prediction, clamped to 0..255.
 *
 * Y2's numbers are from -16383 to 16383, all others from -4095 to 4095.  Another
 * number, where it is looked at, is refused with 11, and so is another count than
 * 400 or 384, with skip on as well.
 */
#define THRESHOWL_COEFFICIENTS 400
#define THRESHOWL_SPLIT_COEFFICIENTS 384

/*
 * One vector.  Gives 0, 1, 2, 3, 4, 5, 7 or 11.
 */
uint32_t threshowl_reconstruct_whole(
    const uint8_t *y, size_t y_len,
    const uint8_t *u, size_t u_len,
    const uint8_t *v, size_t v_len,
    size_t y_stride, size_t u_stride, size_t v_stride,
    size_t mb_cols, size_t mb_rows,
    size_t mb_col, size_t mb_row,
    int16_t mv_row, int16_t mv_col,
    uint8_t filter, uint8_t full_pixel, uint8_t skip,
    const int16_t *coefficients, size_t coefficients_len,
    uint8_t *out, size_t out_len);

/*
 * One vector that leaves no fraction of a pixel in any plane.  Gives 0, 1, 2, 3, 4,
 * 7, 8 or 11.
 */
uint32_t threshowl_reconstruct_whole_pixel(
    const uint8_t *y, size_t y_len,
    const uint8_t *u, size_t u_len,
    const uint8_t *v, size_t v_len,
    size_t y_stride, size_t u_stride, size_t v_stride,
    size_t mb_cols, size_t mb_rows,
    size_t mb_col, size_t mb_row,
    int16_t mv_row, int16_t mv_col,
    uint8_t full_pixel, uint8_t skip,
    const int16_t *coefficients, size_t coefficients_len,
    uint8_t *out, size_t out_len);

/*
 * A vector for each 4x4 luma block.  Gives 0 to 7, or 11.
 */
uint32_t threshowl_reconstruct_split(
    const uint8_t *y, size_t y_len,
    const uint8_t *u, size_t u_len,
    const uint8_t *v, size_t v_len,
    size_t y_stride, size_t u_stride, size_t v_stride,
    size_t mb_cols, size_t mb_rows,
    size_t mb_col, size_t mb_row,
    const uint8_t *vectors, size_t vectors_len,
    uint8_t filter, uint8_t full_pixel, uint8_t skip,
    const int16_t *coefficients, size_t coefficients_len,
    uint8_t *out, size_t out_len);

/*
 * Decoded macroblocks from quantised levels
 *
 * The same three, for a host that has the levels that a stream sends: each is
 * multiplied by its factor here, and is then a coefficient of the functions
 * above.  They take for the coefficients:
 *
 * levels         in the order of the coefficients, raster order in each block, 400
 *                of them or 384, each any number of sixteen bits.
 * y_ac_qi        the base index, and after it five deltas (RFC 6386, section
 *                9.6); each is any number of 32 bits.
 *
 * A step stands in one of two tables (section 14.1), at the index that base and
 * delta make together, or where that lies outside 0..127 at the nearer end.  The
 * first number of a block has a factor of its own, DC, the other fifteen have AC:
 *
 *   Y     DC   the DC step of y_dc_delta      4 to 157
 *         AC   the AC step of the base        4 to 284
 *   Y2    DC   twice that of y2_dc_delta      8 to 314
 *         AC   that of y2_ac_delta times 155, divided by 100 and rounded down,
 *              at least 8                     8 to 440
 *   U, V  DC   that of uv_dc_delta, at most 132
 *                                             4 to 132
 *         AC   that of uv_ac_delta            4 to 284
 *
 * Level times factor is exact.  It is refused with 11 where such a coefficient
 * is: beyond its range, where it is looked at.  So is another count than 400 or
 * 384, with skip on as well.
 */

/*
 * One vector.  Gives 0, 1, 2, 3, 4, 5, 7 or 11.
 */
uint32_t threshowl_reconstruct_whole_from_levels(
    const uint8_t *y, size_t y_len,
    const uint8_t *u, size_t u_len,
    const uint8_t *v, size_t v_len,
    size_t y_stride, size_t u_stride, size_t v_stride,
    size_t mb_cols, size_t mb_rows,
    size_t mb_col, size_t mb_row,
    int16_t mv_row, int16_t mv_col,
    uint8_t filter, uint8_t full_pixel, uint8_t skip,
    const int16_t *levels, size_t levels_len,
    int32_t y_ac_qi, int32_t y_dc_delta,
    int32_t y2_dc_delta, int32_t y2_ac_delta,
    int32_t uv_dc_delta, int32_t uv_ac_delta,
    uint8_t *out, size_t out_len);

/*
 * One vector that leaves no fraction of a pixel in any plane.  Gives 0, 1, 2, 3, 4,
 * 7, 8 or 11.
 */
uint32_t threshowl_reconstruct_whole_pixel_from_levels(
    const uint8_t *y, size_t y_len,
    const uint8_t *u, size_t u_len,
    const uint8_t *v, size_t v_len,
    size_t y_stride, size_t u_stride, size_t v_stride,
    size_t mb_cols, size_t mb_rows,
    size_t mb_col, size_t mb_row,
    int16_t mv_row, int16_t mv_col,
    uint8_t full_pixel, uint8_t skip,
    const int16_t *levels, size_t levels_len,
    int32_t y_ac_qi, int32_t y_dc_delta,
    int32_t y2_dc_delta, int32_t y2_ac_delta,
    int32_t uv_dc_delta, int32_t uv_ac_delta,
    uint8_t *out, size_t out_len);

/*
 * A vector for each 4x4 luma block.  Gives 0 to 7, or 11.
 */
uint32_t threshowl_reconstruct_split_from_levels(
    const uint8_t *y, size_t y_len,
    const uint8_t *u, size_t u_len,
    const uint8_t *v, size_t v_len,
    size_t y_stride, size_t u_stride, size_t v_stride,
    size_t mb_cols, size_t mb_rows,
    size_t mb_col, size_t mb_row,
    const uint8_t *vectors, size_t vectors_len,
    uint8_t filter, uint8_t full_pixel, uint8_t skip,
    const int16_t *levels, size_t levels_len,
    int32_t y_ac_qi, int32_t y_dc_delta,
    int32_t y2_dc_delta, int32_t y2_ac_delta,
    int32_t uv_dc_delta, int32_t uv_ac_delta,
    uint8_t *out, size_t out_len);

/*
 * Recordings
 *
 * When the link drops during a recording, the last frame of the IVF file is cut
 * short, and its header still lacks the count of frames.  threshowl_ivf_mend
 * makes a whole file of it: the header and every complete frame, with the number
 * of these frames as its count.
 *
 * file    the recording, file_len bytes: a header of 32 bytes (DKIF in bytes 0
 *         to 3, its own length in 6 and 7, the count of frames in 24 to 27), then
 *         the frames, each a size in 4 bytes, a time in 8, and so many bytes of
 *         data.  Numbers are little-endian.
 * out     file_len bytes are always enough.
 *
 * With 0 the first file_len - *dropped bytes of out are the mended file.  Save
 * for the four bytes of the count they are those of file, and the bytes of out
 * after them are as they were.  An empty frame counts as complete.  *old_count
 * is the count that the header had, *new_count the one that it has now.  A
 * mended file that is mended again comes back as it is.
 *
 * With any other number not one byte of out is changed, and the three numbers
 * are set to 0:
 *
 *   15 (THRESHOWL_NOT_IVF)   file_len is below 32 or above 2147483647, the mark
 *                            is not DKIF, or the header's length is not 32.
 *   7 (THRESHOWL_BAD_OUT)    else, out_len is below what is kept.
 *
 * No pointer is NULL.  What is written, out and the three numbers, overlaps
 * nothing else that is handed over.
 */
enum {
    THRESHOWL_NOT_IVF = 15
};

#define THRESHOWL_IVF_HEADER_LEN 32
#define THRESHOWL_IVF_FRAME_HEADER_LEN 12
#define THRESHOWL_IVF_LIMIT 2147483647

uint32_t threshowl_ivf_mend(
    const uint8_t *file, size_t file_len,
    uint8_t *out, size_t out_len,
    uint64_t *old_count, uint64_t *new_count, uint64_t *dropped);

/*
 * Pictures
 *
 * A YUV4MPEG2 file is a header line and frames.  Three functions read its
 * header, read a frame, and write one.  Each reports through its last pointers,
 * which are always set; where a call is refused they are set to 0, and not one
 * byte of out is changed.
 *
 * The header is the word YUV4MPEG2 and parameters, with a single space in front
 * of each, up to a newline, which is one of the first 256 bytes.  The first
 * letter of a parameter is its name.  There is one W and one H, each a number
 * from 1 to 16384 in at most five digits, zeros in front allowed.  There may be
 * one C, which is C420jpeg.  Other names are passed over; a parameter without any
 * byte is a fault.  With 0 *width and *height are the sizes, and *taken the bytes
 * of the header.
 *
 *   12 (THRESHOWL_BAD_HEADER)   the header is not like that.
 */
enum {
    THRESHOWL_BAD_HEADER = 12,
    THRESHOWL_NO_MARK = 13,
    THRESHOWL_SHORT_FRAME = 14
};

#define THRESHOWL_Y4M_HEADER_LIMIT 256
#define THRESHOWL_Y4M_SIZE_LIMIT 16384

uint32_t threshowl_y4m_header(
    const uint8_t *file, size_t file_len,
    uint64_t *width, uint64_t *height, uint64_t *taken);

/*
 * In a file a frame is its mark, the word FRAME and a newline, and then width by
 * height samples of Y and half as many columns and rows, rounded up, of U and of
 * V.  In memory the three planes follow one another too, but each goes on to the
 * end of the last macroblock, with copies of its last column and row: so the
 * functions above take it, with the width rounded up to a multiple of 16 as the
 * stride of Y, and half of that for U and V.
 *
 * These are the bytes of both, for a width and a height in 1..16384.
 */
#define THRESHOWL_Y4M_HALF(n) (((size_t)(n) + 1) / 2)
#define THRESHOWL_Y4M_PADDED(n) (((size_t)(n) + 15) / 16 * 16)
#define THRESHOWL_Y4M_FRAME_LEN(width, height) \
    (6 + (size_t)(width) * (size_t)(height) \
     + 2 * THRESHOWL_Y4M_HALF(width) * THRESHOWL_Y4M_HALF(height))
#define THRESHOWL_Y4M_PADDED_LEN(width, height) \
    (THRESHOWL_Y4M_PADDED(width) * THRESHOWL_Y4M_PADDED(height) / 2 * 3)

/*
 * Reads the frame that file begins with into out, and reports the bytes that it
 * took.  Bytes of file after the frame alter nothing, and bytes of out after it
 * are as they were.  A file_len of 0 is the end of the film: the call is done,
 * *taken is 0, and out is as it was, whatever its length.
 *
 *   1 (THRESHOWL_BAD_SIZE)      width or height is not in 1..16384.
 *   13 (THRESHOWL_NO_MARK)      the first bytes are not the mark.
 *   14 (THRESHOWL_SHORT_FRAME)  the frame is cut: some of its samples are missing.
 *   7 (THRESHOWL_BAD_OUT)       out has no room for the frame in memory.
 *
 * The tests are made in this order, and the end is looked for after the first.
 */
uint32_t threshowl_y4m_read_frame(
    const uint8_t *file, size_t file_len,
    size_t width, size_t height,
    uint8_t *out, size_t out_len,
    uint64_t *taken);

/*
 * Writes a frame in memory to out as a file has it, with its mark and without
 * its padding, and reports the bytes that it wrote.  What was read comes out byte
 * for byte.
 *
 *   1 (THRESHOWL_BAD_SIZE)      width or height is not in 1..16384.
 *   14 (THRESHOWL_SHORT_FRAME)  frame has fewer bytes than the frame in memory.
 *   7 (THRESHOWL_BAD_OUT)       out has no room for the frame in a file.
 *
 * The tests are made in this order.  No pointer of the three functions is NULL.
 * What is written, out and the reported numbers, overlaps nothing else that is
 * handed over.
 */
uint32_t threshowl_y4m_write_frame(
    const uint8_t *frame, size_t frame_len,
    size_t width, size_t height,
    uint8_t *out, size_t out_len,
    uint64_t *written);

#ifdef __cplusplus
}
#endif

#endif
