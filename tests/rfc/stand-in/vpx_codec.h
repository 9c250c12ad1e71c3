/*
 * Stands in for the one header that the listings of RFC 6386 want and the text
 * has not.  It names what the others use, so that they compile; nothing of it
 * takes part in prediction.
 */
#ifndef STAND_IN_VPX_CODEC_H
#define STAND_IN_VPX_CODEC_H

#include <stddef.h>

#include "vpx_image.h"
#include "vpx_integer.h"

#define DEPRECATED
#define VPX_CODEC_ABI_VERSION 0

typedef enum {
    VPX_CODEC_OK,
    VPX_CODEC_ERROR,
    VPX_CODEC_MEM_ERROR,
    VPX_CODEC_ABI_MISMATCH,
    VPX_CODEC_INCAPABLE,
    VPX_CODEC_UNSUP_BITSTREAM,
    VPX_CODEC_UNSUP_FEATURE,
    VPX_CODEC_CORRUPT_FRAME,
    VPX_CODEC_INVALID_PARAM,
    VPX_CODEC_LIST_END
} vpx_codec_err_t;

typedef int vpx_codec_caps_t, vpx_codec_enc_cfg_t, vpx_codec_flags_t, vpx_codec_mmap_t, vpx_codec_pts_t;
typedef int vpx_enc_frame_flags_t;
typedef const void *vpx_codec_iter_t;
typedef struct vpx_codec_ctx vpx_codec_ctx_t;
typedef struct vpx_codec_iface vpx_codec_iface_t;
typedef struct vpx_codec_cx_pkt {
    int unused;
} vpx_codec_cx_pkt_t;
typedef struct vpx_fixed_buf {
    int unused;
} vpx_fixed_buf_t;

#endif
