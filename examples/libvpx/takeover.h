/*
 * takeover.h: what takeover.c offers beside the call that it takes over.
 */
#ifndef TAKEOVER_H
#define TAKEOVER_H

#include <stdbool.h>
#include <stdint.h>

/* What went through threshowl; counted where `wanted` is set. */
typedef struct {
    bool wanted;
    uint64_t whole;          /* macroblocks with one vector */
    uint64_t fractions;      /* of these, with a fraction of a pixel in it */
    uint64_t whole_outside;  /* of these, some of whose samples come from past an edge */
    uint64_t split;          /* macroblocks with sixteen vectors */
    uint64_t split_in_16;    /* of these, coded as sixteen and not as two or four */
    uint64_t blocks_outside; /* 4x4 blocks of split ones, some of whose samples do */
    uint64_t clamped;        /* macroblocks whose vectors libvpx would bound first */
} TakeoverCounts;

extern TakeoverCounts takeover_counts;

/* The prediction of libvpx's macroblock: threshowl's number, and its samples. */
struct macroblockd;
uint32_t takeover_predict(const struct macroblockd *xd, uint8_t version, uint8_t *out);

#endif
