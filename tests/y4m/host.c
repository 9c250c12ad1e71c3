/*
 * host.c: calls the three functions on YUV4MPEG2 files for a driver in another
 * language.
 *
 * Reads jobs on standard input, and answers each on standard output, until the
 * input ends.  Numbers are little-endian.
 *
 *   job      4 bytes each: which call (0 header, 1 read, 2 write, 3 read at every
 *            cut), the input's length, the output's, where they stand (0: both
 *            end at a page that may not be touched, 1: both begin after one); 8
 *            bytes each: width and height; then the input's bytes and the
 *            output's
 *   answer   4 bytes: the number, 3 x 8 bytes: what is reported, the input's
 *            bytes and the output's after the call
 *
 * Read at every cut is a call for each front of the input that is shorter than
 * it, the shortest first; each is answered with the number in 4 bytes and what is
 * reported in 8, and the output's bytes follow the last.
 *
 * So a call that reads or writes one byte too far ends the program.
 */
#define _GNU_SOURCE

#include <stdint.h>
#include <stdio.h>
#include <string.h>

#include "../fenced.h"
#include "threshowl.h"

enum { HEADER, READ, WRITE, CUTS };

typedef struct {
    uint32_t call, in_len, out_len, place;
    uint64_t width, height;
} Job;

static uint32_t call(const Job *job, const uint8_t *in, uint8_t *out, uint64_t *told) {
    switch (job->call) {
    case HEADER:
        return threshowl_y4m_header(in, job->in_len, &told[0], &told[1], &told[2]);
    case READ:
        return threshowl_y4m_read_frame(in, job->in_len, job->width, job->height, out, job->out_len, &told[0]);
    default:
        return threshowl_y4m_write_frame(in, job->in_len, job->width, job->height, out, job->out_len, &told[0]);
    }
}

/* The input stands at the front of its room, and each cut is made at the end. */
static void read_cuts(const Job *job, uint8_t *ins, uint8_t *out) {
    for (uint32_t n = 0; n < job->in_len; n++) {
        uint64_t taken = UINT64_MAX;
        uint8_t *cut = ins + MOST - n;
        memcpy(cut, ins, n);
        uint32_t number = threshowl_y4m_read_frame(cut, n, job->width, job->height, out, job->out_len, &taken);
        give(&number, sizeof number);
        give(&taken, sizeof taken);
    }
    give(out, job->out_len);
}

int main(void) {
    uint8_t *ins = fenced();
    uint8_t *outs = fenced();
    Job job;
    while (fread(&job, 1, sizeof job, stdin) == sizeof job) {
        need(job.in_len <= MOST / 2 && job.out_len <= MOST && job.call <= CUTS);
        uint8_t *in = job.place == 0 && job.call != CUTS ? ins + MOST - job.in_len : ins;
        uint8_t *out = job.place == 0 ? outs + MOST - job.out_len : outs;
        uint64_t told[3] = {UINT64_MAX, UINT64_MAX, UINT64_MAX};
        take(in, job.in_len);
        take(out, job.out_len);
        if (job.call == CUTS) {
            read_cuts(&job, in, out);
            continue;
        }
        uint32_t number = call(&job, in, out, told);
        give(&number, sizeof number);
        give(told, sizeof told);
        give(in, job.in_len);
        give(out, job.out_len);
    }
    need(ferror(stdin) == 0 && fflush(stdout) == 0);
    return 0;
}
