/*
 * host.c: calls threshowl_ivf_mend for a driver in another language.
 *
 * Reads jobs on standard input, and answers each on standard output, until the
 * input ends.  Numbers are little-endian.
 *
 *   job      4 bytes: the file's length, 4 bytes: the output's, 4 bytes: where
 *            they stand (0: both end at a page that may not be touched, 1: both
 *            begin after one), then the file's bytes and the output's
 *   answer   4 bytes: the number, 3 x 8 bytes: what is reported, the file's
 *            bytes and the output's after the call
 *
 * So a call that reads or writes one byte too far ends the program.
 */
#define _GNU_SOURCE

#include <stdint.h>
#include <stdio.h>

#include "../fenced.h"
#include "threshowl.h"

int main(void) {
    uint8_t *files = fenced();
    uint8_t *outs = fenced();
    uint32_t job[3];
    while (fread(job, 1, sizeof job, stdin) == sizeof job) {
        need(job[0] <= MOST && job[1] <= MOST);
        uint8_t *file = job[2] == 0 ? files + MOST - job[0] : files;
        uint8_t *out = job[2] == 0 ? outs + MOST - job[1] : outs;
        uint64_t told[3] = {UINT64_MAX, UINT64_MAX, UINT64_MAX};
        take(file, job[0]);
        take(out, job[1]);
        uint32_t number = threshowl_ivf_mend(file, job[0], out, job[1], &told[0], &told[1], &told[2]);
        give(&number, sizeof number);
        give(told, sizeof told);
        give(file, job[0]);
        give(out, job[1]);
    }
    need(ferror(stdin) == 0 && fflush(stdout) == 0);
    return 0;
}
