/*
 * mend.c: the program that mends a cut IVF recording.
 *
 *   mend [-q] IN OUT
 *
 * What is kept, what is written and what is refused is decided by one proved
 * call, threshowl_ivf_mend.  Around it this program maps both files (neither is
 * ever held on the stack or in the heap) and says in words what the call found.
 * files.h tells how it treats IN and OUT.
 *
 * Exit status: 0 done, 1 IN is refused, 2 bad usage, 3 a file could not be read
 * or written; by a signal, that signal's.  C11 and POSIX.1-2008.
 */
#include <inttypes.h>
#include <stdio.h>

#include "files.h"
#include "threshowl.h"

typedef struct {
    uint64_t old_count, new_count, dropped;
} Report;

static uint32_t little_endian(const uint8_t *bytes, size_t count) {
    uint32_t number = 0;
    while (count-- > 0) {
        number = number << 8 | bytes[count];
    }
    return number;
}

/* The header alone, or a file that is too long, as the call judges it. */
static uint32_t judge_header(const Input *in) {
    uint8_t header[THRESHOWL_IVF_HEADER_LEN];
    Report report;
    size_t len = in->len > sizeof header && in->len <= THRESHOWL_IVF_LIMIT ? sizeof header : in->len;
    return threshowl_ivf_mend(in->bytes, len, header, sizeof header, &report.old_count, &report.new_count,
                              &report.dropped);
}

static void tell_refusal(const Input *in) {
    static const char mark[] = "DKIF";
    (void)printf("%s: refused, not an IVF recording that can be mended: ", in->name);
    if (in->len > THRESHOWL_IVF_LIMIT) {
        (void)printf("it has %zu bytes, and %d are the most\n", in->len, THRESHOWL_IVF_LIMIT);
        return;
    }
    if (in->len < THRESHOWL_IVF_HEADER_LEN) {
        (void)printf("it has %zu bytes, and a header alone has %d\n", in->len, THRESHOWL_IVF_HEADER_LEN);
        return;
    }
    for (size_t i = 0; i < 4; i++) {
        if (in->bytes[i] != (uint8_t)mark[i]) {
            (void)printf("byte %zu is 0x%02x where 0x%02x is due, the %c of %s\n", i, (unsigned)in->bytes[i],
                         (unsigned)mark[i], mark[i], mark);
            return;
        }
    }
    (void)printf("bytes 6 and 7 give its header %" PRIu32 " bytes, and %d are due\n", little_endian(in->bytes + 6, 2),
                 THRESHOWL_IVF_HEADER_LEN);
}

/* ---- what was found, in words on standard output */

static void tell_rest(const Input *in, size_t at) {
    size_t left = in->len - at;
    if (left == 0) {
        (void)printf("  after them: nothing\n");
    } else if (left < THRESHOWL_IVF_FRAME_HEADER_LEN) {
        (void)printf("  after them: %zu bytes from byte %zu on, too few for a frame's size and time; dropped\n", left, at);
    } else {
        (void)printf("  after them: %zu bytes from byte %zu on, a frame of %" PRIu32
                     " bytes of which %zu are there; dropped\n",
                     left, at, little_endian(in->bytes + at, 4), left - THRESHOWL_IVF_FRAME_HEADER_LEN);
    }
}

static void tell_found(const Input *in, const char *out_name, const Report *report) {
    size_t kept = in->len - (size_t)report->dropped;
    (void)printf("%s: %zu bytes\n", in->name, in->len);
    (void)printf("  complete frames: %" PRIu64 ", the last of them ends at byte %zu\n", report->new_count, kept);
    tell_rest(in, kept);
    if (report->old_count == report->new_count) {
        (void)printf("  count in the header: %" PRIu64 ", which is right\n", report->old_count);
    } else {
        (void)printf("  count in the header: %" PRIu64 ", now %" PRIu64 "\n", report->old_count, report->new_count);
    }
    (void)printf("%s: written, %zu bytes\n", out_name, kept);
}

static int mend(const char *in_name, const char *out_name) {
    Input in = open_input(in_name);
    look_at_target(out_name, &in);
    if (judge_header(&in) != THRESHOWL_DONE) {
        tell_refusal(&in);
        flush_words();
        return REFUSED;
    }
    read_ahead(&in);
    Output out = make_output(out_name, in.len);
    Report report;
    uint32_t number = threshowl_ivf_mend(in.bytes, in.len, out.bytes, out.len, &report.old_count, &report.new_count,
                                         &report.dropped);
    see_that_unchanged(&in);
    if (number != THRESHOWL_DONE) {
        leave(FAILED, in_name, "refused, though its header was taken", "");
    }
    finish_output(&out, out_name, &in, in.len - (size_t)report.dropped);
    tell_found(&in, out_name, &report);
    flush_words();
    return DONE;
}

static const char help[] =
    "usage: mend [-q] IN OUT\n"
    "\n"
    "Mends the IVF recording IN, which a dropped link has cut, and writes it to OUT:\n"
    "the header and every complete frame, with the number of frames in the header.\n"
    "Says what it found; of large files it tells its progress on standard error.\n"
    "\n"
    "IN is never changed. OUT is written whole or not at all; a file of that name is\n"
    "replaced, unless it is IN itself, by whatever name or link.\n"
    "\n"
    "  -q, --quiet   no progress\n"
    "  --help        this text\n"
    "\n"
    "Exit status: 0 done; 1 IN is refused: below 32 or above 2147483647 bytes, not\n"
    "marked DKIF, or a header that gives itself another length than 32; 2 bad usage;\n"
    "3 a file could not be read or written.\n";

int main(int argc, char **argv) {
    int at = take_options(argc, argv, "mend", help);
    if (argc - at != 2) {
        leave_misused("usage", "mend [-q] IN OUT; mend --help tells more");
    }
    catch_signals();
    return mend(argv[at], argv[at + 1]);
}
