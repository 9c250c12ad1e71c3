/*
 * decode.c: a host of libvpx, which decodes a VP8 recording.  It is linked twice:
 * with libvpx as it is, and with threshowl in the place of libvpx's prediction
 * (-DTAKEN_OVER, see takeover.c).
 *
 *   decode write IN FRAMES [VERSION]     writes the samples of every frame to FRAMES
 *   decode compare IN FRAMES [VERSION]   compares them with those in FRAMES, and
 *                                        says what was predicted
 *   decode time IN ROUNDS                decodes IN so often; prints the frames a
 *                                        second of processor time in the best round
 *
 * IN is an IVF file.  VERSION is put into the tag of every frame first: a stream
 * under another version shows other pictures than were coded, and is decoded all
 * the same.  Exit status: 0 done, 1 a frame differs or cannot be decoded, 2 bad
 * usage or a file that cannot be read.
 */
#define _POSIX_C_SOURCE 200809L

#include <inttypes.h>
#include <stdint.h>
#include <stdio.h>
#include <stdlib.h>
#include <string.h>
#include <time.h>

#include "vpx/vp8dx.h"
#include "vpx/vpx_decoder.h"

#ifdef TAKEN_OVER
#include "takeover.h"
#endif

enum { IVF_HEADER = 32, IVF_FRAME_HEADER = 12 };

typedef struct {
    uint8_t *bytes;
    size_t len;
} Recording;

static void fail(int status, const char *words, const char *name)
{
    fprintf(stderr, "decode: %s: %s\n", name, words);
    exit(status);
}

static Recording read_recording(const char *name)
{
    FILE *file = fopen(name, "rb");
    long len = -1;

    if (file && fseek(file, 0, SEEK_END) == 0)
        len = ftell(file);
    if (!file || len < IVF_HEADER || fseek(file, 0, SEEK_SET) != 0)
        fail(2, "cannot be read, or is no recording", name);

    uint8_t *bytes = malloc((size_t)len);

    if (!bytes || fread(bytes, 1, (size_t)len, file) != (size_t)len)
        fail(2, "cannot be read", name);
    fclose(file);
    return (Recording){bytes, (size_t)len};
}

static size_t number_at(const uint8_t *bytes)
{
    return (size_t)bytes[0] | (size_t)bytes[1] << 8 | (size_t)bytes[2] << 16 | (size_t)bytes[3] << 24;
}

/* The version stands in three bits of a frame's first byte. */
static void put_version(Recording recording, unsigned version)
{
    size_t at = IVF_HEADER;

    while (at + IVF_FRAME_HEADER < recording.len) {
        uint8_t *first = recording.bytes + at + IVF_FRAME_HEADER;

        *first = (uint8_t)((*first & ~0x0Eu) | version << 1);
        at += IVF_FRAME_HEADER + number_at(recording.bytes + at);
    }
}

static Recording read_as(const char *name, const char *version)
{
    Recording recording = read_recording(name);

    if (version)
        put_version(recording, (unsigned)strtoul(version, NULL, 10) & 7);
    return recording;
}

/* ---- what is done with a frame: `use` is called with each, and `with` */

typedef void Use(const vpx_image_t *frame, void *with);

/* Frames that the decoder gave. */
static uint64_t decode(Recording recording, Use *use, void *with)
{
    vpx_codec_dec_cfg_t settings = {.threads = 1, .w = 0, .h = 0};
    vpx_codec_ctx_t decoder;
    uint64_t frames = 0;
    size_t at = IVF_HEADER;

    if (vpx_codec_dec_init(&decoder, vpx_codec_vp8_dx(), &settings, 0))
        fail(1, vpx_codec_error(&decoder), "libvpx");
    while (at + IVF_FRAME_HEADER <= recording.len) {
        size_t size = number_at(recording.bytes + at);
        vpx_codec_iter_t next = NULL;
        const vpx_image_t *frame;

        at += IVF_FRAME_HEADER;
        if (size > recording.len - at)
            break;
        if (vpx_codec_decode(&decoder, recording.bytes + at, (unsigned)size, NULL, 0))
            fail(1, vpx_codec_error(&decoder), "libvpx");
        at += size;
        while ((frame = vpx_codec_get_frame(&decoder, &next)) != NULL) {
            frames++;
            use(frame, with);
        }
    }
    vpx_codec_destroy(&decoder);
    return frames;
}

static size_t width_of(const vpx_image_t *frame, int plane)
{
    return plane == 0 ? frame->d_w : (frame->d_w + 1) / 2;
}

static size_t height_of(const vpx_image_t *frame, int plane)
{
    return plane == 0 ? frame->d_h : (frame->d_h + 1) / 2;
}

static const uint8_t *row_of(const vpx_image_t *frame, int plane, size_t row)
{
    return frame->planes[plane] + (ptrdiff_t)row * frame->stride[plane];
}

/* ---- the three commands */

static void write_frame(const vpx_image_t *frame, void *with)
{
    FILE *file = with;

    for (int plane = 0; plane < 3; plane++)
        for (size_t row = 0; row < height_of(frame, plane); row++)
            if (fwrite(row_of(frame, plane, row), width_of(frame, plane), 1, file) != 1)
                fail(2, "cannot be written", "FRAMES");
}

typedef struct {
    FILE *file;
    uint64_t frame, samples;
} Comparison;

static void compare_frame(const vpx_image_t *frame, void *with)
{
    static uint8_t due[16384];
    Comparison *comparison = with;

    for (int plane = 0; plane < 3; plane++)
        for (size_t row = 0; row < height_of(frame, plane); row++) {
            size_t width = width_of(frame, plane);
            const uint8_t *got = row_of(frame, plane, row);

            if (width > sizeof due || fread(due, width, 1, comparison->file) != 1)
                fail(1, "has fewer frames", "FRAMES");
            for (size_t col = 0; col < width; col++)
                if (got[col] != due[col]) {
                    printf("frame %" PRIu64 ", plane %c, row %zu, column %zu: %d, stock has %d\n",
                           comparison->frame, "YUV"[plane], row, col, got[col], due[col]);
                    exit(1);
                }
            comparison->samples += width;
        }
    comparison->frame++;
}

static void leave(const vpx_image_t *frame, void *with)
{
    (void)frame;
    (void)with;
}

/* Frames and samples that were compared, and what was predicted, in the order of TakeoverCounts. */
static void report(const Comparison *comparison)
{
    printf("%7" PRIu64 " %9" PRIu64, comparison->frame, comparison->samples);
#ifdef TAKEN_OVER
    const TakeoverCounts *counts = &takeover_counts;

    printf(" %7" PRIu64 " %8" PRIu64 " %7" PRIu64 " %6" PRIu64 " %7" PRIu64 " %7" PRIu64 " %8" PRIu64, counts->whole, counts->fractions,
           counts->whole_outside, counts->split, counts->split_in_16, counts->blocks_outside, counts->clamped);
#endif
    putchar('\n');
}

static void write_all(const char *in, const char *out, const char *version)
{
    FILE *file = fopen(out, "wb");

    if (!file)
        fail(2, "cannot be written", out);
    decode(read_as(in, version), write_frame, file);
    if (fclose(file) != 0)
        fail(2, "cannot be written", out);
}

static void compare_all(const char *in, const char *due, const char *version)
{
    Comparison comparison = {fopen(due, "rb"), 0, 0};

    if (!comparison.file)
        fail(2, "cannot be read", due);
#ifdef TAKEN_OVER
    takeover_counts.wanted = true;
#endif
    decode(read_as(in, version), compare_frame, &comparison);
    if (fgetc(comparison.file) != EOF)
        fail(1, "has more frames", due);
    report(&comparison);
}

static double seconds(void)
{
    struct timespec now;

    clock_gettime(CLOCK_PROCESS_CPUTIME_ID, &now);
    return (double)now.tv_sec + (double)now.tv_nsec / 1e9;
}

static void time_rounds(const char *in, const char *rounds)
{
    Recording recording = read_recording(in);
    double best = 0;

    for (long round = strtol(rounds, NULL, 10); round > 0; round--) {
        double start = seconds();
        uint64_t frames = decode(recording, leave, NULL);
        double speed = (double)frames / (seconds() - start);

        if (speed > best)
            best = speed;
    }
    printf("%.1f\n", best);
}

int main(int count, char **words)
{
    const char *command = count > 1 ? words[1] : "";
    const char *version = count == 5 ? words[4] : NULL;

    if ((count == 4 || count == 5) && strcmp(command, "write") == 0)
        write_all(words[2], words[3], version);
    else if ((count == 4 || count == 5) && strcmp(command, "compare") == 0)
        compare_all(words[2], words[3], version);
    else if (count == 4 && strcmp(command, "time") == 0)
        time_rounds(words[2], words[3]);
    else
        fail(2, "decode write|compare IN FRAMES [VERSION], decode time IN ROUNDS", "usage");
    return 0;
}
