/*
 * y4m.c: the program for YUV4MPEG2 files: shows one, or pads or crops all of its
 * frames.
 *
 *   y4m [-q] show IN
 *   y4m [-q] pad IN OUT
 *   y4m [-q] crop WIDTHxHEIGHT IN OUT
 *
 * What a header means, where a frame is whole, what padding and cropping give
 * and what is refused is decided by three proved calls: threshowl_y4m_header,
 * threshowl_y4m_read_frame and threshowl_y4m_write_frame.  Around them this
 * program maps both files, holds one frame at a time, and says in words what the
 * calls found, and where.  files.h tells how it treats IN and OUT.
 *
 * Exit status: 0 done, 1 IN is refused, 2 bad usage, 3 a file could not be read
 * or written; by a signal, that signal's.  C11 and POSIX.1-2008.
 */
#include <inttypes.h>
#include <stdio.h>
#include <stdlib.h>
#include <string.h>

#include "files.h"
#include "threshowl.h"

typedef struct {
    size_t width, height;
} Size;

/* A file whose header was read, and its whole frames. */
typedef struct {
    Input in;
    Size size;
    size_t header_len, frame_len;
    size_t frames;
    /* Where they end, and what the call says to what is left there. */
    size_t end;
    uint32_t number;
} Film;

/* ---- the header, in words. The call has refused it; this finds the place. */

static const char mark[] = "YUV4MPEG2";
enum { MARK_LEN = sizeof mark - 1 };

typedef struct {
    bool width, height, colour;
} Seen;

static bool is_size(const uint8_t *digits, size_t len) {
    size_t worth = 0;
    for (size_t i = 0; i < len; i++) {
        if (len > 5 || digits[i] < '0' || digits[i] > '9') {
            return false;
        }
        worth = 10 * worth + (size_t)(digits[i] - '0');
    }
    return worth >= 1 && worth <= THRESHOWL_Y4M_SIZE_LIMIT;
}

/* What is wrong with a parameter, after those that were seen; or NULL. */
static const char *fault_of(const uint8_t *word, size_t len, Seen *seen) {
    static const char colour[] = "C420jpeg";
    bool *had;
    bool good;
    if (len == 0) {
        return "an empty parameter: a single space is due in front of each, and none in front of the newline";
    }
    switch (word[0]) {
    case 'W':
        had = &seen->width;
        good = is_size(word + 1, len - 1);
        break;
    case 'H':
        had = &seen->height;
        good = is_size(word + 1, len - 1);
        break;
    case 'C':
        had = &seen->colour;
        good = len == sizeof colour - 1 && memcmp(word, colour, len) == 0;
        break;
    default:
        return NULL;
    }
    if (*had) {
        return "a second one of this name";
    }
    *had = true;
    if (good) {
        return NULL;
    }
    return word[0] == 'C' ? "C420jpeg is due" : "a number from 1 to 16384 is due, in at most five digits";
}

static void print_word(const uint8_t *word, size_t len) {
    for (size_t i = 0; i < len; i++) {
        (void)putchar(word[i] >= ' ' && word[i] <= '~' ? word[i] : '?');
    }
}

static size_t word_len(const uint8_t *word, size_t most) {
    const uint8_t *space = memchr(word, ' ', most);
    return space == NULL ? most : (size_t)(space - word);
}

/* A line without its newline, which begins with the mark. */
static void tell_bad_line(const uint8_t *line, size_t len) {
    Seen seen = {false, false, false};
    if (len > MARK_LEN && line[MARK_LEN] != ' ') {
        (void)printf("byte %d is 0x%02x where a space or the newline is due, after %s\n", MARK_LEN,
                     (unsigned)line[MARK_LEN], mark);
        return;
    }
    for (size_t at = MARK_LEN; at < len;) {
        const uint8_t *word = line + at + 1;
        size_t word_end = word_len(word, len - at - 1);
        const char *fault = fault_of(word, word_end, &seen);
        if (fault != NULL) {
            (void)printf("at byte %zu, \"", at + 1);
            print_word(word, word_end);
            (void)printf("\": %s\n", fault);
            return;
        }
        at += 1 + word_end;
    }
    (void)printf("it ends at byte %zu, and has no %s\n", len, seen.width ? "H" : "W");
}

static void tell_bad_header(const Input *in) {
    size_t most = in->len < THRESHOWL_Y4M_HEADER_LIMIT ? in->len : THRESHOWL_Y4M_HEADER_LIMIT;
    const uint8_t *newline = memchr(in->bytes, '\n', most);
    (void)printf("%s: refused, not a YUV4MPEG2 header that is taken: ", in->name);
    for (size_t i = 0; i < MARK_LEN; i++) {
        if (i >= in->len) {
            (void)printf("the file ends at byte %zu, within %s\n", in->len, mark);
            return;
        }
        if (in->bytes[i] != (uint8_t)mark[i]) {
            (void)printf("byte %zu is 0x%02x where 0x%02x is due, the %c of %s\n", i, (unsigned)in->bytes[i],
                         (unsigned)mark[i], mark[i], mark);
            return;
        }
    }
    if (newline == NULL) {
        (void)printf("no newline within its first %zu bytes, and %d are the most\n", most, THRESHOWL_Y4M_HEADER_LIMIT);
        return;
    }
    tell_bad_line(in->bytes, (size_t)(newline - in->bytes));
}

/* ---- a file and its frames */

/* Without an output the call gives 7 to a whole frame, and copies nothing. */
static uint32_t judge_frame(const Film *film, size_t at) {
    uint8_t none[1] = {0};
    uint64_t taken;
    return threshowl_y4m_read_frame(film->in.bytes + at, film->in.len - at, film->size.width, film->size.height, none,
                                    0, &taken);
}

static Film open_film(const char *name) {
    Film film = {.in = open_input(name)};
    uint64_t width, height, taken;
    if (threshowl_y4m_header(film.in.bytes, film.in.len, &width, &height, &taken) != THRESHOWL_DONE) {
        tell_bad_header(&film.in);
        flush_words();
        exit(REFUSED);
    }
    film.size = (Size){(size_t)width, (size_t)height};
    film.header_len = film.end = (size_t)taken;
    film.frame_len = THRESHOWL_Y4M_FRAME_LEN(width, height);
    while ((film.number = judge_frame(&film, film.end)) == THRESHOWL_BAD_OUT) {
        film.frames++;
        film.end += film.frame_len;
    }
    return film;
}

static Size padded(Size size) {
    return (Size){THRESHOWL_Y4M_PADDED(size.width), THRESHOWL_Y4M_PADDED(size.height)};
}

/* What is left after the last whole frame. */
static void tell_rest(const Film *film) {
    size_t left = film->in.len - film->end;
    if (film->number == THRESHOWL_NO_MARK) {
        (void)printf("%zu bytes from byte %zu on, and FRAME and a newline are not the first of them\n", left, film->end);
    } else {
        (void)printf("frame %zu is cut: of its %zu bytes from byte %zu on %zu are there\n", film->frames + 1, film->frame_len,
                     film->end, left);
    }
}

static int show(const char *name) {
    Film film = open_film(name);
    Size whole = padded(film.size);
    (void)printf("%s: %zu bytes\n  header: ", name, film.in.len);
    print_word(film.in.bytes, film.header_len - 1);
    (void)printf("\n  %zu by %zu samples, with halves rounded up for chroma; a frame has %zu bytes with its mark\n",
                 film.size.width, film.size.height, film.frame_len);
    (void)printf("  padded to whole macroblocks: %zu by %zu, %zu samples\n", whole.width, whole.height,
                 THRESHOWL_Y4M_PADDED_LEN(film.size.width, film.size.height));
    (void)printf("  whole frames: %zu, the last of them ends at byte %zu\n  after them: ", film.frames, film.end);
    if (film.number == THRESHOWL_DONE) {
        (void)printf("nothing\n");
    } else {
        tell_rest(&film);
    }
    flush_words();
    return film.number == THRESHOWL_DONE ? DONE : REFUSED;
}

/* ---- all frames in another size */

/* The header line with other sizes: the digits after W and H are replaced. Gives its length. */
static size_t put_header(const Film *film, Size to, char *line) {
    size_t len = film->header_len - 1;
    size_t written = MARK_LEN;
    memcpy(line, mark, MARK_LEN);
    for (size_t at = MARK_LEN; at < len;) {
        const uint8_t *word = film->in.bytes + at + 1;
        size_t word_end = word_len(word, len - at - 1);
        if (word[0] == 'W' || word[0] == 'H') {
            written += (size_t)sprintf(line + written, " %c%zu", word[0], word[0] == 'W' ? to.width : to.height);
        } else {
            memcpy(line + written, word - 1, 1 + word_end);
            written += 1 + word_end;
        }
        at += 1 + word_end;
    }
    line[written++] = '\n';
    return written;
}

/* The new header, as the call reads it, must tell the new sizes. */
static size_t make_header(const Film *film, Size to, char *line) {
    uint64_t width, height, taken;
    size_t len = put_header(film, to, line);
    if (threshowl_y4m_header((const uint8_t *)line, len, &width, &height, &taken) != THRESHOWL_DONE ||
        width != to.width || height != to.height || taken != len) {
        leave_misused(film->in.name, "its header with the new sizes would have more than 256 bytes");
    }
    return len;
}

/* One frame from the file to its place in the output. */
static void convert_frame(const Film *film, size_t index, Size to, uint8_t *frame, size_t frame_room, uint8_t *out,
                          size_t out_room) {
    size_t at = film->header_len + index * film->frame_len;
    uint64_t taken, written;
    if (threshowl_y4m_read_frame(film->in.bytes + at, film->in.len - at, film->size.width, film->size.height, frame,
                                 frame_room, &taken) != THRESHOWL_DONE ||
        taken != film->frame_len ||
        threshowl_y4m_write_frame(frame, frame_room, to.width, to.height, out, out_room, &written) != THRESHOWL_DONE ||
        written != out_room) {
        leave(FAILED, film->in.name, "a frame that was whole is refused", "");
    }
}

static int convert(const Film *film, Size to, const char *what, const char *out_name) {
    /* Each of the two sizes grows by four digits at most. */
    char header[THRESHOWL_Y4M_HEADER_LIMIT + 8];
    look_at_target(out_name, &film->in);
    if (film->number != THRESHOWL_DONE) {
        (void)printf("%s: refused: ", film->in.name);
        tell_rest(film);
        flush_words();
        return REFUSED;
    }
    size_t header_len = make_header(film, to, header);
    size_t out_frame_len = THRESHOWL_Y4M_FRAME_LEN(to.width, to.height);
    size_t frame_room = THRESHOWL_Y4M_PADDED_LEN(to.width, to.height);
    size_t len = header_len + film->frames * out_frame_len;
    uint8_t *frame = malloc(frame_room);
    if (frame == NULL) {
        leave_failed(film->in.name, "there is no memory for a frame");
    }
    Output out = make_output(out_name, len);
    memcpy(out.bytes, header, header_len);
    for (size_t i = 0; i < film->frames; i++) {
        tell_progress(what, header_len + i * out_frame_len, len);
        convert_frame(film, i, to, frame, frame_room, out.bytes + header_len + i * out_frame_len, out_frame_len);
    }
    tell_progress(what, len, len);
    free(frame);
    see_that_unchanged(&film->in);
    finish_output(&out, out_name, &film->in, len);
    (void)printf("%s: %zu frames of %zu by %zu samples\n", film->in.name, film->frames, film->size.width, film->size.height);
    (void)printf("%s: written, %zu frames of %zu by %zu samples, %zu bytes\n", out_name, film->frames, to.width, to.height,
                 len);
    flush_words();
    return DONE;
}

static int pad(const char *in_name, const char *out_name) {
    Film film = open_film(in_name);
    return convert(&film, padded(film.size), "padding", out_name);
}

static Size size_of(const char *word) {
    Size size;
    int end = 0;
    if (sscanf(word, "%5zux%5zu%n", &size.width, &size.height, &end) != 2 || word[end] != '\0' || word[0] == '+' ||
        word[0] == '-') {
        leave_misused(word, "not a size; it is written as 1918x1079");
    }
    return size;
}

/* A size has its padding alone to lose: it takes as many macroblocks. */
static bool is_within(size_t n, size_t whole) {
    return n <= whole && n >= 1 && THRESHOWL_Y4M_PADDED(n) == THRESHOWL_Y4M_PADDED(whole);
}

static size_t least_within(size_t whole) {
    return THRESHOWL_Y4M_PADDED(whole) - 15;
}

static int crop(const char *size_word, const char *in_name, const char *out_name) {
    Size to = size_of(size_word);
    Film film = open_film(in_name);
    if (!is_within(to.width, film.size.width) || !is_within(to.height, film.size.height)) {
        char words[160];
        (void)snprintf(words, sizeof words,
                       "frames of %zu by %zu samples can be cropped to a width of %zu to %zu and a height of %zu to %zu",
                       film.size.width, film.size.height, least_within(film.size.width), film.size.width,
                       least_within(film.size.height), film.size.height);
        leave_misused(size_word, words);
    }
    return convert(&film, to, "cropping", out_name);
}

static const char help[] =
    "usage: y4m [-q] show IN\n"
    "       y4m [-q] pad IN OUT\n"
    "       y4m [-q] crop WIDTHxHEIGHT IN OUT\n"
    "\n"
    "Shows the YUV4MPEG2 file IN (its header, the number of its frames, and what is\n"
    "wrong with it and where), or writes all of its frames to OUT in another size:\n"
    "\n"
    "  pad    carried on to the end of the last macroblock by copies of the edges\n"
    "  crop   cropped to a size that takes as many macroblocks\n"
    "\n"
    "The header keeps its other parameters. A file that is padded, and then cropped\n"
    "to its own size, comes back byte for byte, save for zeros in front of W's or\n"
    "H's digits. Of large files the progress is told on standard error.\n"
    "\n"
    "IN is never changed. OUT is written whole or not at all; a file of that name is\n"
    "replaced, unless it is IN itself, by whatever name or link.\n"
    "\n"
    "  -q, --quiet   no progress\n"
    "  --help        this text\n"
    "\n"
    "Exit status: 0 done; 1 IN is refused: its header breaks a rule, or something\n"
    "after it is no whole frame; 2 bad usage; 3 a file could not be read or written.\n";

static bool is_command(int argc, char **argv, int at, const char *name, int words) {
    return argc - at == words + 1 && strcmp(argv[at], name) == 0;
}

int main(int argc, char **argv) {
    int at = take_options(argc, argv, "y4m", help);
    catch_signals();
    if (is_command(argc, argv, at, "show", 1)) {
        return show(argv[at + 1]);
    }
    if (is_command(argc, argv, at, "pad", 2)) {
        return pad(argv[at + 1], argv[at + 2]);
    }
    if (is_command(argc, argv, at, "crop", 3)) {
        return crop(argv[at + 1], argv[at + 2], argv[at + 3]);
    }
    leave_misused("usage", "y4m [-q] show IN, pad IN OUT, or crop WIDTHxHEIGHT IN OUT; y4m --help tells more");
}
