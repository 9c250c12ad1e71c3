/*
 * lamp_panel.c: a small host of the library, and its demonstration.
 *
 *   lamp_panel FOLDER
 *
 * It paints a rack's panel of three modules.  The left one has an unlit lamp,
 * the right one a lit red lamp, and the middle one is predicted: whole, split
 * and merged, once with a vector that merging may fetch whole and once with one
 * just outside the range, where only a careless decoder would.  Then it is
 * predicted from the unlit lamp, and finished with a residue that lights it; and
 * the whole panel is predicted at once, by an order for each macroblock, and
 * written as a YUV4MPEG2 file.  It prints what differs, provokes every number that
 * a call gives back, and writes into FOLDER pictures of what the desk would see,
 * each for itself and all on one sheet.
 *
 * Exit status: 0 when all is as the header says, 1 when something is not, 2 on
 * bad usage.  Stock C11, and C++17 as well.
 */
#include <stdint.h>
#include <stdio.h>
#include <stdlib.h>
#include <string.h>

#include "drawing.h"
#include "threshowl.h"

enum {
    MB_COLS = 3,
    MB_ROWS = 2,
    Y_WIDTH = MB_COLS * 16,
    Y_HEIGHT = MB_ROWS * 16,
    UV_WIDTH = MB_COLS * 8,
    UV_HEIGHT = MB_ROWS * 8,
    Y_LEN = Y_WIDTH * Y_HEIGHT,
    UV_LEN = UV_WIDTH * UV_HEIGHT,

    /* The macroblock that is predicted: the middle module's lamp. */
    MB_COL = 1,
    MB_ROW = 0,

    /* Where U and V begin in an answer. */
    OUT_U = 256,
    OUT_V = 320,

    /* Each sample becomes a square of so many picture points. */
    SCALE = 10,
    PNG_WIDTH = Y_WIDTH * SCALE,
    PNG_HEIGHT = Y_HEIGHT * SCALE
};

typedef struct {
    uint8_t y[Y_LEN];
    uint8_t u[UV_LEN];
    uint8_t v[UV_LEN];
} Picture;

typedef struct {
    uint8_t y, u, v;
} Colour;

typedef struct {
    uint8_t bytes[THRESHOWL_OUT_LEN];
} Answer;

static int failures = 0;

static void expect(int holds, const char *what)
{
    if (!holds) {
        fprintf(stderr, "NOT AS IT SHOULD BE: %s\n", what);
        failures++;
    }
}

/* ---- The panel ---- */

/* Fills a rectangle given in luma samples; places and sizes are even. */
static void fill(Picture *p, size_t x, size_t y, size_t w, size_t h, Colour c)
{
    size_t row, col;
    for (row = y; row < y + h; row++) {
        for (col = x; col < x + w; col++) {
            p->y[row * Y_WIDTH + col] = c.y;
            p->u[row / 2 * UV_WIDTH + col / 2] = c.u;
            p->v[row / 2 * UV_WIDTH + col / 2] = c.v;
        }
    }
}

/* A bar lamp in a dark bezel, brightest in its middle.  Lit and unlit lamps
   have the same luma, so that chroma alone tells them apart. */
static void lamp(Picture *p, size_t x, size_t w, uint8_t u, uint8_t v)
{
    static const uint8_t glow[4] = {84, 104, 104, 84};
    const Colour bezel = {48, 128, 128};
    size_t i;
    fill(p, x, 2, w, 12, bezel);
    for (i = 0; i < 4; i++) {
        const Colour c = {glow[i], u, v};
        fill(p, x, 4 + 2 * i, w, 2, c);
    }
}

/* The lamps reach the picture's left and right edges: a far vector's fetch is
   clamped to one of those edges, and repeats what it finds there. */
static void paint_panel(Picture *p)
{
    const Colour panel = {176, 128, 128};
    const Colour seam = {120, 128, 128};
    const Colour slit = {72, 128, 128};
    size_t y;
    fill(p, 0, 0, Y_WIDTH, Y_HEIGHT, panel);
    fill(p, 14, 0, 2, Y_HEIGHT, seam);
    fill(p, 32, 0, 2, Y_HEIGHT, seam);
    lamp(p, 0, 12, 128, 128);
    lamp(p, 36, 12, 90, 240);
    for (y = 20; y < Y_HEIGHT; y += 4) {
        fill(p, 2, y, 10, 2, slit);
        fill(p, 18, y, 12, 2, slit);
        fill(p, 36, y, 10, 2, slit);
    }
}

/* The picture as the desk shows it: the panel with the macroblock predicted. */
static void place(Picture *p, const Answer *a)
{
    size_t i;
    for (i = 0; i < 16; i++)
        memcpy(p->y + (MB_ROW * 16 + i) * Y_WIDTH + MB_COL * 16, a->bytes + i * 16, 16);
    for (i = 0; i < 8; i++) {
        const size_t at = (MB_ROW * 8 + i) * UV_WIDTH + MB_COL * 8;
        memcpy(p->u + at, a->bytes + OUT_U + i * 8, 8);
        memcpy(p->v + at, a->bytes + OUT_V + i * 8, 8);
    }
}

/* ---- Pictures of it ---- */

static uint8_t clip(int scaled)
{
    if (scaled < 0)
        return 0;
    return (uint8_t)(scaled / 256 > 255 ? 255 : scaled / 256);
}

/* BT.601, studio range. */
static Paint to_rgb(const Picture *p, size_t x, size_t y)
{
    const size_t at = y / 2 * UV_WIDTH + x / 2;
    const int luma = 298 * (p->y[y * Y_WIDTH + x] - 16) + 128;
    const int u = p->u[at] - 128;
    const int v = p->v[at] - 128;
    const Paint rgb = {{clip(luma + 409 * v), clip(luma - 100 * u - 208 * v), clip(luma + 516 * u)}};
    return rgb;
}

/* Whether a point of a picture drawn so large lies on the frame round the
   macroblock.  Left of the macroblock and above it the difference wraps, and is
   large. */
static int on_frame(size_t x, size_t y, size_t scale)
{
    const size_t side = 16 * scale, thick = (scale + 3) / 4;
    const size_t dx = x - MB_COL * side, dy = y - MB_ROW * side;
    if (dx >= side || dy >= side)
        return 0;
    return dx < thick || dy < thick || dx >= side - thick || dy >= side - thick;
}

/* The picture at column left, row top, each sample a square of so many points. */
static void render(const Canvas *c, size_t left, size_t top, size_t scale, const Picture *p)
{
    static const Paint frame = {{255, 208, 0}};
    size_t x, y;
    for (y = 0; y < Y_HEIGHT * scale; y++)
        for (x = 0; x < Y_WIDTH * scale; x++)
            point(c, left + x, top + y, on_frame(x, y, scale) ? frame : to_rgb(p, x / scale, y / scale));
}

static FILE *open_in(const char *folder, const char *name)
{
    char path[4096];
    FILE *file = NULL;
    const int length = snprintf(path, sizeof path, "%s/%s", folder, name);
    if (length > 0 && (size_t)length < sizeof path)
        file = fopen(path, "wb");
    expect(file != NULL, "a file can be opened");
    return file;
}

static void write_canvas(const char *folder, const char *name, const Canvas *c)
{
    FILE *file = open_in(folder, name);
    if (file == NULL)
        return;
    expect(png_write(file, c), "a picture is written");
    expect(fclose(file) == 0, "a picture is written");
    printf("  %s\n", name);
}

/* Every picture also goes to the contact sheet, with a caption. */
enum {
    SHEET_COLS = 4,
    SHEET_ROWS = 2,
    SHEET_SCALE = 4,
    SHEET_GAP = 8,
    CELL_WIDTH = Y_WIDTH * SHEET_SCALE + SHEET_GAP,
    CELL_HEIGHT = Y_HEIGHT * SHEET_SCALE + LETTER_HEIGHT + 2 * SHEET_GAP,
    SHEET_WIDTH = SHEET_COLS * CELL_WIDTH + SHEET_GAP,
    SHEET_HEIGHT = SHEET_ROWS * CELL_HEIGHT + SHEET_GAP
};

static uint8_t sheet_rows[SHEET_HEIGHT * (1 + 3 * SHEET_WIDTH)];
static const Canvas sheet = {sheet_rows, SHEET_WIDTH, SHEET_HEIGHT};
static size_t on_sheet = 0;

static void add_to_sheet(const char *caption, const Picture *p)
{
    static const Paint ink = {{32, 32, 32}};
    const size_t left = SHEET_GAP + on_sheet % SHEET_COLS * CELL_WIDTH;
    const size_t top = SHEET_GAP + on_sheet / SHEET_COLS * CELL_HEIGHT;
    on_sheet++;
    render(&sheet, left, top, SHEET_SCALE, p);
    text(&sheet, left, top + Y_HEIGHT * SHEET_SCALE + SHEET_GAP / 2, caption, ink);
}

static void write_png(const char *folder, const char *name, const char *caption, const Picture *p)
{
    static uint8_t rows[PNG_HEIGHT * (1 + 3 * PNG_WIDTH)];
    static const Canvas canvas = {rows, PNG_WIDTH, PNG_HEIGHT};
    static const Paint none = {{0, 0, 0}};
    clear(&canvas, none);
    render(&canvas, 0, 0, SCALE, p);
    write_canvas(folder, name, &canvas);
    add_to_sheet(caption, p);
}

/* ---- Calls of the library ---- */

typedef struct {
    const Picture *picture;
    size_t y_len, u_len, v_len, y_stride, u_stride, v_stride;
    size_t mb_cols, mb_rows, mb_col, mb_row;
    int16_t row, col;
    size_t vectors_len;
    uint8_t filter, full_pixel;
    size_t out_len;
} Call;

static Call good_call(const Picture *p, int16_t row, int16_t col)
{
    const Call c = {p,        Y_LEN,   UV_LEN,  UV_LEN, Y_WIDTH, UV_WIDTH,
                    UV_WIDTH, MB_COLS, MB_ROWS, MB_COL, MB_ROW,  row,      col,
                    THRESHOWL_VECTORS_LEN, THRESHOWL_SIXTAP, 0, THRESHOWL_OUT_LEN};
    return c;
}

static void put_i16(uint8_t *at, int16_t n)
{
    const uint16_t bits = (uint16_t)n;
    at[0] = (uint8_t)(bits & 255U);
    at[1] = (uint8_t)(bits >> 8);
}

/* The call's vector, sixteen times. */
static void sixteen(const Call *c, uint8_t *vectors)
{
    size_t i;
    for (i = 0; i < 16; i++) {
        put_i16(vectors + 4 * i, c->row);
        put_i16(vectors + 4 * i + 2, c->col);
    }
}

static uint32_t whole(const Call *c, Answer *a)
{
    const Picture *p = c->picture;
    return threshowl_predict_whole(p->y, c->y_len, p->u, c->u_len, p->v, c->v_len, c->y_stride,
                                   c->u_stride, c->v_stride, c->mb_cols, c->mb_rows, c->mb_col,
                                   c->mb_row, c->row, c->col, c->filter, c->full_pixel, a->bytes,
                                   c->out_len);
}

static uint32_t split(const Call *c, Answer *a)
{
    const Picture *p = c->picture;
    uint8_t vectors[THRESHOWL_VECTORS_LEN];
    sixteen(c, vectors);
    return threshowl_predict_split(p->y, c->y_len, p->u, c->u_len, p->v, c->v_len, c->y_stride,
                                   c->u_stride, c->v_stride, c->mb_cols, c->mb_rows, c->mb_col,
                                   c->mb_row, vectors, c->vectors_len, c->filter, c->full_pixel,
                                   a->bytes, c->out_len);
}

static uint32_t merging(const Call *c, Answer *a)
{
    const Picture *p = c->picture;
    uint8_t vectors[THRESHOWL_VECTORS_LEN];
    sixteen(c, vectors);
    return threshowl_predict_merging(p->y, c->y_len, p->u, c->u_len, p->v, c->v_len, c->y_stride,
                                     c->u_stride, c->v_stride, c->mb_cols, c->mb_rows, c->mb_col,
                                     c->mb_row, vectors, c->vectors_len, c->filter, c->full_pixel,
                                     a->bytes, c->out_len);
}

enum { WHOLE, SPLIT, MERGING, FORMS };

typedef struct {
    const char *name;
    uint32_t (*predict)(const Call *, Answer *);
} Form;

static const Form forms[FORMS] = {{"whole", whole}, {"split", split}, {"merging", merging}};

/* ---- The same macroblock predicted in three ways ---- */

static const char *lamp_colour(const Answer *a)
{
    const uint8_t u = a->bytes[OUT_U + 4 * 8 + 4];
    const uint8_t v = a->bytes[OUT_V + 4 * 8 + 4];
    if (u == 128 && v == 128)
        return "grey";
    return u < 128 && v > 192 ? "red" : "of another colour";
}

static unsigned differing(const Answer *a, const Answer *b, size_t from, size_t to)
{
    unsigned n = 0;
    size_t i;
    for (i = from; i < to; i++)
        n += a->bytes[i] != b->bytes[i];
    return n;
}

static void print_difference(const char *title, const Answer *a, const Answer *b)
{
    printf("  %-22s %u of 256 Y, %u of 64 U, %u of 64 V differ\n", title,
           differing(a, b, 0, OUT_U), differing(a, b, OUT_U, OUT_V),
           differing(a, b, OUT_V, THRESHOWL_OUT_LEN));
}

static void predict_all(const Picture *p, int16_t col, Answer *answers)
{
    const Call c = good_call(p, 0, col);
    size_t i;
    for (i = 0; i < FORMS; i++) {
        const uint32_t number = forms[i].predict(&c, &answers[i]);
        printf("  %-22s number %u, the lamp is %s\n", forms[i].name, (unsigned)number,
               lamp_colour(&answers[i]));
        expect(number == THRESHOWL_DONE, "a good call is done");
    }
    print_difference("whole against split:", &answers[WHOLE], &answers[SPLIT]);
    print_difference("merging against split:", &answers[MERGING], &answers[SPLIT]);
    expect(memcmp(&answers[MERGING], &answers[SPLIT], sizeof(Answer)) == 0, "merging equals split");
    expect(strcmp(lamp_colour(&answers[SPLIT]), "red") == 0, "the lamp was sent as red");
}

static void write_shown(const char *folder, const char *name, const char *caption, const Picture *panel, const Answer *a)
{
    Picture shown = *panel;
    place(&shown, a);
    write_png(folder, name, caption, &shown);
}

static void show_lamps(const Picture *panel, const char *folder)
{
    Answer inside[FORMS], outside[FORMS];
    printf("Sixteen equal vectors (row 0, column 16383), the last that merging fetches whole:\n");
    predict_all(panel, 16383, inside);
    expect(strcmp(lamp_colour(&inside[WHOLE]), "red") == 0, "inside the range whole agrees");
    printf("Sixteen equal vectors (row 0, column 16384), the first that it must not:\n");
    predict_all(panel, 16384, outside);
    expect(strcmp(lamp_colour(&outside[WHOLE]), "grey") == 0, "outside the range whole reads grey");

    printf("Pictures, the predicted macroblock framed:\n");
    write_png(folder, "reference.png", "THE PANEL BEFORE", panel);
    write_shown(folder, "inside-merged.png", "INSIDE THE RANGE MERGED", panel, &inside[MERGING]);
    write_shown(folder, "outside-whole.png", "OUTSIDE MERGED BLINDLY", panel, &outside[WHOLE]);
    write_shown(folder, "outside-merged.png", "OUTSIDE BY THIS LIBRARY", panel, &outside[MERGING]);
}

/* ---- Samples fetched ---- */

enum { KINDS = 4, BY_SPLIT = 1 };

static const char *const kinds[KINDS] = {"whole", "split", "merging", "quarters"};

typedef struct {
    uint64_t fetched, low, high;
} Report;

static Report report(const Call *c, const uint8_t *vectors, uint8_t kind)
{
    const Picture *p = c->picture;
    Answer a;
    Report r;
    const uint32_t number = threshowl_predict_report(
        p->y, c->y_len, p->u, c->u_len, p->v, c->v_len, c->y_stride, c->u_stride, c->v_stride,
        c->mb_cols, c->mb_rows, c->mb_col, c->mb_row, vectors, c->vectors_len, kind, c->filter,
        c->full_pixel, a.bytes, c->out_len, &r.fetched, &r.low, &r.high);
    expect(number == THRESHOWL_DONE, "a good call is done");
    return r;
}

static void print_fetched(const char *words, const Call *c, const uint8_t *vectors)
{
    uint64_t fetched[KINDS];
    uint8_t kind;
    printf("  %-36s", words);
    for (kind = 0; kind < KINDS; kind++) {
        fetched[kind] = report(c, vectors, kind).fetched;
        printf(" %8u", (unsigned)fetched[kind]);
    }
    printf("\n");
    expect(fetched[2] <= fetched[1] && fetched[3] <= fetched[1], "no merging fetches more than split");
}

static void show_fetched(const Picture *p)
{
    Call c = good_call(p, 0, 16383);
    uint8_t vectors[THRESHOWL_VECTORS_LEN];
    size_t i;
    printf("Samples fetched for the lamp:\n");
    printf("  %-36s", "");
    for (i = 0; i < KINDS; i++)
        printf(" %8s", kinds[i]);
    printf("\n");
    sixteen(&c, vectors);
    print_fetched("column 16383 sixteen times", &c, vectors);
    put_i16(vectors + THRESHOWL_VECTORS_LEN - 4, 4);
    print_fetched("and a last vector that differs", &c, vectors);
    c.full_pixel = 1;
    print_fetched("the same at whole pixels", &c, vectors);
    c = good_call(p, 0, 16384);
    sixteen(&c, vectors);
    print_fetched("column 16384, which has no fraction", &c, vectors);
}

/* ---- Samples clipped, over the panel: as it is, and with the camera's gain far too high ---- */

static void print_clipped(const char *words, const Picture *p)
{
    Call c = good_call(p, 3, -5);
    uint8_t vectors[THRESHOWL_VECTORS_LEN];
    uint64_t low = 0, high = 0;
    sixteen(&c, vectors);
    for (c.mb_row = 0; c.mb_row < MB_ROWS; c.mb_row++)
        for (c.mb_col = 0; c.mb_col < MB_COLS; c.mb_col++) {
            const Report r = report(&c, vectors, BY_SPLIT);
            expect(threshowl_add_clipped(&low, &high, r.low, r.high) == THRESHOWL_DONE, "the totals have room");
        }
    printf("  %-36s %8u %8u\n", words, (unsigned)low, (unsigned)high);
}

static void show_clipped(const Picture *p)
{
    Picture saturated = *p;
    size_t i;
    for (i = 0; i < Y_LEN; i++)
        saturated.y[i] = saturated.y[i] < 128 ? 0 : 255;
    printf("Samples clipped in the panel, moved by row 3, column -5:\n");
    printf("  %-36s %8s %8s\n", "", "low", "high");
    print_clipped("as it is", p);
    print_clipped("saturated", &saturated);
}

/* ---- The lamp finished: the unlit one's prediction, and a residue that lights it ---- */

typedef struct {
    int16_t numbers[THRESHOWL_COEFFICIENTS];
    size_t count;
    uint8_t skip;
} Residue;

/* Where the blocks of U and V begin. */
enum { RESIDUE_U = 272, RESIDUE_V = 336 };

/* The first number of a block adds an eighth of itself to each sample: from grey
   to the lit lamp's red. */
static Residue lighting(void)
{
    Residue r;
    size_t i;
    memset(&r, 0, sizeof r);
    r.count = THRESHOWL_COEFFICIENTS;
    for (i = 0; i < 4; i++) {
        r.numbers[RESIDUE_U + 16 * i] = 8 * (90 - 128);
        r.numbers[RESIDUE_V + 16 * i] = 8 * (240 - 128);
    }
    return r;
}

static uint32_t finish_whole(const Call *c, const Residue *r, Answer *a)
{
    const Picture *p = c->picture;
    return threshowl_reconstruct_whole(p->y, c->y_len, p->u, c->u_len, p->v, c->v_len, c->y_stride,
                                       c->u_stride, c->v_stride, c->mb_cols, c->mb_rows, c->mb_col,
                                       c->mb_row, c->row, c->col, c->filter, c->full_pixel, r->skip,
                                       r->numbers, r->count, a->bytes, c->out_len);
}

static uint32_t finish_whole_pixel(const Call *c, const Residue *r, Answer *a)
{
    const Picture *p = c->picture;
    return threshowl_reconstruct_whole_pixel(p->y, c->y_len, p->u, c->u_len, p->v, c->v_len,
                                             c->y_stride, c->u_stride, c->v_stride, c->mb_cols,
                                             c->mb_rows, c->mb_col, c->mb_row, c->row, c->col,
                                             c->full_pixel, r->skip, r->numbers, r->count, a->bytes,
                                             c->out_len);
}

/* Split has no Y2: its coefficients are those after it. */
static uint32_t finish_split(const Call *c, const Residue *r, Answer *a)
{
    const Picture *p = c->picture;
    uint8_t vectors[THRESHOWL_VECTORS_LEN];
    sixteen(c, vectors);
    return threshowl_reconstruct_split(p->y, c->y_len, p->u, c->u_len, p->v, c->v_len, c->y_stride,
                                       c->u_stride, c->v_stride, c->mb_cols, c->mb_rows, c->mb_col,
                                       c->mb_row, vectors, c->vectors_len, c->filter, c->full_pixel,
                                       r->skip, r->numbers + 16, r->count - 16, a->bytes, c->out_len);
}

typedef uint32_t Finish(const Call *, const Residue *, Answer *);

static Finish *const finishes[] = {finish_whole, finish_whole_pixel, finish_split};

enum { FINISHES = sizeof finishes / sizeof finishes[0] };

/* The three calls in a row, each with what the residue makes of the lamp. */
static void print_finished(const char *words, const Call *c, const Residue *r, Answer *a)
{
    size_t i;
    printf("  %-36s", words);
    for (i = 0; i < FINISHES; i++) {
        const uint32_t number = finishes[i](c, r, a);
        if (number == THRESHOWL_DONE)
            printf(" %11s", lamp_colour(a));
        else
            printf(" %11u", (unsigned)number);
    }
    printf("\n");
}

static void show_finished(const Picture *panel, const char *folder)
{
    Call c = good_call(panel, 0, -64);
    Residue r = lighting();
    Answer predicted, finished, a;
    expect(whole(&c, &predicted) == THRESHOWL_DONE, "a good call is done");
    expect(finish_whole(&c, &r, &finished) == THRESHOWL_DONE, "a good call is done");
    printf("The lamp predicted from the unlit one is %s, and finished it is %s:\n",
           lamp_colour(&predicted), lamp_colour(&finished));
    expect(strcmp(lamp_colour(&predicted), "grey") == 0, "the unlit lamp is grey");
    expect(strcmp(lamp_colour(&finished), "red") == 0, "the residue lights it");
    printf("  %-36s %11s %11s %11s\n", "", "whole", "whole pixel", "split");
    print_finished("with its residue", &c, &r, &a);
    expect(memcmp(&a, &finished, sizeof a) == 0, "whole and split give the same finished block");
    r.skip = 1;
    print_finished("with the skip flag", &c, &r, &a);
    expect(memcmp(&a, &predicted, sizeof a) == 0, "skipped it is the prediction");
    r.numbers[16] = 4096;
    print_finished("skipped, a first Y number of 4096", &c, &r, &a);
    r.skip = 0;
    print_finished("a first Y number of 4096", &c, &r, &a);
    r.numbers[17] = -4096;
    print_finished("a second Y number of -4096", &c, &r, &a);
    c.out_len--;
    print_finished("and an output of 383 bytes", &c, &r, &a);
    write_shown(folder, "predicted.png", "PREDICTED UNLIT", panel, &predicted);
    write_shown(folder, "finished.png", "FINISHED BY ITS RESIDUE", panel, &finished);
}

/* ---- The panel as a frame: an order for each macroblock ---- */

enum {
    MACROBLOCKS = MB_COLS * MB_ROWS,
    ORDERS_LEN = MACROBLOCKS * THRESHOWL_ORDER_LEN,
    LAMP_ORDER = (MB_ROW * MB_COLS + MB_COL) * THRESHOWL_ORDER_LEN,
    FRAME_LEN = Y_LEN + 2 * UV_LEN,
    MARK_LEN = 6
};

/* Every macroblock stays as it was in the last picture, but for the lamp: that is
   split, by the sixteen equal vectors that may not be merged. */
static void write_orders(const Picture *p, uint8_t *orders)
{
    const Call c = good_call(p, 0, 16384);
    memset(orders, 0, ORDERS_LEN);
    orders[LAMP_ORDER + 1] = THRESHOWL_SPLIT;
    sixteen(&c, orders + LAMP_ORDER + 2);
}

/* The one picture is all three references. */
static uint32_t predict_frame(const Picture *p, const uint8_t *orders, size_t orders_len, Picture *out)
{
    return threshowl_predict_frame(p->y, Y_LEN, p->u, UV_LEN, p->v, UV_LEN, p->y, Y_LEN, p->u, UV_LEN,
                                   p->v, UV_LEN, p->y, Y_LEN, p->u, UV_LEN, p->v, UV_LEN, Y_WIDTH,
                                   UV_WIDTH, UV_WIDTH, MB_COLS, MB_ROWS, orders, orders_len,
                                   THRESHOWL_SIXTAP, 0, out->y, Y_LEN, out->u, UV_LEN, out->v, UV_LEN,
                                   Y_WIDTH, UV_WIDTH, UV_WIDTH);
}

/* A file of one frame, for any viewer. */
static void write_y4m(const char *folder, const char *name, const Picture *p)
{
    uint8_t frame[FRAME_LEN], bytes[MARK_LEN + FRAME_LEN];
    FILE *file = open_in(folder, name);
    uint64_t written = 0;
    int bad;
    memcpy(frame, p->y, Y_LEN);
    memcpy(frame + Y_LEN, p->u, UV_LEN);
    memcpy(frame + Y_LEN + UV_LEN, p->v, UV_LEN);
    expect(threshowl_y4m_write_frame(frame, sizeof frame, Y_WIDTH, Y_HEIGHT, bytes, sizeof bytes, &written)
               == THRESHOWL_DONE && written == sizeof bytes,
           "a frame is written as a file has it");
    if (file == NULL)
        return;
    bad = fprintf(file, "YUV4MPEG2 W%d H%d F1:1 C420jpeg\n", Y_WIDTH, Y_HEIGHT) < 0;
    bad |= fwrite(bytes, 1, sizeof bytes, file) != sizeof bytes;
    bad |= fclose(file) != 0;
    expect(!bad, "a film is written");
    printf("  %s\n", name);
}

static void show_frame(const Picture *panel, const char *folder)
{
    static uint8_t orders[ORDERS_LEN];
    static Picture predicted, due, kept;
    const Call c = good_call(panel, 0, 16384);
    Answer lamp_mb;
    uint32_t number;
    write_orders(panel, orders);
    expect(split(&c, &lamp_mb) == THRESHOWL_DONE, "a good call is done");
    due = *panel;
    place(&due, &lamp_mb);
    number = predict_frame(panel, orders, ORDERS_LEN, &predicted);
    expect(memcmp(&predicted, &due, sizeof due) == 0, "a frame is what single calls give");
    printf("The panel as a frame of %d orders, of which the lamp's is split:\n", MACROBLOCKS);
    printf("  number %u, the lamp is %s\n", (unsigned)number, lamp_colour(&lamp_mb));

    kept = predicted;
    printf("  orders one byte short: %u\n", (unsigned)predict_frame(panel, orders, ORDERS_LEN - 1, &predicted));
    orders[LAMP_ORDER] = THRESHOWL_ALTREF + 1;
    printf("  a reference that is none: %u\n", (unsigned)predict_frame(panel, orders, ORDERS_LEN, &predicted));
    expect(memcmp(&predicted, &kept, sizeof kept) == 0, "a refused frame keeps every byte");
    write_png(folder, "frame.png", "ALL AT ONCE AS A FRAME", &predicted);
    write_y4m(folder, "panel.y4m", &predicted);
}

/* ---- Every number, from a call made to provoke it ---- */

static void too_many_rows(Call *c) { c->mb_rows = 1025; }
static void narrow_stride(Call *c) { c->y_stride = Y_WIDTH - 1; }
/* In a picture of one column, where U's stride is good. */
static void narrow_v_stride(Call *c)
{
    c->mb_cols = 1;
    c->mb_col = 0;
    c->v_stride = 7;
}

static void short_plane(Call *c) { c->v_len = UV_LEN - 1; }
static void row_outside(Call *c) { c->mb_row = MB_ROWS; }
static void unknown_filter(Call *c) { c->filter = 2; }
static void short_vectors(Call *c) { c->vectors_len = THRESHOWL_VECTORS_LEN - 1; }
static void short_out(Call *c) { c->out_len = THRESHOWL_OUT_LEN - 1; }

typedef struct {
    uint32_t number;
    const char *words;
    void (*commit)(Call *);
} Fault;

static const Fault faults[] = {
    {THRESHOWL_BAD_SIZE, "1025 macroblock rows", too_many_rows},
    {THRESHOWL_BAD_STRIDE, "a luma stride of 47 for 48 samples", narrow_stride},
    {THRESHOWL_BAD_STRIDE, "a V stride of 7 for 8 samples", narrow_v_stride},
    {THRESHOWL_SHORT_PLANE, "a V plane one byte short", short_plane},
    {THRESHOWL_OUTSIDE_PICTURE, "macroblock row 2 of a picture of 2", row_outside},
    {THRESHOWL_BAD_FILTER, "filter code 2", unknown_filter},
    {THRESHOWL_BAD_VECTORS, "63 bytes of vectors", short_vectors},
    {THRESHOWL_BAD_OUT, "an output of 383 bytes", short_out},
};

enum { FAULTS = sizeof faults / sizeof faults[0] };

/* The number that a refused call gives, having looked that out kept its bytes. */
static uint32_t refused(const Form *form, const Call *c)
{
    Answer before, after;
    uint32_t number;
    memset(&before, 0x5A, sizeof before);
    after = before;
    number = form->predict(c, &after);
    expect(memcmp(&before, &after, sizeof before) == 0, "a refused call keeps every byte of out");
    return number;
}

/* Commits fault i alone, and then with every later one: the lowest number is
   the one given. */
static void provoke(const Form *form, const Picture *p, size_t i)
{
    Call c = good_call(p, 0, 0);
    uint32_t alone, first;
    faults[i].commit(&c);
    alone = refused(form, &c);
    expect(alone == faults[i].number, "a fault gets its number");
    for (; i < FAULTS; i++)
        faults[i].commit(&c);
    first = refused(form, &c);
    expect(first == alone, "of several faults the lowest number is given");
    printf(" %8u", (unsigned)alone);
}

/* Whole prediction takes no list of vectors, so it has no such fault. */
static void provoke_in_all(const Picture *p, size_t i)
{
    size_t f;
    printf("  %-36s", faults[i].words);
    for (f = 0; f < FORMS; f++) {
        if (f == WHOLE && faults[i].number == THRESHOWL_BAD_VECTORS)
            printf(" %8s", "-");
        else
            provoke(&forms[f], p, i);
    }
    printf("\n");
}

static void show_numbers(const Picture *p)
{
    const Call c = good_call(p, 0, 0);
    size_t i;
    Answer a;
    printf("Numbers, each refused call leaving its output as it was:\n");
    printf("  %-36s %8s %8s %8s\n", "", forms[WHOLE].name, forms[SPLIT].name, forms[MERGING].name);
    printf("  %-36s", "nothing amiss");
    for (i = 0; i < FORMS; i++) {
        const uint32_t number = forms[i].predict(&c, &a);
        expect(number == THRESHOWL_DONE, "a good call is done");
        printf(" %8u", (unsigned)number);
    }
    printf("\n");
    for (i = 0; i < FAULTS; i++)
        provoke_in_all(p, i);
}

/* ---- The version number of a frame's tag, handed over as it stands there ---- */

static uint32_t whole_by_version(const Call *c, uint8_t version, uint8_t standard, Answer *a)
{
    const Picture *p = c->picture;
    return threshowl_predict_whole_by_version(p->y, c->y_len, p->u, c->u_len, p->v, c->v_len,
                                              c->y_stride, c->u_stride, c->v_stride, c->mb_cols,
                                              c->mb_rows, c->mb_col, c->mb_row, c->row, c->col,
                                              version, standard, a->bytes, c->out_len);
}

static uint32_t split_by_version(const Call *c, uint8_t version, uint8_t standard, Answer *a)
{
    const Picture *p = c->picture;
    uint8_t vectors[THRESHOWL_VECTORS_LEN];
    sixteen(c, vectors);
    return threshowl_predict_split_by_version(p->y, c->y_len, p->u, c->u_len, p->v, c->v_len,
                                              c->y_stride, c->u_stride, c->v_stride, c->mb_cols,
                                              c->mb_rows, c->mb_col, c->mb_row, vectors,
                                              c->vectors_len, version, standard, a->bytes,
                                              c->out_len);
}

static void print_version(const char *words, uint32_t of_whole, uint32_t of_split)
{
    printf("  %-36s %8u %8u\n", words, (unsigned)of_whole, (unsigned)of_split);
}

/* Versions 0 to 3 answer what their table and flag answer. */
static void show_version(const Picture *p, uint8_t version)
{
    Call c = good_call(p, 3, -5);
    Answer by_codes, by_number;
    char words[16];
    uint32_t numbers[2];
    c.filter = version == 0 ? THRESHOWL_SIXTAP : THRESHOWL_BILINEAR;
    c.full_pixel = version == 3;
    whole(&c, &by_codes);
    numbers[0] = whole_by_version(&c, version, 0, &by_number);
    expect(memcmp(&by_codes, &by_number, sizeof by_codes) == 0, "whole by version is whole");
    split(&c, &by_codes);
    numbers[1] = split_by_version(&c, version, 0, &by_number);
    expect(memcmp(&by_codes, &by_number, sizeof by_codes) == 0, "split by version is split");
    snprintf(words, sizeof words, "version %u", version);
    print_version(words, numbers[0], numbers[1]);
}

/* A reserved version is refused before anything else that is amiss. */
static void show_reserved(const Picture *p)
{
    Call c = good_call(p, 0, 0);
    Answer a;
    size_t i;
    print_version("version 5, which is reserved", whole_by_version(&c, 5, 0, &a),
                  split_by_version(&c, 5, 0, &a));
    for (i = 0; i < FAULTS; i++)
        faults[i].commit(&c);
    print_version("version 5, with every fault above", whole_by_version(&c, 5, 0, &a),
                  split_by_version(&c, 5, 0, &a));
    expect(split_by_version(&c, 5, 0, &a) == THRESHOWL_RESERVED_VERSION, "5 is refused with 10");
}

/* Version 3 as the standard has it: luma keeps its fraction. */
static void show_standard(const Picture *p)
{
    const Call c = good_call(p, 3, -5);
    Answer by_rust, by_standard;
    expect(whole_by_version(&c, 3, 0, &by_rust) == THRESHOWL_DONE, "a good call is done");
    expect(whole_by_version(&c, 3, 1, &by_standard) == THRESHOWL_DONE, "a good call is done");
    print_difference("version 3, two modes:", &by_rust, &by_standard);
    expect(differing(&by_rust, &by_standard, OUT_U, THRESHOWL_OUT_LEN) == 0,
           "the modes agree in U and V");
}

static void show_versions(const Picture *p)
{
    uint8_t version;
    printf("By version:\n");
    printf("  %-36s %8s %8s\n", "", forms[WHOLE].name, forms[SPLIT].name);
    for (version = 0; version < 4; version++)
        show_version(p, version);
    show_reserved(p);
    show_standard(p);
}

int main(int argc, char **argv)
{
    static const Paint paper = {{244, 244, 240}};
    static Picture panel;
    if (argc != 2) {
        fprintf(stderr, "usage: lamp_panel FOLDER\n");
        return 2;
    }
    paint_panel(&panel);
    clear(&sheet, paper);
    show_lamps(&panel, argv[1]);
    show_fetched(&panel);
    show_clipped(&panel);
    show_finished(&panel, argv[1]);
    show_frame(&panel, argv[1]);
    write_canvas(argv[1], "contact-sheet.png", &sheet);
    show_numbers(&panel);
    show_versions(&panel);
    printf(failures ? "Something is not as it should be.\n" : "All is as it should be.\n");
    return failures ? EXIT_FAILURE : EXIT_SUCCESS;
}
