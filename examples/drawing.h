/*
 * drawing.h: what lamp_panel.c draws with: a canvas of RGB points, capital letters,
 * and a PNG file of it, with its data stored and not compressed.  C11 and C++17.
 */
#ifndef DRAWING_H
#define DRAWING_H

#include <stdint.h>
#include <stdio.h>
#include <string.h>

/* Rows of 1 + 3 * width bytes: no prediction of the row from its neighbours, then
   red, green and blue of each point. */
typedef struct {
    uint8_t *rows;
    size_t width, height;
} Canvas;

typedef struct {
    uint8_t rgb[3];
} Paint;

static size_t row_length(const Canvas *c)
{
    return 1 + 3 * c->width;
}

static void point(const Canvas *c, size_t x, size_t y, Paint p)
{
    memcpy(c->rows + y * row_length(c) + 1 + 3 * x, p.rgb, 3);
}

static void clear(const Canvas *c, Paint p)
{
    size_t x, y;
    for (y = 0; y < c->height; y++) {
        c->rows[y * row_length(c)] = 0;
        for (x = 0; x < c->width; x++)
            point(c, x, y, p);
    }
}

/* ---- Letters of 5 by 7 points, a row in the low five bits of a number ---- */

enum { LETTER_WIDTH = 5, LETTER_HEIGHT = 7, LETTER_STEP = LETTER_WIDTH + 1 };

static const uint8_t letters[26][LETTER_HEIGHT] = {
    {14, 17, 17, 31, 17, 17, 17}, {30, 17, 17, 30, 17, 17, 30}, {14, 17, 16, 16, 16, 17, 14}, /* A B C */
    {30, 17, 17, 17, 17, 17, 30}, {31, 16, 16, 30, 16, 16, 31}, {31, 16, 16, 30, 16, 16, 16}, /* D E F */
    {14, 17, 16, 23, 17, 17, 14}, {17, 17, 17, 31, 17, 17, 17}, {14, 4, 4, 4, 4, 4, 14},      /* G H I */
    {7, 2, 2, 2, 2, 18, 12},      {17, 18, 20, 24, 20, 18, 17}, {16, 16, 16, 16, 16, 16, 31}, /* J K L */
    {17, 27, 21, 21, 17, 17, 17}, {17, 25, 21, 19, 17, 17, 17}, {14, 17, 17, 17, 17, 17, 14}, /* M N O */
    {30, 17, 17, 30, 16, 16, 16}, {14, 17, 17, 17, 21, 18, 13}, {30, 17, 17, 30, 20, 18, 17}, /* P Q R */
    {15, 16, 16, 14, 1, 1, 30},   {31, 4, 4, 4, 4, 4, 4},       {17, 17, 17, 17, 17, 17, 14}, /* S T U */
    {17, 17, 17, 17, 17, 10, 4},  {17, 17, 17, 21, 21, 27, 17}, {17, 10, 4, 4, 4, 10, 17},    /* V W X */
    {17, 10, 4, 4, 4, 4, 4},      {31, 1, 2, 4, 8, 16, 31},                                   /* Y Z */
};

static void letter(const Canvas *c, size_t x, size_t y, unsigned which, Paint p)
{
    size_t row, col;
    for (row = 0; row < LETTER_HEIGHT; row++)
        for (col = 0; col < LETTER_WIDTH; col++)
            if (letters[which][row] >> (LETTER_WIDTH - 1 - col) & 1U)
                point(c, x + col, y + row, p);
}

/* Capital letters, and a gap for anything else. */
static void text(const Canvas *c, size_t x, size_t y, const char *words, Paint p)
{
    for (; *words != '\0'; words++, x += LETTER_STEP)
        if (*words >= 'A' && *words <= 'Z')
            letter(c, x, y, (unsigned)(*words - 'A'), p);
}

/* ---- PNG ---- */

typedef struct {
    FILE *file;
    uint32_t crc;
} Png;

static void png_bytes(Png *png, const uint8_t *bytes, size_t n)
{
    size_t i;
    int bit;
    for (i = 0; i < n; i++) {
        png->crc ^= bytes[i];
        for (bit = 0; bit < 8; bit++)
            png->crc = (png->crc >> 1) ^ ((png->crc & 1U) ? 0xEDB88320U : 0U);
    }
    fwrite(bytes, 1, n, png->file);
}

static void png_u32(Png *png, uint32_t n)
{
    const uint8_t b[4] = {(uint8_t)(n >> 24), (uint8_t)(n >> 16 & 255U), (uint8_t)(n >> 8 & 255U),
                          (uint8_t)(n & 255U)};
    png_bytes(png, b, sizeof b);
}

static void png_begin_chunk(Png *png, const char *name, size_t length)
{
    uint8_t tag[4];
    memcpy(tag, name, sizeof tag);
    png_u32(png, (uint32_t)length);
    png->crc = 0xFFFFFFFFU;
    png_bytes(png, tag, sizeof tag);
}

static void png_end_chunk(Png *png)
{
    png_u32(png, png->crc ^ 0xFFFFFFFFU);
}

static uint32_t adler32(const uint8_t *bytes, size_t n)
{
    uint32_t a = 1, b = 0;
    size_t i;
    for (i = 0; i < n; i++) {
        a = (a + bytes[i]) % 65521U;
        b = (b + a) % 65521U;
    }
    return b << 16 | a;
}

/* One row of the canvas is one stored block: its header is the mark of the last
   block, the row's length and that length's complement. */
static void png_stored_row(Png *png, const uint8_t *row, size_t length, int last)
{
    const size_t not_length = 0xFFFFU - length;
    const uint8_t head[5] = {(uint8_t)(last ? 1 : 0), (uint8_t)(length % 256U), (uint8_t)(length / 256U),
                             (uint8_t)(not_length % 256U), (uint8_t)(not_length / 256U)};
    png_bytes(png, head, sizeof head);
    png_bytes(png, row, length);
}

static void png_data(Png *png, const Canvas *c)
{
    static const uint8_t zlib_head[2] = {0x78, 0x01};
    const size_t length = row_length(c);
    size_t i;
    png_begin_chunk(png, "IDAT", sizeof zlib_head + c->height * (5 + length) + 4);
    png_bytes(png, zlib_head, sizeof zlib_head);
    for (i = 0; i < c->height; i++)
        png_stored_row(png, c->rows + i * length, length, i + 1 == c->height);
    png_u32(png, adler32(c->rows, c->height * length));
    png_end_chunk(png);
}

static void png_header(Png *png, const Canvas *c)
{
    static const uint8_t signature[8] = {137, 80, 78, 71, 13, 10, 26, 10};
    static const uint8_t eight_bit_rgb[5] = {8, 2, 0, 0, 0};
    png_bytes(png, signature, sizeof signature);
    png_begin_chunk(png, "IHDR", 13);
    png_u32(png, (uint32_t)c->width);
    png_u32(png, (uint32_t)c->height);
    png_bytes(png, eight_bit_rgb, sizeof eight_bit_rgb);
    png_end_chunk(png);
}

/* Whether all of it could be written. */
static int png_write(FILE *file, const Canvas *c)
{
    Png png = {file, 0};
    png_header(&png, c);
    png_data(&png, c);
    png_begin_chunk(&png, "IEND", 0);
    png_end_chunk(&png);
    return !ferror(file);
}

#endif
