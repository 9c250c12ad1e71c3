/* See reading.h. */
#include "reading.h"

/* in eighths of a pixel */
typedef struct {
    int row, col;
} Eighths;

static const int SIXTAP[8][6] = {
    {0, 0, 128, 0, 0, 0},     {0, -6, 123, 12, -1, 0}, {2, -11, 108, 36, -8, 1}, {0, -9, 93, 50, -6, 0},
    {3, -16, 77, 77, -16, 3}, {0, -6, 50, 93, -9, 0},  {1, -8, 36, 108, -11, 2}, {0, -1, 12, 123, -6, 0},
};

static const int BILINEAR[8][6] = {
    {0, 0, 128, 0, 0, 0}, {0, 0, 112, 16, 0, 0}, {0, 0, 96, 32, 0, 0}, {0, 0, 80, 48, 0, 0},
    {0, 0, 64, 64, 0, 0}, {0, 0, 48, 80, 0, 0},  {0, 0, 32, 96, 0, 0}, {0, 0, 16, 112, 0, 0},
};

/* ---- numbers */

static int floor_mod(int z, int m)
{
    return (z % m + m) % m;
}

static int floor_div(int z, int m)
{
    return (z - floor_mod(z, m)) / m;
}

/* z / 8, a half away from zero */
static int nearest8(int z)
{
    return z >= 0 ? (z + 4) / 8 : -((-z + 4) / 8);
}

static int clamped(int z, int least, int most)
{
    return z < least ? least : z > most ? most : z;
}

/* ---- vectors */

static int stored(int z)
{
    return floor_mod(2 * z + 32768, 65536) - 32768;
}

static int lowered(bool on, int z)
{
    return on ? 8 * floor_div(z, 8) : z;
}

static Eighths luma_vector(Rule rule, Vector v)
{
    return (Eighths){lowered(rule.lower_luma, stored(v.row)), lowered(rule.lower_luma, stored(v.col))};
}

static Eighths whole_chroma_vector(Rule rule, Vector v)
{
    return (Eighths){lowered(rule.lower_chroma, nearest8(4 * stored(v.row))), lowered(rule.lower_chroma, nearest8(4 * stored(v.col)))};
}

static int doubled(Rule rule, int z)
{
    return rule.average_stored ? stored(z) : 2 * z;
}

/* of the quarter at row r, column c of two by two */
static Eighths split_chroma_vector(Rule rule, const Vector *vectors, size_t r, size_t c)
{
    static const size_t OF_QUARTER[4] = {0, 1, 4, 5};
    int row = 0, col = 0;
    for (size_t i = 0; i < 4; i++) {
        Vector v = vectors[r * 8 + c * 2 + OF_QUARTER[i]];
        row += doubled(rule, v.row);
        col += doubled(rule, v.col);
    }
    return (Eighths){lowered(rule.lower_chroma, nearest8(row)), lowered(rule.lower_chroma, nearest8(col))};
}

/* ---- samples */

static int at_nearest(const Plane *p, int x, int y)
{
    size_t column = (size_t)clamped(x, 0, (int)p->width - 1), row = (size_t)clamped(y, 0, (int)p->height - 1);
    return p->bytes[row * p->stride + column];
}

static int step(const int *taps, const int *six)
{
    int sum = 64;
    for (int i = 0; i < 6; i++)
        sum += taps[i] * six[i];
    return clamped(floor_div(sum, 128), 0, 255);
}

static int across(const int *taps, const Plane *p, int x, int y)
{
    int six[6];
    for (int i = 0; i < 6; i++)
        six[i] = at_nearest(p, x + i - 2, y);
    return step(taps, six);
}

static uint8_t predicted(bool sixtap, const Plane *p, size_t column, size_t row, Eighths v)
{
    int x = (int)column + floor_div(v.col, 8), y = (int)row + floor_div(v.row, 8);
    int mx = floor_mod(v.col, 8), my = floor_mod(v.row, 8);
    if (mx == 0 && my == 0)
        return (uint8_t)at_nearest(p, x, y);
    int six[6];
    for (int i = 0; i < 6; i++)
        six[i] = across(sixtap ? SIXTAP[mx] : BILINEAR[mx], p, x, y + i - 2);
    return (uint8_t)step(sixtap ? SIXTAP[my] : BILINEAR[my], six);
}

void read_luma(const Picture *p, Place at, bool split, const Vector *vectors, Rule rule, uint8_t *y)
{
    for (size_t r = 0; r < 16; r++)
        for (size_t c = 0; c < 16; c++) {
            Vector v = vectors[split ? r / 4 * 4 + c / 4 : 0];
            y[r * 16 + c] = predicted(rule.sixtap, &p->planes[0], at.col * 16 + c, at.row * 16 + r, luma_vector(rule, v));
        }
}

void read_chroma(const Picture *p, Place at, bool split, const Vector *vectors, Rule rule, uint8_t *u_and_v)
{
    for (size_t n = 0; n < 2; n++)
        for (size_t r = 0; r < 8; r++)
            for (size_t c = 0; c < 8; c++) {
                Eighths v = split ? split_chroma_vector(rule, vectors, r / 4, c / 4) : whole_chroma_vector(rule, vectors[0]);
                u_and_v[n * 64 + r * 8 + c] = predicted(rule.sixtap, &p->planes[1 + n], at.col * 8 + c, at.row * 8 + r, v);
            }
}
