/*
 * clip.c: writes a synthetic clip as a YUV4MPEG2 file to standard output.
 *
 *   clip WIDTH HEIGHT FRAMES SWAY
 *
 * A textured ground pans by fractions of a pixel, back and forth; where SWAY is
 * not 0 its rows and columns also sway by so many pixels, so that neighbouring 4x4
 * blocks move differently.  Over it textured balls fly, each its own way, in and
 * out of the picture.  Whole numbers throughout: the bytes are the same everywhere.
 */
#include <stdint.h>
#include <stdio.h>
#include <stdlib.h>

/* Places are in 256ths of a pixel. */
enum { ONE = 256, BALLS = 14 };

typedef struct {
    int64_t x, y;
} Point;

static uint32_t mixed(uint32_t a, uint32_t b, uint32_t seed)
{
    uint32_t z = a * 0x9E3779B1u ^ b * 0x85EBCA77u ^ seed * 0xC2B2AE3Du;

    z = (z ^ z >> 15) * 0x2C1B3C6Du;
    z = (z ^ z >> 12) * 0x297A2D39u;
    return z ^ z >> 15;
}

static int64_t floored(int64_t a, int64_t b)
{
    return a >= 0 ? a / b : -((-a + b - 1) / b);
}

/* Noise in 0..255, smooth between the points of a grid of `cell` pixels. */
static int64_t noise(Point at, int64_t cell, uint32_t seed)
{
    int64_t step = cell * ONE;
    int64_t col = floored(at.x, step);
    int64_t row = floored(at.y, step);
    int64_t across = at.x - col * step;
    int64_t down = at.y - row * step;
    int64_t corner[4];

    for (int i = 0; i < 4; i++)
        corner[i] = mixed((uint32_t)(col + i % 2), (uint32_t)(row + i / 2), seed) & 255;
    int64_t above = corner[0] * (step - across) + corner[1] * across;
    int64_t below = corner[2] * (step - across) + corner[3] * across;
    return (above * (step - down) + below * down) / (step * step);
}

/* What a surface shows at a place; plane 0 is luma. */
static int64_t texture(Point at, int plane, uint32_t seed)
{
    uint32_t own = seed * 8 + (uint32_t)plane * 2;

    if (plane > 0)
        return 64 + noise(at, 12, own) / 2;
    return (noise(at, 24, own) * 2 + noise(at, 6, own + 1) + noise(at, 3, own + 7)) / 4;
}

/* A triangle wave between -high and high. */
static int64_t wave(int64_t t, int64_t period, int64_t high)
{
    int64_t phase = t - floored(t, period) * period;
    int64_t half = period / 2;
    int64_t rise = phase < half ? phase : period - phase;

    return rise * 2 * high / half - high;
}

static int64_t panned(int64_t t, int64_t turn, int64_t speed)
{
    return wave(t + turn / 2, 2 * turn, turn * speed / 2);
}

static Point ball_at(int ball, int64_t t, int64_t width, int64_t height)
{
    uint32_t drawn = mixed((uint32_t)ball, 7, 99);
    int64_t across = (int64_t)(drawn & 2047) - 1024;
    int64_t down = (int64_t)(drawn >> 11 & 2047) - 1024;
    int64_t wide = (width + 80) * ONE;
    int64_t high = (height + 80) * ONE;
    int64_t x = (int64_t)(drawn >> 5) % wide + across * t * 2;
    int64_t y = (int64_t)(drawn >> 9) % high + down * t * 2;

    return (Point){x - floored(x, wide) * wide - 40 * ONE, y - floored(y, high) * high - 40 * ONE};
}

static int64_t radius_of(int ball)
{
    return (6 + (int64_t)(mixed((uint32_t)ball, 3, 5) % 20)) * ONE;
}

/* A moment of the clip. */
typedef struct {
    int64_t t, turn, sway;
    Point balls[BALLS];
} Scene;

static int sample(Point at, int plane, const Scene *scene)
{
    int64_t t = scene->t;

    for (int ball = 0; ball < BALLS; ball++) {
        Point from = {at.x - scene->balls[ball].x, at.y - scene->balls[ball].y};

        if (from.x * from.x + from.y * from.y < radius_of(ball) * radius_of(ball))
            return (int)texture(from, plane, 10 + (uint32_t)ball);
    }
    Point ground = {
        at.x + panned(t, scene->turn, 4 * ONE + 90) + wave(at.y + t * 3 * ONE, 64 * ONE, scene->sway * ONE),
        at.y + panned(t, scene->turn, 2 * ONE + 50) + wave(at.x + t * 2 * ONE, 48 * ONE, scene->sway * ONE / 2),
    };
    return (int)texture(ground, plane, 1);
}

int main(int count, char **words)
{
    if (count != 5) {
        fputs("usage: clip WIDTH HEIGHT FRAMES SWAY\n", stderr);
        return 2;
    }
    int64_t width = strtol(words[1], NULL, 10);
    int64_t height = strtol(words[2], NULL, 10);
    int64_t frames = strtol(words[3], NULL, 10);
    Scene scene = {.turn = frames < 20 ? 2 : frames / 10, .sway = strtol(words[4], NULL, 10)};

    printf("YUV4MPEG2 W%d H%d F25:1 Ip A1:1 C420jpeg\n", (int)width, (int)height);
    for (scene.t = 0; scene.t < frames; scene.t++) {
        for (int ball = 0; ball < BALLS; ball++)
            scene.balls[ball] = ball_at(ball, scene.t, width, height);
        fputs("FRAME\n", stdout);
        for (int plane = 0; plane < 3; plane++) {
            int64_t scale = plane > 0 ? 2 : 1;

            for (int64_t row = 0; row < (height + scale - 1) / scale; row++)
                for (int64_t col = 0; col < (width + scale - 1) / scale; col++)
                    putchar(sample((Point){col * scale * ONE, row * scale * ONE}, plane, &scene));
        }
    }
    return fflush(stdout) == 0 && !ferror(stdout) ? 0 : 1;
}
