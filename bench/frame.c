/*
 * frame.c: times threshowl_predict_frame beside single calls, one a macroblock,
 * with a host's copy of each answer into the same frame, in one run.
 *
 *   frame                          times at 40 by 30 macroblocks, cost by size,
 *                                  and the stack of the calls
 *   frame CASE SIDE TURNS [SIZE]   makes one side's frames of one case so often,
 *                                  of SIZE by SIZE macroblocks, for a tool that
 *                                  counts: SIDE is frame, split or quarters
 *
 * Of the single calls whole orders go to threshowl_predict_whole, split ones to
 * threshowl_predict_split, and on a third side to threshowl_predict_quarters.
 * The sides take turns.  Planes are noise, the three references are different
 * ones, and one order in eight, drawn, is not from last.
 */
#define _POSIX_C_SOURCE 200809L

#include <stdio.h>
#include <stdlib.h>
#include <string.h>
#include <time.h>

#include "../tests/draw.h"
#include "../tests/vectors.h"
#include "threshowl.h"

enum { ROUNDS = 200, MOST = 128, REFERENCES = 3, ORDER = THRESHOWL_ORDER_LEN, COLS = 40, ROWS = 30, STACK = 1 << 16 };

typedef struct {
    uint8_t *y, *u, *v;
} Planes;

/* A frame to be predicted. */
typedef struct {
    size_t cols, rows;
    uint8_t *orders;
    Planes references[REFERENCES], out;
} Frame;

static Planes planes(size_t mbs)
{
    const Planes p = {malloc(mbs * 256), malloc(mbs * 64), malloc(mbs * 64)};
    if (p.y == NULL || p.u == NULL || p.v == NULL)
        exit(2);
    fill(p.y, mbs * 256);
    fill(p.u, mbs * 64);
    fill(p.v, mbs * 64);
    return p;
}

static Frame frame_of(size_t cols, size_t rows)
{
    Frame f = {.cols = cols, .rows = rows, .orders = calloc(cols * rows, ORDER)};
    if (f.orders == NULL)
        exit(2);
    for (size_t i = 0; i < REFERENCES; i++)
        f.references[i] = planes(cols * rows);
    f.out = planes(cols * rows);
    return f;
}

static void free_planes(Planes p)
{
    free(p.y);
    free(p.u);
    free(p.v);
}

static void free_frame(Frame f)
{
    for (size_t i = 0; i < REFERENCES; i++)
        free_planes(f.references[i]);
    free_planes(f.out);
    free(f.orders);
}

/* ---- orders */

typedef struct {
    int16_t row, col;
} Mv;

static int16_t component(const uint8_t *from)
{
    return (int16_t)(uint16_t)(from[0] | from[1] << 8);
}

static void order(uint8_t *to, uint8_t kind, const Mv vectors[16])
{
    to[0] = below(8) == 0 ? (uint8_t)(1 + below(2)) : THRESHOWL_LAST;
    to[1] = kind;
    for (size_t b = 0; b < 16; b++) {
        put_component(to + 2 + 4 * b, vectors[b].row);
        put_component(to + 4 + 4 * b, vectors[b].col);
    }
}

static void one(uint8_t *to, uint8_t kind, Mv m)
{
    Mv vectors[16];
    for (size_t b = 0; b < 16; b++)
        vectors[b] = m;
    order(to, kind, vectors);
}

static void whole(uint8_t *to, size_t i) { (void)i; one(to, THRESHOWL_WHOLE, (Mv){5, -3}); }
static void still(uint8_t *to, size_t i) { (void)i; one(to, THRESHOWL_WHOLE, (Mv){0, 0}); }
static void equal(uint8_t *to, size_t i) { (void)i; one(to, THRESHOWL_SPLIT, (Mv){5, -3}); }

/* A vector for each quarter. */
static void quarters(uint8_t *to, size_t i)
{
    static const Mv of_quarter[4] = {{5, -3}, {-3, 6}, {7, 1}, {-9, 11}};
    Mv vectors[16];
    (void)i;
    for (size_t b = 0; b < 16; b++)
        vectors[b] = of_quarter[b / 8 * 2 + b % 4 / 2];
    order(to, THRESHOWL_SPLIT, vectors);
}

static void different(uint8_t *to, size_t i)
{
    Mv vectors[16];
    (void)i;
    for (size_t b = 0; b < 16; b++)
        vectors[b] = (Mv){(int16_t)((7 * (int)b + 3) % 23 - 11), (int16_t)((5 * (int)b + 1) % 19 - 9)};
    order(to, THRESHOWL_SPLIT, vectors);
}

/* Half whole, a quarter split by quarters, a quarter with zero vectors. */
static void mixed(uint8_t *to, size_t i)
{
    static void (*const kinds[4])(uint8_t *, size_t) = {whole, quarters, whole, still};
    kinds[i % 4](to, i);
}

typedef struct {
    const char *title;
    void (*order)(uint8_t *, size_t);
    uint8_t filter;
    double goal;
} Case;

static const Case cases[] = {
    {"whole, two dimensions", whole, THRESHOWL_SIXTAP, 0.95},
    {"whole, bilinear", whole, THRESHOWL_BILINEAR, 0},
    {"whole, zero vectors", still, THRESHOWL_SIXTAP, 0},
    {"split, four quarters", quarters, THRESHOWL_SIXTAP, 0},
    {"split, equal vectors", equal, THRESHOWL_SIXTAP, 0},
    {"split, different vectors", different, THRESHOWL_SIXTAP, 0},
    {"mixed", mixed, THRESHOWL_SIXTAP, 0.85},
};

enum { CASES = sizeof cases / sizeof cases[0], STILL = 2, MIXED = CASES - 1 };

static void give_orders(const Frame *f, const Case *c)
{
    for (size_t i = 0; i < f->cols * f->rows; i++)
        c->order(f->orders + i * ORDER, i);
}

/* ---- the sides */

typedef uint32_t Split(const uint8_t *, size_t, const uint8_t *, size_t, const uint8_t *, size_t, size_t, size_t, size_t, size_t, size_t,
                       size_t, size_t, const uint8_t *, size_t, uint8_t, uint8_t, uint8_t *, size_t);

static void need_done(uint32_t number)
{
    if (number != THRESHOWL_DONE)
        exit(1);
}

static void by_frame(const Frame *f, uint8_t filter)
{
    const size_t mbs = f->cols * f->rows, ys = f->cols * 16, cs = f->cols * 8;
    const Planes *const r = f->references;
    need_done(threshowl_predict_frame(r[0].y, mbs * 256, r[0].u, mbs * 64, r[0].v, mbs * 64, r[1].y, mbs * 256, r[1].u, mbs * 64, r[1].v,
                                      mbs * 64, r[2].y, mbs * 256, r[2].u, mbs * 64, r[2].v, mbs * 64, ys, cs, cs, f->cols, f->rows,
                                      f->orders, mbs * ORDER, filter, 0, f->out.y, mbs * 256, f->out.u, mbs * 64, f->out.v, mbs * 64, ys,
                                      cs, cs));
}

static void copy_out(const Frame *f, size_t col, size_t row, const uint8_t *out)
{
    const size_t ys = f->cols * 16, cs = f->cols * 8;
    for (size_t r = 0; r < 16; r++)
        memcpy(f->out.y + (row * 16 + r) * ys + col * 16, out + r * 16, 16);
    for (size_t r = 0; r < 8; r++) {
        memcpy(f->out.u + (row * 8 + r) * cs + col * 8, out + 256 + r * 8, 8);
        memcpy(f->out.v + (row * 8 + r) * cs + col * 8, out + 320 + r * 8, 8);
    }
}

static void by_single(const Frame *f, uint8_t filter, Split *split)
{
    const size_t mbs = f->cols * f->rows, ys = f->cols * 16, cs = f->cols * 8;
    const uint8_t *o = f->orders;
    uint8_t out[THRESHOWL_OUT_LEN];
    for (size_t row = 0; row < f->rows; row++)
        for (size_t col = 0; col < f->cols; col++, o += ORDER) {
            const Planes *const p = &f->references[o[0]];
            need_done(o[1] == THRESHOWL_WHOLE
                          ? threshowl_predict_whole(p->y, mbs * 256, p->u, mbs * 64, p->v, mbs * 64, ys, cs, cs, f->cols, f->rows, col, row,
                                                    component(o + 2), component(o + 4), filter, 0, out, sizeof out)
                          : split(p->y, mbs * 256, p->u, mbs * 64, p->v, mbs * 64, ys, cs, cs, f->cols, f->rows, col, row, o + 2,
                                  THRESHOWL_VECTORS_LEN, filter, 0, out, sizeof out));
            copy_out(f, col, row, out);
        }
}

enum { BY_FRAME, BY_SINGLE, BY_QUARTERS, SIDES };

static const char *const side_names[SIDES] = {"frame", "split", "quarters"};

static void run(int side, const Frame *f, uint8_t filter)
{
    switch (side) {
    case BY_FRAME: by_frame(f, filter); break;
    case BY_SINGLE: by_single(f, filter, threshowl_predict_split); break;
    default: by_single(f, filter, threshowl_predict_quarters); break;
    }
}

/* ---- times */

static double seconds(void)
{
    struct timespec t;
    (void)clock_gettime(CLOCK_MONOTONIC, &t);
    return (double)t.tv_sec + 1e-9 * (double)t.tv_nsec;
}

/* Of each side: the least nanoseconds a macroblock, and the middle of its ratios,
   round by round, to the frame's, which a busy machine alters less. */
typedef struct {
    double best[SIDES], middle[SIDES];
} Times;

static int by_size(const void *a, const void *b)
{
    const double *const x = a, *const y = b;
    return (*x > *y) - (*x < *y);
}

static Times time_case(const Frame *f, const Case *c, size_t rounds, int turns)
{
    static double taken[SIDES][ROUNDS];
    Times t;
    for (size_t round = 0; round < rounds; round++)
        for (size_t i = 0; i < SIDES; i++) {
            const size_t s = (round + i) % SIDES;
            const double start = seconds();
            for (int turn = 0; turn < turns; turn++)
                run((int)s, f, c->filter);
            taken[s][round] = 1e9 * (seconds() - start) / turns / (double)(f->cols * f->rows);
        }
    for (size_t s = SIDES; s-- > 0;) {
        double ratios[ROUNDS];
        t.best[s] = taken[s][0];
        for (size_t round = 0; round < rounds; round++) {
            ratios[round] = taken[BY_FRAME][round] / taken[s][round];
            if (taken[s][round] < t.best[s])
                t.best[s] = taken[s][round];
        }
        qsort(ratios, rounds, sizeof ratios[0], by_size);
        t.middle[s] = ratios[rounds / 2];
    }
    return t;
}

static void print_cases(void)
{
    const Frame f = frame_of(COLS, ROWS);
    (void)printf("%d by %d macroblocks, %d rounds, best nanoseconds a macroblock; single calls: split orders by split, by quarters\n", COLS,
                 ROWS, ROUNDS);
    (void)printf("%-26s %8s %8s %8s %22s %22s\n", "", "frame", "split", "quarters", "over split: best, middle", "over quarters");
    for (size_t i = 0; i < CASES; i++) {
        give_orders(&f, &cases[i]);
        const Times t = time_case(&f, &cases[i], ROUNDS, 1);
        (void)printf("%-26s %8.1f %8.1f %8.1f %15.3f %6.3f %15.3f %6.3f", cases[i].title, t.best[BY_FRAME], t.best[BY_SINGLE],
                     t.best[BY_QUARTERS], t.best[BY_FRAME] / t.best[BY_SINGLE], t.middle[BY_SINGLE],
                     t.best[BY_FRAME] / t.best[BY_QUARTERS], t.middle[BY_QUARTERS]);
        if (cases[i].goal > 0)
            (void)printf("   goal %.2f", cases[i].goal);
        (void)printf("\n");
    }
    free_frame(f);
}

/* Zero vectors reach past no edge, of which a small frame has more. */
static void print_sizes(void)
{
    static const Case *const two[2] = {&cases[STILL], &cases[MIXED]};
    (void)printf("by size, nanoseconds a macroblock: %s, %s\n%9s %8s %8s %8s %8s\n", two[0]->title, two[1]->title, "", "frame", "split", "frame",
                 "split");
    for (size_t size = 1; size <= MOST; size *= 2) {
        const Frame f = frame_of(size, size);
        (void)printf("%3zu x %-3zu", size, size);
        for (size_t i = 0; i < 2; i++) {
            give_orders(&f, two[i]);
            const Times t = time_case(&f, two[i], size < 64 ? ROUNDS : 20, size < 8 ? 64 : 1);
            (void)printf(" %8.1f %8.1f", t.best[BY_FRAME], t.best[BY_SINGLE]);
        }
        (void)printf("\n");
        free_frame(f);
    }
}

/* ---- stack: a call is made on a painted stack of its own, and the lowest byte
   that has changed is looked for */

static uint8_t stack[STACK];

static void call_on(void (*call)(const Frame *), const Frame *f)
{
    uint8_t *const top = stack + STACK - (uintptr_t)(stack + STACK) % 16;
    __asm__ volatile("mov %%rsp, %%r12\n\tmov %1, %%rsp\n\tcall *%2\n\tmov %%r12, %%rsp"
                     : "+D"(f)
                     : "r"(top), "r"(call)
                     : "r12", "rax", "rcx", "rdx", "rsi", "r8", "r9", "r10", "r11", "memory", "cc", "xmm0", "xmm1", "xmm2", "xmm3", "xmm4",
                       "xmm5", "xmm6", "xmm7", "xmm8", "xmm9", "xmm10", "xmm11", "xmm12", "xmm13", "xmm14", "xmm15");
}

/* The most that either of two paints shows. */
static size_t stack_of(void (*call)(const Frame *), const Frame *f)
{
    static const uint8_t paints[2] = {0xA5, 0x5A};
    size_t most = 0;
    for (size_t p = 0; p < 2; p++) {
        size_t lowest = 0;
        memset(stack, paints[p], STACK);
        call_on(call, f);
        while (stack[lowest] == paints[p])
            lowest++;
        if (STACK - lowest > most)
            most = STACK - lowest;
    }
    return most;
}

static void nothing(const Frame *f) { (void)f; }
static void whole_frame(const Frame *f) { by_frame(f, THRESHOWL_SIXTAP); }

/* The first order by a single call, so that no host's copy counts. */
static uint8_t lent[THRESHOWL_OUT_LEN];

static void first_whole(const Frame *f)
{
    const Planes *const p = f->references;
    need_done(threshowl_predict_whole(p->y, 256, p->u, 64, p->v, 64, 16, 8, 8, 1, 1, 0, 0, component(f->orders + 2),
                                      component(f->orders + 4), THRESHOWL_SIXTAP, 0, lent, sizeof lent));
}

static void first_split(const Frame *f)
{
    const Planes *const p = f->references;
    need_done(threshowl_predict_split(p->y, 256, p->u, 64, p->v, 64, 16, 8, 8, 1, 1, 0, 0, f->orders + 2, THRESHOWL_VECTORS_LEN,
                                      THRESHOWL_SIXTAP, 0, lent, sizeof lent));
}

static void first_quarters(const Frame *f)
{
    const Planes *const p = f->references;
    need_done(threshowl_predict_quarters(p->y, 256, p->u, 64, p->v, 64, 16, 8, 8, 1, 1, 0, 0, f->orders + 2, THRESHOWL_VECTORS_LEN,
                                         THRESHOWL_SIXTAP, 0, lent, sizeof lent));
}

/* Over all cases, each in a picture of one macroblock, beyond what calling costs. */
static size_t most_stack(void (*call)(const Frame *))
{
    size_t most = 0;
    for (size_t i = 0; i < CASES; i++) {
        const Frame f = frame_of(1, 1);
        give_orders(&f, &cases[i]);
        const size_t own = stack_of(call, &f) - stack_of(nothing, &f);
        if (own > most)
            most = own;
        free_frame(f);
    }
    return most;
}

static void print_stack(void)
{
    (void)printf("stack of the largest call, bytes, arguments and return address included\n");
    (void)printf("whole %zu, split %zu, quarters %zu, frame %zu\n", most_stack(first_whole), most_stack(first_split),
                 most_stack(first_quarters), most_stack(whole_frame));
}

static int only_frames(char **words, size_t cols, size_t rows)
{
    const size_t of = strtoul(words[0], NULL, 10);
    if (of >= CASES)
        return 2;
    for (int s = 0; s < SIDES; s++)
        if (strcmp(words[1], side_names[s]) == 0) {
            const Frame f = frame_of(cols, rows);
            give_orders(&f, &cases[of]);
            for (long t = strtol(words[2], NULL, 10); t > 0; t--)
                run(s, &f, cases[of].filter);
            free_frame(f);
            return 0;
        }
    return 2;
}

int main(int argc, char **argv)
{
    seed(1, argv, 3);
    if (argc == 5)
        return only_frames(argv + 1, strtoul(argv[4], NULL, 10), strtoul(argv[4], NULL, 10));
    if (argc == 4)
        return only_frames(argv + 1, COLS, ROWS);
    print_cases();
    print_sizes();
    print_stack();
    return 0;
}
