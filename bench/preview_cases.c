/* Cases of preview pixels: the library and the plain C in turn on the same pixels, a call for each, answers equal each
   time and once before anything is timed, as are those to odd depths, samples and floats. Forward a loop takes samples
   from three planes and puts floats into three, back the other way. It is one loop for both sides, which gets the call
   as a pointer. Times are nanoseconds a pixel, with the loop. memcpy copies planes like those that are filled. */
#define _POSIX_C_SOURCE 200809L
#include "bench.h"
#include <math.h>
#include <stdio.h>
#include <stdlib.h>
#include <string.h>

#define COUNT(list) (sizeof (list) / sizeof *(list))
#define LOOP static __attribute__((noinline))
#define FILLER 0x5a
#define SQUARE 256
#define PIXELS (SQUARE * SQUARE)
#define APART 1088   /* bytes between planes, so that they start at different places in a page */

typedef rulantip_preview (*forward_call)(uint32_t depth, int32_t r, int32_t g, int32_t b);
typedef rulantip_rgb (*back_call)(uint32_t depth, uint32_t space, double v1, double v2, double v3);

typedef struct {
    int32_t at[3][PIXELS + APART / 4];
} samples;
typedef struct {
    double at[3][PIXELS + APART / 8];
} floats;

/* What goes back: floats as they were made; one of three moved to a neighbour; or, at random, not a number, infinite,
   very large, a neighbour, a quarter too much, or beyond all pixels. All but the first are refused with 15. */
enum pixels { RIGHT, NEAR, ODD, PIXEL_KINDS };

typedef struct {
    uint32_t depth, space;
    enum pixels pixels;
} subject;

static const forward_call forward_calls[2][2] = {{plain_hvsct, plain_ycocg}, {rulantip_hvsct, rulantip_ycocg}};
static const back_call back_calls[2] = {plain_preview_back, rulantip_preview_back};
static const char *const space_names[] = {"HVSCT", "YCoCg"}, *const pixel_names[PIXEL_KINDS] = {"right", "near", "odd"};
static const uint32_t depths[] = {8, 16};

static samples drawn, found[2];
static floats given, made[2];
static uint32_t noise = 1;

static uint32_t draw(uint32_t below)
{
    noise ^= noise << 13, noise ^= noise >> 17, noise ^= noise << 5;
    return (uint32_t)((uint64_t)noise * below >> 32);
}

static void agree(int equal, const char *what, uint32_t space, uint32_t depth)
{
    if (equal)
        return;
    fprintf(stderr, "%s differs: space %u, depth %u\n", what, space, depth);
    exit(1);
}

/* Is each pixel of this space? */
LOOP int fill_floats(forward_call call, const subject *c, const samples *from, floats *to)
{
    uint32_t depth = c->depth, space = c->space, other = 0;
    for (size_t i = 0; i < PIXELS; i++) {
        rulantip_preview p = call(depth, from->at[0][i], from->at[1][i], from->at[2][i]);
        to->at[0][i] = p.v1;
        to->at[1][i] = p.v2;
        to->at[2][i] = p.v3;
        other |= p.refusal | (p.space ^ space);
    }
    return other == 0;
}

/* Has each pixel this refusal? */
LOOP int fill_samples(back_call call, const subject *c, uint32_t refusal, const floats *from, samples *to)
{
    uint32_t depth = c->depth, space = c->space, other = 0;
    for (size_t i = 0; i < PIXELS; i++) {
        rulantip_rgb s = call(depth, space, from->at[0][i], from->at[1][i], from->at[2][i]);
        to->at[0][i] = s.r;
        to->at[1][i] = s.g;
        to->at[2][i] = s.b;
        other |= s.refusal ^ refusal;
    }
    return other == 0;
}

/* By number: which zero a float is, is left open. */
static int same_floats(const floats *a, const floats *b)
{
    uint32_t other = 0;
    for (uint32_t p = 0; p < 3; p++)
        for (size_t i = 0; i < PIXELS; i++)
            other |= a->at[p][i] != b->at[p][i];
    return other == 0;
}

/* Refused pixels have samples 0. */
static int are_right(const samples *s, int refused)
{
    int right = 1;
    for (uint32_t p = 0; p < 3; p++)
        right &= refused ? are_samples(s->at[p], PIXELS, 0) : !memcmp(s->at[p], drawn.at[p], 4 * PIXELS);
    return right;
}

/* A side's set of planes. */
static uint32_t set_of(enum side side, uint32_t turn) { return side ^ (turn >> 1 & 1); }

static void turn_forward(uint32_t turn, const subject *c, times *t)
{
    for (uint32_t i = 0; i < 2; i++) {
        enum side side = (i + turn) & 1;
        floats *to = &made[set_of(side, turn)];
        double since = now();
        memcpy(to, &given, sizeof *to);
        keep(t, COPY, since);
        memset(to, FILLER, sizeof *to);
        since = now();
        int all = fill_floats(forward_calls[side][c->space - 1], c, &drawn, to);
        keep(t, side, since);
        agree(all, "a pixel's answer", c->space, c->depth);
    }
    agree(same_floats(&made[0], &made[1]), "a pixel", c->space, c->depth);
}

static void turn_back(uint32_t turn, const subject *c, times *t)
{
    for (uint32_t i = 0; i < 2; i++) {
        enum side side = (i + turn) & 1;
        samples *to = &found[set_of(side, turn)];
        double since = now();
        memcpy(to, &drawn, sizeof *to);
        keep(t, COPY, since);
        memset(to, FILLER, sizeof *to);
        since = now();
        int all = fill_samples(back_calls[side], c, c->pixels == RIGHT ? 0 : 15, &given, to);
        keep(t, side, since);
        agree(all, "the answer back", c->space, c->depth);
        agree(are_right(to, c->pixels != RIGHT), "a sample", c->space, c->depth);
    }
}

static double neighbour(double v)
{
    uint64_t bits;
    memcpy(&bits, &v, sizeof v);
    bits += (v == 0 || draw(2)) ? 1 : UINT64_MAX;
    memcpy(&v, &bits, sizeof v);
    return v;
}

static double odd(double v, uint32_t depth)
{
    switch (draw(8)) {
    case 0: return NAN;
    case 1: return INFINITY;
    case 2: return -INFINITY;
    case 3: return 1e308;
    case 4: return -1e308;
    case 5: return neighbour(v);
    case 6: return v + 0.25;
    default: return v + (1 << depth);
    }
}

/* The floats of the drawn samples, made by the plain C, all but the right ones with one of three spoilt. */
static void draw_floats(const subject *c)
{
    fill_floats(forward_calls[PLAIN][c->space - 1], c, &drawn, &given);
    for (size_t i = 0; i < PIXELS && c->pixels != RIGHT; i++) {
        double *v = &given.at[draw(3)][i];
        *v = c->pixels == NEAR ? neighbour(*v) : odd(*v, c->depth);
    }
}

static void draw_samples(uint32_t depth)
{
    for (uint32_t p = 0; p < 3; p++)
        for (size_t i = 0; i < PIXELS; i++)
            drawn.at[p][i] = (int32_t)draw(1u << depth);
}

static int same_preview(rulantip_preview a, rulantip_preview b)
{
    return a.refusal == b.refusal && a.space == b.space && a.v1 == b.v1 && a.v2 == b.v2 && a.v3 == b.v3;
}

static void check_forward(uint32_t depth, uint32_t space)
{
    int32_t most = depth > 16 ? 65535 : (1 << depth) - 1;
    int32_t list[] = {INT32_MIN, -65536, -1, 0, 1, most / 2, most, most + 1, 65535, 65536, INT32_MAX};
    for (size_t i = 0; i < COUNT(list) * COUNT(list) * COUNT(list); i++) {
        int32_t r = list[i % COUNT(list)], g = list[i / COUNT(list) % COUNT(list)];
        int32_t b = list[i / COUNT(list) / COUNT(list)];
        agree(same_preview(forward_calls[PLAIN][space - 1](depth, r, g, b),
                           forward_calls[LIBRARY][space - 1](depth, r, g, b)), "an odd pixel", space, depth);
    }
}

/* Gives whether the floats are a pixel's. */
static int check_pixel(uint32_t depth, uint32_t space, double v1, double v2, double v3)
{
    rulantip_rgb a = plain_preview_back(depth, space, v1, v2, v3);
    rulantip_rgb b = rulantip_preview_back(depth, space, v1, v2, v3);
    agree(a.refusal == b.refusal && a.r == b.r && a.g == b.g && a.b == b.b, "an odd pixel back", space, depth);
    return a.refusal == 0;
}

/* All triples of floats of every size, and of their opposites. */
static void check_back(uint32_t depth, uint32_t space)
{
    static const double sizes[] = {0, 5e-324, 0.125, 0.25, 0.5, 0.75, 1, 1.5, 3, 255, 65535, 65536, 0x1p29, 0x1p30,
                                   0x1p31, 0x1p32, 0x1p50, 0x1.8p51, 0x1p62, 0x1p63, 0x1p64, 1e308, INFINITY, NAN};
    double list[2 * COUNT(sizes)];
    for (size_t i = 0; i < COUNT(sizes); i++)
        list[2 * i] = sizes[i], list[2 * i + 1] = -sizes[i];
    for (size_t i = 0; i < COUNT(list); i++)
        for (size_t j = 0; j < COUNT(list); j++)
            for (size_t k = 0; k < COUNT(list); k++)
                check_pixel(depth, space, list[i], list[j], list[k]);
}

/* All triples of quarters from -4 to 4: of depth 2 there are 64 pixels. */
static void check_quarters(uint32_t space)
{
    uint32_t count = 0;
    for (int i = -16; i <= 16; i++)
        for (int j = -16; j <= 16; j++)
            for (int k = -16; k <= 16; k++)
                count += check_pixel(2, space, 0.25 * i, 0.25 * j, 0.25 * k);
    agree(count == 64, "the number of pixels", space, 2);
}

static void check_calls(void)
{
    static const uint32_t back_depths[] = {1, 2, 16, 17};
    for (uint32_t space = RULANTIP_HVSCT; space <= RULANTIP_YCOCG; space++) {
        for (uint32_t depth = 0; depth <= 18; depth++)
            check_forward(depth, space);
        check_forward(UINT32_MAX, space);
        check_quarters(space);
    }
    for (uint32_t space = 0; space <= 3; space++)
        for (size_t i = 0; i < COUNT(back_depths); i++)
            check_back(back_depths[i], space);
}

static int enough(uint32_t turn, uint32_t turns, double since)
{
    if (turns) return turn >= turns;
    return turn >= MOST_TURNS || (turn >= 8 && now() - since > 100);
}

typedef void one_turn(uint32_t turn, const subject *c, times *t);

static void run_pixels(one_turn *run, const subject *c, enum call call, const char *pixels, uint32_t turns)
{
    static times t;
    setting s = {SQUARE, SQUARE, c->depth, 0, 0, 0};
    uint32_t turn;
    draw_floats(c);
    run(0, c, &t);
    memset(&t, 0, sizeof t);
    double since = now();
    for (turn = 0; !enough(turn, turns, since); turn++) {
        run(turn, c, &t);
        t.ratios[turn] = t.last[LIBRARY] / t.last[PLAIN];
    }
    for (enum side side = PLAIN; side < SIDES; side++)
        t.best[side] *= 1e6 / PIXELS;
    print_times(PREVIEW, call_names[__builtin_ctz(call)], space_names[c->space - 1], &s, pixels, &t, turn);
    printf(" %8s\n", "-");
    fflush(stdout);
}

static void run_space(uint32_t depth, uint32_t space, uint32_t calls, uint32_t turns)
{
    subject c = {depth, space, RIGHT};
    enum call forward = space == RULANTIP_HVSCT ? TO_HVSCT : TO_YCOCG;
    if (calls & forward)
        run_pixels(turn_forward, &c, forward, "-", turns);
    for (; c.pixels < PIXEL_KINDS && calls & PREVIEW_BACK; c.pixels++)
        run_pixels(turn_back, &c, PREVIEW_BACK, pixel_names[c.pixels], turns);
}

void run_previews(uint32_t calls, uint32_t turns)
{
    check_calls();
    for (size_t i = 0; i < COUNT(depths); i++) {
        draw_samples(depths[i]);
        for (uint32_t space = RULANTIP_HVSCT; space <= RULANTIP_YCOCG; space++)
            run_space(depths[i], space, calls, turns);
    }
}
