/* One case: the library and the plain C in turn on the same input, results equal each time. The times printed are
   the best of each; the ratio is the middle one of all turns' ratios, which a busy machine disturbs least. A banded
   call also stands beside the library's plain call: with the same filters or, where bands differ, with each set of
   choices in turn, each time weighed by the rows that have the set. An estimate or a search in place also stands beside
   the library's call with trial planes. */
#define _POSIX_C_SOURCE 200809L
#include "bench.h"
#include "rulantip.h"
#include <stdio.h>
#include <stdlib.h>
#include <string.h>
#include <time.h>

#define ROUNDS 2
const char *const call_names[CALLS] = {
    "forward", "inverse", "forward_wrapped", "inverse_wrapped",
    "forward_banded", "inverse_banded", "forward_wrapped_banded", "inverse_wrapped_banded", "estimate", "search",
    "estimate_in_place", "search_in_place", "p5_write", "p5_read", "p6_planes", "hvsct", "ycocg", "preview_back"
};
const char *const transform_names[TRANSFORMS] = {"RCT", "YCoCg-R", "RDgDb", "LDgEb"};
double worst_ratio[KINDS], worst_to_other[KINDS];

int32_t *picture[3], *work[OTHER + 1][3];
static uint32_t *counters[OTHER + 1];

/* The sides of a case. */
typedef struct {
    enum kind kind;
    const setting *s;
    const uint8_t *choices;   /* set after set from the top band */
    uint32_t sets;            /* different ones; they come again below */
    uint32_t sides;
} contest;

/* The process's own time: what other programs take of the processor does not count. */
double now(void)
{
    struct timespec t;
    clock_gettime(CLOCK_PROCESS_CPUTIME_ID, &t);
    return 1e3 * (double)t.tv_sec + 1e-6 * (double)t.tv_nsec;
}

void keep(times *t, enum side side, double since)
{
    t->last[side] = now() - since;
    if (t->best[side] == 0 || t->last[side] < t->best[side])
        t->best[side] = t->last[side];
}

static int compare(const void *a, const void *b)
{
    double x = *(const double *)a, y = *(const double *)b;
    return (x > y) - (x < y);
}

static double middle(double *ratios, uint32_t count)
{
    qsort(ratios, count, sizeof *ratios, compare);
    return (ratios[(count - 1) / 2] + ratios[count / 2]) / 2;
}

/* Memory with every page touched. The planes of a set start at different places in a page. */
void *touched(size_t bytes, uint32_t number)
{
    size_t whole = (bytes / 4096 + 2) * 4096;
    char *p = aligned_alloc(4096, whole);
    if (!p) {
        fputs("not enough memory\n", stderr);
        exit(2);
    }
    memset(p, 0, whole);
    return p + 1088 * number;
}

void allocate(size_t widest_square, uint32_t sets_of_planes)
{
    size_t bytes = 4 * widest_square * widest_square;
    for (uint32_t i = 0; i < 3; i++) {
        picture[i] = touched(bytes, i);
        for (uint32_t set = 0; set < sets_of_planes; set++)
            work[set][i] = touched(bytes, i);
    }
    for (uint32_t set = 0; set < sets_of_planes; set++)
        counters[set] = touched(4 * RULANTIP_COUNTERS_MAX, 0);
}

/* Slopes, alike in all planes, and noise of each plane's own. */
void draw_picture(const setting *s)
{
    uint32_t most = (1u << s->depth) - 1, noise = 1;
    for (uint32_t y = 0; y < s->height; y++)
        for (uint32_t x = 0; x < s->width; x++)
            for (uint32_t p = 0; p < 3; p++) {
                uint32_t v = (((3 * x + 2 * y) & 511) + ((x * y >> 9) & 63)) * (80 + 10 * p);   /* below 2^16 */
                noise ^= noise << 13, noise ^= noise >> 17, noise ^= noise << 5;
                v = (v + (noise >> 21)) >> (16 - s->depth);
                picture[p][y * s->width + x] = (int32_t)(v < most ? v : most);
            }
}

void copy_picture(const setting *s, int32_t *const to[3], times *t)
{
    double since = now();
    for (uint32_t i = 0; i < 3; i++)
        memcpy(to[i], picture[i], 4 * s->width * s->height);
    keep(t, COPY, since);
}

int same_planes(const setting *s, int32_t *const a[3], int32_t *const b[3])
{
    size_t bytes = 4 * s->width * s->height;
    return !memcmp(a[0], b[0], bytes) && !memcmp(a[1], b[1], bytes) && !memcmp(a[2], b[2], bytes);
}

void expect(int equal, const char *what, const setting *s)
{
    if (equal)
        return;
    fprintf(stderr, "%s differs: %s%s%s, %zu by %zu, depth %u\n", what, transform_names[s->transform],
            s->wrapped ? " wrapped" : "", s->band_height ? " banded" : "", s->width, s->height, s->depth);
    exit(1);
}

#define CHOICES(s, c) c, bands_of(s) * places_of((s)->transform)

static uint32_t call_banded(int back, const setting *s, const uint8_t *c, int32_t *const p[3])
{
    uint32_t rows = (uint32_t)s->band_height;
    if (s->wrapped && back) return rulantip_inverse_wrapped_banded(SETTING(s), rows, CHOICES(s, c), PLANES(s, p));
    if (s->wrapped) return rulantip_forward_wrapped_banded(SETTING(s), rows, CHOICES(s, c), PLANES(s, p));
    if (back) return rulantip_inverse_banded(SETTING(s), rows, CHOICES(s, c), PLANES(s, p));
    return rulantip_forward_banded(SETTING(s), rows, CHOICES(s, c), PLANES(s, p));
}

static uint32_t call_library(int back, const setting *s, const uint8_t *c, int32_t *const p[3])
{
    if (s->band_height) return call_banded(back, s, c, p);
    if (s->wrapped && back) return rulantip_inverse_wrapped(SETTING(s), CHOICES(s, c), PLANES(s, p));
    if (s->wrapped) return rulantip_forward_wrapped(SETTING(s), CHOICES(s, c), PLANES(s, p));
    if (back) return rulantip_inverse(SETTING(s), CHOICES(s, c), PLANES(s, p));
    return rulantip_forward(SETTING(s), CHOICES(s, c), PLANES(s, p));
}

static uint32_t call_plain_c(int back, const setting *s, const uint8_t *c, int32_t *const p[3])
{
    return back ? plain_inverse(s, c, p) : plain_forward(s, c, p);
}

static void time_transform(enum side side, int back, const setting *s, const uint8_t *c, int32_t *const p[3], times *t)
{
    double since = now();
    uint32_t refusal = side == PLAIN ? call_plain_c(back, s, c, p) : call_library(back, s, c, p);
    keep(t, side, since);
    expect(refusal == 0, side == PLAIN ? "the plain C's answer" : "the library's answer", s);
}

/* The plain call has one set of choices, the next in each turn. */
static void time_side(enum side side, int back, const contest *c, uint32_t turn, int32_t *const p[3], times *t)
{
    setting whole = *c->s;
    whole.band_height = 0;
    if (side == OTHER)
        time_transform(side, back, &whole, c->choices + turn % c->sets * places_of(whole.transform), p, t);
    else
        time_transform(side, back, c->s, c->choices, p, t);
}

/* A side's set of planes and counters. */
static uint32_t set_of(enum side side, const contest *c, uint32_t turn) { return (side + turn / c->sides) % c->sides; }

static int32_t *const *planes_of(enum side side, const contest *c, uint32_t turn)
{
    return work[set_of(side, c, turn)];
}

static int has_other(const contest *c) { return c->sides > OTHER; }

/* Are they what the plain C made? With one set of choices for all bands the plain call makes it too. */
static int same_forward(const contest *c, uint32_t turn)
{
    int32_t *const *made = planes_of(PLAIN, c, turn);
    return same_planes(c->s, planes_of(LIBRARY, c, turn), made) &&
           (!has_other(c) || c->sets > 1 || same_planes(c->s, planes_of(OTHER, c, turn), made));
}

/* Every order comes in turn. Over 4 turns of two sides, or 18 of three, each side has come as often at each place of the
   order with each set of planes. */
static enum side side_at(uint32_t i, const contest *c, uint32_t turn)
{
    return (turn + (turn & 1 ? c->sides - i : i)) % c->sides;
}

/* Reads all numbers: a comparison leaves some planes nearer to the processor than others. */
static void read_planes(const setting *s, int32_t *const p[3])
{
    for (uint32_t i = 0; i < 3; i++)
        are_samples(p[i], s->width * s->height, 0);
}

/* Forward, then back, each side once. */
static void turn_transform(uint32_t turn, const contest *c, times t[2])
{
    for (uint32_t i = 0; i < c->sides; i++) {
        enum side side = side_at(i, c, turn);
        copy_picture(c->s, planes_of(side, c, turn), &t[0]);
        time_side(side, 0, c, turn, planes_of(side, c, turn), &t[0]);
    }
    expect(same_forward(c, turn), "forward", c->s);
    for (uint32_t i = 0; i < c->sides; i++) {
        enum side side = side_at(i, c, turn);
        if (has_other(c))
            read_planes(c->s, planes_of(side, c, turn));
        time_side(side, 1, c, turn, planes_of(side, c, turn), &t[1]);
    }
    for (uint32_t i = 0; i < c->sides; i++)
        expect(same_planes(c->s, work[i], picture), "inverse", c->s);
    t[1].best[COPY] = t[0].best[COPY];
}

/* The share of rows in bands that have the set. */
static double share_of(const contest *c, uint32_t set)
{
    size_t rows = 0, bands = bands_of(c->s);
    for (size_t i = set; i < bands; i += c->sets)
        rows += band_at(c->s, i).to - band_at(c->s, i).from;
    return (double)rows / (double)c->s->height;
}

/* A round is one turn for each set. */
static void keep_to_other(times *t, const contest *c, uint32_t turn)
{
    t->call += t->last[LIBRARY] / c->sets;
    t->other += t->last[OTHER] * share_of(c, turn % c->sets);
    if (turn % c->sets + 1 < c->sets)
        return;
    t->to_other[turn / c->sets] = t->call / t->other;
    t->call = t->other = 0;
}

static int is_transform(enum kind kind) { return kind <= WRAPPED_BANDED; }
static int is_in_place(enum kind kind) { return kind == ESTIMATE_IN_PLACE || kind == SEARCH_IN_PLACE; }
static int is_search(enum kind kind) { return kind == SEARCH || kind == SEARCH_IN_PLACE; }

/* Does the side hold the picture in its planes? Else they are trial planes. */
static int works_in_place(enum side side, const contest *c) { return is_in_place(c->kind) && side != OTHER; }

static estimated call_plain_c_search(const contest *c, uint8_t *choices, int32_t *const p[3], uint32_t *k)
{
    const setting *s = c->s;
    switch (c->kind) {
    case SEARCH: return plain_search(s, ROUNDS, choices, picture, p, k);
    case SEARCH_IN_PLACE: return plain_search_in_place(s, ROUNDS, choices, p, k);
    case ESTIMATE_IN_PLACE: return plain_estimate_in_place(s, choices, p, k);
    default: return plain_estimate(s, choices, picture, p, k);
    }
}

static estimated call_library_search(int in_place, const contest *c, uint8_t *choices, int32_t *const p[3],
                                     uint32_t *k)
{
    const setting *s = c->s;
    size_t places = places_of(s->transform), needed = rulantip_counters(DEPTHS(s), s->transform);
    rulantip_estimated e;
    if (in_place && is_search(c->kind))
        e = rulantip_search_in_place(SETTING(s), ROUNDS, choices, places, PLANES(s, p), k, needed);
    else if (in_place)
        e = rulantip_estimate_in_place(SETTING(s), choices, places, PLANES(s, p), k, needed);
    else if (is_search(c->kind))
        e = rulantip_search(SETTING(s), ROUNDS, choices, places, PLANES(s, picture), PLANES(s, p), k, needed);
    else
        e = rulantip_estimate(SETTING(s), choices, places, PLANES(s, picture), PLANES(s, p), k, needed);
    return (estimated){e.refusal, e.estimate, e.samples};
}

static estimated time_search(enum side side, const contest *c, uint8_t *choices, uint32_t set, times *t)
{
    double since = now();
    estimated e = side == PLAIN ? call_plain_c_search(c, choices, work[set], counters[set])
                                : call_library_search(works_in_place(side, c), c, choices, work[set], counters[set]);
    keep(t, side, since);
    return e;
}

/* In place the planes hold the picture again; trial planes are zero, and so are the counters. */
static void expect_left(enum side side, const contest *c, uint32_t set)
{
    const setting *s = c->s;
    int32_t *const *p = work[set];
    size_t count = s->width * s->height;
    if (works_in_place(side, c))
        expect(same_planes(s, p, picture), "a plane after a call in place", s);
    else
        expect(are_samples(p[0], count, 0) && are_samples(p[1], count, 0) && are_samples(p[2], count, 0),
               "a trial plane", s);
    for (uint32_t i = 0; i < rulantip_counters(DEPTHS(s), s->transform); i++)
        expect(counters[set][i] == 0, "a counter", s);
}

/* The search or the estimate, each side once. The planes of each begin as the picture, also where they are trial
   planes: so all are equally near to the processor. */
static void turn_search(uint32_t turn, const contest *c, times *t)
{
    uint8_t choices[OTHER + 1][MOST_PLACES];
    estimated e[OTHER + 1];
    for (uint32_t i = 0; i < c->sides; i++) {
        enum side side = side_at(i, c, turn);
        memcpy(choices[side], c->choices, MOST_PLACES);
        copy_picture(c->s, planes_of(side, c, turn), t);
        e[side] = time_search(side, c, choices[side], set_of(side, c, turn), t);
    }
    for (enum side side = PLAIN; side < c->sides; side++) {
        expect(e[side].refusal == 0, "the answer", c->s);
        expect(e[side].estimate == e[PLAIN].estimate && e[side].samples == e[PLAIN].samples, "the estimate", c->s);
        expect(!memcmp(choices[side], choices[PLAIN], MOST_PLACES), "a choice", c->s);
        expect_left(side, c, set_of(side, c, turn));
    }
}

static double worse(double a, double b) { return a > b ? a : b; }

/* A line without its end. */
void print_times(enum kind kind, const char *call, const char *name, const setting *s, const char *filters, times *t,
                 uint32_t turns)
{
    double ratio = middle(t->ratios, turns);
    worst_ratio[kind] = worse(worst_ratio[kind], ratio);
    printf("%-23s%-8s %5zu %5u %6s %11.3f %11.3f %6.2f %9.2f", call, name, s->width, s->depth, filters,
           t->best[LIBRARY], t->best[PLAIN], ratio, t->best[LIBRARY] / t->best[COPY]);
}

static void print_case(const char *call, const contest *c, const char *filters, times *t, uint32_t turns)
{
    double to_other = has_other(c) ? middle(t->to_other, turns / c->sets) : 0;
    worst_to_other[c->kind] = worse(worst_to_other[c->kind], to_other);
    print_times(c->kind, call, transform_names[c->s->transform], c->s, filters, t, turns);
    if (has_other(c)) printf(" %8.2f\n", to_other);
    else printf(" %8s\n", "-");
    fflush(stdout);
}

/* Three sides need more turns than two, and each set of choices needs some. */
static int enough(const contest *c, uint32_t turn, double spent)
{
    if (turn >= MOST_TURNS) return 1;
    if (is_search(c->kind)) return turn >= (has_other(c) ? 6 : 2) && spent > 1000;
    if (has_other(c)) return turn >= 18 && turn >= 9 * c->sets && spent > 300;
    return turn >= 8 && spent > 300;
}

static void fill_choices(const setting *s, const mix *m, uint8_t *choices)
{
    size_t bands = bands_of(s), places = places_of(s->transform);
    for (size_t i = 0; i < bands; i++)
        for (size_t p = 0; p < places; p++)
            choices[i * places + p] = m->filters[(i + p) % m->count];
}

static uint32_t sets_of(const setting *s, const mix *m)
{
    return bands_of(s) < m->count ? (uint32_t)bands_of(s) : m->count;
}

static void one_turn(uint32_t turn, const contest *c, times t[2])
{
    if (is_transform(c->kind)) turn_transform(turn, c, t);
    else turn_search(turn, c, t);
}

static void run_turn(uint32_t turn, const contest *c, times t[2])
{
    one_turn(turn, c, t);
    for (uint32_t i = 0; i < (is_transform(c->kind) ? 2 : 1); i++) {
        t[i].ratios[turn] = t[i].last[LIBRARY] / t[i].last[PLAIN];
        if (has_other(c))
            keep_to_other(&t[i], c, turn);
    }
}

void run_case(enum kind kind, const setting *s, const mix *m, uint32_t calls, uint32_t turns)
{
    static times t[2];   /* forward and inverse; the estimate and the search have the first */
    static uint8_t choices[MOST_BANDS * MOST_PLACES];
    uint32_t sides = s->band_height || is_in_place(kind) ? OTHER + 1 : LIBRARY + 1;
    contest c = {kind, s, choices, sets_of(s, m), sides};
    uint32_t turn;
    fill_choices(s, m, choices);
    if (has_other(&c))
        one_turn(0, &c, t);   /* results are compared before anything is timed */
    memset(t, 0, sizeof t);
    double since = now();
    for (turn = 0; turn % c.sets || (turns ? turn < turns : !enough(&c, turn, now() - since)); turn++)
        run_turn(turn, &c, t);
    for (uint32_t i = 0; i < CALLS; i++)
        if (calls & 1u << i)
            print_case(call_names[i], &c, m->name, &t[INVERSES >> i & 1], turn);
}
