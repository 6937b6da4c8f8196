/* The plain C that the library is timed against: same rules, same tests, same work on whole planes. */
#ifndef BENCH_H
#define BENCH_H
#include "rulantip.h"
#include <stddef.h>
#include <stdint.h>

#define INLINE static inline __attribute__((always_inline))
#define FILTERS 13
#define NULL_FILTER 12
#define TRANSFORMS 4
#define MOST_PLACES 4
#define MOST_COUNTED 4096

typedef struct {
    size_t width, height;
    uint32_t depth, transform;
    int wrapped;          /* the wrapped form of the transform? */
    size_t band_height;   /* rows with one set of choices, or 0: all rows have one */
} setting;

/* Rows from .. to - 1. */
typedef struct {
    size_t from, to;
} band;

/* How a step changes a sample c by a filtered value f. The opposite of an even one is the next odd one. */
enum change {
    PLUS, MINUS,                   /* c + f, c - f */
    PLUS_HALF, MINUS_HALF,         /* c + f/2, c - f/2 */
    PLUS_QUARTER, MINUS_QUARTER,   /* c + (f + g)/4, c - (f + g)/4: two filtered values */
    NEGATE                         /* -c + f: its own opposite */
};

/* kernels.c */
int are_samples(const int32_t *plane, size_t count, uint32_t most);
int are_within(const int32_t *plane, size_t count, int32_t low, int32_t high);
void lift(const setting *s, band r, enum change change, uint32_t filter, int32_t *c, const int32_t *a);
void lift_quarter(const setting *s, band r, enum change change, const uint8_t filters[2], int32_t *c, const int32_t *a,
                  const int32_t *b);

/* transforms.c; steps, planes and bands count from 0; choices are set after set from the top band */
uint32_t places_of(uint32_t transform);
uint32_t steps_of(uint32_t transform);
uint32_t step_of_place(uint32_t transform, uint32_t place);
int changes_plane(uint32_t transform, uint32_t first_step, uint32_t plane);
size_t bands_of(const setting *s);
band band_at(const setting *s, size_t i);
void range_of(uint32_t depth, uint32_t transform, uint32_t plane, int32_t *low, int32_t *high);
void run_steps(const setting *s, const uint8_t *choices, int32_t *const planes[3], uint32_t from, uint32_t to);
void undo_steps(const setting *s, const uint8_t *choices, int32_t *const planes[3], uint32_t from, uint32_t to);
int is_picture(const setting *s, int32_t *const planes[3]);
uint32_t plain_forward(const setting *s, const uint8_t *choices, int32_t *const planes[3]);
uint32_t plain_inverse(const setting *s, const uint8_t *choices, int32_t *const planes[3]);

/* search.c; in place the picture's planes are worked on, and left as they were */
typedef struct {
    uint32_t refusal, estimate, samples;
} estimated;
void fill_logarithms(void);
estimated plain_estimate(const setting *s, const uint8_t *choices, int32_t *const planes[3], int32_t *const trial[3],
                         uint32_t *counters);
estimated plain_estimate_in_place(const setting *s, const uint8_t *choices, int32_t *const planes[3],
                                  uint32_t *counters);
estimated plain_search(const setting *s, uint32_t rounds, uint8_t *choices, int32_t *const planes[3],
                       int32_t *const trial[3], uint32_t *counters);
estimated plain_search_in_place(const setting *s, uint32_t rounds, uint8_t *choices, int32_t *const planes[3],
                                uint32_t *counters);

/* graymaps.c; planes count from 1 here, and only the size, depth and transform of a setting matter */
typedef struct {
    uint32_t refusal, length;
} written;
typedef struct {
    uint32_t refusal, width, height;
} graymap;
written plain_p5_write(const setting *s, uint32_t plane, const int32_t *samples, size_t count, uint8_t *file,
                       size_t room);
graymap plain_p5_read(const setting *s, uint32_t plane, const uint8_t *file, size_t length, int32_t *samples,
                      size_t count);
uint32_t plain_p6_planes(const uint8_t *file, size_t length, int32_t *const planes[3], size_t count);

/* previews.c; the library's types, since one loop runs the calls of both */
rulantip_preview plain_hvsct(uint32_t depth, int32_t r, int32_t g, int32_t b);
rulantip_preview plain_ycocg(uint32_t depth, int32_t r, int32_t g, int32_t b);
rulantip_rgb plain_preview_back(uint32_t depth, uint32_t space, double v1, double v2, double v3);

/* cases.c */
enum kind {
    TRANSFORM, WRAPPED_TRANSFORM, BANDED, WRAPPED_BANDED, ESTIMATE, SEARCH, ESTIMATE_IN_PLACE, SEARCH_IN_PLACE,
    GRAYMAP, PIXMAP, PREVIEW, KINDS
};
/* bits of a set of calls, in the order of their names */
enum call {
    FORWARD = 1, INVERSE = 2, FORWARD_WRAPPED = 4, INVERSE_WRAPPED = 8,
    FORWARD_BANDED = 16, INVERSE_BANDED = 32, FORWARD_WRAPPED_BANDED = 64, INVERSE_WRAPPED_BANDED = 128,
    ESTIMATES = 256, SEARCHES = 512, ESTIMATES_IN_PLACE = 1024, SEARCHES_IN_PLACE = 2048,
    P5_WRITE = 4096, P5_READ = 8192, P6_PLANES = 16384,
    TO_HVSCT = 32768, TO_YCOCG = 65536, PREVIEW_BACK = 131072
};
#define CALLS 18
#define PLAIN_FORMS (FORWARD | INVERSE)
#define WRAPPED_FORMS (FORWARD_WRAPPED | INVERSE_WRAPPED)
#define BANDED_FORMS (FORWARD_BANDED | INVERSE_BANDED)
#define WRAPPED_BANDED_FORMS (FORWARD_WRAPPED_BANDED | INVERSE_WRAPPED_BANDED)
#define IN_PLACE (ESTIMATES_IN_PLACE | SEARCHES_IN_PLACE)
#define GRAYMAPS (P5_WRITE | P5_READ | P6_PLANES)
#define PREVIEWS (TO_HVSCT | TO_YCOCG | PREVIEW_BACK)
#define INVERSES (INVERSE | INVERSE_WRAPPED | INVERSE_BANDED | INVERSE_WRAPPED_BANDED)
#define MOST_MIXED 4
#define MOST_BANDS 8192
#define MOST_TURNS 1000

/* OTHER: the library's other call, the plain one beside a banded call and the one with trial planes beside a call in
   place; COPY: memcpy of the planes that a call is about */
enum side { PLAIN, LIBRARY, OTHER, COPY, SIDES };

typedef struct {
    double best[SIDES], last[SIDES];                /* in ms */
    double ratios[MOST_TURNS + MOST_MIXED];         /* library to plain C, by turn */
    double to_other[MOST_TURNS + MOST_MIXED];       /* the library's call to its other call, by round of sets */
    double call, other;                             /* the round's means so far */
} times;

/* Filters of a case: place p of band i has number (i + p) modulo the count. One filter is the same everywhere. */
typedef struct {
    char name[8];
    uint32_t count;
    uint8_t filters[MOST_MIXED];
} mix;
extern const char *const call_names[CALLS], *const transform_names[TRANSFORMS];
extern double worst_ratio[KINDS], worst_to_other[KINDS];   /* 0: none has run */
extern int32_t *picture[3], *work[OTHER + 1][3];   /* sets of work planes; the sides change sets between turns */
/* arguments of the library's calls */
#define DEPTHS(s) (s)->depth, (s)->depth, (s)->depth   /* one for all planes */
#define SETTING(s) (uint32_t)(s)->width, (uint32_t)(s)->height, DEPTHS(s), (s)->transform
#define PLANES(s, p) p[0], (s)->width * (s)->height, p[1], (s)->width * (s)->height, p[2], (s)->width * (s)->height
double now(void);
void keep(times *t, enum side side, double since);
void *touched(size_t bytes, uint32_t number);
void copy_picture(const setting *s, int32_t *const to[3], times *t);
int same_planes(const setting *s, int32_t *const a[3], int32_t *const b[3]);
void expect(int equal, const char *what, const setting *s);
void print_times(enum kind kind, const char *call, const char *name, const setting *s, const char *filters, times *t,
                 uint32_t turns);
void allocate(size_t widest_square, uint32_t sets_of_planes);
void draw_picture(const setting *s);
void run_case(enum kind kind, const setting *s, const mix *m, uint32_t calls, uint32_t turns);

/* graymap_cases.c */
void allocate_files(size_t widest_square);
void run_graymaps(size_t square, uint32_t calls, uint32_t turns);

/* preview_cases.c */
void run_previews(uint32_t calls, uint32_t turns);
#endif
