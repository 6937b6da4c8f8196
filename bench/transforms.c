/* The four transforms as lists of steps, and the calls forward and inverse. */
#include "bench.h"

typedef struct {
    uint8_t plane, change, source, place, second;   /* a quarter step's second source has the next place */
} step;

static const struct {
    uint32_t steps, places;
    step list[4];
} transforms[TRANSFORMS] = {
    {3, 4, {{0, MINUS, 1, 0, 0}, {2, MINUS, 1, 1, 0}, {1, PLUS_QUARTER, 0, 2, 2}}},
    {4, 4, {{0, MINUS, 2, 0, 0}, {2, PLUS_HALF, 0, 1, 0}, {1, MINUS, 2, 2, 0}, {2, PLUS_HALF, 1, 3, 0}}},
    {2, 2, {{2, NEGATE, 1, 0, 0}, {1, NEGATE, 0, 1, 0}}},
    {3, 3, {{1, NEGATE, 0, 0, 0}, {0, MINUS_HALF, 1, 1, 0}, {2, MINUS, 0, 2, 0}}},
};

uint32_t places_of(uint32_t transform) { return transforms[transform].places; }
uint32_t steps_of(uint32_t transform) { return transforms[transform].steps; }

uint32_t step_of_place(uint32_t transform, uint32_t place)
{
    uint32_t last = steps_of(transform) - 1;
    return place < last ? place : last;   /* only the last step of RCT has two places */
}

int changes_plane(uint32_t transform, uint32_t first_step, uint32_t plane)
{
    for (uint32_t i = first_step; i < steps_of(transform); i++)
        if (transforms[transform].list[i].plane == plane)
            return 1;
    return 0;
}

static size_t rows_of_bands(const setting *s) { return s->band_height ? s->band_height : s->height; }

size_t bands_of(const setting *s) { return (s->height + rows_of_bands(s) - 1) / rows_of_bands(s); }

/* The last band may be shorter. */
band band_at(const setting *s, size_t i)
{
    size_t from = i * rows_of_bands(s), to = from + rows_of_bands(s);
    return (band){from, to < s->height ? to : s->height};
}

/* With q = 2^(b-2): from -(aq - b) to cq - d, for the entry {a, b, c, d}. */
void range_of(uint32_t depth, uint32_t transform, uint32_t plane, int32_t *low, int32_t *high)
{
    static const int32_t ranges[TRANSFORMS][3][4] = {
        {{4, 1, 4, 1}, {2, 0, 6, 2}, {4, 1, 4, 1}},
        {{4, 1, 4, 1}, {6, 2, 6, 1}, {5, 1, 9, 3}},
        {{0, 0, 4, 1}, {4, 1, 4, 1}, {4, 1, 4, 1}},
        {{2, 1, 6, 1}, {4, 1, 4, 1}, {6, 1, 6, 2}},
    };
    const int32_t *r = ranges[transform][plane], q = 1 << (depth - 2);
    *low = -(r[0] * q - r[1]);
    *high = r[2] * q - r[3];
}

static void change_rows(const setting *s, band r, const step *e, int undo, const uint8_t *choices,
                        int32_t *const planes[3])
{
    enum change change = undo && e->change != NEGATE ? e->change ^ 1 : e->change;
    int32_t *c = planes[e->plane];
    const int32_t *a = planes[e->source];
    if (e->change == PLUS_QUARTER)
        lift_quarter(s, r, change, choices + e->place, c, a, planes[e->second]);
    else
        lift(s, r, change, choices[e->place], c, a);
}

/* All bands of a step, each with its own choices, come before the next step. */
static void change_plane(const setting *s, const step *e, int undo, const uint8_t *choices, int32_t *const planes[3])
{
    size_t bands = bands_of(s), places = places_of(s->transform);
    for (size_t i = 0; i < bands; i++)
        change_rows(s, band_at(s, i), e, undo, choices + i * places, planes);
}

void run_steps(const setting *s, const uint8_t *choices, int32_t *const planes[3], uint32_t from, uint32_t to)
{
    for (uint32_t i = from; i < to; i++)
        change_plane(s, &transforms[s->transform].list[i], 0, choices, planes);
}

void undo_steps(const setting *s, const uint8_t *choices, int32_t *const planes[3], uint32_t from, uint32_t to)
{
    for (uint32_t i = to; i > from; i--)
        change_plane(s, &transforms[s->transform].list[i - 1], 1, choices, planes);
}

int is_picture(const setting *s, int32_t *const planes[3])
{
    size_t count = s->width * s->height;
    uint32_t most = (1u << s->depth) - 1;
    return are_samples(planes[0], count, most) && are_samples(planes[1], count, most) &&
           are_samples(planes[2], count, most);
}

uint32_t plain_forward(const setting *s, const uint8_t *choices, int32_t *const planes[3])
{
    if (!is_picture(s, planes))
        return 11;
    run_steps(s, choices, planes, 0, steps_of(s->transform));
    return 0;
}

/* Every three planes of 0 to M come from a picture. */
static uint32_t wrapped_inverse(const setting *s, const uint8_t *choices, int32_t *const planes[3])
{
    if (!is_picture(s, planes))
        return 11;
    undo_steps(s, choices, planes, 0, steps_of(s->transform));
    return 0;
}

uint32_t plain_inverse(const setting *s, const uint8_t *choices, int32_t *const planes[3])
{
    if (s->wrapped)
        return wrapped_inverse(s, choices, planes);
    for (uint32_t i = 0; i < 3; i++) {
        int32_t low, high;
        range_of(s->depth, s->transform, i, &low, &high);
        if (!are_within(planes[i], s->width * s->height, low, high))
            return 12;
    }
    undo_steps(s, choices, planes, 0, steps_of(s->transform));
    if (is_picture(s, planes))
        return 0;
    run_steps(s, choices, planes, 0, steps_of(s->transform));
    return 12;
}
