/* Passes over planes. A row function is made for each form, change and filter, so its divisors are constants. */
#include "bench.h"

/* The union of what a test makes of each number, in LANES parts so that no operation waits for the one before it. */
#define LANES 16
#define UNION(bits, i, count, test) \
    do { \
        uint32_t part[LANES] = {0}; \
        size_t i = 0; \
        for (; i + LANES <= (count); i += LANES) \
            for (size_t lane = i, j = 0; j < LANES; j++, lane++) { \
                size_t i = lane; \
                part[j] |= (test); \
            } \
        for (; i < (count); i++) \
            part[0] |= (test); \
        for (size_t j = 0; j < LANES; j++) \
            (bits) |= part[j]; \
    } while (0)

/* Is every number 0 to most, where most is a power of two less one? */
int are_samples(const int32_t *plane, size_t count, uint32_t most)
{
    uint32_t bits = 0;
    UNION(bits, i, count, (uint32_t)plane[i]);
    return bits <= most;
}

/* Is every number low to high? The top bit of a difference tells; low is at most 0, so wrapping hides nothing. */
int are_within(const int32_t *plane, size_t count, int32_t low, int32_t high)
{
    uint32_t bits = 0;
    UNION(bits, i, count, ((uint32_t)plane[i] - (uint32_t)low) | ((uint32_t)high - (uint32_t)plane[i]));
    return bits >> 31 == 0;
}

/* A quarter step makes a row in two: 4c + f or 4c - f, then with the second filtered value the floor of a quarter.
   With one null place it adds or subtracts the floor of a quarter of the other's filtered value. */
enum row_change { ROW_PLUS, ROW_MINUS, ROW_PLUS_HALF, ROW_MINUS_HALF, ROW_PLUS_QUARTER, ROW_MINUS_QUARTER, ROW_NEGATE,
                  ROW_FOUR_PLUS, ROW_FOUR_MINUS, ROW_QUARTER_PLUS, ROW_QUARTER_MINUS, ROW_CHANGES };

INLINE int32_t changed(enum row_change change, int32_t c, int32_t f)
{
    switch (change) {
    case ROW_PLUS: return c + f;
    case ROW_MINUS: return c - f;
    case ROW_PLUS_HALF: return c + (f >> 1);
    case ROW_MINUS_HALF: return c - (f >> 1);
    case ROW_PLUS_QUARTER: return c + (f >> 2);
    case ROW_MINUS_QUARTER: return c - (f >> 2);
    case ROW_NEGATE: return f - c;
    case ROW_FOUR_PLUS: return 4 * c + f;
    case ROW_FOUR_MINUS: return 4 * c - f;
    case ROW_QUARTER_PLUS: return (c + f) >> 2;
    default: return (c - f + 3) >> 2;
    }
}

/* What c becomes. Of a step's result a wrapped form keeps the bits of the mask, M; 4c + f and 4c - f are no results. */
enum form { WHOLE, WRAPPED, FORMS };
INLINE int32_t kept(enum form form, int32_t mask, enum row_change change, int32_t c, int32_t f)
{
    int whole = form == WHOLE || change == ROW_FOUR_PLUS || change == ROW_FOUR_MINUS;
    return whole ? changed(change, c, f) : changed(change, c, f) & mask;
}

/* The rounded mean. In a wrapped form the sum is not negative; else every sample lies within 2^19 of 0, and an offset
   makes the sum unsigned. */
INLINE int32_t mean(enum form form, int32_t sum, int32_t weights)
{
    const int32_t offset = form == WHOLE ? 1 << 19 : 0;
    return (int32_t)((uint32_t)(sum + offset * weights + weights / 2) / (uint32_t)weights) - offset;
}

/* The window's part in one column of 1 to 3 rows: the middle row m, then a, then b; m weighs `centre`. */
INLINE int32_t column(int32_t rows, int32_t centre, const int32_t *m, const int32_t *a, const int32_t *b, size_t x)
{
    int32_t sum = centre * m[x];
    if (rows > 1) sum += a[x];
    if (rows > 2) sum += b[x];
    return sum;
}

INLINE void filter_row(enum form form, int32_t mask, enum row_change change, int32_t k, int32_t rows,
                       int32_t *restrict c, const int32_t *m, const int32_t *a, const int32_t *b, size_t width)
{
    size_t last = width - 1;
    if (last == 0) {
        c[0] = kept(form, mask, change, c[0], mean(form, column(rows, k, m, a, b, 0), rows - 1 + k));
        return;
    }
    int32_t left = column(rows, k, m, a, b, 0) + column(rows, 1, m, a, b, 1);
    c[0] = kept(form, mask, change, c[0], mean(form, left, 2 * rows - 1 + k));
    for (size_t x = 1; x < last; x++) {
        int32_t sides = column(rows, 1, m, a, b, x - 1) + column(rows, 1, m, a, b, x + 1);
        c[x] = kept(form, mask, change, c[x], mean(form, sides + column(rows, k, m, a, b, x), 3 * rows - 1 + k));
    }
    int32_t right = column(rows, 1, m, a, b, last - 1) + column(rows, k, m, a, b, last);
    c[last] = kept(form, mask, change, c[last], mean(form, right, 2 * rows - 1 + k));
}

/* A row function gets the row to change, the filtered plane's row, the rows above and below it or null, and M. */
#define ROW_PARAMETERS \
    int32_t *restrict c, const int32_t *m, const int32_t *a, const int32_t *b, size_t width, int32_t mask
typedef void row_function(ROW_PARAMETERS);

#define ROW(form, change, filter, k) \
    static void form##_##change##_##filter(ROW_PARAMETERS) \
    { \
        if (a && b) filter_row(form, mask, change, k, 3, c, m, a, b, width); \
        else if (a || b) filter_row(form, mask, change, k, 2, c, m, a ? a : b, 0, width); \
        else filter_row(form, mask, change, k, 1, c, m, 0, 0, width); \
    }
#define SAMPLE(form, change, filter, value) \
    static void form##_##change##_##filter(ROW_PARAMETERS) \
    { \
        (void)m, (void)a, (void)b; \
        for (size_t x = 0; x < width; x++) \
            c[x] = kept(form, mask, change, c[x], value); \
    }
#define ROWS(w, o) \
    SAMPLE(w, o, 0, m[x]) ROW(w, o, 1, 1) ROW(w, o, 2, 2) ROW(w, o, 3, 4) ROW(w, o, 4, 8) ROW(w, o, 5, 16) \
    ROW(w, o, 6, 32) ROW(w, o, 7, 64) ROW(w, o, 8, 128) ROW(w, o, 9, 256) ROW(w, o, 10, 512) ROW(w, o, 11, 1024)
#define EACH_CHANGE(make, w) \
    make(w, ROW_PLUS) make(w, ROW_MINUS) make(w, ROW_PLUS_HALF) make(w, ROW_MINUS_HALF) make(w, ROW_PLUS_QUARTER) \
    make(w, ROW_MINUS_QUARTER) make(w, ROW_NEGATE) make(w, ROW_FOUR_PLUS) make(w, ROW_FOUR_MINUS) \
    make(w, ROW_QUARTER_PLUS) make(w, ROW_QUARTER_MINUS)
EACH_CHANGE(ROWS, WHOLE)
EACH_CHANGE(ROWS, WRAPPED)

/* Of filters 0 to 11: no row is made with the null filter. */
#define LISTED(w, o) \
    [o] = {w##_##o##_0, w##_##o##_1, w##_##o##_2, w##_##o##_3, w##_##o##_4, w##_##o##_5, w##_##o##_6, w##_##o##_7, \
           w##_##o##_8, w##_##o##_9, w##_##o##_10, w##_##o##_11},
static row_function *const row_functions[FORMS][ROW_CHANGES][NULL_FILTER] = {
    [WHOLE] = {EACH_CHANGE(LISTED, WHOLE)}, [WRAPPED] = {EACH_CHANGE(LISTED, WRAPPED)}
};

INLINE enum form form_of(const setting *s) { return s->wrapped ? WRAPPED : WHOLE; }
INLINE int32_t mask_of(const setting *s) { return (1 << s->depth) - 1; }

INLINE void change_row(const setting *s, enum row_change change, uint32_t filter, int32_t *c, const int32_t *a,
                       size_t y)
{
    size_t width = s->width;
    const int32_t *m = a + y * width, *above = y > 0 ? m - width : 0, *below = y + 1 < s->height ? m + width : 0;
    row_functions[form_of(s)][change][filter](c + y * width, m, above, below, width, mask_of(s));
}

static void lift_rows(const setting *s, band r, enum row_change rows, uint32_t filter, int32_t *c, const int32_t *a)
{
    size_t first = r.from * s->width, count = (r.to - r.from) * s->width;
    if (filter == 0)   /* no window: the rows are one long row */
        row_functions[form_of(s)][rows][0](c + first, a + first, 0, 0, count, mask_of(s));
    else
        for (size_t y = r.from; y < r.to; y++)
            change_row(s, rows, filter, c, a, y);
}

/* A step, or back, in rows of plane c; windows reach beyond these rows. */
void lift(const setting *s, band r, enum change change, uint32_t filter, int32_t *c, const int32_t *a)
{
    static const enum row_change row_changes[] = {
        [PLUS] = ROW_PLUS, [MINUS] = ROW_MINUS, [PLUS_HALF] = ROW_PLUS_HALF, [MINUS_HALF] = ROW_MINUS_HALF,
        [NEGATE] = ROW_NEGATE
    };
    if (filter != NULL_FILTER)   /* a step whose places are all null is skipped */
        lift_rows(s, r, row_changes[change], filter, c, a);
}

INLINE void quarter_of_samples(enum form form, int32_t mask, enum row_change change, int32_t *restrict c,
                               const int32_t *a, const int32_t *b, size_t count)
{
    for (size_t i = 0; i < count; i++)
        c[i] = kept(form, mask, change, c[i], a[i] + b[i]);
}

/* The quarter step with two filters 0 is one pass. */
static void lift_quarter_of_samples(const setting *s, band r, int plus, int32_t *c, const int32_t *a, const int32_t *b)
{
    size_t first = r.from * s->width, count = (r.to - r.from) * s->width;
    int32_t mask = mask_of(s);
    c += first, a += first, b += first;
    if (s->wrapped && plus) quarter_of_samples(WRAPPED, mask, ROW_PLUS_QUARTER, c, a, b, count);
    else if (s->wrapped) quarter_of_samples(WRAPPED, mask, ROW_MINUS_QUARTER, c, a, b, count);
    else if (plus) quarter_of_samples(WHOLE, mask, ROW_PLUS_QUARTER, c, a, b, count);
    else quarter_of_samples(WHOLE, mask, ROW_MINUS_QUARTER, c, a, b, count);
}

void lift_quarter(const setting *s, band r, enum change change, const uint8_t filters[2], int32_t *c, const int32_t *a,
                  const int32_t *b)
{
    int plus = change == PLUS_QUARTER;
    if (filters[0] == NULL_FILTER || filters[1] == NULL_FILTER) {
        int other = filters[0] == NULL_FILTER;
        if (filters[other] != NULL_FILTER)
            lift_rows(s, r, plus ? ROW_PLUS_QUARTER : ROW_MINUS_QUARTER, filters[other], c, other ? b : a);
        return;
    }
    if (filters[0] == 0 && filters[1] == 0) {
        lift_quarter_of_samples(s, r, plus, c, a, b);
        return;
    }
    for (size_t y = r.from; y < r.to; y++) {
        change_row(s, plus ? ROW_FOUR_PLUS : ROW_FOUR_MINUS, filters[0], c, a, y);
        change_row(s, plus ? ROW_QUARTER_PLUS : ROW_QUARTER_MINUS, filters[1], c, b, y);
    }
}
