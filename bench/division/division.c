/* Four forms of the division in the mean of an interior window, each in the loop of a pass that subtracts: nanoseconds
   a sample. All samples lie within 2^19 of 0. With k the centre weight and b the centre less 2^23 / k, the mean is b and
   the quotient of a rest by 8 + k, which is not negative and at most 2^24 + 2^26 / k + (8 + k) / 2. */
#include <stdint.h>
#include <stdio.h>
#include <stdlib.h>
#include <string.h>
#include <time.h>

#define INLINE static inline __attribute__((always_inline))
#define WEIGHTS 11
#define FORMS 4
#define FACTORS 5

typedef struct {
    uint32_t weight, full, base;             /* k, 8 + k, 2^23 / k */
    uint32_t reciprocal;                     /* of 35 bits, for the product */
    uint32_t high, shift, low;               /* of 16 bits for the high part, and of 22 for what is left */
    uint32_t by[FACTORS], mask[FACTORS], to; /* shifts of the series, what they keep, and the shift at the end */
} divisor;

/* 8 + k is 2^e (2^b + 1), and 1 / (2^b + 1) is 2^-b (1 - 2^-b) (1 + 2^-2b) (1 + 2^-4b) .. for b above 0 */
static divisor divisor_of(uint32_t entry)
{
    divisor d = {.weight = 1u << entry, .full = 8 + (1u << entry), .base = (1u << 23) >> entry};
    d.reciprocal = (uint32_t)(((uint64_t)1 << 35) / d.full + 1);
    while ((((uint64_t)2048 << (d.shift + 1)) / d.full) < 65536) d.shift++;
    d.high = (uint32_t)(((uint64_t)2048 << d.shift) / d.full);
    d.low = (1u << 22) / d.full + 1;
    uint32_t e = entry < 3 ? entry : 3, b = entry < 3 ? 3 - entry : entry - 3;
    d.to = b ? e + b : e + 1;
    for (uint32_t i = 0; b && i < FACTORS; i++)
        if (b << i < 32) d.by[i] = b << i, d.mask[i] = ~0u;
    return d;
}

INLINE uint32_t by_product(uint32_t n, divisor d) { return (uint32_t)((uint64_t)n * d.reciprocal >> 32) >> 3; }

INLINE uint32_t by_products(uint32_t n, divisor d)
{
    uint32_t q = (n >> 11) * d.high >> d.shift;
    return q + ((n - q * d.full) * d.low >> 22);
}

INLINE uint32_t by_series(uint32_t n, divisor d)
{
    uint32_t m = n - (n >> d.by[0] & d.mask[0]);
    for (int i = 1; i < FACTORS; i++) m += m >> d.by[i] & d.mask[i];
    uint32_t q = m >> d.to;
    return q + (n - q * d.full >= d.full);
}

INLINE uint32_t by_division(uint32_t n, divisor d) { return n / d.full; }

INLINE int32_t three(const int32_t *a, size_t i) { return a[i - 1] + a[i] + a[i + 1]; }

#define PARAMETERS int32_t *restrict c, const int32_t *restrict a, size_t w, divisor d
#define FORM(form) \
    static __attribute__((noinline)) void lift_##form(PARAMETERS) \
    { \
        for (size_t i = w + 1; i < w * (w - 1) - 1; i++) { \
            int32_t sum = three(a, i - w) + a[i - 1] + a[i + 1] + three(a, i + w); \
            int32_t b = a[i] - (int32_t)d.base; \
            c[i] -= b + (int32_t)form((uint32_t)(sum - 8 * b + (1 << 23) + (int32_t)(d.full / 2)), d); \
        } \
    } \
    static uint32_t wrong_##form(divisor d) \
    { \
        uint32_t wrong = 0, most = (1u << 24) + (1u << 26) / d.weight + d.full / 2; \
        for (uint32_t n = 0; n <= most; n++) wrong += form(n, d) != n / d.full; \
        return wrong; \
    }
FORM(by_product)
FORM(by_products)
FORM(by_series)
FORM(by_division)

static const struct {
    const char *name;
    void (*lift)(PARAMETERS);
    uint32_t (*wrong)(divisor);
} forms[FORMS] = {{"64-bit product", lift_by_product, wrong_by_product},
                  {"three 32-bit products", lift_by_products, wrong_by_products},
                  {"shifts and sums", lift_by_series, wrong_by_series},
                  {"division", lift_by_division, wrong_by_division}};

static double seconds(void)
{
    struct timespec t;
    clock_gettime(CLOCK_MONOTONIC, &t);
    return (double)t.tv_sec + 1e-9 * (double)t.tv_nsec;
}

/* The best time of each form in turns, lowest and highest over the centre weights. */
static void measure(size_t w, int turns)
{
    int32_t *a = malloc(w * w * sizeof *a), *c = malloc(w * w * sizeof *c);
    if (!a || !c) exit(2);
    double low[FORMS], high[FORMS] = {0};
    for (int f = 0; f < FORMS; f++) low[f] = 1e9;
    srand(1);
    for (size_t i = 0; i < w * w; i++) a[i] = rand() % (1 << 20) - (1 << 19);
    for (uint32_t entry = 0; entry < WEIGHTS; entry++) {
        double best[FORMS] = {1e9, 1e9, 1e9, 1e9};
        for (int turn = 0; turn < turns; turn++)
            for (int f = 0; f < FORMS; f++) {
                memset(c, 0, w * w * sizeof *c);
                double start = seconds();
                forms[f].lift(c, a, w, divisor_of(entry));
                double time = (seconds() - start) * 1e9 / (double)(w * w);
                if (time < best[f]) best[f] = time;
            }
        for (int f = 0; f < FORMS; f++) {
            if (best[f] < low[f]) low[f] = best[f];
            if (best[f] > high[f]) high[f] = best[f];
        }
    }
    printf("%5zu", w);
    for (int f = 0; f < FORMS; f++) printf("  %s %.2f to %.2f", forms[f].name, low[f], high[f]);
    putchar('\n');
    free(a), free(c);
}

int main(void)
{
    for (int f = 0; f < FORMS; f++)
        for (uint32_t entry = 0; entry < WEIGHTS; entry++)
            if (forms[f].wrong(divisor_of(entry))) {
                printf("%s is wrong for centre weight %u\n", forms[f].name, 1u << entry);
                return 1;
            }
    measure(128, 400);
    measure(512, 40);
    measure(2048, 6);
    return 0;
}
