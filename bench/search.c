/* The estimate and the filter search. */
#include "bench.h"
#include <string.h>

static uint16_t logarithms[MOST_COUNTED + 1];

/* The greatest L with 2^L not above n^64, from the power itself. */
static uint16_t logarithm(uint32_t n)
{
    uint32_t power[25] = {1}, top = 24;
    for (int i = 0; i < 64; i++) {
        uint64_t carry = 0;
        for (int j = 0; j < 25; j++) {
            carry += (uint64_t)power[j] * n;
            power[j] = (uint32_t)carry;
            carry >>= 32;
        }
    }
    while (power[top] == 0)
        top--;
    return (uint16_t)(32 * top + 31 - (uint32_t)__builtin_clz(power[top]));
}

void fill_logarithms(void)
{
    for (uint32_t n = 1; n <= MOST_COUNTED; n++)
        logarithms[n] = logarithm(n);
}

/* The widest range of the transform's finished planes. */
static int32_t widest(uint32_t depth, uint32_t transform)
{
    int32_t most = 0;
    for (uint32_t i = 0; i < 3; i++) {
        int32_t low, high;
        range_of(depth, transform, i, &low, &high);
        most = high - low > most ? high - low : most;
    }
    return most;
}

static size_t counters_of(uint32_t depth, uint32_t transform) { return 2 * (size_t)widest(depth, transform) + 1; }

/* The median of a, e and a + e - c. */
INLINE int32_t med(int32_t a, int32_t e, int32_t c)
{
    int32_t least = a < e ? a : e, most = a < e ? e : a, sum = a + e - c;
    sum = sum < least ? least : sum;
    return sum > most ? most : sum;
}

/* Counts the residuals, then adds up and clears the counters. Gives the estimate; *samples becomes N. */
static uint32_t estimate_plane(const setting *s, const int32_t *plane, uint32_t *counters, uint32_t *samples)
{
    uint32_t used[MOST_COUNTED], sum = 0;
    size_t width = s->width, count = width * s->height;
    uint32_t n = count < MOST_COUNTED ? (uint32_t)count : MOST_COUNTED;
    /* in 4096ths of a sample: the distance of counted samples, the index and the column */
    uint64_t every = count < MOST_COUNTED ? MOST_COUNTED : count, row = (uint64_t)width * MOST_COUNTED;
    uint64_t at = 0, x = 0, across = every % row;
    int32_t zero = widest(s->depth, s->transform);
    for (uint32_t j = 0; j < n; j++) {
        size_t i = at / MOST_COUNTED;
        const int32_t *p = plane + i;
        int32_t prediction;
        if (at < row) prediction = i == 0 ? 0 : p[-1];
        else if (x < MOST_COUNTED) prediction = *(p - width);
        else prediction = med(p[-1], *(p - width), *(p - width - 1));
        used[j] = (uint32_t)(*p - prediction + zero);
        counters[used[j]]++;
        at += every;
        x += across;
        x = x >= row ? x - row : x;
    }
    /* over all counters where they are fewer, else over those that were used; one met before is 0 by now */
    uint32_t all = 2 * (uint32_t)zero + 1;
    if (all < n)
        for (uint32_t k = 0; k < all; k++) {
            sum += counters[k] * logarithms[counters[k]];
            counters[k] = 0;
        }
    else
        for (uint32_t j = 0; j < n; j++) {
            uint32_t c = counters[used[j]];
            sum += c * logarithms[c];
            counters[used[j]] = 0;
        }
    *samples = n;
    return n * logarithms[n] - sum;
}

/* Sums the estimates of the planes that the steps from `step` on change, or of those that they do not change. */
static uint32_t estimate_planes(const setting *s, uint32_t step, int changed, int32_t *const planes[3],
                                uint32_t *counters, uint32_t *samples)
{
    uint32_t sum = 0;
    for (uint32_t i = 0; i < 3; i++)
        if (changes_plane(s->transform, step, i) == changed)
            sum += estimate_plane(s, planes[i], counters, samples);
    return sum;
}

/* Tests the samples; then the counters are zero. */
static int begin(const setting *s, int32_t *const planes[3], uint32_t *counters)
{
    if (!is_picture(s, planes))
        return 0;
    memset(counters, 0, 4 * counters_of(s->depth, s->transform));
    return 1;
}

/* The same; then the trial planes hold the picture. */
static int begin_trial(const setting *s, int32_t *const planes[3], int32_t *const trial[3], uint32_t *counters)
{
    if (!begin(s, planes, counters))
        return 0;
    for (uint32_t i = 0; i < 3; i++)
        memcpy(trial[i], planes[i], 4 * s->width * s->height);
    return 1;
}

static void clear(const setting *s, int32_t *const trial[3])
{
    for (uint32_t i = 0; i < 3; i++)
        memset(trial[i], 0, 4 * s->width * s->height);
}

/* The estimate of a picture under choices. The planes are left with all steps run. */
static estimated estimate_choices(const setting *s, const uint8_t *choices, int32_t *const planes[3],
                                  uint32_t *counters)
{
    estimated answer = {0, 0, 0};
    run_steps(s, choices, planes, 0, steps_of(s->transform));
    for (uint32_t i = 0; i < 3; i++)
        answer.estimate += estimate_plane(s, planes[i], counters, &answer.samples);
    return answer;
}

/* The same. The planes are left as they were. */
static estimated estimate_and_undo(const setting *s, const uint8_t *choices, int32_t *const planes[3],
                                   uint32_t *counters)
{
    estimated answer = estimate_choices(s, choices, planes, counters);
    undo_steps(s, choices, planes, 0, steps_of(s->transform));
    return answer;
}

estimated plain_estimate(const setting *s, const uint8_t *choices, int32_t *const planes[3], int32_t *const trial[3],
                         uint32_t *counters)
{
    if (!begin_trial(s, planes, trial, counters))
        return (estimated){11, 0, 0};
    estimated answer = estimate_choices(s, choices, trial, counters);
    clear(s, trial);
    return answer;
}

estimated plain_estimate_in_place(const setting *s, const uint8_t *choices, int32_t *const planes[3],
                                  uint32_t *counters)
{
    if (!begin(s, planes, counters))
        return (estimated){11, 0, 0};
    return estimate_and_undo(s, choices, planes, counters);
}

/* Tries all filters at a place but the present one, whose estimate is the answer so far. The planes stand before the
   place's step, on entry and at the end. */
static void search_place(const setting *s, uint32_t place, uint8_t *choices, int32_t *const planes[3],
                         uint32_t *counters, estimated *answer)
{
    uint32_t step = step_of_place(s->transform, place), end = steps_of(s->transform);
    uint32_t finished = estimate_planes(s, step, 0, planes, counters, &answer->samples);
    uint8_t present = choices[place], winner = present;
    for (uint8_t f = 0; f < FILTERS; f++) {
        if (f == present)
            continue;
        choices[place] = f;
        run_steps(s, choices, planes, step, end);
        uint32_t estimate = finished + estimate_planes(s, step, 1, planes, counters, &answer->samples);
        undo_steps(s, choices, planes, step, end);
        if (estimate < answer->estimate)
            winner = f, answer->estimate = estimate;
    }
    choices[place] = winner;
}

/* The search of a picture, with counters that are zero. The planes are left as they were. */
static estimated search_choices(const setting *s, uint32_t rounds, uint8_t *choices, int32_t *const planes[3],
                                uint32_t *counters)
{
    memset(choices, 0, places_of(s->transform));
    estimated answer = estimate_and_undo(s, choices, planes, counters);
    for (uint32_t round = 0; round < rounds; round++) {
        uint32_t at = 0;   /* the step that the planes stand before */
        for (uint32_t place = 0; place < places_of(s->transform); place++) {
            uint32_t step = step_of_place(s->transform, place);
            run_steps(s, choices, planes, at, step);
            at = step;
            search_place(s, place, choices, planes, counters, &answer);
        }
        undo_steps(s, choices, planes, 0, at);
    }
    return answer;
}

estimated plain_search(const setting *s, uint32_t rounds, uint8_t *choices, int32_t *const planes[3],
                       int32_t *const trial[3], uint32_t *counters)
{
    if (!begin_trial(s, planes, trial, counters))
        return (estimated){11, 0, 0};
    estimated answer = search_choices(s, rounds, choices, trial, counters);
    clear(s, trial);
    return answer;
}

estimated plain_search_in_place(const setting *s, uint32_t rounds, uint8_t *choices, int32_t *const planes[3],
                                uint32_t *counters)
{
    if (!begin(s, planes, counters))
        return (estimated){11, 0, 0};
    return search_choices(s, rounds, choices, planes, counters);
}
