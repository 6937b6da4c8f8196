/* Reads a P6 file, finds the best transform and filters, transforms the picture and brings it back; then once more in
   the wrapped form, whose planes fit the file's bytes, and once in bands of rows, every second of which is left as it is. */

#include "common.h"

#include <stdio.h>
#include <stdlib.h>

static const char *const names[4] = {"RCT", "YCoCg-R", "RDgDb", "LDgEb"};
static const size_t places[4] = {4, 4, 2, 3};

enum { BAND_HEIGHT = 16, NULL_FILTER = 12 };

/* The most counters that a transform needs at the depth. */
static size_t most_counters(uint32_t depth)
{
    uint32_t most = 0, transform;

    for (transform = 0; transform < 4; transform++) {
        uint32_t needed = rulantip_counters(depth, depth, depth, transform);
        if (needed > most)
            most = needed;
    }
    return most;
}

/* The lowest and the highest number of a plane. */
static void print_range(int number, const int32_t *plane, size_t samples)
{
    int32_t low = plane[0], high = plane[0];
    size_t i;

    for (i = 1; i < samples; i++) {
        if (plane[i] < low)
            low = plane[i];
        if (plane[i] > high)
            high = plane[i];
    }
    printf("plane %d holds %ld to %ld\n", number, (long)low, (long)high);
}

static void print_ranges(const int32_t *c1, const int32_t *c2, const int32_t *c3, size_t samples)
{
    print_range(1, c1, samples);
    print_range(2, c2, samples);
    print_range(3, c3, samples);
}

/* A plane to bytes, one for each number or two, and back. */
static void to_bytes(uint8_t *bytes, size_t size, const int32_t *plane, size_t samples)
{
    size_t i;

    for (i = 0; i < samples; i++) {
        bytes[size * i] = (uint8_t)(plane[i] % 256);
        if (size == 2)
            bytes[2 * i + 1] = (uint8_t)(plane[i] / 256);
    }
}

static void from_bytes(int32_t *plane, size_t size, const uint8_t *bytes, size_t samples)
{
    size_t i;

    for (i = 0; i < samples; i++)
        plane[i] = bytes[size * i] + (size == 2 ? 256 * bytes[2 * i + 1] : 0);
}

/* Transforms the picture in the wrapped form and brings it back from bytes: every number needs only the bits of a sample,
   so one byte up to depth 8, else two. */
static void through_bytes(const rulantip_pixmap *picture, uint32_t transform, const uint8_t *choices,
                          int32_t *c1, int32_t *c2, int32_t *c3, size_t samples)
{
    uint32_t width = picture->width, height = picture->height, depth = picture->depth, refusal;
    size_t size = depth <= 8 ? 1 : 2, i;
    uint8_t *bytes = memory(3 * samples, size);
    int32_t *planes[3] = {c1, c2, c3};

    refusal = rulantip_forward_wrapped(width, height, depth, depth, depth, transform, choices, places[transform],
                                       c1, samples, c2, samples, c3, samples);
    if (refusal != 0)
        stop_refused("forward, wrapped", refusal);
    printf("wrapped, in %lu bytes\n", (unsigned long)(3 * samples * size));
    print_ranges(c1, c2, c3, samples);
    for (i = 0; i < 3; i++)
        to_bytes(bytes + i * size * samples, size, planes[i], samples);

    for (i = 0; i < 3; i++)
        from_bytes(planes[i], size, bytes + i * size * samples, samples);
    refusal = rulantip_inverse_wrapped(width, height, depth, depth, depth, transform, choices, places[transform],
                                       c1, samples, c2, samples, c3, samples);
    if (refusal != 0)
        stop_refused("inverse, wrapped", refusal);
    free(bytes);
}

/* Transforms the picture in bands and brings it back. The first band has the choices, the second null at every place, and
   so on in turns. */
static void in_bands(const rulantip_pixmap *picture, uint32_t transform, const uint8_t *choices,
                     int32_t *c1, int32_t *c2, int32_t *c3, size_t samples)
{
    uint32_t width = picture->width, height = picture->height, depth = picture->depth, refusal;
    uint32_t rows = height < BAND_HEIGHT ? height : BAND_HEIGHT;
    size_t count = places[transform] * ((height + rows - 1) / rows), i;
    uint8_t *sets = memory(count, 1);

    for (i = 0; i < count; i++)
        sets[i] = i / places[transform] % 2 == 0 ? choices[i % places[transform]] : NULL_FILTER;
    refusal = rulantip_forward_banded(width, height, depth, depth, depth, transform, rows, sets, count,
                                      c1, samples, c2, samples, c3, samples);
    if (refusal != 0)
        stop_refused("forward, in bands", refusal);
    printf("in bands of %u rows, every second one left as it is\n", (unsigned)rows);
    print_ranges(c1, c2, c3, samples);
    refusal = rulantip_inverse_banded(width, height, depth, depth, depth, transform, rows, sets, count,
                                      c1, samples, c2, samples, c3, samples);
    if (refusal != 0)
        stop_refused("inverse, in bands", refusal);
    free(sets);
}

int main(int argc, char **argv)
{
    size_t length, samples, counters, i;
    uint8_t *file;
    int32_t *planes[3], *c1, *c2, *c3, *t1, *t2, *t3;
    uint32_t *counter;
    uint8_t choices[4][4];
    uint32_t best = 0, lowest = 0, refusal, transform, depth;
    rulantip_pixmap picture;

    if (argc != 2)
        stop("usage", "roundtrip FILE.ppm");
    file = read_file(argv[1], &length);
    samples = read_planes(argv[1], file, length, &picture, planes);
    c1 = planes[0];
    c2 = planes[1];
    c3 = planes[2];
    depth = picture.depth; /* a P6 file has one for all three planes */
    printf("width %u height %u depth %u\n", (unsigned)picture.width, (unsigned)picture.height, (unsigned)depth);

    /* Scratch: three trial planes, and counters that are enough for every transform. */
    t1 = memory(samples, sizeof *t1);
    t2 = memory(samples, sizeof *t2);
    t3 = memory(samples, sizeof *t3);
    counters = most_counters(depth);
    counter = memory(counters, sizeof *counter);

    printf("transform filters estimate samples each rest\n");
    for (transform = 0; transform < 4; transform++) {
        uint8_t *found = choices[transform];
        rulantip_estimated answer = rulantip_search(
            picture.width, picture.height, depth, depth, depth, transform, 2, found, places[transform],
            c1, samples, c2, samples, c3, samples, t1, samples, t2, samples, t3, samples, counter, counters);
        if (answer.refusal != 0)
            stop_refused(argv[1], answer.refusal);
        printf("%s ", names[transform]);
        for (i = 0; i < places[transform]; i++)
            printf(i == 0 ? "%u" : ",%u", (unsigned)found[i]);
        print_estimated(answer);
        if (transform == 0 || answer.estimate < lowest) {
            best = transform;
            lowest = answer.estimate;
        }
    }
    printf("best %s\n", names[best]);

    refusal = rulantip_forward(picture.width, picture.height, depth, depth, depth, best, choices[best], places[best],
                               c1, samples, c2, samples, c3, samples);
    if (refusal != 0)
        stop_refused("forward", refusal);
    print_ranges(c1, c2, c3, samples);

    refusal = rulantip_inverse(picture.width, picture.height, depth, depth, depth, best, choices[best], places[best],
                               c1, samples, c2, samples, c3, samples);
    if (refusal != 0)
        stop_refused("inverse", refusal);
    compare(argv[1], file, length, c1, c2, c3, samples);

    through_bytes(&picture, best, choices[best], c1, c2, c3, samples);
    compare(argv[1], file, length, c1, c2, c3, samples);

    in_bands(&picture, best, choices[best], c1, c2, c3, samples);
    compare(argv[1], file, length, c1, c2, c3, samples);

    free(file);
    free(c1);
    free(c2);
    free(c3);
    free(t1);
    free(t2);
    free(t3);
    free(counter);
    return 0;
}
