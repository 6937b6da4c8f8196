#include "common.h"

#include <stdio.h>
#include <stdlib.h>
#include <string.h>

static const char *const causes[18] = {
    "success",
    "the header does not have the form of P6, or of P5",
    "width or height is outside 1 to 8,192",
    "maxval is not 2^b - 1 for a depth b of 2 to 16, or in P5 not the plane's",
    "other than the bytes of width * height pixels follow the header",
    "a depth is outside 2 to 16",
    "the transform is above 3, or the plane's number outside 1 to 3",
    "the number of choices is wrong, or a choice is above 12",
    "a plane's length is not width * height",
    "a trial plane is short, or there are too few counters",
    "the rounds are outside 1 to 4",
    "a sample is outside its plane's depth",
    "no picture goes to these planes, or a graymap's sample is outside its plane's range",
    "the plane's highest number less its lowest is above 65,535",
    "the buffer is shorter than the file",
    "no samples of this depth have these floats",
    "the three depths differ",
    "the band height is 0 or above the picture's",
};

void stop(const char *what, const char *why)
{
    fprintf(stderr, "%s: %s\n", what, why);
    exit(1);
}

void stop_refused(const char *what, uint32_t refusal)
{
    const char *cause = refusal <= 17 ? causes[refusal] : "no cause known";

    fprintf(stderr, "%s: refused %u, %s\n", what, (unsigned)refusal, cause);
    exit(1);
}

void *memory(size_t count, size_t size)
{
    void *p = calloc(count, size);
    if (p == NULL)
        stop("memory", "there is none left");
    return p;
}

uint8_t *read_file(const char *name, size_t *length)
{
    FILE *in = fopen(name, "rb");
    size_t room = 65536;
    uint8_t *bytes = memory(room, 1);

    if (in == NULL)
        stop(name, "cannot be opened");
    *length = 0;
    for (;;) {
        size_t got = fread(bytes + *length, 1, room - *length, in);
        if (got == 0)
            break;
        *length += got;
        if (*length == room) {
            room *= 2;
            bytes = realloc(bytes, room);
            if (bytes == NULL)
                stop("memory", "there is none left");
        }
    }
    if (ferror(in))
        stop(name, "cannot be read");
    fclose(in);
    return bytes;
}

size_t read_planes(const char *name, const uint8_t *file, size_t length, rulantip_pixmap *picture, int32_t *planes[3])
{
    size_t samples;
    uint32_t refusal;
    int i;

    *picture = rulantip_p6_header(file, length);
    if (picture->refusal != 0)
        stop_refused(name, picture->refusal);
    samples = (size_t)picture->width * picture->height;
    for (i = 0; i < 3; i++)
        planes[i] = memory(samples, sizeof *planes[i]);
    refusal = rulantip_p6_planes(file, length, planes[0], samples, planes[1], samples, planes[2], samples);
    if (refusal != 0)
        stop_refused(name, refusal);
    return samples;
}

void print_estimated(rulantip_estimated found)
{
    /* A call that is not refused counts at least one sample. */
    uint32_t each = found.estimate / found.samples, rest = found.estimate % found.samples;

    printf(" %u %u %u %u\n", (unsigned)found.estimate, (unsigned)found.samples, (unsigned)each, (unsigned)rest);
}

void compare(const char *name, const uint8_t *file, size_t length, const int32_t *c1, const int32_t *c2, const int32_t *c3,
             size_t samples)
{
    int32_t *r = memory(samples, sizeof *r), *g = memory(samples, sizeof *g), *b = memory(samples, sizeof *b);
    size_t size = samples * sizeof *r;
    uint32_t refusal = rulantip_p6_planes(file, length, r, samples, g, samples, b, samples);

    if (refusal != 0)
        stop_refused(name, refusal);
    if (memcmp(c1, r, size) != 0 || memcmp(c2, g, size) != 0 || memcmp(c3, b, size) != 0)
        stop(name, "the picture did not come back");
    printf("all %lu samples came back\n", (unsigned long)(3 * samples));
    free(r);
    free(g);
    free(b);
}
