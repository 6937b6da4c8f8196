/* Reads a P6 file, finds filters for RDgDb in place, transforms the picture and writes each finished plane as a P5 file,
   PREFIX.1.pgm to PREFIX.3.pgm; then reads the three files and brings the picture back from them. It has memory for one
   picture. */

#include "common.h"

#include <stdio.h>
#include <stdlib.h>
#include <string.h>

/* The filter of each place. */
static uint8_t choices[2];

/* The best filters, found on the picture's own planes, which hold the picture again when the search returns. */
static void find_filters(const rulantip_pixmap *picture, int32_t **planes, size_t samples)
{
    uint32_t depth = picture->depth;
    size_t count = rulantip_counters(depth, depth, depth, RULANTIP_RDGDB);
    uint32_t *counters = memory(count, sizeof *counters);
    rulantip_estimated found =
        rulantip_search_in_place(picture->width, picture->height, depth, depth, depth, RULANTIP_RDGDB, 2, choices, 2,
                                 planes[0], samples, planes[1], samples, planes[2], samples, counters, count);

    if (found.refusal != 0)
        stop_refused("search", found.refusal);
    printf("RDgDb %u,%u", choices[0], choices[1]);
    print_estimated(found);
    free(counters);
}

/* Writes the plane to its file. */
static void write_plane(const char *name, const rulantip_pixmap *picture, uint32_t plane, const int32_t *samples, size_t count)
{
    uint32_t width = picture->width, height = picture->height, depth = picture->depth;
    size_t room = RULANTIP_P5_LENGTH(width, height);
    uint8_t *buffer = memory(room, 1);
    rulantip_written written = rulantip_p5_write(width, height, depth, depth, depth, RULANTIP_RDGDB, plane,
                                                 samples, count, buffer, room);
    FILE *out;

    if (written.refusal != 0)
        stop_refused(name, written.refusal);
    out = fopen(name, "wb");
    if (out == NULL || fwrite(buffer, 1, written.length, out) != written.length || fclose(out) != 0)
        stop(name, "cannot be written");
    printf("%s has %u bytes\n", name, (unsigned)written.length);
    free(buffer);
}

/* Reads the plane from its file, whose size must be the picture's. */
static void read_plane(const char *name, const rulantip_pixmap *picture, uint32_t plane, int32_t *samples, size_t count)
{
    uint32_t depth = picture->depth;
    size_t length;
    uint8_t *file = read_file(name, &length);
    rulantip_graymap read = rulantip_p5_read(depth, depth, depth, RULANTIP_RDGDB, plane, file, length, samples, count);

    if (read.refusal != 0)
        stop_refused(name, read.refusal);
    if (read.width != picture->width || read.height != picture->height)
        stop(name, "has another width and height");
    free(file);
}

/* Writes the planes to files and forgets them, then reads the files. */
static void through_files(const char *prefix, const rulantip_pixmap *picture, int32_t **planes, size_t samples)
{
    char name[3][4096];
    uint32_t i;

    for (i = 0; i < 3; i++) {
        if (snprintf(name[i], sizeof name[i], "%s.%u.pgm", prefix, (unsigned)i + 1) >= (int)sizeof name[i])
            stop(prefix, "is too long");
        write_plane(name[i], picture, i + 1, planes[i], samples);
        memset(planes[i], 0, samples * sizeof *planes[i]);
    }
    for (i = 0; i < 3; i++)
        read_plane(name[i], picture, i + 1, planes[i], samples);
}

int main(int argc, char **argv)
{
    size_t length, samples;
    uint8_t *file;
    int32_t *planes[3];
    rulantip_pixmap picture;
    uint32_t refusal, depth, i;

    if (argc != 3)
        stop("usage", "graymaps FILE.ppm PREFIX");
    file = read_file(argv[1], &length);
    samples = read_planes(argv[1], file, length, &picture, planes);
    depth = picture.depth;

    find_filters(&picture, planes, samples);
    refusal = rulantip_forward(picture.width, picture.height, depth, depth, depth, RULANTIP_RDGDB, choices, 2,
                               planes[0], samples, planes[1], samples, planes[2], samples);
    if (refusal != 0)
        stop_refused(argv[1], refusal);
    through_files(argv[2], &picture, planes, samples);
    refusal = rulantip_inverse(picture.width, picture.height, depth, depth, depth, RULANTIP_RDGDB, choices, 2,
                               planes[0], samples, planes[1], samples, planes[2], samples);
    if (refusal != 0)
        stop_refused("inverse", refusal);
    compare(argv[1], file, length, planes[0], planes[1], planes[2], samples);

    free(file);
    for (i = 0; i < 3; i++)
        free(planes[i]);
    return 0;
}
