/* Reads a P6 file, makes the preview pixels of both spaces from its samples, prints between which numbers each float lies,
   and brings every pixel's samples back from its floats. */

#include "common.h"

#include <stdio.h>
#include <stdlib.h>

/* A space: its call, and the names of its floats. */
typedef struct {
    const char *name;
    rulantip_preview (*forward)(uint32_t depth, int32_t r, int32_t g, int32_t b);
    const char *floats[3];
} space;

static const space spaces[2] = {
    {"HVSCT", rulantip_hvsct, {"Y", "Cd", "Ce"}},
    {"YCoCg", rulantip_ycocg, {"Y", "Co", "Cg"}},
};

/* The pixel's three floats, from which its samples come back. */
static void floats_of(const space *s, uint32_t depth, int32_t r, int32_t g, int32_t b, double floats[3])
{
    rulantip_preview shown = s->forward(depth, r, g, b);
    rulantip_rgb back = rulantip_preview_back(depth, shown.space, shown.v1, shown.v2, shown.v3);

    if (shown.refusal != 0 || back.refusal != 0)
        stop_refused(s->name, shown.refusal != 0 ? shown.refusal : back.refusal);
    if (back.r != r || back.g != g || back.b != b)
        stop(s->name, "a pixel did not come back");
    floats[0] = shown.v1;
    floats[1] = shown.v2;
    floats[2] = shown.v3;
}

/* Every float is a whole number of quarters, so two decimals show it. */
static void show(const space *s, uint32_t depth, int32_t **planes, size_t pixels)
{
    double least[3] = {0}, most[3] = {0}, floats[3];
    size_t i;
    int k;

    for (i = 0; i < pixels; i++) {
        floats_of(s, depth, planes[0][i], planes[1][i], planes[2][i], floats);
        for (k = 0; k < 3; k++) {
            if (i == 0 || floats[k] < least[k])
                least[k] = floats[k];
            if (i == 0 || floats[k] > most[k])
                most[k] = floats[k];
        }
    }
    for (k = 0; k < 3; k++)
        printf("%s %s %.2f to %.2f\n", s->name, s->floats[k], least[k], most[k]);
}

int main(int argc, char **argv)
{
    size_t length, pixels;
    uint8_t *file;
    int32_t *planes[3];
    rulantip_pixmap picture;
    int i;

    if (argc != 2)
        stop("usage", "preview FILE.ppm");
    file = read_file(argv[1], &length);
    pixels = read_planes(argv[1], file, length, &picture, planes);
    for (i = 0; i < 2; i++)
        show(&spaces[i], picture.depth, planes, pixels);
    printf("all %lu pixels came back\n", (unsigned long)pixels);

    free(file);
    for (i = 0; i < 3; i++)
        free(planes[i]);
    return 0;
}
