/* Picks the cases, runs them and prints the worst ratios. */
#define _POSIX_C_SOURCE 200809L
#include "bench.h"
#include <stdio.h>
#include <stdlib.h>
#include <string.h>
#include <unistd.h>

typedef struct {
    uint32_t list[16], count;
} numbers;

/* Filters that differ from band to band: means only, and all kinds. */
static const mix mixes[] = {{"means", 4, {1, 3, 5, 11}}, {"mixed", 4, {0, 1, 5, 12}}};

/* The calls that run a transform, by form. */
static const struct {
    enum kind kind;
    uint32_t calls;
    int wrapped, banded;
} forms[] = {
    {TRANSFORM, PLAIN_FORMS, 0, 0},
    {WRAPPED_TRANSFORM, WRAPPED_FORMS, 1, 0},
    {BANDED, BANDED_FORMS, 0, 1},
    {WRAPPED_BANDED, WRAPPED_BANDED_FORMS, 1, 1},
};
#define ALL_BANDED (BANDED_FORMS | WRAPPED_BANDED_FORMS)
#define COUNT(list) (sizeof (list) / sizeof *(list))

static void usage(void)
{
    fputs("options, with their defaults; lists have commas:\n"
          "  -c forward,inverse,forward_wrapped,inverse_wrapped,banded,estimate,search,in_place,graymaps,previews\n"
          "                   banded is forward_banded,inverse_banded,forward_wrapped_banded,inverse_wrapped_banded;\n"
          "                   in_place is estimate_in_place,search_in_place; column \"to other\" has a banded call's\n"
          "                   ratio to the plain one, and that of a call in place to the one with trial planes;\n"
          "                   graymaps is p5_write,p5_read,p6_planes, with depths and planes of their own;\n"
          "                   previews is hvsct,ycocg,preview_back, in ns a pixel, with depths of their own: back\n"
          "                   from right pixels, from ones with a float next to the right one, and from odd ones\n"
          "  -t 0,1,2,3       transforms\n"
          "  -f 0,1,5,11,12   filters, each at all places; banded calls also with filters that differ: place p of\n"
          "                   band i has number (i + p) modulo 4 of 1,3,5,11 (means) or of 0,1,5,12 (mixed)\n"
          "  -d 8             depths, 2 to 16\n"
          "  -s 512,2048      sizes of squares, 1 to 8192\n"
          "  -b 64            rows of a band, 1 to 8192; in lower pictures all rows\n"
          "  -r 0             runs of each side; 0: by the time they take\n"
          "  -a               depths 8,16; sizes 512,1024,2048,4096 (banded, estimate,\n"
          "                   search, in_place and graymaps: 512,2048)\n",
          stderr);
    exit(2);
}

static numbers read_numbers(const char *text, uint32_t least, uint32_t most)
{
    numbers n = {{0}, 0};
    char *end;
    for (;; text = end + 1) {
        unsigned long v = strtoul(text, &end, 10);
        if (end == text || v < least || v > most || n.count == 16)
            usage();
        n.list[n.count++] = (uint32_t)v;
        if (*end == 0)
            return n;
        if (*end != ',')
            usage();
    }
}

static uint32_t call_named(const char *word)
{
    if (!strcmp(word, "banded"))
        return ALL_BANDED;
    if (!strcmp(word, "in_place"))
        return IN_PLACE;
    if (!strcmp(word, "graymaps"))
        return GRAYMAPS;
    if (!strcmp(word, "previews"))
        return PREVIEWS;
    for (uint32_t i = 0; i < CALLS; i++)
        if (!strcmp(word, call_names[i]))
            return 1u << i;
    usage();
    return 0;
}

static uint32_t read_calls(char *text)
{
    uint32_t calls = 0;
    for (char *word = strtok(text, ","); word; word = strtok(0, ","))
        calls |= call_named(word);
    return calls;
}

static mix same_everywhere(uint32_t filter)
{
    mix m = {"", 1, {(uint8_t)filter}};
    snprintf(m.name, sizeof m.name, "%u", filter);
    return m;
}

static void run_forms(const setting *s, int banded, const mix *m, uint32_t band_height, uint32_t calls, uint32_t turns)
{
    for (size_t i = 0; i < COUNT(forms); i++)
        if (forms[i].banded == banded && calls & forms[i].calls) {
            setting one = *s;
            one.wrapped = forms[i].wrapped;
            if (banded)
                one.band_height = band_height < s->height ? band_height : s->height;
            run_case(forms[i].kind, &one, m, calls & forms[i].calls, turns);
        }
}

/* The estimates under each filter, then the searches. */
static void run_searches(const setting *s, const numbers *filters, uint32_t calls, uint32_t turns)
{
    static const mix none = {"-", 1, {0}};
    for (int in_place = 0; in_place < 2; in_place++)
        for (uint32_t i = 0; i < filters->count; i++) {
            mix m = same_everywhere(filters->list[i]);
            uint32_t call = calls & (in_place ? ESTIMATES_IN_PLACE : ESTIMATES);
            if (call)
                run_case(in_place ? ESTIMATE_IN_PLACE : ESTIMATE, s, &m, call, turns);
        }
    if (calls & SEARCHES)
        run_case(SEARCH, s, &none, SEARCHES, turns);
    if (calls & SEARCHES_IN_PLACE)
        run_case(SEARCH_IN_PLACE, s, &none, SEARCHES_IN_PLACE, turns);
}

static void run_setting(const setting *s, const numbers *filters, uint32_t band_height, uint32_t calls, uint32_t turns)
{
    for (int banded = 0; banded < 2; banded++)
        for (uint32_t i = 0; i < filters->count; i++) {
            mix m = same_everywhere(filters->list[i]);
            run_forms(s, banded, &m, band_height, calls, turns);
        }
    for (size_t i = 0; i < COUNT(mixes); i++)
        run_forms(s, 1, &mixes[i], band_height, calls, turns);
    run_searches(s, filters, calls, turns);
}

static const char *const kind_names[KINDS] = {
    "transforms", "wrapped", "banded", "wrapped_banded", "estimates", "searches", "estimates_in_place",
    "searches_in_place", "graymaps", "pixmaps", "previews"
};

static void print_worst(void)
{
    fputs("worst ratio:", stdout);
    for (uint32_t i = 0; i < KINDS; i++)
        if (worst_ratio[i] > 0) printf(" %s %.2f", kind_names[i], worst_ratio[i]);
        else printf(" %s -", kind_names[i]);
    const char *before = "; to other:";
    for (uint32_t i = 0; i < KINDS; i++)
        if (worst_to_other[i] > 0) {
            printf("%s %s %.2f", before, kind_names[i], worst_to_other[i]);
            before = "";
        }
    puts("");
}

typedef struct {
    numbers transforms, filters, depths, sizes;
    uint32_t calls, turns, rows;
    int all;
} options;

static options read_options(int argc, char **argv)
{
    uint32_t calls = PLAIN_FORMS | WRAPPED_FORMS | ALL_BANDED | ESTIMATES | SEARCHES | IN_PLACE | GRAYMAPS | PREVIEWS;
    options o = {{{0, 1, 2, 3}, 4}, {{0, 1, 5, 11, 12}, 5}, {{8}, 1}, {{512, 2048}, 2}, calls, 0, 64, 0};
    int letter;
    while ((letter = getopt(argc, argv, "c:t:f:d:s:b:r:ah")) != -1)
        switch (letter) {
        case 'c': o.calls = read_calls(optarg); break;
        case 't': o.transforms = read_numbers(optarg, 0, 3); break;
        case 'f': o.filters = read_numbers(optarg, 0, 12); break;
        case 'd': o.depths = read_numbers(optarg, 2, 16); break;
        case 's': o.sizes = read_numbers(optarg, 1, 8192); break;
        case 'b': o.rows = read_numbers(optarg, 1, 8192).list[0]; break;
        case 'r': o.turns = read_numbers(optarg, 0, 1000).list[0]; break;
        case 'a': o.all = 1; break;
        default: usage();
        }
    if (optind < argc)
        usage();
    if (o.all)
        o.depths = (numbers){{8, 16}, 2}, o.sizes = (numbers){{512, 1024, 2048, 4096}, 4};
    return o;
}

static void run_size(const options *o, uint32_t size)
{
    int transforms_only = o->all && size != 512 && size != 2048;
    uint32_t calls = transforms_only ? o->calls & (PLAIN_FORMS | WRAPPED_FORMS) : o->calls;
    for (uint32_t j = 0; j < o->depths.count; j++)
        for (uint32_t k = 0; k < o->transforms.count; k++) {
            setting one = {size, size, o->depths.list[j], o->transforms.list[k], 0, 0};
            if (k == 0)
                draw_picture(&one);
            run_setting(&one, &o->filters, o->rows, calls, o->turns);
        }
    if (calls & GRAYMAPS)
        run_graymaps(size, calls, o->turns);
}

static void print_header(const char *filters, const char *library, const char *plain)
{
    printf("%-31s %5s %5s %6s %11s %11s %6s %9s %8s\n", "call", "size", "depth", filters, library, plain, "ratio",
           "to memcpy", "to other");
}

static void run_pictures(const options *o)
{
    uint32_t most = 0;
    for (uint32_t i = 0; i < o->sizes.count; i++)
        most = o->sizes.list[i] > most ? o->sizes.list[i] : most;
    allocate(most, o->calls & (ALL_BANDED | IN_PLACE) ? OTHER + 1 : LIBRARY + 1);
    if (o->calls & GRAYMAPS)
        allocate_files(most);
    fill_logarithms();
    print_header("filter", "library ms", "C ms");
    for (uint32_t i = 0; i < o->sizes.count; i++)
        run_size(o, o->sizes.list[i]);
}

int main(int argc, char **argv)
{
    options o = read_options(argc, argv);
    if (o.calls & ~PREVIEWS)
        run_pictures(&o);
    if (o.calls & PREVIEWS) {
        print_header("pixels", "library ns", "C ns");
        run_previews(o.calls, o.turns);
    }
    print_worst();
    return 0;
}
