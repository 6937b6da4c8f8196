/* Cases of files: the library and the plain C in turn on the same input, results equal each time, and once before
   anything is timed. Each side has planes and files of its own, which the sides change between turns. Beside a graymap
   memcpy copies one plane, beside a pixmap three. */
#define _POSIX_C_SOURCE 200809L
#include "bench.h"
#include "rulantip.h"
#include <stdio.h>
#include <string.h>

#define COUNT(list) (sizeof (list) / sizeof *(list))
#define FILLER 0x5a
#define HEADER 32                          /* more than a header of ours takes */
#define ROOM(count) (2 * (count) + HEADER)

/* Of RDgDb, one depth for all planes: 0 to 255, -63 to 63, -255 to 255 and 0 to 65,535. */
static const struct {
    uint32_t depth, plane;
} graymaps[] = {{8, 1}, {6, 2}, {8, 2}, {16, 1}};
static const uint32_t pixmap_depths[] = {8, 16};

static uint8_t *files[2], *pixmap;

/* A graymap's case. */
typedef struct {
    const setting *s;
    size_t count;
    uint32_t plane;             /* 1 to 3 */
    const int32_t *finished;    /* its numbers */
} subject;

void allocate_files(size_t widest_square)
{
    size_t count = widest_square * widest_square;
    files[0] = touched(ROOM(count), 0);
    files[1] = touched(ROOM(count), 0);
    pixmap = touched(6 * count + HEADER, 0);
}

static written write_file(enum side side, const subject *c, const int32_t *plane, uint8_t *file)
{
    if (side == PLAIN)
        return plain_p5_write(c->s, c->plane, plane, c->count, file, ROOM(c->count));
    rulantip_written w = rulantip_p5_write(SETTING(c->s), c->plane, plane, c->count, file, ROOM(c->count));
    return (written){w.refusal, w.length};
}

static graymap read_file(enum side side, const subject *c, const uint8_t *file, size_t length, int32_t *plane)
{
    if (side == PLAIN)
        return plain_p5_read(c->s, c->plane, file, length, plane, c->count);
    rulantip_graymap g =
        rulantip_p5_read(DEPTHS(c->s), c->s->transform, c->plane, file, length, plane, c->count);
    return (graymap){g.refusal, g.width, g.height};
}

/* A side's set of planes and files. */
static uint32_t set_of(enum side side, uint32_t turn) { return side ^ (turn >> 1 & 1); }

/* Gives the length, with both files written and equal, also behind their ends. */
static size_t turn_write(uint32_t turn, const subject *c, times *t)
{
    written w[2];
    for (uint32_t i = 0; i < 2; i++) {
        enum side side = (i + turn) & 1;
        int32_t *plane = work[set_of(side, turn)][0];
        uint8_t *file = files[set_of(side, turn)];
        memset(file, FILLER, ROOM(c->count));
        double since = now();
        memcpy(plane, c->finished, 4 * c->count);
        keep(t, COPY, since);
        since = now();
        w[side] = write_file(side, c, plane, file);
        keep(t, side, since);
    }
    expect(w[PLAIN].refusal == 0 && w[LIBRARY].refusal == 0, "the answer", c->s);
    expect(w[PLAIN].length == w[LIBRARY].length, "the length", c->s);
    expect(!memcmp(files[0], files[1], ROOM(c->count)), "the file", c->s);
    return w[PLAIN].length;
}

static void turn_read(uint32_t turn, const subject *c, size_t length, times *t)
{
    for (uint32_t i = 0; i < 2; i++) {
        enum side side = (i + turn) & 1;
        int32_t *plane = work[set_of(side, turn)][0];
        memset(plane, FILLER, 4 * c->count);
        double since = now();
        graymap g = read_file(side, c, files[set_of(side, turn)], length, plane);
        keep(t, side, since);
        expect(g.refusal == 0 && g.width == c->s->width && g.height == c->s->height, "the answer", c->s);
        expect(!memcmp(plane, c->finished, 4 * c->count), "the plane", c->s);
    }
}

/* Written, then read, each side once. */
static void turn_graymap(uint32_t turn, const subject *c, times t[2])
{
    turn_read(turn, c, turn_write(turn, c, &t[0]), &t[1]);
    t[1].best[COPY] = t[0].best[COPY];
}

static int is_filler(const void *p, size_t bytes)
{
    const uint8_t *b = p;
    for (size_t i = 0; i < bytes; i++)
        if (b[i] != FILLER)
            return 0;
    return 1;
}

/* A last number outside the range is refused with 12, and nothing is written. */
static void check_write(enum side side, const subject *c, int32_t outside)
{
    memset(files[0], FILLER, ROOM(c->count));
    memcpy(work[0][0], c->finished, 4 * c->count);
    work[0][0][c->count - 1] = outside;
    expect(write_file(side, c, work[0][0], files[0]).refusal == 12, "a refusal", c->s);
    expect(is_filler(files[0], ROOM(c->count)), "the file of a refusal", c->s);
}

/* So is a last sample of the file above maxval, where there are such. */
static void check_read(enum side side, const subject *c, uint32_t most)
{
    memcpy(work[0][0], c->finished, 4 * c->count);
    size_t length = write_file(side, c, work[0][0], files[0]).length;
    if (most == 255 || most == 65535)
        return;
    if (most > 255)
        files[0][length - 2] = (uint8_t)((most + 1) >> 8);
    files[0][length - 1] = (uint8_t)(most + 1);
    memset(work[0][0], FILLER, 4 * c->count);
    expect(read_file(side, c, files[0], length, work[0][0]).refusal == 12, "a refusal", c->s);
    expect(is_filler(work[0][0], 4 * c->count), "the plane of a refusal", c->s);
}

static void check_graymap(const subject *c, times t[2])
{
    int32_t low, high;
    range_of(c->s->depth, c->s->transform, c->plane - 1, &low, &high);
    turn_graymap(0, c, t);
    for (enum side side = PLAIN; side <= LIBRARY; side++) {
        check_write(side, c, low - 1);
        check_write(side, c, high + 1);
        check_read(side, c, (uint32_t)(high - low));
    }
}

static int enough(uint32_t turn, uint32_t turns, double since)
{
    if (turns) return turn >= turns;
    return turn >= MOST_TURNS || (turn >= 8 && now() - since > 300);
}

static void print_file(enum kind kind, uint32_t calls, const char *name, const setting *s, times *t, uint32_t turns)
{
    for (uint32_t i = 0; i < CALLS; i++)
        if (calls & 1u << i) {
            print_times(kind, call_names[i], name, s, "-", t, turns);
            printf(" %8s\n", "-");
            fflush(stdout);
        }
}

static void run_graymap(const setting *s, uint32_t plane, uint32_t calls, uint32_t turns)
{
    static times t[2];   /* written and read */
    static const uint8_t samples[MOST_PLACES] = {0};
    subject c = {s, s->width * s->height, plane, picture[plane - 1]};
    uint32_t turn;
    char name[16];
    draw_picture(s);
    run_steps(s, samples, picture, 0, steps_of(s->transform));
    check_graymap(&c, t);
    memset(t, 0, sizeof t);
    double since = now();
    for (turn = 0; !enough(turn, turns, since); turn++) {
        turn_graymap(turn, &c, t);
        for (uint32_t i = 0; i < 2; i++)
            t[i].ratios[turn] = t[i].last[LIBRARY] / t[i].last[PLAIN];
    }
    snprintf(name, sizeof name, "%s %u", transform_names[s->transform], plane);
    print_file(GRAYMAP, calls & P5_WRITE, name, s, &t[0], turn);
    print_file(GRAYMAP, calls & P5_READ, name, s, &t[1], turn);
}

/* The picture as a file; gives its length. */
static size_t draw_pixmap(const setting *s)
{
    size_t count = s->width * s->height;
    uint32_t most = (1u << s->depth) - 1;
    uint8_t *at = pixmap + sprintf((char *)pixmap, "P6\n%zu %zu\n%u\n", s->width, s->height, most);
    draw_picture(s);
    for (size_t i = 0; i < count; i++)
        for (uint32_t p = 0; p < 3; p++) {
            if (most > 255)
                *at++ = (uint8_t)(picture[p][i] >> 8);
            *at++ = (uint8_t)picture[p][i];
        }
    return (size_t)(at - pixmap);
}

static void turn_pixmap(uint32_t turn, const setting *s, size_t length, times *t)
{
    size_t count = s->width * s->height;
    for (uint32_t i = 0; i < 2; i++) {
        enum side side = (i + turn) & 1;
        int32_t *const *p = work[set_of(side, turn)];
        copy_picture(s, p, t);
        for (uint32_t j = 0; j < 3; j++)
            memset(p[j], FILLER, 4 * count);
        double since = now();
        uint32_t refusal = side == PLAIN ? plain_p6_planes(pixmap, length, p, count)
                                         : rulantip_p6_planes(pixmap, length, PLANES(s, p));
        keep(t, side, since);
        expect(refusal == 0, "the answer", s);
        expect(same_planes(s, p, picture), "a plane of a pixmap", s);
    }
}

static void run_pixmap(const setting *s, uint32_t turns)
{
    static times t;
    size_t length = draw_pixmap(s);
    uint32_t turn;
    turn_pixmap(0, s, length, &t);
    memset(&t, 0, sizeof t);
    double since = now();
    for (turn = 0; !enough(turn, turns, since); turn++) {
        turn_pixmap(turn, s, length, &t);
        t.ratios[turn] = t.last[LIBRARY] / t.last[PLAIN];
    }
    print_file(PIXMAP, P6_PLANES, "-", s, &t, turn);
}

void run_graymaps(size_t square, uint32_t calls, uint32_t turns)
{
    setting s = {square, square, 0, RULANTIP_RDGDB, 0, 0};
    for (size_t i = 0; i < COUNT(graymaps) && calls & (P5_WRITE | P5_READ); i++) {
        s.depth = graymaps[i].depth;
        run_graymap(&s, graymaps[i].plane, calls, turns);
    }
    for (size_t i = 0; i < COUNT(pixmap_depths) && calls & P6_PLANES; i++) {
        s.depth = pixmap_depths[i];
        run_pixmap(&s, turns);
    }
}
