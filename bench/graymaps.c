/* Planes as P5 files, and P6 files as planes. A refusal leaves what is to be written as it was, so each call makes all
   its tests first. Where maxval is above 255 a sample is a pair of bytes, the high one first. In memory a number has its
   low byte first, as on x86-64. */
#include "bench.h"
#include <stdio.h>
#include <string.h>

/* A loop by itself: inside the code of a call gcc makes slower ones. */
#define PASS static __attribute__((noinline))
#define LONGEST 8192
#define LANES 16           /* partial results of a test, so that no operation waits for the one before it */
#define BYTE_LANES 64
#define PAIR_LANES 32
#define BLOCK 256          /* pixels whose pairs are swapped together */

/* gcc makes vectors of words that overlap only where it does not know how far apart they are. */
static const volatile size_t byte_pixel = 3, pair_pixel = 6;

INLINE uint16_t swapped(uint16_t u) { return (uint16_t)(u << 8 | u >> 8); }
INLINE uint16_t half_at(const uint8_t *p) { uint16_t u; memcpy(&u, p, 2); return u; }
INLINE uint32_t word_at(const uint8_t *p) { uint32_t u; memcpy(&u, p, 4); return u; }
INLINE uint64_t long_at(const uint8_t *p) { uint64_t u; memcpy(&u, p, 8); return u; }
INLINE uint16_t pair_at(const uint8_t *p) { return swapped(half_at(p)); }

/* Is every number low to high? Shifted so that low is the least of all numbers, one comparison tells. */
PASS int all_between(const int32_t *plane, size_t count, int32_t low, int32_t high)
{
    uint32_t shift = 0x80000000u - (uint32_t)low, outside[LANES] = {0}, any = 0;
    int32_t top = (int32_t)((uint32_t)high + shift);
    size_t i = 0;
    for (; i + LANES <= count; i += LANES)
        for (size_t j = 0; j < LANES; j++)
            outside[j] |= (uint32_t)-((int32_t)((uint32_t)plane[i + j] + shift) > top);
    for (; i < count; i++)
        any |= (int32_t)((uint32_t)plane[i] + shift) > top;
    for (size_t j = 0; j < LANES; j++)
        any |= outside[j];
    return any == 0;
}

/* From 0 to a power of two less one the bits alone tell. */
static int is_within(const int32_t *plane, size_t count, int32_t low, int32_t high)
{
    if (low == 0 && (high & (high + 1)) == 0)
        return are_samples(plane, count, (uint32_t)high);
    return all_between(plane, count, low, high);
}

PASS uint32_t greatest_byte(const uint8_t *raster, size_t count)
{
    uint8_t part[BYTE_LANES] = {0}, most = 0;
    size_t i = 0;
    for (; i + BYTE_LANES <= count; i += BYTE_LANES)
        for (size_t j = 0; j < BYTE_LANES; j++)
            part[j] = raster[i + j] > part[j] ? raster[i + j] : part[j];
    for (; i < count; i++)
        most = raster[i] > most ? raster[i] : most;
    for (size_t j = 0; j < BYTE_LANES; j++)
        most = part[j] > most ? part[j] : most;
    return most;
}

PASS uint32_t greatest_pair(const uint8_t *raster, size_t count)
{
    uint16_t part[PAIR_LANES] = {0}, most = 0;
    size_t i = 0;
    for (; i + PAIR_LANES <= count; i += PAIR_LANES)
        for (size_t j = 0; j < PAIR_LANES; j++) {
            uint16_t u = pair_at(raster + 2 * (i + j));
            part[j] = u > part[j] ? u : part[j];
        }
    for (; i < count; i++)
        most = pair_at(raster + 2 * i) > most ? pair_at(raster + 2 * i) : most;
    for (size_t j = 0; j < PAIR_LANES; j++)
        most = part[j] > most ? part[j] : most;
    return most;
}

/* Every byte is at most 255, and every pair at most 65,535. */
static int has_at_most(const uint8_t *raster, size_t count, uint32_t most)
{
    if (most == 255 || most == 65535)
        return 1;
    return (most < 256 ? greatest_byte(raster, count) : greatest_pair(raster, count)) <= most;
}

/* The low byte of a number is the first of its four: gcc packs bytes better than it cuts numbers. */
PASS void store_bytes(const int32_t *restrict plane, size_t count, int32_t low, uint8_t *restrict raster)
{
    const uint8_t *bytes = (const uint8_t *)plane;
    uint8_t less = (uint8_t)low;
    for (size_t i = 0; i < count; i++)
        raster[i] = (uint8_t)(bytes[4 * i] - less);
}

PASS void store_pairs(const int32_t *restrict plane, size_t count, int32_t low, uint8_t *restrict raster)
{
    for (size_t i = 0; i < count; i++) {
        uint16_t u = swapped((uint16_t)(plane[i] - low));
        memcpy(raster + 2 * i, &u, 2);
    }
}

PASS void fill_from_bytes(const uint8_t *restrict raster, size_t count, int32_t low, int32_t *restrict plane)
{
    for (size_t i = 0; i < count; i++)
        plane[i] = raster[i] + low;
}

INLINE void fill_pairs(const uint8_t *restrict raster, size_t count, int32_t low, int32_t *restrict plane)
{
#pragma GCC unroll 4
    for (size_t i = 0; i < count; i++)
        plane[i] = pair_at(raster + 2 * i) + low;
}

PASS void fill_from_pairs(const uint8_t *raster, size_t count, int32_t low, int32_t *plane)
{
    if (low == 0) fill_pairs(raster, count, 0, plane);
    else fill_pairs(raster, count, low, plane);
}

/* A word at each pixel holds its three bytes and one more, which the last pixel may not have. */
PASS void split_bytes(const uint8_t *restrict raster, size_t count, int32_t *restrict c1, int32_t *restrict c2,
                      int32_t *restrict c3)
{
    size_t pixel = byte_pixel, last = count - 1;
#pragma GCC unroll 4
    for (size_t i = 0; i < last; i++) {
        uint32_t w = word_at(raster + pixel * i);
        c1[i] = w & 255;
        c2[i] = w >> 8 & 255;
        c3[i] = w >> 16 & 255;
    }
    c1[last] = raster[3 * last];
    c2[last] = raster[3 * last + 1];
    c3[last] = raster[3 * last + 2];
}

/* A buffer of swapped pairs that stays near; 64 bits at each pixel hold its three pairs and one more. */
typedef struct {
    size_t pixel;
    _Alignas(64) uint16_t pairs[3 * BLOCK + 1];
} swaps;

INLINE void split_block(swaps *s, const uint8_t *restrict raster, size_t count, int32_t *restrict c1,
                        int32_t *restrict c2, int32_t *restrict c3)
{
    const uint8_t *bytes = (const uint8_t *)s->pairs;
#pragma GCC unroll 4
    for (size_t i = 0; i < 3 * count; i++)
        s->pairs[i] = pair_at(raster + 2 * i);
#pragma GCC unroll 4
    for (size_t i = 0; i < count; i++) {
        uint64_t u = long_at(bytes + s->pixel * i);
        uint32_t low = (uint32_t)u, high = (uint32_t)(u >> 32);
        c1[i] = low & 65535;
        c2[i] = low >> 16;
        c3[i] = high & 65535;
    }
}

PASS void split_pairs(const uint8_t *raster, size_t count, int32_t *c1, int32_t *c2, int32_t *c3)
{
    swaps s = {pair_pixel, {0}};
    size_t i = 0;
    for (; i + BLOCK <= count; i += BLOCK)
        split_block(&s, raster + 6 * i, BLOCK, c1 + i, c2 + i, c3 + i);
    split_block(&s, raster + 6 * i, count - i, c1 + i, c2 + i, c3 + i);
}

static int is_white(uint8_t b) { return b == ' ' || (b >= '\t' && b <= '\r'); }

/* White space and comments, then a number, or 100,000 where it is larger. Gives the place behind it, 0 if there is
   none of that form. */
static size_t read_field(const uint8_t *file, size_t length, size_t at, uint32_t *value)
{
    size_t digits = 0;
    if (at >= length || !is_white(file[at]))
        return 0;
    for (int comment = 0; at < length && (comment || is_white(file[at]) || file[at] == '#'); at++)
        comment = comment ? file[at] != '\n' && file[at] != '\r' : file[at] == '#';
    for (*value = 0; at < length && file[at] >= '0' && file[at] <= '9'; at++, digits++) {
        *value = 10 * *value + (file[at] - '0');
        *value = *value < 100000 ? *value : 100000;
    }
    return digits ? at : 0;
}

/* Width, height and maxval. Gives the place of the raster, 0 where the header has another form. */
static size_t read_header(const uint8_t *file, size_t length, uint8_t letter, uint32_t fields[3])
{
    size_t at = 2;
    if (length < 2 || file[0] != 'P' || file[1] != letter)
        return 0;
    for (uint32_t i = 0; i < 3 && at; i++)
        at = read_field(file, length, at, &fields[i]);
    return at && at < length && is_white(file[at]) ? at + 1 : 0;
}

static int is_size(size_t width, size_t height)
{
    return width >= 1 && width <= LONGEST && height >= 1 && height <= LONGEST;
}

/* Tests 5 and 6; then the plane's lowest number and its maxval. */
static uint32_t find_range(const setting *s, uint32_t plane, int32_t *low, uint32_t *most)
{
    int32_t high;
    if (s->depth < 2 || s->depth > 16) return 5;
    if (s->transform >= TRANSFORMS || plane < 1 || plane > 3) return 6;
    range_of(s->depth, s->transform, plane - 1, low, &high);
    *most = (uint32_t)(high - *low);
    return 0;
}

/* Tests 2, 5, 6, 8, 13, 14, 12. */
written plain_p5_write(const setting *s, uint32_t plane, const int32_t *samples, size_t count, uint8_t *file,
                       size_t room)
{
    char header[32];
    int32_t low = 0;
    uint32_t most = 0, refusal;
    if (!is_size(s->width, s->height)) return (written){2, 0};
    if ((refusal = find_range(s, plane, &low, &most))) return (written){refusal, 0};
    if (count != s->width * s->height) return (written){8, 0};
    if (most > 65535) return (written){13, 0};
    size_t start = (size_t)snprintf(header, sizeof header, "P5\n%zu %zu\n%u\n", s->width, s->height, most);
    size_t length = start + (most < 256 ? count : 2 * count);
    if (room < length) return (written){14, 0};
    if (!is_within(samples, count, low, low + (int32_t)most)) return (written){12, 0};
    memcpy(file, header, start);
    if (most < 256) store_bytes(samples, count, low, file + start);
    else store_pairs(samples, count, low, file + start);
    return (written){0, (uint32_t)length};
}

/* Tests 5, 6, 13, 1, 2, 3, 4, 8, 12; the setting's size does not matter. */
graymap plain_p5_read(const setting *s, uint32_t plane, const uint8_t *file, size_t length, int32_t *samples,
                      size_t count)
{
    int32_t low = 0;
    uint32_t most = 0, f[3], refusal = find_range(s, plane, &low, &most);
    if (refusal) return (graymap){refusal, 0, 0};
    if (most > 65535) return (graymap){13, 0, 0};
    size_t start = read_header(file, length, '5', f);
    if (!start) return (graymap){1, 0, 0};
    if (!is_size(f[0], f[1])) return (graymap){2, 0, 0};
    if (f[2] != most) return (graymap){3, 0, 0};
    size_t pixels = (size_t)f[0] * f[1];
    if (length - start != (most < 256 ? pixels : 2 * pixels)) return (graymap){4, 0, 0};
    if (count != pixels) return (graymap){8, 0, 0};
    if (!has_at_most(file + start, count, most)) return (graymap){12, 0, 0};
    if (most < 256) fill_from_bytes(file + start, count, low, samples);
    else fill_from_pairs(file + start, count, low, samples);
    return (graymap){0, f[0], f[1]};
}

/* Tests 1, 2, 3, 4, 8. */
uint32_t plain_p6_planes(const uint8_t *file, size_t length, int32_t *const planes[3], size_t count)
{
    uint32_t f[3];
    size_t start = read_header(file, length, '6', f);
    if (!start) return 1;
    if (!is_size(f[0], f[1])) return 2;
    if (f[2] < 3 || f[2] > 65535 || f[2] & (f[2] + 1)) return 3;
    size_t pixels = (size_t)f[0] * f[1];
    if (length - start != (f[2] < 256 ? 3 * pixels : 6 * pixels)) return 4;
    if (count != pixels) return 8;
    if (f[2] < 256) split_bytes(file + start, count, planes[0], planes[1], planes[2]);
    else split_pairs(file + start, count, planes[0], planes[1], planes[2]);
    return 0;
}
