/* Preview pixels of HVSCT and YCoCg, and back from either space. Samples are added as integers, so that each float is
   one conversion and one product. */
#include "bench.h"
#include <emmintrin.h>
#include <string.h>

/* Refusal and space are stored as one word, refusal in its low half. */
INLINE rulantip_preview preview(uint64_t answer, double v1, double v2, double v3)
{
    rulantip_preview p = {0, 0, v1, v2, v3};
    memcpy(&p, &answer, sizeof answer);
    return p;
}

/* Tests 5 and 11; the bits alone tell whether all three are 0 to 2^depth - 1. */
INLINE uint32_t find_refusal(uint32_t depth, int32_t r, int32_t g, int32_t b)
{
    if (depth - 2 > 14) return 5;
    return (uint32_t)(r | g | b) >> depth ? 11 : 0;
}

rulantip_preview plain_hvsct(uint32_t depth, int32_t r, int32_t g, int32_t b)
{
    uint32_t refusal = find_refusal(depth, r, g, b);
    if (refusal) return preview(refusal, 0, 0, 0);
    int32_t sum = r + g;
    return preview((uint64_t)RULANTIP_HVSCT << 32, 0.5 * sum, 0.5 * (r - g), 0.25 * (2 * b - sum));
}

rulantip_preview plain_ycocg(uint32_t depth, int32_t r, int32_t g, int32_t b)
{
    uint32_t refusal = find_refusal(depth, r, g, b);
    if (refusal) return preview(refusal, 0, 0, 0);
    int32_t sum = r + b;
    return preview((uint64_t)RULANTIP_YCOCG << 32, 0.25 * (2 * g + sum), 0.5 * (r - b), 0.25 * (2 * g - sum));
}

INLINE rulantip_rgb refused(uint32_t refusal) { return (rulantip_rgb){refusal, 0, 0, 0}; }

/* From four times the samples. Turned by two bits, what is left of a quarter stands above all samples. */
INLINE rulantip_rgb samples_of(uint32_t depth, int64_t r, int64_t g, int64_t b)
{
    uint64_t any = (uint64_t)(r | g | b), words[2] = {(uint64_t)r << 30, (uint64_t)g >> 2 | (uint64_t)b << 30};
    rulantip_rgb found;
    if ((any >> 2 | any << 62) >> depth) return refused(15);
    memcpy(&found, words, sizeof found);
    return found;
}

/* Tests 5 and 15. Four times a float is a whole number where it comes back from 32 bits the same: what does not fit
   them becomes -2^31, which no pixel has, and a NaN is no number's equal. Sums of three such need 64 bits. */
rulantip_rgb plain_preview_back(uint32_t depth, uint32_t space, double v1, double v2, double v3)
{
    if (depth - 2 > 14) return refused(5);
    __m128d four = _mm_set1_pd(4), v12 = _mm_mul_pd(_mm_set_pd(v2, v1), four), v30 = _mm_mul_sd(_mm_set_sd(v3), four);
    __m128i n12 = _mm_cvttpd_epi32(v12), n30 = _mm_cvttpd_epi32(v30);
    __m128d off12 = _mm_cmpneq_pd(v12, _mm_cvtepi32_pd(n12)), off30 = _mm_cmpneq_pd(v30, _mm_cvtepi32_pd(n30));
    if (_mm_movemask_pd(_mm_or_pd(off12, off30))) return refused(15);
    int64_t both = _mm_cvtsi128_si64(n12), n1 = (int32_t)both, n2 = both >> 32, n3 = _mm_cvtsi128_si32(n30);
    if (space == RULANTIP_HVSCT) return samples_of(depth, n1 + n2, n1 - n2, n1 + 2 * n3);
    if (space == RULANTIP_YCOCG) return samples_of(depth, n1 + n2 - n3, n1 + n3, n1 - n2 - n3);
    return refused(15);
}
