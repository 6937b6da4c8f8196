/* The colour stage of a material capture library: four reversible colour transforms with a filter in
   each lifting step, an entropy estimate, a filter search, a reader of P6 pixmaps, finished planes as
   P5 graymaps, and pixels of two lossy spaces for viewers.

   Link with target/staticlib/librulantip.a, which `tools/library` proves and writes.

   A PICTURE has width and height 1 to 8,192 and three planes of width * height numbers, row by row,
   each plane with a depth b of its own, 2 to 16 bits. As a picture the planes hold R, G and B, each
   sample 0 to its plane's M = 2^b - 1. Textures of five, six and five bits have the depths 5, 6, 5.

   TRANSFORMS and their places, each place with a filter of its own (d marks a filtered value; the
   places are numbered in the order written; divisions round down):

     0  RCT      C1 = C1 - C2d; C3 = C3 - C2d; C2 = C2 + (C1d + C3d)/4                 4 places
     1  YCoCg-R  C1 = C1 - C3d; C3 = C3 + C1d/2; C2 = C2 - C3d; C3 = C3 + C2d/2        4 places
     2  RDgDb    C3 = -C3 + C2d; C2 = -C2 + C1d                                        2 places
     3  LDgEb    C2 = -C2 + C1d; C1 = C1 - C2d/2; C3 = C3 - C1d                        3 places

   FILTERS 0 gives the sample itself; 1 to 11 the mean of the 3 by 3 window with centre weight
   2^(filter - 1); 12, null, gives 0. CHOICES are one filter for each place, in the order of the places.
   A step whose places are all null is skipped, forward and back: it leaves its plane as it is. So with
   filter 12 at every place the planes stay as they are, as masks need it. (An earlier version negated
   the plane of such a step of RDgDb and of LDgEb's first. Planes that it made so come back as the same
   picture or are refused with 12.)

   WRAPPED FORMS of the four transforms need no more bits than the picture has: what a picture of depth
   8 goes to still fits bytes. All planes have one depth b. The result of every step is kept modulo
   2^b, as 0 to M, and filters, halves and quarters use the number kept; RCT's C1d + C3d is divided
   before anything is reduced. Null steps are skipped here too. At depth 8 and with filters 0, RDgDb's
   wrapped form gives 10, 66, 140 for the pixel 10, 200, 60, and its plain form 10, -190, 140.
   Every three planes of 0 to M are what exactly one picture goes to in a wrapped form. These forms
   have calls of their own, with `wrapped` in their names; the estimate, the search and graymaps are
   about the plain forms. Nothing in the planes tells their form: bring them back by the inverse of the
   same form, with the same choices. The other inverse may refuse them or leave another picture.

   BANDS change the filters down the picture. A band is band_height rows, counted from the top; the last
   band may be shorter. So there are (height + band_height - 1) / band_height bands, rounded down, and
   the choices are a whole set for each of them, set after set from the top band: places * bands in
   number. Each row uses its band's set. Everything else is as without bands: a window is the whole
   picture's and reads across the edges of bands, and a step covers the whole picture before the next
   begins. A step is skipped row by row: where a band has null at all places of the step, the band's
   rows stay as they are. One band as high as the picture does what the call without bands does, and so
   do equal sets for all bands. Bands have four calls, with `banded` in their names; the estimate and
   the search have none. The planes tell nothing of bands: bring them back with the same band height
   and choices.

   PIXMAPS, Netpbm's P6, are read at depths 2 to 16: maxval is 2^b - 1, for all three planes. Up to depth
   8 a sample is one byte, from depth 9 on two, most significant first. So the raster has
   3 * width * height bytes up to depth 8, and 6 * width * height from depth 9.

   GRAYMAPS, Netpbm's P5, hold one finished plane of a plain form each, for coders that read them. Each
   number is written less the lowest of its plane's range, and maxval is the range's highest less its
   lowest (RANGES below), whatever numbers the plane has. A sample is one byte where maxval is below 256,
   else two, most significant first. The header is P5, line feed, width, blank, height, line feed,
   maxval, line feed. At depth 8 plane 2 of RDgDb lies in -255 to 255, so its maxval is 510, and the
   number -190 is written as 65, in the bytes 0 and 65.
   A file is at most 19 + 2 * width * height bytes long, since no header is longer than that of an 8,192
   by 8,192 plane with maxval 65,535. RULANTIP_P5_LENGTH tells that, for a buffer that always suffices.
   No P5 file has a maxval above 65,535, so a plane with a wider range is refused with 13. Where all
   planes have one depth, these are all planes at depth 16 but RDgDb's plane 1, and at depth 15 planes 2
   and 3 of YCoCg-R and plane 3 of LDgEb. Where no depth is above 14 there are none.
   The reader takes the headers that are right in P6, with the letters P5 and the plane's maxval: any
   white space, comments, leading zeros. What it accepts has the same raster when rulantip_p5_write
   writes it again. Nothing in a file tells its depths, transform and plane: read it with those of the
   writing. Both calls hold numbers to the plane's range alone; rulantip_inverse tells whether a
   picture goes to the three planes.

   WHAT A NUMBER DEPENDS ON. A picture's finished numbers at a pixel depend only on the samples at most d
   rows and d columns away, d being 1 for RDgDb, 2 for RCT, 3 for LDgEb and 4 for YCoCg-R, in all three
   planes and both forms, with bands or without: two pictures that agree there have the same numbers at
   the pixel, whatever stands elsewhere. Back, d is 2 for every transform: a damaged number, where the
   inverse still accepts, spoils only the pixels at most 2 rows and 2 columns away. A part of a picture,
   transformed by itself with the same choices for its rows, has the whole picture's numbers at every
   pixel with d pixels of the part between it and each side that was cut; the picture's own border is
   no cut.

   PREVIEWS, pixels for viewers, hold three floats of one of two spaces of lossy coding. Divisions are
   exact here: four times each float is a whole number, at every depth.

     1  HVSCT    Y = (R + G)/2; Cd = (R - G)/2; Ce = B/2 - R/4 - G/4
     2  YCoCg    Y = R/4 + G/2 + B/4; Co = (R - B)/2; Cg = G/2 - R/4 - B/4

   WHAT THE CALLER OWES, and no call can test:
   - Each pointer points to as many elements as the length after it says. For length 0 any pointer
     will do, also a null pointer.
   - No two lent pieces of memory overlap where the call may write to one of them (a parameter that
     is not const). Pieces that are only read may overlap.
   - Nobody else writes to lent memory, or reads what the call may write, while the call runs.
   - The thread's floating point is in its default mode where a call makes or takes preview pixels. With
     denormals taken for zero, as some engines set it, a denormal float goes back as 0 and is not refused.

   THREADS: no call keeps anything, allocates, or has any state of its own. Any number of threads
   may call at once on different memory; memory that is only read may be the same.

   REFUSALS. A call returns 0, or the number of the first test that fails; a struct has it in its
   field `refusal`, and its other fields are then 0. On a refusal all lent memory is as on entry.
   rulantip_counters alone answers with a count. */

#ifndef RULANTIP_H
#define RULANTIP_H

#include <stddef.h>
#include <stdint.h>

#ifdef __cplusplus
extern "C" {
#endif

/* The transforms. */
#define RULANTIP_RCT 0
#define RULANTIP_YCOCG_R 1
#define RULANTIP_RDGDB 2
#define RULANTIP_LDGEB 3

/* The spaces of preview pixels. */
#define RULANTIP_HVSCT 1
#define RULANTIP_YCOCG 2

/* Refusals that whoever made a P6 or P5 file can cause. */
#define RULANTIP_REFUSED_HEADER 1        /* the header does not have the form of P6, of P5 in a graymap */
#define RULANTIP_REFUSED_SIZE 2          /* width or height outside 1 to 8,192; also the calling program */
#define RULANTIP_REFUSED_MAXVAL 3        /* maxval is not 2^b - 1 for a depth b of 2 to 16; in a graymap
                                            not the plane's highest number less its lowest */
#define RULANTIP_REFUSED_RASTER 4        /* other than the bytes of 3 * width * height samples follow the
                                            header, in a graymap of width * height */

/* Refusals that the calling program can cause, with number 2. */
#define RULANTIP_REFUSED_DEPTH 5         /* any of the depths outside 2 to 16 */
#define RULANTIP_REFUSED_TRANSFORM 6     /* transform above 3, or the number of a plane outside 1 to 3 */
#define RULANTIP_REFUSED_CHOICES 7       /* not one choice for each place, with bands not one for each place
                                            of each band, or a choice above 12 */
#define RULANTIP_REFUSED_PLANE 8         /* a plane's length is not width * height */
#define RULANTIP_REFUSED_SCRATCH 9       /* too few counters; with trial planes, also one of these below
                                            width * height numbers */
#define RULANTIP_REFUSED_ROUNDS 10       /* rounds outside 1 to 4 */
#define RULANTIP_REFUSED_WIDE 13         /* the plane's maxval, highest number less lowest, is above 65,535 */
#define RULANTIP_REFUSED_BUFFER 14       /* the buffer is shorter than the file */
#define RULANTIP_REFUSED_UNEQUAL 16      /* a wrapped form, and the three depths differ */
#define RULANTIP_REFUSED_BAND 17         /* band height 0 or above the picture's height */

/* Refusals that whoever made the samples can cause. */
#define RULANTIP_REFUSED_SAMPLE 11       /* a sample of the picture outside 0 to its plane's M; also a number
                                            of the planes that a wrapped form's inverse is lent */
#define RULANTIP_REFUSED_UNREACHED 12    /* planes that no picture of these depths goes to; of a graymap, read
                                            or written, a number outside the plane's range */

/* A refusal that whoever made a preview pixel can cause. */
#define RULANTIP_REFUSED_PREVIEW 15      /* no samples of this depth have these floats, or there is no such
                                            space */

/* RANGES of finished planes, under any choices; in a wrapped form they are 0 to M. M1, M2 and M3 are
   the highest samples of planes 1, 2 and 3, divisions round down, max is the greater of two;
   l = (M3 + 1)/2 and u = M3 + M1/2:

     RCT      plane 1  -M2                   to  M1
              plane 2  -((M2 + 1)/2)         to  M2 + (M1 + M3)/4
              plane 3  -M2                   to  M3
     YCoCg-R  plane 1  -M3                   to  M1
              plane 2  -u                    to  M2 + l
              plane 3  -(l + (u + 1)/2)      to  u + (M2 + l)/2
     RDgDb    plane 1  0                     to  M1
              plane 2  -M2                   to  max(M1, M2)
              plane 3  -M3                   to  max(M2, M3)
     LDgEb    plane 1  -(max(M1, M2)/2)      to  M1 + (M2 + 1)/2
              plane 2  -M2                   to  max(M1, M2)
              plane 3  -(M1 + (M2 + 1)/2)    to  M3 + max(M1, M2)/2

   SCRATCH of rulantip_estimate and rulantip_search: three trial planes of width * height numbers or
   more, and 2 * D + 1 counters or more, D being the widest range (highest less lowest) of the
   transform's finished planes. rulantip_counters tells 2 * D + 1 at any three depths. Where all planes
   have depth b, with M = 2^b - 1, H = 2^(b-1) and q = 2^(b-2):

                    D            2 * D + 1     depth 8   depth 16
     RCT, RDgDb     2 * M        8 * H - 3       1,021    262,141
     YCoCg-R        14 * q - 4   14 * H - 7      1,785    458,745
     LDgEb          6 * H - 3    12 * H - 5      1,531    393,211

   What the scratch holds on entry does not matter; after success all of it is 0, also what was lent
   beyond the need.

   IN PLACE, rulantip_estimate_in_place and rulantip_search_in_place are lent counters alone. They make
   their trials on the picture's own planes and undo what they did: when they return, the planes are as
   lent, after success and after a refusal. Estimate, N and filters are the same as with trial planes,
   for every picture. A search takes as long; an estimate undoes its steps, where the other call copies
   the picture and clears the copy, and so takes up to 1.6 times as long with filters 1 to 11, with filter
   0 about as long or less, and with 12 less.
   Memory for the planes that a call needs, the counters' at most 1.8 MiB beside it:

                          with trial planes   in place
     4,096 by 4,096           384 MiB          192 MiB
     8,192 by 8,192         1,536 MiB          768 MiB

   On a target with 512 MiB take the calls in place: a square of 4,096 leaves 320 MiB for what else is
   there. Take those with trial planes where others read the picture meanwhile, or where it must survive a
   program that is stopped in the middle of a call, as planes mapped from a file must: in place they hold
   other numbers until the call returns. */

/* Counters that are enough for every transform where no depth is above `deepest`, 2 to 16; and at any
   depths. */
#define RULANTIP_COUNTERS(deepest) (((size_t)14 << ((deepest) - 1)) - 7)
#define RULANTIP_COUNTERS_MAX 458745

/* How many counters the estimate and the search need, with trial planes and in place, 2 * D + 1; or 0
   where they would refuse a depth with 5 or the transform with 6. It tests nothing else, and no memory is
   lent. */
uint32_t rulantip_counters(
    uint32_t depth1,        /* of plane 1, R, 2 to 16 */
    uint32_t depth2,        /* of plane 2, G, 2 to 16 */
    uint32_t depth3,        /* of plane 3, B, 2 to 16 */
    uint32_t transform      /* 0 to 3 */
);

/* Runs the transform's steps on a picture, in place.
   Tests, in this order: 2, 5, 6, 7, 8, 11. After success the planes hold what the picture goes to. */
uint32_t rulantip_forward(
    uint32_t width,         /* of the picture, 1 to 8,192 */
    uint32_t height,        /* of the picture, 1 to 8,192 */
    uint32_t depth1,        /* b of plane 1, R: the bits of its samples, 2 to 16 */
    uint32_t depth2,        /* b of plane 2, G, 2 to 16 */
    uint32_t depth3,        /* b of plane 3, B, 2 to 16 */
    uint32_t transform,     /* 0 to 3 */
    const uint8_t *choices, /* the filter of each place, 0 to 12 */
    size_t choices_len,     /* the number of the transform's places */
    int32_t *c1,            /* plane 1: R before, changed in place */
    size_t c1_len,          /* width * height */
    int32_t *c2,            /* plane 2: G before, changed in place */
    size_t c2_len,          /* width * height */
    int32_t *c3,            /* plane 3: B before, changed in place */
    size_t c3_len           /* width * height */
);

/* Undoes the transform's steps in the opposite order, in place, with the choices of the forward call.
   Tests, in this order: 2, 5, 6, 7, 8, 12. After success the planes hold the one picture of these
   depths that goes to the planes lent. It refuses with 12 exactly where there is none; the planes are
   then as on entry. */
uint32_t rulantip_inverse(
    uint32_t width,         /* as in rulantip_forward, to the end */
    uint32_t height,
    uint32_t depth1,
    uint32_t depth2,
    uint32_t depth3,
    uint32_t transform,
    const uint8_t *choices,
    size_t choices_len,
    int32_t *c1,            /* finished plane 1, R after success */
    size_t c1_len,
    int32_t *c2,            /* finished plane 2, G after success */
    size_t c2_len,
    int32_t *c3,            /* finished plane 3, B after success */
    size_t c3_len
);

/* Runs the steps of the transform's wrapped form on a picture, in place.
   Tests, in this order: 2, 5, 16, 6, 7, 8, 11. After success the planes hold what the picture goes to
   in that form, every number 0 to M. */
uint32_t rulantip_forward_wrapped(
    uint32_t width,         /* as in rulantip_forward, to the end */
    uint32_t height,
    uint32_t depth1,        /* b of all planes; the three must be equal */
    uint32_t depth2,
    uint32_t depth3,
    uint32_t transform,
    const uint8_t *choices,
    size_t choices_len,
    int32_t *c1,
    size_t c1_len,
    int32_t *c2,
    size_t c2_len,
    int32_t *c3,
    size_t c3_len
);

/* Undoes the steps of the transform's wrapped form in the opposite order, in place, with the choices
   of rulantip_forward_wrapped. Tests, in this order: 2, 5, 16, 6, 7, 8, 11; never 12, since there is
   a picture for all planes of 0 to M. After success the planes hold the one picture that goes to the
   planes lent in that form. */
uint32_t rulantip_inverse_wrapped(
    uint32_t width,         /* as in rulantip_forward_wrapped, to the end */
    uint32_t height,
    uint32_t depth1,
    uint32_t depth2,
    uint32_t depth3,
    uint32_t transform,
    const uint8_t *choices,
    size_t choices_len,
    int32_t *c1,            /* finished plane 1, R after success */
    size_t c1_len,
    int32_t *c2,            /* finished plane 2, G after success */
    size_t c2_len,
    int32_t *c3,            /* finished plane 3, B after success */
    size_t c3_len
);

/* As rulantip_forward, with bands. Tests, in this order: 2, 5, 6, 17, 7, 8, 11. */
uint32_t rulantip_forward_banded(
    uint32_t width,         /* as in rulantip_forward, to the end */
    uint32_t height,
    uint32_t depth1,
    uint32_t depth2,
    uint32_t depth3,
    uint32_t transform,
    uint32_t band_height,   /* the rows of a band, 1 to height */
    const uint8_t *choices, /* the filter of each place, 0 to 12, set after set from the top band */
    size_t choices_len,     /* places * bands */
    int32_t *c1,
    size_t c1_len,
    int32_t *c2,
    size_t c2_len,
    int32_t *c3,
    size_t c3_len
);

/* As rulantip_inverse, with the bands of the forward call. Tests, in this order: 2, 5, 6, 17, 7, 8, 12.
   It refuses with 12 exactly where no picture of these depths goes to the planes lent with these
   bands. */
uint32_t rulantip_inverse_banded(
    uint32_t width,         /* as in rulantip_forward_banded, to the end */
    uint32_t height,
    uint32_t depth1,
    uint32_t depth2,
    uint32_t depth3,
    uint32_t transform,
    uint32_t band_height,
    const uint8_t *choices,
    size_t choices_len,
    int32_t *c1,            /* finished plane 1, R after success */
    size_t c1_len,
    int32_t *c2,            /* finished plane 2, G after success */
    size_t c2_len,
    int32_t *c3,            /* finished plane 3, B after success */
    size_t c3_len
);

/* As rulantip_forward_wrapped, with bands. Tests, in this order: 2, 5, 16, 6, 17, 7, 8, 11. */
uint32_t rulantip_forward_wrapped_banded(
    uint32_t width,         /* as in rulantip_forward_banded, to the end */
    uint32_t height,
    uint32_t depth1,        /* b of all planes; the three must be equal */
    uint32_t depth2,
    uint32_t depth3,
    uint32_t transform,
    uint32_t band_height,
    const uint8_t *choices,
    size_t choices_len,
    int32_t *c1,
    size_t c1_len,
    int32_t *c2,
    size_t c2_len,
    int32_t *c3,
    size_t c3_len
);

/* As rulantip_inverse_wrapped, with the bands of the forward call. Tests, in this order: 2, 5, 16, 6,
   17, 7, 8, 11; never 12. */
uint32_t rulantip_inverse_wrapped_banded(
    uint32_t width,         /* as in rulantip_forward_wrapped_banded, to the end */
    uint32_t height,
    uint32_t depth1,
    uint32_t depth2,
    uint32_t depth3,
    uint32_t transform,
    uint32_t band_height,
    const uint8_t *choices,
    size_t choices_len,
    int32_t *c1,            /* finished plane 1, R after success */
    size_t c1_len,
    int32_t *c2,            /* finished plane 2, G after success */
    size_t c2_len,
    int32_t *c3,            /* finished plane 3, B after success */
    size_t c3_len
);

/* The answer of the estimate and the search.

   To compare pictures of different sizes, divide by the counted samples: estimate / samples, which C
   rounds down, is how many sixty-fourths of a bit a pixel takes, its three numbers together, and
   estimate % samples is the rest. They are the fields `each` and `rest` of the report. After success
   samples is not 0.

   The estimate of a plane differs by less than samples from 64 * samples times the exact memoryless
   entropy, in bits, of its counted residuals; so the estimate here, of three planes, by less than
   3 * samples from 64 * samples times the sum of the three: by less than 3/64 of a bit a pixel. */
typedef struct {
    uint32_t refusal;       /* 0, or the refusal's number */
    uint32_t estimate;      /* of the three finished planes together, in sixty-fourths of a bit */
    uint32_t samples;       /* N, how many samples of each plane are counted: the lesser of its
                               t = width * height samples and 4,096; sample i of them, from 0, has
                               index i * t / N, rounded down */
} rulantip_estimated;

/* Estimates how many bits the picture's finished planes take under the choices given.
   Tests, in this order: 2, 5, 6, 7, 8, 9, 11. After success all scratch is 0; planes and choices are
   never changed. */
rulantip_estimated rulantip_estimate(
    uint32_t width,         /* as in rulantip_forward */
    uint32_t height,
    uint32_t depth1,
    uint32_t depth2,
    uint32_t depth3,
    uint32_t transform,
    const uint8_t *choices, /* the filter of each place, 0 to 12 */
    size_t choices_len,
    const int32_t *c1,      /* R */
    size_t c1_len,          /* width * height */
    const int32_t *c2,      /* G */
    size_t c2_len,          /* width * height */
    const int32_t *c3,      /* B */
    size_t c3_len,          /* width * height */
    int32_t *t1,            /* trial plane 1, scratch */
    size_t t1_len,          /* width * height or more */
    int32_t *t2,            /* trial plane 2, scratch */
    size_t t2_len,          /* width * height or more */
    int32_t *t3,            /* trial plane 3, scratch */
    size_t t3_len,          /* width * height or more */
    uint32_t *counters,     /* scratch */
    size_t counters_len     /* 2 * D + 1 or more; rulantip_counters tells it */
);

/* Searches for the filters with the lowest estimate, a place at a time, from filter 0 everywhere.
   Tests, in this order: 2, 5, 6, 7 (the number of choices alone: what they hold on entry does not
   matter), 8, 9, 10, 11. After success the choices hold the filters found, the answer is their
   estimate, and all scratch is 0; the planes are never changed. */
rulantip_estimated rulantip_search(
    uint32_t width,         /* as in rulantip_forward */
    uint32_t height,
    uint32_t depth1,
    uint32_t depth2,
    uint32_t depth3,
    uint32_t transform,
    uint32_t rounds,        /* how often to go through the places, 1 to 4 */
    uint8_t *choices,       /* receives the filter of each place */
    size_t choices_len,     /* the number of the transform's places */
    const int32_t *c1,      /* from here on as in rulantip_estimate */
    size_t c1_len,
    const int32_t *c2,
    size_t c2_len,
    const int32_t *c3,
    size_t c3_len,
    int32_t *t1,
    size_t t1_len,
    int32_t *t2,
    size_t t2_len,
    int32_t *t3,
    size_t t3_len,
    uint32_t *counters,
    size_t counters_len
);

/* As rulantip_estimate, in place, with no trial planes. Tests, in this order: 2, 5, 6, 7, 8, 9 (the
   counters alone), 11. After success all counters are 0. The planes are changed while the call runs and
   are as lent when it returns; the choices are never changed. */
rulantip_estimated rulantip_estimate_in_place(
    uint32_t width,         /* as in rulantip_forward */
    uint32_t height,
    uint32_t depth1,
    uint32_t depth2,
    uint32_t depth3,
    uint32_t transform,
    const uint8_t *choices, /* the filter of each place, 0 to 12 */
    size_t choices_len,
    int32_t *c1,            /* R, before and after */
    size_t c1_len,          /* width * height */
    int32_t *c2,            /* G, before and after */
    size_t c2_len,          /* width * height */
    int32_t *c3,            /* B, before and after */
    size_t c3_len,          /* width * height */
    uint32_t *counters,     /* scratch */
    size_t counters_len     /* 2 * D + 1 or more; rulantip_counters tells it */
);

/* As rulantip_search, in place, with no trial planes. Tests, in this order: 2, 5, 6, 7 (the number of
   choices alone), 8, 9 (the counters alone), 10, 11. After success the choices hold the filters found,
   the answer is their estimate, and all counters are 0. The planes are changed while the call runs and
   are as lent when it returns. */
rulantip_estimated rulantip_search_in_place(
    uint32_t width,         /* as in rulantip_forward */
    uint32_t height,
    uint32_t depth1,
    uint32_t depth2,
    uint32_t depth3,
    uint32_t transform,
    uint32_t rounds,        /* how often to go through the places, 1 to 4 */
    uint8_t *choices,       /* receives the filter of each place */
    size_t choices_len,     /* the number of the transform's places */
    int32_t *c1,            /* from here on as in rulantip_estimate_in_place */
    size_t c1_len,
    int32_t *c2,
    size_t c2_len,
    int32_t *c3,
    size_t c3_len,
    uint32_t *counters,
    size_t counters_len
);

/* The answer of the pixmap reader. */
typedef struct {
    uint32_t refusal;       /* 0, or the refusal's number */
    uint32_t width;         /* 1 to 8,192 */
    uint32_t height;        /* 1 to 8,192 */
    uint32_t depth;         /* of all three planes, 2 to 16 */
} rulantip_pixmap;

/* Reads the header of a P6 file. Tests, in this order: 1, 2, 3, 4. After success the raster is the
   file's last 3 * width * height bytes, from depth 9 on 6 * width * height, R G B by pixel. The file is
   never changed. */
rulantip_pixmap rulantip_p6_header(
    const uint8_t *file,    /* the whole file */
    size_t file_len         /* its length in bytes */
);

/* Writes the raster of a P6 file to three planes. Tests, in this order: 1, 2, 3, 4, 8. After success
   the planes hold R, G and B. A sample above maxval is written as it stands: the calls on pictures
   refuse it with 11. The file is never changed. */
uint32_t rulantip_p6_planes(
    const uint8_t *file,    /* the whole file */
    size_t file_len,        /* its length in bytes */
    int32_t *c1,            /* receives R */
    size_t c1_len,          /* width * height */
    int32_t *c2,            /* receives G */
    size_t c2_len,          /* width * height */
    int32_t *c3,            /* receives B */
    size_t c3_len           /* width * height */
);

/* As many bytes are enough for the P5 file of any plane of this width and height. */
#define RULANTIP_P5_LENGTH(width, height) ((size_t)19 + (size_t)2 * (width) * (height))

/* The answer of the call that writes a graymap. */
typedef struct {
    uint32_t refusal;       /* 0, or the refusal's number */
    uint32_t length;        /* of the file, in bytes */
} rulantip_written;

/* Writes a finished plane as a P5 file. Tests, in this order: 2, 5, 6, 8, 13, 14, 12 (a number outside
   the plane's range). After success the file is the first part of the buffer, and the bytes behind it
   are as on entry. The plane is never changed. */
rulantip_written rulantip_p5_write(
    uint32_t width,         /* of the plane, 1 to 8,192 */
    uint32_t height,        /* of the plane, 1 to 8,192 */
    uint32_t depth1,        /* of the picture's plane 1, R, 2 to 16 */
    uint32_t depth2,        /* of the picture's plane 2, G, 2 to 16 */
    uint32_t depth3,        /* of the picture's plane 3, B, 2 to 16 */
    uint32_t transform,     /* that finished the plane, 0 to 3 */
    uint32_t plane,         /* which of the three it is, 1 to 3 */
    const int32_t *samples, /* the plane */
    size_t samples_len,     /* width * height */
    uint8_t *file,          /* the buffer that receives the file */
    size_t file_len         /* the file's length or more; RULANTIP_P5_LENGTH tells what is enough */
);

/* The answer of the call that reads a graymap. */
typedef struct {
    uint32_t refusal;       /* 0, or the refusal's number */
    uint32_t width;         /* 1 to 8,192 */
    uint32_t height;        /* 1 to 8,192 */
} rulantip_graymap;

/* Reads the P5 file of a finished plane. Tests, in this order: 5, 6, 13, 1, 2, 3, 4, 8 (by the file's
   width and height), 12 (a number outside the plane's range). After success the plane holds the numbers
   that were written. The file is never changed. */
rulantip_graymap rulantip_p5_read(
    uint32_t depth1,        /* as in rulantip_p5_write, up to the plane's number */
    uint32_t depth2,
    uint32_t depth3,
    uint32_t transform,
    uint32_t plane,
    const uint8_t *file,    /* the whole file */
    size_t file_len,        /* its length in bytes */
    int32_t *samples,       /* receives the plane */
    size_t samples_len      /* width * height of the file */
);

/* A preview pixel, or a refusal. */
typedef struct {
    uint32_t refusal;       /* 0, or the refusal's number */
    uint32_t space;         /* RULANTIP_HVSCT or RULANTIP_YCOCG; 0 beside a refusal */
    double v1;              /* Y */
    double v2;              /* Cd, or Co */
    double v3;              /* Ce, or Cg */
} rulantip_preview;

/* The HVSCT pixel of three samples. Tests, in this order: 5, 11. The floats are exact. Which zero a
   float that is 0 will be, 0.0 or -0.0, is left open. */
rulantip_preview rulantip_hvsct(
    uint32_t depth,         /* b of all three, 2 to 16 */
    int32_t r,              /* 0 to M */
    int32_t g,              /* 0 to M */
    int32_t b               /* 0 to M */
);

/* The YCoCg pixel of three samples. Tests and floats as in rulantip_hvsct. */
rulantip_preview rulantip_ycocg(
    uint32_t depth,         /* b of all three, 2 to 16 */
    int32_t r,              /* 0 to M */
    int32_t g,              /* 0 to M */
    int32_t b               /* 0 to M */
);

/* Three samples, or a refusal. */
typedef struct {
    uint32_t refusal;       /* 0, or the refusal's number */
    int32_t r;              /* 0 to M */
    int32_t g;              /* 0 to M */
    int32_t b;              /* 0 to M */
} rulantip_rgb;

/* Back from a pixel of either space. Tests, in this order: 5, 15. After success the samples are the one
   triple of this depth that has these floats. It refuses with 15 exactly where there is none: one float
   next to the right one, an infinity or a NaN is enough. Floats are compared as numbers, so that 0.0 and
   -0.0 are the same. Any other space is 15 too, and so is what a refused call returned. */
rulantip_rgb rulantip_preview_back(
    uint32_t depth,         /* b of all three, 2 to 16 */
    uint32_t space,         /* RULANTIP_HVSCT or RULANTIP_YCOCG */
    double v1,              /* as in rulantip_preview */
    double v2,
    double v3
);

#ifdef __cplusplus
}
#endif

#endif
