/* What the programs need beside the library. */

#ifndef COMMON_H
#define COMMON_H

#include "rulantip.h"

/* Ends the program with a word on standard error; with the refusal's number and cause. */
void stop(const char *what, const char *why);
void stop_refused(const char *what, uint32_t refusal);

/* Memory that is all 0. */
void *memory(size_t count, size_t size);

/* The whole file, and its length. */
uint8_t *read_file(const char *name, size_t *length);

/* The planes of a P6 file's picture, each in memory of its own; returns how many pixels it has. */
size_t read_planes(const char *name, const uint8_t *file, size_t length, rulantip_pixmap *picture, int32_t *planes[3]);

/* The end of a line of the report: estimate, samples, and the estimate divided by the samples with the rest. */
void print_estimated(rulantip_estimated found);

/* Stops unless the planes hold the picture of the P6 file. */
void compare(const char *name, const uint8_t *file, size_t length, const int32_t *c1, const int32_t *c2, const int32_t *c3,
             size_t samples);

#endif
