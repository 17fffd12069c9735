/* Planes of luma, whole: width × height samples, row after row. A sample of 8 bits is a byte and a deeper one has 16 bits: here
   it is known which of the library's functions take it. */
#ifndef PLANE_H
#define PLANE_H

#include <stdbool.h>
#include <stddef.h>
#include <stdint.h>
#include <stdio.h>

struct plane {
    size_t width;
    size_t height;
    uint32_t depth; /* bits of a sample */
    size_t count;   /* of the samples */
    void *samples;  /* uint8_t or uint16_t */
};

/* Which byte of a sample comes first in a file, where it has two. */
enum byte_order { LOW_FIRST, HIGH_FIRST };

/* How many bytes a sample has, in a file as in memory. */
size_t sample_bytes(uint32_t depth);

/* Makes room for all samples; false where memory ran out. plane_free is due whatever comes of it. */
bool plane_make(struct plane *plane, size_t width, size_t height, uint32_t depth);

void plane_free(struct plane *plane);

/* Some rows of it, from one on: they lie within it, and are not freed. */
struct plane plane_rows(const struct plane *plane, size_t row, size_t rows);

/* Reads the samples, and gives how many came: fewer where the file ends before, or cannot be read. */
size_t plane_read(struct plane *plane, FILE *file, enum byte_order order);

enum { FAULT_ROOM = 128 };

/* Says in words which sample is the first that is too large for the depth; false where none is. `row` is the number of the plane's
   first row, in a frame. The library judges: this is for the message, once it has refused with 16. */
bool plane_fault(const struct plane *plane, size_t row, char out[FAULT_ROOM]);

/* Says in words that a plane has no whole block, once the library has refused with 19. */
void plane_block_fault(const struct plane *plane, char out[FAULT_ROOM]);

/* The library's measures, of planes of one depth. Each answers as the library does. */
int64_t plane_reduce(const struct plane *plane, size_t factor, struct plane *reduced);
int64_t plane_difference(const struct plane *first, const struct plane *second);
int64_t plane_importance_total(const struct plane *first, const struct plane *second);
int64_t plane_delta(const struct plane *first, const struct plane *second, double *delta);
int64_t plane_importance(const struct plane *first, const struct plane *second, double *importance);
int64_t plane_intra_costs(const struct plane *plane, struct plane *work, uint32_t *costs, size_t count);

/* Lends a strip and the rows of the first frame that match it, those from `row` on. */
int64_t plane_add_strip(uint64_t *carry, const struct plane *first, size_t row, const struct plane *strip, struct plane *room,
                        uint32_t *costs, size_t count);

#endif
