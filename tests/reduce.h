/* What the tests of the reduction share: all the numbers of a call, and calls that are accepted. */
#ifndef REDUCE_H
#define REDUCE_H

#include "brinepulley.h"
#include "check.h"

/* The six factors, and how many samples a plane may have. */
enum { FACTORS = 6, FIELD = 1 << 18 };
extern const size_t factors[FACTORS];

/* The numbers of the plane, then of the lent plane, each with its length. */
struct call {
    uint32_t depth;
    size_t factor;
    size_t samples, width, height, stride, origin;
    size_t reduced, width2, height2, stride2, origin2;
};

/* Planes with room between their rows that end with their last sample; of the lent one three more are lent. */
struct call reduce_shaped(size_t factor, size_t width, size_t height, size_t gap, size_t origin);

/* Calls the library over samples of the tests' own and over `reduced`. */
int64_t reduce_with(const struct call *c, uint8_t *reduced);

#endif
