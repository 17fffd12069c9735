/* A plane of a record, lent to a call. A strip is one too. */
#ifndef BESIDE_PLANE_H
#define BESIDE_PLANE_H
#include "lend.h"
#include <stdint.h>

struct plane {
    uint64_t width, height, stride, origin;
    const void *samples;
    size_t len;
    void *lent;
};

/* The record's next plane, with a copy of its samples in the slot. */
struct plane plane(enum slot slot);

#define AS_LENT(p) (p).lent, (p).len, (p).width, (p).height, (p).stride, (p).origin
#endif
