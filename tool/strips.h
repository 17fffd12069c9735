/* Measures of successive frames by strips: of the new frame a few rows are there at a time, and of the frame before it all. A frame's
   rows take the place of the last one's as soon as both are measured, so one whole plane is all that is kept. */
#ifndef STRIPS_H
#define STRIPS_H

#include "brinepulley.h"
#include "film.h"

enum {
    LARGEST_STRIP = 64, /* rows of a strip that the library takes */
    ROOM_ROWS = 16      /* eight of each frame */
};

struct strips {
    struct film *film;
    size_t factor;     /* by which frames are reduced */
    size_t rows;       /* of a strip, reduced */
    uint32_t mode;     /* None measures nothing, Fast the difference alone */
    bool begun;        /* whether there is a frame before */
    struct plane full; /* a strip as the film has it, .. */
    struct plane now;  /* .. and reduced */
    struct plane kept; /* the frame before, reduced; from its first row on it becomes the new one */
    uint64_t difference; /* Fast mode's, so far */
    struct plane room;   /* Standard mode's, as all behind it: the library's own */
    uint32_t *blocks;
    size_t block_count;
    uint64_t carry[BRINE_CARRY];
};

/* Makes room; false where memory ran out. The sides and the factor must be ones that the library accepts. strips_free is due
   whatever comes of it. */
bool strips_make(struct strips *strips, struct film *film, size_t factor, size_t rows, uint32_t mode);

/* Fetches the next frame strip by strip, and measures it against the one before, if there is one; *ended where there is none. */
enum status strips_fetch(struct strips *strips, bool *ended);

/* What was measured of the last two frames: delta in Fast mode, the others in Standard. The second answers as the library does. */
double strips_delta(const struct strips *strips);
int64_t strips_importance(const struct strips *strips, double *importance, double *threshold);

void strips_free(struct strips *strips);

#endif
