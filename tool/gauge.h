/* Measures of successive frames: each new frame is measured against the one before it. */
#ifndef GAUGE_H
#define GAUGE_H

#include "costs.h"
#include "film.h"
#include "strips.h"

/* What is measured of one pair of frames. In Fast mode the detector reads the inter cost alone; in None mode all are 0. */
struct pair {
    double inter;
    double importance;
    double threshold;
};

/* Whether the inter cost reaches the threshold. A cost of 0 is no change, though a threshold can be 0 too. */
bool pair_is_large(const struct pair *pair);

struct gauge {
    struct film *film;
    struct costs *costs;
    uint32_t mode;
    size_t factor; /* by the scale rule */
    struct plane full;   /* a frame as the film has it */
    struct plane before; /* the last frame, reduced */
    struct plane now;    /* the new frame, reduced */
    struct plane work;   /* the work plane of the intra costs */
    uint32_t *blocks;
    size_t block_count;
    bool by_strips;
    struct strips strips; /* with by_strips, instead of the planes and the blocks */
};

/* Makes room and fetches the film's first frame. The sides must be ones that the library accepts. In Standard mode a film without a
   whole block is refused. With strip rows above 0 frames come and are measured in strips of so many rows. gauge_free is due whatever
   comes of it. */
enum status gauge_start(struct gauge *gauge, struct film *film, struct costs *costs, uint32_t mode, size_t strip_rows);

/* Fetches the next frame and measures the pair; *ended where there is none. */
enum status gauge_next(struct gauge *gauge, struct pair *pair, bool *ended);

void gauge_free(struct gauge *gauge);

#endif
