/* The driver: it steps a detector through a film as the crate's own driver does (lib.rs, detect_scene_changes). */
#ifndef DRIVER_H
#define DRIVER_H

#include "brinepulley.h"
#include "gauge.h"

struct settings {
    uint32_t mode;
    size_t lookahead;
    uint64_t min;
    uint64_t max;
    size_t strip_rows; /* 0: frames are measured whole */
};

/* A detector's state, as the library has it. */
struct state {
    uint64_t numbers[BRINE_NUMBERS];
    double scores[BRINE_SCORES];
};

/* What was decided on one frame. */
struct verdict {
    uint64_t frame;
    bool first;  /* the film's first frame, on which nothing is decided */
    bool cut;    /* a scene begins here; the first frame always begins one */
    bool scored; /* whether there is a score */
    double score[BRINE_SCORE_DOUBLES];
    uint64_t scored_pair; /* the number of the score's pair: the frame's, or the next one's */
    uint64_t release;     /* frames numbered below may be purged */
    bool measured;        /* whether there is a measure of this frame and the one before it; it need not be the score's */
    struct pair pair;
    bool large;                /* no cut, and yet the inter cost of this pair reaches its threshold */
    const struct state *state; /* after the call. It is the driver's own: only while the verdict is taken */
};

/* Takes a verdict. Any status but DONE stops the drive. */
typedef enum status verdict_taker(void *taker, const struct verdict *verdict);

/* Decides on every frame of the film and hands each verdict on, in order, before the next frame is decided on. The first
   frame's verdict comes once the frame is there and the settings are accepted. */
enum status drive(struct film *film, struct costs *costs, const struct settings *settings, verdict_taker *take,
                  void *taker);

#endif
