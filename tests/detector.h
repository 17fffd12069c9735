/* A detector as C sees it: two lent places with guard bytes, and the arguments of a step. */
#ifndef DETECTOR_H
#define DETECTOR_H

#include "brinepulley.h"
#include "check.h"

enum { NONE = 0, FAST = 1, STANDARD = 2 };

/* Places in `numbers`, in the order of document 01's words: the header's own names are held to these. */
enum { WIDTH, HEIGHT, DEPTH, LOOKAHEAD, MODE, MIN, MAX, OFFSET, LAST, LENGTH, FIRST, RELEASE, COUNT, PAIRS };

/* Places in a score. */
enum { INTER, IMPORTANCE, BACKWARD, FORWARD, THRESHOLD };

struct detector {
    struct lent lent_numbers;
    struct lent lent_scores;
    uint64_t *numbers;
    double *scores;
};

struct step {
    size_t set; /* frames of the set */
    uint64_t frame;
    uint64_t previous;
    /* One item more than the longest set wants. */
    double inter[BRINE_SET_LIMIT], importance[BRINE_SET_LIMIT], threshold[BRINE_SET_LIMIT];
    size_t inter_count, importance_count, threshold_count;
};

/* A fresh detector for frames of 64 × 48, min 0 and max 2^32 - 1. Its scores are rubbish, as none is in use. */
void detector_make(struct detector *detector, uint32_t mode, size_t lookahead);

/* The same in places that are there already, whatever they hold. */
void detector_begin(struct detector *detector, uint32_t mode, size_t lookahead);

/* A step with lists of the length that the set wants, all filled with one value each. */
struct step step_of(size_t set, uint64_t frame, uint64_t previous, double inter, double importance, double threshold);

int64_t detector_step(struct detector *detector, const struct step *step);

/* The step is refused with that number, and no byte of the two places changes. */
void detector_refuses(struct detector *detector, const struct step *step, int64_t number);

/* The guards and the places past the count, of scores and of pair numbers, are as they were before the last step. */
bool detector_kept(const struct detector *detector);

/* The numbers below PAIRS are these. Pair numbers up to the count fall by one from `front` on, and all else is kept as above. */
bool detector_holds(const struct detector *detector, const uint64_t numbers[PAIRS], uint64_t front);

/* Writes pair numbers that fall by one from `front` on into the first `count` places. */
void detector_number(struct detector *detector, size_t count, uint64_t front);

/* Two states are the same: all is equal but the first and the release number, and what lies past the count. */
bool same_state(const uint64_t *numbers, const double *scores, const uint64_t *numbers2, const double *scores2);

/* One number of one entry, and its pair's. */
double detector_score(const struct detector *detector, size_t entry, size_t number);
uint64_t detector_pair(const struct detector *detector, size_t entry);

#endif
