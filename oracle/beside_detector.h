/* The detector's part of the comparison: each takes one record of the stream. */
#ifndef BESIDE_DETECTOR_H
#define BESIDE_DETECTOR_H
#include <stdint.h>

void detector_fresh(void);
void detector_state(void);
void detector_step(void);
void whole_film(void);
/* Detector calls: all, those with a score, cuts, and cuts that the decision rule found and not the largest interval. Of those with
   a score: the pair numbers in all, and the calls that leave two equal ones side by side. */
extern uint64_t calls, scored, cuts, ruled, numbered, repeated, fresh, films, film_frames;
#endif
