/* The part of the comparison that takes two frames in strips: each takes one record of the stream. */
#ifndef BESIDE_STRIPS_H
#define BESIDE_STRIPS_H
#include <stdint.h>

void strips_start(void);
void strips_add(void);
void strips_end(void);
/* Accepted calls: starts, strips of samples of 8 bits and of 16, and their rows; ends. */
extern uint64_t strips_started, strips_added[2], strips_rows[2], strips_ended;
#endif
