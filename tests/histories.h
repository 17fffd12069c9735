/* What a random history of a detector is made of: draws, a film, calls over it, and calls that are refused. */
#ifndef HISTORIES_H
#define HISTORIES_H

#include "detector.h"

/* How many pairs of frames a film has: enough for a history's calls, and for all items of the last one's lists. */
enum { FILM_PAIRS = 80 };

/* A film: what was measured of each pair of frames. */
struct film {
    uint64_t first; /* the number of the pair that stands first */
    double inter[FILM_PAIRS], importance[FILM_PAIRS], threshold[FILM_PAIRS];
};

/* Draws begin again from a seed. They are the same on every machine. */
void draw_from(uint64_t seed);

/* A number below the limit. */
uint32_t draw(uint32_t limit);

/* True in one of so many draws. */
bool one_in(uint32_t many);

/* Fills so many words of eight bytes with any bits. */
void draw_rubbish(void *place, size_t words);

/* A film from pair `first` on. Some have a peak at the place `peak` and at every fifth before and behind it. */
void film_make(struct film *film, uint64_t first, size_t peak);

/* A number at or below n: 0, n itself, or one that is at most 40 below it. */
uint64_t draw_keyframe(uint64_t n);

/* The film's call for frame n. All items of its lists are the film's, those past the set's too. */
struct step film_call(const struct film *film, size_t set, uint64_t n, uint64_t previous);

/* Other measurements in all items of a call's lists, as of another film. */
void draw_lists(struct step *call);

/* The same call, as another history may have it: the NaN of a spoiled call has bits of its own, and in Fast mode the lists that are
   not read are rubbish of any length. */
struct step call_again(const struct step *call, uint32_t mode);

/* Spoils a good call in one way or in several. `last` and `length` are the number and the set length of the last accepted
   call, 0 before any. Returns the number of the refusal that it gets now: the first that applies. */
int64_t spoil(struct step *call, uint32_t mode, uint64_t last, size_t length);

#endif
