/* Frames on a recorder's card: they are taken, handed out, measured, and wiped. */
#ifndef CARD_H
#define CARD_H

#include "histories.h"

enum {
    CARD_FRAMES = 140, /* the longest film */
    CARD_WIDTH = 64,
    CARD_HEIGHT = 48,
    CARD_SAMPLES = CARD_WIDTH * CARD_HEIGHT
};

struct card {
    uint8_t frames[CARD_FRAMES][CARD_SAMPLES]; /* frame n is at n modulo the room */
    uint64_t from;                             /* frames numbered below are wiped */
    uint64_t end;                              /* frames from this number on are not there yet */
    size_t missing;                            /* how often a frame was asked for that is not there */
};

/* Draws a film of so many frames, the first one numbered so. It has scenes of many lengths, what they show moves, and now
   and then there is a flash. All its frames are there. */
void card_draw(struct card *card, uint64_t first, size_t frames);

/* No frame is there yet: all bytes are rubbish. The first to come is numbered so. */
void card_clear(struct card *card, uint64_t first);

/* Takes the frames numbered below `end` that are not there yet, from a card that has them. */
void card_take(struct card *card, const struct card *film, uint64_t end);

/* Wipes the frames numbered below `release`: their bytes are rubbish then. Returns how many went. */
size_t card_wipe(struct card *card, uint64_t release);

/* Measures the pairs from `first` to the one before `end`, from the bytes that the frames have now. Standard mode's inter costs
   come from outside: here the plane difference for each block stands for them. */
void card_measure(struct card *card, uint32_t mode, struct film *measures, uint64_t first, uint64_t end);

#endif
