/* The film of the demonstration: a mast camera's view of the sea, drawn by arithmetic on whole numbers alone. */
#ifndef DRAW_H
#define DRAW_H

#include "film.h"

/* What happens when, by frame numbers. */
enum {
    FLASH_FRAME = 9,   /* lightning, for one frame */
    LINE_FRAME = 15,   /* a dark line comes up on the horizon */
    SQUALL_FRAME = 18, /* it has crossed: dark sky, rain, white water */
    FILM_FRAMES = 30
};

void film_open_drawn(struct film *film);

/* Draws one frame, width × height samples of 8 bits. */
void draw_frame(uint8_t *luma, size_t width, size_t height, uint64_t frame);

#endif
