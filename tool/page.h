/* Answers in the making, and how numbers and times stand in them. */
#ifndef PAGE_H
#define PAGE_H

#include "say.h"

/* A text that grows. */
struct page {
    char *text;
    size_t used;
    size_t room;
    bool broken; /* memory ran out: page_write says so */
    bool gone;   /* nobody reads the standard output any more */
};

void page_add(struct page *page, const char *format, ...) SAY_FORMAT(2, 3);

/* Writes the page to the standard output, at once and whole, and empties it. That its reader has gone is not worth a message. */
enum status page_write(struct page *page);

void page_free(struct page *page);

enum { NUMBER_ROOM = 32 };

void count_text(char out[NUMBER_ROOM], uint64_t count);

/* The text with the fewest digits that reads back as the same double; "nan" for every NaN. */
void number_text(char out[NUMBER_ROOM], double value);

/* A film's frame rate: so many frames in so many seconds. Both are 0 where it is not known. */
struct rate {
    uint32_t frames;
    uint32_t seconds;
};

/* When a frame is shown, counted from the film's first: hours, minutes, seconds and thousandths, rounded down; or, for
   machines, seconds. Where the rate is not known, "-", or nothing. `place` is at most 2^32. */
void time_text(char out[NUMBER_ROOM], struct rate rate, uint64_t place, bool csv);

#endif
