/* Films: luma frames of one size, in order. */
#ifndef FILM_H
#define FILM_H

#include "line.h"
#include "page.h"
#include "plane.h"

enum fetched { FRAME, END, BROKEN }; /* BROKEN: the reader has said why */

struct film {
    const char *name;
    size_t width;
    size_t height;
    uint32_t depth;
    struct rate rate;
    uint64_t first; /* the number of its first frame, as the caller counts */
    /* Fills a plane of the film's sides and depth with the next frame. */
    enum fetched (*next)(struct film *film, struct plane *luma);
    uint64_t frames; /* how many were fetched */

    /* a Y4M file's own */
    FILE *file;
    uint32_t colour;  /* how chroma goes with luma: enum colour of y4m.c */
    uint64_t bytes;   /* how many were read, up to the frame in hand */
    uint64_t begin;   /* the byte at which the last frame that was fetched begins */
    struct line line; /* a header line's room */
};

/* Opens a Y4M film and reads its header; "-" is the standard input. Sides and depth are as the header says: the library
   judges them, before the first frame is fetched. On a fault it has said why, and nothing is open. */
enum status film_open_y4m(struct film *film, const char *path);

void film_close(struct film *film);

/* The next frame of a Y4M film in parts: its beginning; the next rows of its luma, as many as the plane has, until all have come; and
   its end, from which on it counts as fetched. */
enum fetched film_begin(struct film *film);
enum fetched film_rows(struct film *film, struct plane *rows);
enum fetched film_end(struct film *film);

/* Says that the library refused a sample of the last frame that was fetched; `fault` says which, as plane_fault has it. */
enum status film_refused(const struct film *film, const char *fault, int64_t answer);

#endif
