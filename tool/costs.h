/* The inter costs that Standard mode reads: a text file, one number per line, that of the film's first two frames first. */
#ifndef COSTS_H
#define COSTS_H

#include "line.h"

struct costs {
    const char *path;
    FILE *file; /* NULL: there is no such file, since the mode reads none */
    uint64_t lines;
    struct line line;
};

/* costs_close is due whatever comes of it. */
enum status costs_open(struct costs *costs, const char *path);

/* The next pair's cost, any number: the library judges it. A missing or malformed line is a fault. */
enum status costs_next(struct costs *costs, double *cost);

/* To be called once the film has ended: a line more is a fault, as the file then belongs to another film. */
enum status costs_end(struct costs *costs);

/* Says that the library refused the cost which that line has. Lines are counted from 1. */
enum status costs_refused(const struct costs *costs, uint64_t line, double cost, int64_t answer);

void costs_close(struct costs *costs);

#endif
