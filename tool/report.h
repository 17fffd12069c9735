/* The verdicts as lines, for people or for machines. Each line is written as soon as there is a verdict to fill it. */
#ifndef REPORT_H
#define REPORT_H

#include "options.h"

struct report {
    const struct options *options;
    const struct film *film;
    struct page page; /* the line in the making */
    bool lost;        /* the standard output takes no more */
    uint64_t kept;    /* the film's frames below it were named as ones that may go */
    uint64_t scene;   /* where the scene in hand began */
    bool watched;     /* someone watches the standard error, and does not see the lines: tell of progress */
    uint64_t frames;
    uint64_t cuts; /* the first frame's not counted */
    uint64_t large;
};

void report_start(struct report *report, const struct options *options, const struct film *film);

/* A verdict_taker. A standard output that cannot be written stops the command, but not while a log is kept: scores on the card are
   worth more than lines. That its reader has gone always does. */
enum status report_take(void *report, const struct verdict *verdict);

/* Closes the report. What was written stays, whatever the status. */
enum status report_end(struct report *report, enum status status);

#endif
