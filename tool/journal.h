/* The log that `decide` appends to. Each record is on the card before the next frame is decided on. */
#ifndef JOURNAL_H
#define JOURNAL_H

#include "driver.h"

struct journal {
    const char *path;
    int file;         /* below 0: none is open */
    uint64_t records; /* whole records in the file */
    /* The log's end: its last whole record, if there is one, and the torn rest. An append needs no more of the log than
       this, so it costs the same however long the log is. There is room for a second record. */
    uint8_t end[2 * BRINE_RECORD_BYTES];
    size_t used;
};

/* Opens the log, or makes it. It is refused, and left alone, where it is no log or where `number`, that of the first frame to
   be decided on, cannot follow. That it is the film, the costs or the standard output too is a fault. journal_close is due
   whatever comes of it. */
enum status journal_open(struct journal *journal, const char *path, uint64_t number, const struct film *film,
                         const struct costs *costs);

/* Appends a verdict that has a score. */
enum status journal_add(struct journal *journal, const struct verdict *verdict);

void journal_close(struct journal *journal);

#endif
