/* A log that is read piece by piece: a long one takes no more memory than a short one. */
#ifndef PIECES_H
#define PIECES_H

#include "brinepulley.h"
#include "say.h"

enum { PIECE_RECORDS = 256 };

struct pieces {
    const char *name;
    int file;
    uint64_t left;   /* bytes that are still to be read, at most */
    bool ended;      /* there is no further byte */
    uint64_t before; /* records of the log that stand before this piece's first */
    size_t shared;   /* 1 where the first record is the last one of the piece before, else 0 */
    size_t records;  /* whole records of this piece */
    size_t used;     /* their bytes, and at the log's end those of the torn rest */
    uint8_t bytes[PIECE_RECORDS * BRINE_RECORD_BYTES];
};

/* The file is open for reading. It is the caller's to close. */
void pieces_start(struct pieces *pieces, const char *name, int file);

/* Reads the next piece and lets the library check it. Where it is refused, it says which record is at fault. */
enum status pieces_next(struct pieces *pieces);

#endif
