/* Records of a log as the tests have them, and their bytes, made here by hand: the library has no part in it. */
#ifndef RECORDS_H
#define RECORDS_H

#include "brinepulley.h"
#include "check.h"

enum { RECORD = 47, BITS = 5 };

/* Places in a record. */
enum { MARK = 0, NUMBER = 2, SCORE = 6, CUT = 46 };

#define ONE_NAN 0x7FF8000000000000u

struct record {
    uint32_t number;
    uint64_t bits[BITS];
    uint32_t cut;
};

/* A record with that number and a score that follows from it; every third is a cut. */
struct record record_of(uint32_t number);

void record_bytes(uint8_t out[RECORD], const struct record *record);

/* Puts `count` records at `out`, with the numbers 10, 20, 30 and so on. */
void records_put(uint8_t *out, size_t count);

/* Appends with the library. */
int64_t record_append(uint8_t *log, size_t log_len, size_t used, const struct record *record);

#endif
