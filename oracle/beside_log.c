/* The log's part of the comparison: scan, read, append. */
#include "beside_log.h"
#include "brinepulley.h"
#include "cases.h"
#include "lend.h"
#include <string.h>

uint64_t scans, reads, appends, records_read;

/* What the place of the rest's length holds before a call: no rest is so long. */
static const uint64_t before = 12345;

/* 1 if the rest's length was written where it is due, and nowhere else. */
static int torn_as(int64_t due, uint64_t torn) { return holds(OUT, due < 0 ? &before : &torn); }

static void scan(const uint8_t *log, size_t len, int64_t due, uint64_t torn)
{
    const uint8_t *lent = lend_list(FIRST, log, len, 1);
    int64_t got = brine_log_scan(lent, len, lend(OUT, &before, sizeof before, 8));
    scans += due >= 0;
    verdict(due == got && torn_as(due, torn) && holds(FIRST, log), "log scan", due, got);
}

void log_read(void)
{
    size_t len, numbers_len, bits_len, cuts_len;
    const uint8_t *log = bytes(&len);
    int64_t scanned = answer(), due = answer();
    uint64_t torn = word();
    const uint32_t *numbers = halves(&numbers_len);
    bits_len = word();
    const uint64_t *bits = words(bits_len);
    const uint8_t *cuts = bytes(&cuts_len);
    scan(log, len, scanned, torn);

    const uint8_t *lent = lend_list(FIRST, log, len, 1);
    uint32_t *numbers_lent = lend_list(COSTS, numbers, numbers_len * sizeof *numbers, 4);
    uint64_t *bits_lent = lend_list(NUMBERS, bits, bits_len * sizeof *bits, 8);
    uint8_t *cuts_lent = lend_list(SECOND, cuts, cuts_len, 1);
    int64_t got = brine_log_read(lent, len, numbers_lent, numbers_len, bits_lent, bits_len, cuts_lent, cuts_len,
                                 lend(OUT, &before, sizeof before, 8));
    /* The lists as they are due, to their ends. */
    numbers = halves(&numbers_len);
    bits = words(bits_len);
    cuts = bytes(&cuts_len);
    reads += due >= 0;
    records_read += due >= 0 ? (uint64_t)due : 0;
    verdict(due == got && torn_as(due, torn) && holds(FIRST, log) && holds(COSTS, numbers) && holds(NUMBERS, bits) &&
                holds(SECOND, cuts),
            "log read", due, got);
}

void log_append(void)
{
    size_t len;
    const uint8_t *log = bytes(&len);
    size_t used = word();
    uint32_t number = (uint32_t)word();
    double score[BRINE_SCORE_DOUBLES];
    memcpy(score, words(BRINE_SCORE_DOUBLES), sizeof score);
    uint32_t cut = (uint32_t)word();
    int64_t due = answer();
    const uint8_t *after = bytes(&len);
    uint8_t *lent = lend_list(FIRST, log, len, 1);
    int64_t got = brine_log_append(lent, len, used, number, score[BRINE_INTER], score[BRINE_IMPORTANCE], score[BRINE_BACKWARD],
                                   score[BRINE_FORWARD], score[BRINE_THRESHOLD], cut);
    appends += due >= 0;
    verdict(due == got && holds(FIRST, after), "log append", due, got);
}
