/* The log's refusals: each, their order, and that nothing is written. */
#include "records.h"

#include <string.h>

enum { RECORDS = 4, LOG = RECORDS * RECORD, REST = 5 };

static struct lent log_place, numbers_place, bits_place, cuts_place, torn_place;

/* Four records, a torn rest of five bytes, and room for a record more. */
static uint8_t *make_log(void)
{
    uint8_t *log = lent_make(&log_place, LOG + RECORD);
    records_put(log, RECORDS);
    lent_keep(&log_place);
    return log;
}

static void append_refused(uint8_t *log, size_t length, size_t used, const struct record *record, int64_t number)
{
    lent_keep(&log_place);
    EXPECT_NUMBER(record_append(log, length, used, record), -number);
    EXPECT(lent_same(&log_place));
}

/* A read with lists of these lengths is refused, and nothing is written. */
static void read_refused(const uint8_t *log, size_t length, size_t numbers, size_t bits, size_t cuts, int64_t number)
{
    uint32_t *n = lent_make(&numbers_place, RECORDS * sizeof *n);
    uint64_t *b = lent_make(&bits_place, RECORDS * BITS * sizeof *b);
    uint8_t *c = lent_make(&cuts_place, RECORDS);
    uint64_t *torn = lent_make(&torn_place, sizeof *torn);
    EXPECT_NUMBER(brine_log_read(log, length, n, numbers, b, bits, c, cuts, torn), -number);
    EXPECT(lent_same(&numbers_place) && lent_same(&bits_place) && lent_same(&cuts_place) && lent_same(&torn_place));
}

/* All three functions refuse the log with that number. Room and lists are short, and the new record is at fault too: that
   comes later. */
static void refused_by_all(uint8_t *log, int64_t number)
{
    const struct record bad = {.cut = 2};
    uint64_t *torn = lent_make(&torn_place, sizeof *torn);
    EXPECT_NUMBER(brine_log_scan(log, LOG + REST, torn), -number);
    EXPECT(lent_same(&torn_place));
    read_refused(log, LOG + REST, RECORDS, RECORDS * BITS, RECORDS, number);
    read_refused(log, LOG + REST, 0, 0, 0, number);
    append_refused(log, LOG + REST, LOG + REST, &bad, number);
}

static void bad_mark(void)
{
    for (size_t k = 0; k < RECORDS; k++)
        for (size_t place = MARK; place < NUMBER; place++)
            for (unsigned change = 1; change < 256; change++) {
                uint8_t *log = make_log();
                log[k * RECORD + place] ^= (uint8_t)change;
                refused_by_all(log, 12);
            }
}

static void bad_cut(void)
{
    for (size_t k = 0; k < RECORDS; k++)
        for (unsigned cut = 2; cut < 256; cut++) {
            uint8_t *log = make_log();
            log[k * RECORD + CUT] = (uint8_t)cut;
            refused_by_all(log, 13);
        }
}

/* A number below the one before it by its highest byte, or equal to it. */
static void bad_number(void)
{
    for (size_t k = 1; k < RECORDS; k++) {
        uint8_t *log = make_log();
        memcpy(log + k * RECORD + NUMBER, log + (k - 1) * RECORD + NUMBER, 4);
        refused_by_all(log, 14);
        log[(k - 1) * RECORD + NUMBER + 3] = 1;
        log[k * RECORD + NUMBER] = 255;
        refused_by_all(log, 14);
    }
}

/* Puts faults into a record: 1 the mark, 2 the cut, 4 the number. */
static void put_faults(uint8_t *log, size_t k, unsigned faults)
{
    uint8_t *record = log + k * RECORD;
    if (faults & 1)
        record[MARK] = 0;
    if (faults & 2)
        record[CUT] = 2;
    if (faults & 4)
        memcpy(record + NUMBER, record - RECORD + NUMBER, 4);
}

static int64_t first_fault(unsigned faults)
{
    return faults & 1 ? 12 : faults & 2 ? 13 : 14;
}

/* Every choice of faults in every record: the earliest record's, and of these the first. The first record's number follows
   none. */
static void earliest_first(void)
{
    for (unsigned all = 1; all < 1u << 3 * RECORDS; all++) {
        if (all & 4)
            continue;
        uint8_t *log = make_log();
        int64_t want = 0;
        for (size_t k = 0; k < RECORDS; k++) {
            const unsigned faults = all >> 3 * k & 7;
            put_faults(log, k, faults);
            if (want == 0 && faults != 0)
                want = first_fault(faults);
        }
        refused_by_all(log, want);
    }
}

/* 13 and 14 of the new record come before 15, and 13 before 14. A cut is the whole argument, not its low byte. */
static void new_record(void)
{
    static const uint32_t cuts[] = {2, 255, 256, 257, 0x80000000, UINT32_MAX};
    uint8_t *log = make_log();
    for (size_t i = 0; i < sizeof cuts / sizeof cuts[0]; i++) {
        struct record record = record_of(10 * RECORDS + 1);
        record.cut = cuts[i];
        append_refused(log, LOG + RECORD, LOG + REST, &record, 13);
        append_refused(log, LOG + RECORD, 0, &record, 13);
        record.number = 1;
        append_refused(log, LOG + REST, LOG + REST, &record, 13);
    }
    for (uint32_t number = 0; number <= 10 * RECORDS; number++) {
        const struct record record = record_of(number);
        append_refused(log, LOG + RECORD, LOG + REST, &record, 14);
        append_refused(log, LOG + REST, LOG, &record, 14);
    }
    log[LOG - RECORD + NUMBER + 3] = 255; /* the last number is now the largest but for its low bytes */
    const struct record record = record_of(0xFE000000);
    append_refused(log, LOG + RECORD, LOG, &record, 14);
}

/* A used length that is longer than what was lent comes before all else: nothing of it is read. */
static void used_too_long(void)
{
    static const size_t lengths[] = {0, 1, RECORD, LOG, LOG + RECORD - 1};
    const struct record good = record_of(100), bad = {.cut = 2};
    for (size_t i = 0; i < sizeof lengths / sizeof lengths[0]; i++) {
        uint8_t *log = make_log();
        log[MARK] = 0;
        append_refused(log, lengths[i], lengths[i] + 1, &good, 15);
        append_refused(log, lengths[i], lengths[i] + 1, &bad, 15);
        append_refused(log, lengths[i], SIZE_MAX, &good, 15);
        append_refused(log, lengths[i], SIZE_MAX - RECORD, &bad, 15);
    }
}

/* Every used length, and every room up to what is enough: the room is counted from the last whole record. */
static void no_room(void)
{
    const struct record record = record_of(100);
    for (size_t used = 0; used <= LOG; used++) {
        const size_t end = used / RECORD * RECORD + RECORD;
        for (size_t length = used; length < end; length++)
            append_refused(make_log(), length, used, &record, 15);
        EXPECT_NUMBER(record_append(make_log(), end, used, &record), (int64_t)end);
    }
}

static void short_lists(void)
{
    const uint8_t *log = make_log();
    for (size_t length = 0; length < RECORDS; length++) {
        read_refused(log, LOG + REST, length, RECORDS * BITS, RECORDS, 15);
        read_refused(log, LOG + REST, RECORDS, RECORDS * BITS, length, 15);
    }
    for (size_t length = 0; length < RECORDS * BITS; length++)
        read_refused(log, LOG + REST, RECORDS, length, RECORDS, 15);
    EXPECT(lent_same(&log_place));
}

const struct test refused_tests[] = {
    {"log: refusal 12", bad_mark},
    {"log: refusal 13", bad_cut},
    {"log: refusal 14", bad_number},
    {"log: the earliest record first, then 12, 13, 14", earliest_first},
    {"log: a new record's 13 and 14", new_record},
    {"log: refusal 15, a used length too long", used_too_long},
    {"log: refusal 15, no room for the record", no_room},
    {"log: refusal 15, short lists", short_lists},
    {0},
};
