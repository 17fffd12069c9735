/* Power cuts: a torn rest, and an append of which any beginning may have reached the card. */
#include "records.h"

#include <string.h>

enum { MOST = 3 }; /* records before the rest, at most */

static struct lent log_place, torn_place;

/* So many records, then a rest of `rest` bytes that is no beginning of a record, or one that is, by `like_record`. There is
   room for two records more. */
static uint8_t *torn_log(size_t records, size_t rest, bool like_record)
{
    uint8_t *log = lent_make(&log_place, (records + 2) * RECORD);
    uint8_t next[RECORD];
    const struct record record = record_of(5);

    record_bytes(next, &record);
    if (!like_record)
        memset(next, 0xFF, sizeof next);
    records_put(log, records);
    memcpy(log + records * RECORD, next, rest);
    lent_keep(&log_place);
    return log;
}

static void scan_gives(const uint8_t *log, size_t length, size_t records)
{
    const uint64_t rest = length - records * RECORD;
    uint64_t *torn = lent_make(&torn_place, sizeof *torn);
    EXPECT_NUMBER(brine_log_scan(log, length, torn), (int64_t)records);
    EXPECT(lent_holds(&torn_place, &rest));
}

static void read_gives(const uint8_t *log, size_t length, size_t records)
{
    const uint64_t rest = length - records * RECORD;
    uint32_t numbers[MOST + 1];
    uint64_t bits[(MOST + 1) * BITS];
    uint8_t cuts[MOST + 1], bytes[RECORD];
    uint64_t *torn = lent_make(&torn_place, sizeof *torn);

    EXPECT_NUMBER(brine_log_read(log, length, numbers, MOST + 1, bits, (MOST + 1) * BITS, cuts, MOST + 1, torn),
                  (int64_t)records);
    EXPECT(lent_holds(&torn_place, &rest));
    for (size_t k = 0; k < records; k++) {
        struct record record = {.number = numbers[k], .cut = cuts[k]};
        memcpy(record.bits, bits + k * BITS, sizeof record.bits);
        record_bytes(bytes, &record);
        EXPECT(memcmp(bytes, log + k * RECORD, RECORD) == 0);
    }
}

/* A rest of any length gives its length, whatever its bytes are. */
static void rest_is_not_tested(void)
{
    for (size_t records = 0; records <= MOST; records++)
        for (size_t rest = 0; rest < RECORD; rest++)
            for (int like_record = 0; like_record < 2; like_record++) {
                const uint8_t *log = torn_log(records, rest, like_record);
                scan_gives(log, records * RECORD + rest, records);
                read_gives(log, records * RECORD + rest, records);
                EXPECT(lent_same(&log_place));
            }
}

/* The whole log behind an append over any rest: the old records, the new one, and then what was there. */
static void append_goes_over_a_rest(void)
{
    uint8_t want[(MOST + 2) * RECORD];
    for (size_t records = 0; records <= MOST; records++)
        for (size_t rest = 0; rest < RECORD; rest++) {
            const struct record next = record_of(1000);
            uint8_t *log = torn_log(records, rest, false);
            memcpy(want, log, (records + 2) * RECORD);
            record_bytes(want + records * RECORD, &next);
            EXPECT_NUMBER(record_append(log, (records + 2) * RECORD, records * RECORD + rest, &next),
                          (int64_t)((records + 1) * RECORD));
            EXPECT(lent_holds(&log_place, want));
        }
}

/* The end of a log alone, its last whole record and the rest, gives the same record. */
static void end_alone(void)
{
    uint8_t whole[(MOST + 2) * RECORD];
    const struct record next = record_of(1000), low = record_of(10);
    for (size_t records = 1; records <= MOST; records++)
        for (size_t rest = 0; rest < RECORD; rest++) {
            const size_t before = (records - 1) * RECORD;
            uint8_t *log = torn_log(records, rest, false);
            memcpy(whole, log, (records + 2) * RECORD);
            EXPECT_NUMBER(record_append(whole, (records + 2) * RECORD, records * RECORD + rest, &next),
                          (int64_t)(before + 2 * RECORD));
            EXPECT_NUMBER(record_append(log + before, 2 * RECORD, RECORD + rest, &low), -14);
            EXPECT(lent_same(&log_place));
            EXPECT_NUMBER(record_append(log + before, 2 * RECORD, RECORD + rest, &next), 2 * RECORD);
            EXPECT(lent_holds(&log_place, whole));
        }
}

/* An append over a rest of `rest` bytes is cut short: `kept` of its bytes are on the card. */
static void cut_at(size_t records, size_t rest, size_t kept)
{
    const size_t old = records * RECORD;
    const struct record next = record_of(1000);
    uint8_t want[(MOST + 2) * RECORD], bytes[RECORD];
    uint8_t *log = torn_log(records, rest, false);

    record_bytes(bytes, &next);
    memcpy(want, log, old + 2 * RECORD);
    memcpy(want + old, bytes, RECORD);
    memcpy(log + old, bytes, kept);
    lent_keep(&log_place);
    const size_t length = old + (kept > rest ? kept : rest);
    scan_gives(log, length, kept == RECORD ? records + 1 : records);
    read_gives(log, length, kept == RECORD ? records + 1 : records);
    if (kept == RECORD) {
        EXPECT_NUMBER(record_append(log, old + 2 * RECORD, length, &next), -14);
        EXPECT(lent_same(&log_place));
    } else {
        EXPECT_NUMBER(record_append(log, old + 2 * RECORD, length, &next), (int64_t)(old + RECORD));
    }
    EXPECT(lent_holds(&log_place, want));
}

/* A cut at every byte over every rest: the reader has the old records, and the new one once it is whole. Appending again
   gives the bytes of the append that was not cut. */
static void cuts_at_every_byte(void)
{
    for (size_t records = 0; records <= MOST; records++)
        for (size_t rest = 0; rest < RECORD; rest++)
            for (size_t kept = 0; kept <= RECORD; kept++)
                cut_at(records, rest, kept);
}

const struct test torn_tests[] = {
    {"log: a torn rest is not tested", rest_is_not_tested},
    {"log: an append goes over a torn rest", append_goes_over_a_rest},
    {"log: the end of a log alone", end_alone},
    {"log: an append that is cut at every byte", cuts_at_every_byte},
    {0},
};
