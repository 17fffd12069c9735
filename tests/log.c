/* The log: the layout of a record, what is written of a score, what is read, the lent places. */
#include "records.h"

#include <string.h>

static struct lent log_place, numbers_place, bits_place, cuts_place, torn_place;

/* Bits of doubles that are not NaN: zeros, the largest, infinities, the smallest and the largest denormal. */
static const uint64_t plain[] = {0,
                                 0x8000000000000000,
                                 0x3FF0000000000000,
                                 0x7FEFFFFFFFFFFFFF,
                                 0x7FF0000000000000,
                                 0xFFF0000000000000,
                                 0x0000000000000001,
                                 0x8000000000000001,
                                 0x000FFFFFFFFFFFFF,
                                 0x0123456789ABCDEF};

/* NaNs of both signs, quiet and signalling, with and without a payload. */
static const uint64_t nans[] = {0x7FF8000000000000, 0xFFF8000000000000, 0x7FF8DEAD0000BEEF, 0xFFF8000000000001,
                                0x7FF0000000000001, 0xFFF4123456789ABD, 0x7FFFFFFFFFFFFFFF, 0xFFFFFFFFFFFFFFFF};

enum { PLAIN = sizeof plain / sizeof plain[0], NANS = sizeof nans / sizeof nans[0] };

/* One record, byte by byte: frame 305,419,896; 2.5, 0.1, the largest double, a NaN, 18; a cut. docs/FORMATS.md shows it. */
static const uint8_t shown[RECORD] = {
    0x53, 0x43,                                     /* the mark */
    0x78, 0x56, 0x34, 0x12,                         /* the frame number */
    0x00, 0x00, 0x00, 0x00, 0x00, 0x00, 0x04, 0x40, /* the inter cost */
    0x9A, 0x99, 0x99, 0x99, 0x99, 0x99, 0xB9, 0x3F, /* the importance */
    0xFF, 0xFF, 0xFF, 0xFF, 0xFF, 0xFF, 0xEF, 0x7F, /* the backward cost */
    0x00, 0x00, 0x00, 0x00, 0x00, 0x00, 0xF8, 0x7F, /* the forward cost */
    0x00, 0x00, 0x00, 0x00, 0x00, 0x00, 0x32, 0x40, /* the threshold */
    0x01};                                          /* a cut */

static const struct record shown_parts = {
    305419896, {0x4004000000000000, 0x3FB999999999999A, 0x7FEFFFFFFFFFFFFF, 0xFFF8000000000123, 0x4032000000000000}, 1};

static void layout_written(void)
{
    uint8_t *log = lent_make(&log_place, RECORD);
    EXPECT_NUMBER(record_append(log, RECORD, 0, &shown_parts), RECORD);
    EXPECT(lent_holds(&log_place, shown));
}

/* The lists of a read, with room for so many records. */
static int64_t read_log(const uint8_t *log, size_t length, size_t room)
{
    uint32_t *numbers = lent_make(&numbers_place, room * sizeof *numbers);
    uint64_t *bits = lent_make(&bits_place, room * BITS * sizeof *bits);
    uint8_t *cuts = lent_make(&cuts_place, room);
    uint64_t *torn = lent_make(&torn_place, sizeof *torn);
    return brine_log_read(log, length, numbers, room, bits, room * BITS, cuts, room, torn);
}

/* The last read gave these records and this rest, and left every other place as it was. */
static void was_read(const struct record *records, size_t count, uint64_t torn)
{
    static struct lent numbers, bits, cuts;
    numbers = numbers_place;
    bits = bits_place;
    cuts = cuts_place;
    for (size_t k = 0; k < count; k++) {
        memcpy(numbers.kept + GUARD + 4 * k, &records[k].number, 4);
        memcpy(bits.kept + GUARD + 8 * BITS * k, records[k].bits, sizeof records[k].bits);
        cuts.kept[GUARD + k] = (uint8_t)records[k].cut;
    }
    EXPECT(lent_same(&numbers) && lent_same(&bits) && lent_same(&cuts));
    EXPECT(lent_holds(&torn_place, &torn));
}

static void layout_read(void)
{
    struct record want = shown_parts;
    want.bits[3] = ONE_NAN;
    EXPECT_NUMBER(read_log(shown, RECORD, 1), 1);
    was_read(&want, 1, 0);
}

/* Each pattern in each of the five places: written, and read again. */
static void one_value(uint64_t bits, size_t place, uint64_t want)
{
    struct record record = record_of(7);
    uint8_t bytes[RECORD];
    uint8_t *log = lent_make(&log_place, RECORD);

    record.bits[place] = bits;
    EXPECT_NUMBER(record_append(log, RECORD, 0, &record), RECORD);
    record.bits[place] = want;
    record_bytes(bytes, &record);
    EXPECT(lent_holds(&log_place, bytes));
    EXPECT_NUMBER(read_log(log, RECORD, 1), 1);
    was_read(&record, 1, 0);
}

static void values(void)
{
    for (size_t place = 0; place < BITS; place++) {
        for (size_t i = 0; i < PLAIN; i++)
            one_value(plain[i], place, plain[i]);
        for (size_t i = 0; i < NANS; i++)
            one_value(nans[i], place, ONE_NAN);
    }
}

/* A foreign writer's NaNs are read as they stand, and an append leaves them so. */
static void foreign_nans(void)
{
    uint8_t *log = lent_make(&log_place, (NANS + 1) * RECORD);
    uint8_t want[(NANS + 1) * RECORD];
    struct record records[NANS + 1];

    for (size_t k = 0; k <= NANS; k++) {
        records[k] = record_of((uint32_t)k);
        if (k < NANS)
            records[k].bits[k % BITS] = nans[k];
        record_bytes(want + k * RECORD, &records[k]);
    }
    memcpy(log, want, NANS * RECORD);
    EXPECT_NUMBER(read_log(log, NANS * RECORD, NANS), NANS);
    was_read(records, NANS, 0);
    EXPECT_NUMBER(record_append(log, sizeof want, NANS * RECORD, &records[NANS]), sizeof want);
    EXPECT(lent_holds(&log_place, want));
}

/* From 0 to the largest number, with gaps, each appended behind the others; the room is exact. */
static void numbers_rise(void)
{
    static const uint32_t rising[] = {0, 1, 255, 256, 65535, 65536, 0x7FFFFFFF, 0x80000000, UINT32_MAX - 1, UINT32_MAX};
    enum { COUNT = sizeof rising / sizeof rising[0] };
    struct record records[COUNT];
    uint8_t want[COUNT * RECORD];
    uint8_t *log = lent_make(&log_place, sizeof want);

    for (size_t k = 0; k < COUNT; k++) {
        records[k] = record_of(rising[k]);
        record_bytes(want + k * RECORD, &records[k]);
        EXPECT_NUMBER(record_append(log, (k + 1) * RECORD, k * RECORD, &records[k]), (int64_t)((k + 1) * RECORD));
    }
    EXPECT(lent_holds(&log_place, want));
    EXPECT_NUMBER(read_log(log, sizeof want, COUNT), COUNT);
    was_read(records, COUNT, 0);
    EXPECT_NUMBER(read_log(log, sizeof want, COUNT + 3), COUNT); /* places past the records stay */
    was_read(records, COUNT, 0);
}

static void empty_log(void)
{
    uint64_t zero = 0, *torn = lent_make(&torn_place, sizeof *torn);
    EXPECT_NUMBER(brine_log_scan(NULL, 0, torn), 0);
    EXPECT(lent_holds(&torn_place, &zero));
    torn = lent_make(&torn_place, sizeof *torn);
    EXPECT_NUMBER(brine_log_read(NULL, 0, NULL, 0, NULL, 0, NULL, 0, torn), 0);
    EXPECT(lent_holds(&torn_place, &zero));
    const struct record record = record_of(0);
    EXPECT_NUMBER(record_append(NULL, 0, 0, &record), -15);
}

/* A log at any address. */
static void unaligned(void)
{
    const struct record records[] = {record_of(10), record_of(20), record_of(30)};
    uint8_t want[9 + 3 * RECORD];

    for (size_t at = 0; at < 9; at++) {
        uint8_t *log = lent_make(&log_place, at + 3 * RECORD);
        memcpy(want, log, at);
        records_put(want + at, 3);
        records_put(log + at, 2);
        EXPECT_NUMBER(record_append(log + at, 3 * RECORD, 2 * RECORD, &records[2]), 3 * RECORD);
        EXPECT(lent_holds(&log_place, want));
        EXPECT_NUMBER(read_log(log + at, 3 * RECORD, 3), 3);
        was_read(records, 3, 0);
    }
}

const struct test log_tests[] = {
    {"log: a record's bytes, written", layout_written},
    {"log: a record's bytes, read", layout_read},
    {"log: each double, one pattern for a NaN", values},
    {"log: foreign NaNs are read as they stand", foreign_nans},
    {"log: numbers rise, exact room, places past the records stay", numbers_rise},
    {"log: an empty log", empty_log},
    {"log: at any address", unaligned},
    {0},
};
