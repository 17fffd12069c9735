/* NaNs where there may be one. The place of a single result holds it, and the call is refused: the very bits must be there again. The
   proofs cannot tell one NaN from another, so this is seen here alone. Or a state holds some, from a time when lists could: it is taken,
   and a NaN is never at or above. */
#include "detector.h"

#include <string.h>

typedef int64_t two_planes(uint32_t depth,
    const uint8_t *first, size_t first_len, size_t width, size_t height, size_t stride, size_t origin,
    const uint8_t *second, size_t second_len, size_t width2, size_t height2, size_t stride2, size_t origin2, double *out);

/* Quiet and signalling ones, of both signs. */
static const uint64_t nans[] = {0x7ff8dead0000beef, 0xfff8000000000001, 0x7ff0000000000001, 0xfff4123456789abd};

enum { NANS = sizeof nans / sizeof nans[0] };

typedef int64_t two_deep_planes(uint32_t depth,
    const uint16_t *first, size_t first_len, size_t width, size_t height, size_t stride, size_t origin,
    const uint16_t *second, size_t second_len, size_t width2, size_t height2, size_t stride2, size_t origin2, double *out);

static struct lent place;
static double *out;

/* Puts a NaN as bytes, since a move through a register may make a signalling one quiet. */
static void put_nan(double *at, size_t which)
{
    memcpy(at, &nans[which], sizeof nans[which]);
}

/* Lends the place with that NaN in it. */
static void lend_nan(size_t which)
{
    out = lent_make(&place, sizeof *out);
    put_nan(out, which);
    lent_keep(&place);
}

/* Each refusal of two planes, of the first and of the second. */
static const struct row {
    int64_t number;
    size_t len, width, len2, width2;
} rows[] = {{5, 64, 8, 64, 8}, {1, 64, 0, 64, 8}, {1, 64, 8, 64, 0}, {2, 63, 8, 64, 8},
            {2, 64, 8, 0, 8},  {3, 64, 8, 64, 7}, {19, 64, 7, 64, 7}, {16, 64, 8, 64, 8}};

enum { ROWS = sizeof rows / sizeof rows[0] };

/* 19 is of importance alone, and 16 of deep planes. */
static bool is_given(int64_t number, bool by_blocks, bool deep)
{
    return (number != 19 || by_blocks) && (number != 16 || deep);
}

static void kept_by(two_planes *measure, bool by_blocks)
{
    static const uint8_t samples[64];
    for (size_t i = 0; i < ROWS; i++)
        for (size_t which = 0; which < NANS && is_given(rows[i].number, by_blocks, false); which++) {
            lend_nan(which);
            EXPECT_NUMBER(measure(rows[i].number == 5 ? 10 : 8, samples, rows[i].len, rows[i].width, 8, 8, 0, samples,
                                  rows[i].len2, rows[i].width2, 8, 8, 0, out),
                          -rows[i].number);
            EXPECT(lent_same(&place));
        }
}

static void kept_by_deep(two_deep_planes *measure, bool by_blocks)
{
    static const uint16_t samples[64], large[64] = {[63] = 4096};
    for (size_t i = 0; i < ROWS; i++)
        for (size_t which = 0; which < NANS && is_given(rows[i].number, by_blocks, true); which++) {
            lend_nan(which);
            EXPECT_NUMBER(measure(rows[i].number == 5 ? 8 : 12, samples, rows[i].len, rows[i].width, 8, 8, 0,
                                  rows[i].number == 16 ? large : samples, rows[i].len2, rows[i].width2, 8, 8, 0, out),
                          -rows[i].number);
            EXPECT(lent_same(&place));
        }
}

static void delta(void)
{
    kept_by(brine_delta, false);
    kept_by_deep(brine_delta16, false);
}

static void importance(void)
{
    kept_by(brine_importance, true);
    kept_by_deep(brine_importance16, true);
}

static void threshold(void)
{
    static const uint32_t costs[3];
    static const struct {
        size_t length, count;
        int64_t number;
    } calls[] = {{3, 4, 4}, {0, 1, 4}, {3, SIZE_MAX, 4}, {0, 0, 19}, {3, 0, 19}};
    for (size_t i = 0; i < sizeof calls / sizeof calls[0]; i++)
        for (size_t which = 0; which < NANS; which++) {
            lend_nan(which);
            EXPECT_NUMBER(brine_threshold(costs, calls[i].length, calls[i].count, out), -calls[i].number);
            EXPECT(lent_same(&place));
        }
}

/* States by hand, of ten entries, behind call 40. The next call decides on one of them, whose importance reaches the bound and whose
   forward cost is over its threshold. In the first state it alone is over: a cut. In the second an entry before it is over too, in the
   third one behind it and the new one in front: these are flashes. */
enum state { CUT, FLASH_BEFORE, FLASH_BEHIND, STATES };
enum { ENTRIES = 10, DECIDED = 4, BEFORE = 2, BEHIND = 7 };
enum { OTHERS = BRINE_SCORE_DOUBLES - 1 }; /* numbers of an entry beside the inter cost, where alone 11 forbids a NaN */

static struct detector detector;

static double *entry_at(size_t entry)
{
    return detector.scores + BRINE_SCORE_DOUBLES * entry;
}

static void make_state(enum state state)
{
    static const double still[] = {0, 0, 0, 0, 10}, decided[] = {50, 12, 0, 50, 10};
    static const double before[] = {20, 0, 0, 20, 10}, behind[] = {0, 0, 20, 0, 10};
    detector_make(&detector, STANDARD, 5);
    for (size_t entry = 0; entry < ENTRIES; entry++)
        memcpy(entry_at(entry), still, sizeof still);
    memcpy(entry_at(DECIDED), decided, sizeof decided);
    if (state == FLASH_BEFORE)
        memcpy(entry_at(BEFORE), before, sizeof before);
    if (state == FLASH_BEHIND)
        memcpy(entry_at(BEHIND), behind, sizeof behind);
    detector_number(&detector, ENTRIES, 45);
    detector.numbers[LAST] = 40;
    detector.numbers[LENGTH] = 7;
    detector.numbers[COUNT] = ENTRIES;
}

/* The new pair is still. With a threshold of 0 it is over. */
static int64_t decide(enum state state)
{
    const struct step step = step_of(7, 41, 12, 0, 0, state == FLASH_BEHIND ? 0 : 10);
    return detector_step(&detector, &step);
}

/* What is decided with a NaN in one number of one entry. It may take away a reason for the cut, or what made it a flash. */
static int64_t wanted(enum state state, size_t entry, size_t number)
{
    if (entry == DECIDED && number != BACKWARD)
        return 2;
    const bool before = entry == BEFORE && (number == FORWARD || number == THRESHOLD);
    const bool behind = entry == BEHIND && (number == BACKWARD || number == THRESHOLD);
    return state == CUT || (state == FLASH_BEFORE && before) || (state == FLASH_BEHIND && behind) ? 3 : 2;
}

/* Each number but the inter cost, of each entry. The call is accepted, and the NaN stays in its entry, which is one place further behind.
   But the front's forward cost is made anew, and the last entry falls out. */
static void in_states(void)
{
    for (size_t i = 0; i < STATES * ENTRIES * OTHERS * NANS; i++) {
        const enum state state = (enum state)(i % STATES);
        const size_t entry = i / STATES % ENTRIES, number = IMPORTANCE + i / STATES / ENTRIES % OTHERS;
        make_state(state);
        put_nan(entry_at(entry) + number, i / STATES / ENTRIES / OTHERS);
        EXPECT_NUMBER(decide(state), wanted(state, entry, number));
        EXPECT(detector_kept(&detector));
        const double now = detector_score(&detector, entry + 1, number);
        EXPECT(entry + 1 == ENTRIES || (now != now) == (entry != 0 || number != FORWARD));
    }
}

/* The states themselves, and a state of NaNs wherever there may be one: no cut. */
static void in_all_entries(void)
{
    for (enum state state = CUT; state < STATES; state++) {
        make_state(state);
        EXPECT_NUMBER(decide(state), state == CUT ? 3 : 2);
        make_state(state);
        for (size_t i = 0; i < ENTRIES * OTHERS; i++)
            put_nan(entry_at(i / OTHERS) + IMPORTANCE + i % OTHERS, i % NANS);
        EXPECT_NUMBER(decide(state), 2);
    }
}

const struct test nan_tests[] = {
    {"refused, a NaN keeps its bits: delta", delta},
    {"refused, a NaN keeps its bits: importance", importance},
    {"refused, a NaN keeps its bits: threshold", threshold},
    {"a NaN in a state: it is never at or above", in_states},
    {"NaNs in all entries of a state: accepted, no cut", in_all_entries},
    {0},
};
