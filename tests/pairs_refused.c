/* What 11 asks of pair numbers: each part alone, the first value that is refused and the nearest that is not. */
#include "detector.h"

#include <string.h>

static struct detector detector;

/* A Standard state by hand, behind a call of frame `last` with a set of `length` frames. Its pair numbers fall by one from `front` on. */
static void make(size_t lookahead, size_t count, uint64_t offset, uint64_t last, uint64_t length, uint64_t front)
{
    detector_make(&detector, STANDARD, lookahead);
    memset(detector.scores, 0, BRINE_SCORES * sizeof(double));
    detector_number(&detector, count, front);
    detector.numbers[OFFSET] = offset;
    detector.numbers[LAST] = last;
    detector.numbers[LENGTH] = length;
    detector.numbers[COUNT] = count;
}

/* The next call, with a set as long as the last. */
static struct step next_step(void)
{
    return step_of((size_t)detector.numbers[LENGTH], detector.numbers[LAST] + 1, 0, 5, 3, 40);
}

/* A good call gets 11, and so does one that 7, 8 and 10 refuse too. Nothing changes. */
static void refused(void)
{
    const struct step step = next_step(), bad = {.set = BRINE_SET_LIMIT + 1, .frame = 0, .previous = 1, .inter_count = 1};
    detector_refuses(&detector, &step, 11);
    detector_refuses(&detector, &bad, 11);
}

static void accepted(void)
{
    const struct step step = next_step();
    EXPECT(detector_step(&detector, &step) >= 0);
}

/* 11 lets the state in, and its last number stands in the way of every call. */
static void passes_to_7(void)
{
    const struct step step = next_step();
    detector_refuses(&detector, &step, 7);
}

/* From entry `place` on the numbers are larger by so much. */
static void shift(size_t place, uint64_t by)
{
    for (size_t entry = place; entry < detector.numbers[COUNT]; entry++)
        detector.numbers[PAIRS + entry] += by;
}

/* A good state, with as many entries as it may have: ten, or 15 without lookahead. */
static void make_good(size_t lookahead)
{
    if (lookahead >= 5)
        make(lookahead, 10, 5, 100, 7, 105);
    else
        make(lookahead, BRINE_ENTRIES - 1, 3, 100, 5, 103);
}

static void none_mode(void)
{
    make(5, 6, 5, 40, 7, 45);
    detector.numbers[MODE] = NONE;
    refused();
    detector.numbers[COUNT] = 0;
    accepted();
    make(4, 1, 0, 40, 2, 40);
    detector.numbers[MODE] = NONE;
    refused();
    detector.numbers[MODE] = FAST;
    accepted();
}

/* A last number of 0: the front, which is free or right, is not to blame. */
static void before_any_call(void)
{
    make(5, 6, 5, 0, 7, 5);
    refused();
    make(5, 6, 5, 1, 7, 6);
    accepted();
    make(5, 6, 5, 0, 0, 5);
    refused();
    make(4, 1, 0, 0, 2, 0);
    refused();
    make(4, 1, 0, 0, 0, 0);
    refused();
    make(4, 1, 0, 1, 2, 1);
    accepted();
    make(4, 0, 0, 0, 0, 0);
    accepted();
}

/* At each place: a fall of two, a rise, and numbers that are far apart or would meet in 32 bits. */
static void neighbours(void)
{
    static const uint64_t wrong[] = {(uint64_t)-1, 2, 3, 100, (uint64_t)1 << 32, (uint64_t)-1 << 32, (uint64_t)1 << 63};
    for (size_t lookahead = 4; lookahead <= 5; lookahead++) {
        make_good(lookahead);
        accepted();
        make_good(lookahead);
        const size_t count = (size_t)detector.numbers[COUNT];
        for (size_t place = 1; place < count; place++) {
            for (size_t i = 0; i < sizeof wrong / sizeof wrong[0]; i++) {
                make_good(lookahead);
                shift(place, wrong[i]);
                refused();
                make_good(lookahead);
                detector.numbers[PAIRS + place] += wrong[i];
                refused();
            }
            make_good(lookahead);
            shift(place, 1); /* equal */
            accepted();
        }
    }
}

/* One pair of equal neighbours may stand anywhere. Two may stand nowhere, not side by side either. */
static void equal_twice(void)
{
    for (size_t lookahead = 4; lookahead <= 5; lookahead++)
        for (size_t place = 1; place < (lookahead == 5 ? 10 : BRINE_ENTRIES - 1); place++) {
            for (size_t other = 1; other < place; other++) {
                make_good(lookahead);
                shift(place, 1);
                shift(other, 1);
                refused();
            }
            make_good(lookahead);
            shift(place, 1);
            accepted();
        }
    make_good(5);
    for (size_t entry = 0; entry < 10; entry++)
        detector.numbers[PAIRS + entry] = 105;
    refused();
}

/* Where the last length is above A, the front is the last number and o. */
static void front(void)
{
    for (size_t lookahead = 4; lookahead <= 5; lookahead++) {
        const uint64_t above = lookahead == 5 ? 6 : 1; /* the least length above A */
        for (uint64_t offset = 1; offset < 10; offset++) {
            const uint64_t wrong[] = {9, 40, 39 + offset, 41 + offset, ((uint64_t)1 << 32) + 40 + offset, UINT64_MAX};
            for (size_t i = 0; i < sizeof wrong / sizeof wrong[0]; i++)
                for (uint64_t length = above; length <= BRINE_SET_LIMIT; length += 5) {
                    make(lookahead, 10, offset, 40, length, wrong[i]);
                    refused();
                }
            make(lookahead, 10, offset, 40, above, 40 + offset);
            accepted();
        }
    }
}

/* Where it is A or less the front may be anything, 0 among it. Then no call has a score, so the numbers stay. */
static void free_front(void)
{
    static const uint64_t fronts[] = {9, 39, 44, 45, 46, (uint64_t)1 << 32, UINT64_MAX};
    for (size_t lookahead = 4; lookahead <= 5; lookahead++)
        for (uint64_t length = 0; length <= (lookahead == 5 ? 5 : 0); length++) {
            for (size_t i = 0; i < sizeof fronts / sizeof fronts[0]; i++) {
                make(lookahead, 10, 5, 40, length, fronts[i]);
                accepted();
                EXPECT_NUMBER((int64_t)detector_pair(&detector, 0), (int64_t)fronts[i]);
            }
            make(lookahead, 1, 0, 40, length, 0);
            accepted();
            make(lookahead, 2, 1, 40, length, 0);
            detector.numbers[PAIRS + 1] = 0;
            accepted();
        }
}

/* With no entry there is no front, and no number is read. */
static void no_entry(void)
{
    static const uint64_t rubbish[] = {0, 1, 45, UINT64_MAX};
    for (size_t i = 0; i < sizeof rubbish / sizeof rubbish[0]; i++)
        for (uint64_t length = 0; length <= BRINE_SET_LIMIT; length += 4) {
            make(5, 0, 5, 40, length, 0);
            for (size_t entry = 0; entry < BRINE_ENTRIES; entry++)
                detector.numbers[PAIRS + entry] = entry % 2 == 0 ? rubbish[i] : UINT64_MAX - rubbish[i];
            accepted();
        }
}

/* Sums are exact, and so are falls: none goes past the largest number to 0. */
static void no_wrap(void)
{
    make(5, 2, 1, UINT64_MAX, 7, 0);
    detector.numbers[PAIRS + 1] = 0; /* last number and o are 2^64, not 0 */
    refused();
    make(5, 2, 1, UINT64_MAX, 7, UINT64_MAX);
    refused();
    make(5, 2, 1, UINT64_MAX - 1, 7, UINT64_MAX);
    passes_to_7();
    make(5, 1, 0, UINT64_MAX, 7, UINT64_MAX);
    passes_to_7();
    make(5, 2, 1, UINT64_MAX, 5, 0);
    detector.numbers[PAIRS + 1] = 0; /* a free front */
    passes_to_7();
    make(5, 2, 1, 40, 5, 0); /* 0, and then 2^64 - 1 */
    refused();
    make(5, 2, 1, 40, 5, UINT64_MAX);
    detector.numbers[PAIRS + 1] = 0;
    refused();
    make(5, 2, 1, 40, 5, 1); /* 1, and then 0 */
    accepted();
}

/* A state with the numbers that it once had, thirteen, in a place of just that length. */
static void thirteen(void)
{
    const struct step s = step_of(7, 41, 0, 5, 3, 40);
    struct lent place;
    make(5, 0, 5, 40, 7, 0);
    uint64_t *const numbers = lent_make(&place, PAIRS * sizeof(uint64_t));
    memcpy(numbers, detector.numbers, PAIRS * sizeof(uint64_t));
    lent_keep(&place);
    lent_keep(&detector.lent_scores);
    EXPECT_NUMBER(brine_detector_step(numbers, PAIRS, detector.scores, BRINE_SCORES, s.set, s.frame, s.previous, s.inter,
                                      s.inter_count, s.importance, s.importance_count, s.threshold, s.threshold_count), -11);
    EXPECT_NUMBER(brine_detector_fresh(64, 48, 8, 5, STANDARD, 0, 250, numbers, PAIRS, detector.scores, BRINE_SCORES), -11);
    EXPECT(lent_same(&place) && lent_same(&detector.lent_scores));
    EXPECT(detector_step(&detector, &s) >= 2); /* with its sixteen more it is one */
}

const struct test pair_refused_tests[] = {
    {"pairs: 11, entries in None mode", none_mode},
    {"pairs: 11, entries before any call", before_any_call},
    {"pairs: 11, neighbours", neighbours},
    {"pairs: 11, equal neighbours twice", equal_twice},
    {"pairs: 11, the front", front},
    {"pairs: a free front", free_front},
    {"pairs: no entry, no front", no_entry},
    {"pairs: 11, no sum wraps", no_wrap},
    {"pairs: thirteen numbers are no state", thirteen},
    {0},
};
