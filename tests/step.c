/* The step's refusals, each with both lent places unchanged, and what an accepted step writes. */
#include "detector.h"

#include <math.h>
#include <string.h>

static struct detector detector;

/* A Standard detector with lookahead 5 that has taken frames 20 to 29, with sets of seven. */
static void running(uint32_t mode, size_t lookahead)
{
    detector_make(&detector, mode, lookahead);
    for (uint64_t frame = 20; frame < 30; frame++) {
        const struct step step = step_of(7, frame, 0, (double)(frame % 4), 3, 40);
        EXPECT(detector_step(&detector, &step) >= 0);
    }
}

static struct step next_step(void)
{
    return step_of(7, 30, 12, 5, 3, 40);
}

/* Nothing but this number is at fault: a larger count finds good entries, and a last length of 5 leaves the front's pair number free. */
static void refuses_number(size_t place, uint64_t value)
{
    const struct step step = step_of(5, 30, 12, 5, 3, 40);
    running(STANDARD, 5);
    for (size_t i = detector.numbers[COUNT] * BRINE_SCORE_DOUBLES; i < BRINE_SCORES; i++)
        detector.scores[i] = 0;
    detector_number(&detector, BRINE_ENTRIES, 34);
    detector.numbers[LENGTH] = 5;
    detector.numbers[place] = value;
    detector_refuses(&detector, &step, 11);
}

static void refusal_11_numbers(void)
{
    static const size_t sides[] = {WIDTH, HEIGHT};
    for (size_t i = 0; i < 2; i++) {
        refuses_number(sides[i], 0);
        refuses_number(sides[i], 8193);
        refuses_number(sides[i], ((uint64_t)1 << 32) + 64);
        refuses_number(sides[i], UINT64_MAX);
    }
    refuses_number(DEPTH, 0);
    refuses_number(DEPTH, 9);
    refuses_number(DEPTH, 11);
    refuses_number(DEPTH, 16);
    refuses_number(DEPTH, ((uint64_t)1 << 32) + 8);
    refuses_number(DEPTH, ((uint64_t)1 << 32) + 10);
    refuses_number(MODE, 3);
    refuses_number(MODE, ((uint64_t)1 << 32) + 2);
    refuses_number(COUNT, 11);
    refuses_number(COUNT, BRINE_ENTRIES);
    refuses_number(COUNT, UINT64_MAX);
    refuses_number(COUNT, ((uint64_t)1 << 32) + 10);
    refuses_number(COUNT, 5);  /* o is 5 */
    refuses_number(OFFSET, 10);
    refuses_number(OFFSET, UINT64_MAX);
    refuses_number(OFFSET, ((uint64_t)1 << 32) + 5);
    refuses_number(PAIRS + 1, 32);
    refuses_number(PAIRS + 9, ((uint64_t)1 << 32) + 25);
}

/* The count's limit without lookahead, behind a call of frame 100, and o of an empty deque. */
static void refusal_11_counts(void)
{
    struct step step = step_of(2, 101, 0, 5, 3, 40);
    detector_make(&detector, STANDARD, 4);
    memset(detector.scores, 0, BRINE_SCORES * sizeof(double));
    detector_number(&detector, BRINE_ENTRIES, 100);
    detector.numbers[LAST] = 100;
    detector.numbers[LENGTH] = 2;
    detector.numbers[COUNT] = BRINE_ENTRIES;
    detector_refuses(&detector, &step, 11);
    detector.numbers[COUNT] = BRINE_ENTRIES - 1;
    EXPECT_NUMBER(detector_step(&detector, &step), 2);
    step.frame = 1;
    detector_make(&detector, STANDARD, 4);
    detector.numbers[OFFSET] = 1;
    detector_refuses(&detector, &step, 11);
    detector_make(&detector, STANDARD, 5);
    detector.numbers[OFFSET] = 4;
    detector_refuses(&detector, &step, 11);
}

static void refusal_11_entries(void)
{
    const double bad[] = {NAN, INFINITY, -INFINITY, -1.0, -5e-324};
    const struct step step = next_step();
    for (size_t entry = 0; entry < 10; entry++) {
        running(STANDARD, 5);
        detector.scores[BRINE_SCORE_DOUBLES * entry + INTER] = bad[entry % 5];
        detector_refuses(&detector, &step, 11);
    }
    running(STANDARD, 5);
    for (size_t entry = 0; entry < 10; entry++)
        detector.scores[BRINE_SCORE_DOUBLES * entry + INTER] = -0.0; /* not below 0 */
    for (size_t entry = 10; entry < BRINE_ENTRIES; entry++) { /* past the count: no part of the state */
        detector.scores[BRINE_SCORE_DOUBLES * entry + INTER] = NAN;
        detector.numbers[PAIRS + entry] = UINT64_MAX;
    }
    EXPECT(detector_step(&detector, &step) >= 2);
}

static void refusal_11_lengths(void)
{
    static const size_t lengths[][2] = {
        {BRINE_NUMBERS - 1, BRINE_SCORES}, {BRINE_NUMBERS + 1, BRINE_SCORES}, {0, BRINE_SCORES},
        {BRINE_NUMBERS, BRINE_SCORES - 1}, {BRINE_NUMBERS, BRINE_SCORES + 1}, {BRINE_NUMBERS, 0},
        {BRINE_NUMBERS, BRINE_SCORES - BRINE_SCORE_DOUBLES}, {PAIRS, BRINE_SCORES},
    };
    const struct step s = next_step();
    running(STANDARD, 5);
    lent_keep(&detector.lent_numbers);
    lent_keep(&detector.lent_scores);
    for (size_t i = 0; i < sizeof lengths / sizeof lengths[0]; i++)
        EXPECT_NUMBER(brine_detector_step(detector.numbers, lengths[i][0], detector.scores, lengths[i][1], s.set,
                                          s.frame, s.previous, s.inter, 6, s.importance, 6, s.threshold, 6),
                      -11);
    EXPECT(lent_same(&detector.lent_numbers));
    EXPECT(lent_same(&detector.lent_scores));
}

static void refuses_step(struct step step, int64_t number)
{
    running(STANDARD, 5);
    detector_refuses(&detector, &step, number);
}

#define REFUSED(number, ...)                                                                                           \
    do {                                                                                                              \
        struct step s = next_step();                                                                                  \
        __VA_ARGS__;                                                                                                  \
        refuses_step(s, number);                                                                                      \
    } while (0)

static void refusal_7(void)
{
    REFUSED(7, s.frame = 0, s.previous = 0);
    REFUSED(7, s.frame = 29);
    REFUSED(7, s.frame = 31);
    REFUSED(7, s.previous = 31);
    REFUSED(7, s.previous = UINT64_MAX);
    REFUSED(7, s.frame = ((uint64_t)1 << 32) + 30);

    detector_make(&detector, STANDARD, 5);
    struct step step = step_of(7, (uint64_t)1 << 32, 0, 1, 1, 1);
    detector_refuses(&detector, &step, 7);
    step.frame = 0;
    detector_refuses(&detector, &step, 7);
    step.frame = ((uint64_t)1 << 32) - 1;
    EXPECT_NUMBER(detector_step(&detector, &step), 3); /* at a distance of max, 2^32 - 1 */
    step.frame++;
    detector_refuses(&detector, &step, 7);
    detector.numbers[LAST] = UINT64_MAX; /* ends a detector: every number is refused, if the front's pair number is free */
    detector.numbers[LENGTH] = 5;
    step = step_of(5, 0, 0, 1, 1, 1);
    detector_refuses(&detector, &step, 7);
}

static void refusal_8(void)
{
    REFUSED(8, s = step_of(8, 30, 12, 5, 3, 40));
    REFUSED(8, s.set = SIZE_MAX);
    detector_make(&detector, STANDARD, 5);
    struct step step = step_of(BRINE_SET_LIMIT + 1, 1, 0, 1, 1, 1);
    detector_refuses(&detector, &step, 8);
}

/* A set of one frame, no lookahead, o = 0; with an empty deque and with entries. */
static void refusal_9(void)
{
    struct step one = step_of(1, 1, 0, 0, 0, 0);
    for (uint32_t mode = FAST; mode <= STANDARD; mode++) {
        detector_make(&detector, mode, 4);
        detector_refuses(&detector, &one, 9);
        struct step two = step_of(2, 1, 0, 1, 1, 1);
        EXPECT_NUMBER(detector_step(&detector, &two), 2);
        struct step next = step_of(1, 2, 0, 0, 0, 0);
        detector_refuses(&detector, &next, 9);
    }
    detector_make(&detector, NONE, 4);
    EXPECT_NUMBER(detector_step(&detector, &one), 0);
    detector_make(&detector, STANDARD, 5);
    EXPECT_NUMBER(detector_step(&detector, &one), 0);
}

/* Each list that Standard mode reads, and the one that Fast mode does. */
static void refusal_10(void)
{
    const double bad[] = {NAN, -NAN, INFINITY, -INFINITY, -1.0, -5e-324};
    REFUSED(10, s.inter_count = 5);
    REFUSED(10, s.inter_count = 7);
    REFUSED(10, s.importance_count = 5);
    REFUSED(10, s.importance_count = 7);
    REFUSED(10, s.threshold_count = 0);
    REFUSED(10, s.threshold_count = 7);
    for (size_t item = 0; item < 6; item++)
        for (size_t i = 0; i < sizeof bad / sizeof bad[0]; i++) {
            REFUSED(10, s.inter[item] = bad[i]);
            REFUSED(10, s.importance[item] = bad[i]);
            REFUSED(10, s.threshold[item] = bad[i]);
            struct step fast = next_step();
            fast.inter[item] = bad[i];
            running(FAST, 5);
            detector_refuses(&detector, &fast, 10);
        }
}

/* What looks bad and is accepted: -0.0, and lists that the mode does not read. */
static void accepted(void)
{
    struct step step = next_step();
    running(STANDARD, 5);
    step.inter[1] = step.importance[1] = step.threshold[1] = -0.0;
    EXPECT(detector_step(&detector, &step) >= 2);
    running(FAST, 5);
    step = step_of(7, 30, 12, 5, NAN, NAN);
    step.threshold[2] = -1;
    step.importance_count = 3;
    EXPECT(detector_step(&detector, &step) >= 2);
    running(NONE, 5);
    step = step_of(7, 30, 12, NAN, NAN, -1);
    step.inter_count = step.importance_count = step.threshold_count = 2;
    EXPECT_NUMBER(detector_step(&detector, &step), 0);
}

static void order(void)
{
    const struct step bad = {.set = BRINE_SET_LIMIT + 1, .frame = 0, .inter_count = 1};
    running(STANDARD, 5);
    detector.numbers[DEPTH] = 9;
    detector_refuses(&detector, &bad, 11);
    REFUSED(7, s = bad);
    REFUSED(8, s = bad, s.frame = 30);
    REFUSED(10, s = bad, s.frame = 30, s.set = 7);
    detector_make(&detector, STANDARD, 4);
    struct step one = step_of(1, 1, 0, 0, 0, 0);
    one.inter_count = 9;
    detector_refuses(&detector, &one, 9);
}

/* Numbers that 11 does not bound are carried exactly, through an accepted step too. */
static void carried(void)
{
    const struct step step = next_step();
    running(STANDARD, 5);
    const uint64_t huge = ((uint64_t)1 << 40) + 9;
    detector.numbers[LOOKAHEAD] = huge;
    detector.numbers[MIN] = huge + 1;
    detector.numbers[MAX] = huge + 2;
    detector.numbers[FIRST] = huge + 3;
    EXPECT_NUMBER(detector_step(&detector, &step), 2);
    const uint64_t want[PAIRS] = {64, 48, 8, huge, STANDARD, huge + 1, huge + 2, 5, 30, 7, huge + 3, huge + 2, 10};
    EXPECT(detector_holds(&detector, want, 35));
}

/* The release number is not below 0, in a state too that no run comes to: its first number is 0. */
static void release_at_0(void)
{
    const struct step step = step_of(7, 6, 0, 5, 3, 40);
    running(STANDARD, 5);
    detector.numbers[LAST] = 5;
    detector.numbers[FIRST] = 0;
    detector_number(&detector, 10, 10);
    EXPECT_NUMBER(detector_step(&detector, &step), 2);
    const uint64_t want[PAIRS] = {64, 48, 8, 5, STANDARD, 0, UINT32_MAX, 5, 6, 7, 0, 0, 10};
    EXPECT(detector_holds(&detector, want, 11));
}

/* Rule 2: only last number and last length change, and on a first call the first and the release number. */
static void short_set(void)
{
    const struct step step = step_of(4, 30, 12, 5, 3, 40);
    running(STANDARD, 5);
    EXPECT_NUMBER(detector_step(&detector, &step), 0);
    const uint64_t want[PAIRS] = {64, 48, 8, 5, STANDARD, 0, UINT32_MAX, 5, 30, 4, 20, 19, 10};
    EXPECT(detector_holds(&detector, want, 34));
    EXPECT(lent_same(&detector.lent_scores));
}

const struct test step_tests[] = {
    {"step: refusal 11, numbers", refusal_11_numbers},
    {"step: refusal 11, counts", refusal_11_counts},
    {"step: refusal 11, entries", refusal_11_entries},
    {"step: refusal 11, lengths of the lent places", refusal_11_lengths},
    {"step: refusal 7", refusal_7},
    {"step: refusal 8", refusal_8},
    {"step: refusal 9", refusal_9},
    {"step: refusal 10", refusal_10},
    {"step: what is accepted", accepted},
    {"step: the order of refusals", order},
    {"step: numbers carried exactly", carried},
    {"step: the release number is not below 0", release_at_0},
    {"step: a short set", short_set},
    {0},
};
