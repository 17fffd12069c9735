/* The detector at its three depths: the thresholds, and decisions just below and at them. */
#include "detector.h"

#include <math.h>

/* Each threshold, and the double below it. */
static const struct {
    uint32_t depth;
    double fast, below_fast, importance, below_importance;
} rows[] = {{8, 18.0, 17.999999999999996, 7.0, 6.999999999999999},
            {10, 22.5, 22.499999999999996, 8.75, 8.749999999999998},
            {12, 27.0, 26.999999999999996, 10.5, 10.499999999999998}};

enum { ROWS = sizeof rows / sizeof rows[0] };

static struct detector detector;

/* A fresh detector of that depth; the depth stays in the state. */
static int64_t first_call(uint32_t depth, uint32_t mode, size_t lookahead, const struct step *step)
{
    detector_make(&detector, mode, lookahead);
    EXPECT_NUMBER(brine_detector_fresh(64, 48, depth, lookahead, mode, 0, UINT32_MAX, detector.numbers, BRINE_NUMBERS,
                                       detector.scores, BRINE_SCORES),
                  0);
    const int64_t answer = detector_step(&detector, step);
    EXPECT_NUMBER((int64_t)detector.numbers[DEPTH], depth);
    return answer;
}

/* Fast: one pair of this delta, and five still ones behind it. The score's threshold is the depth's. */
static int64_t fast_at(size_t row, double delta)
{
    struct step step = step_of(7, 10, 4, 0, 0, 0);
    step.inter[0] = delta;
    const int64_t answer = first_call(rows[row].depth, FAST, 5, &step);
    for (size_t entry = 0; entry < 6; entry++)
        EXPECT_DOUBLE(detector_score(&detector, entry, THRESHOLD), rows[row].fast);
    return answer;
}

static void fast_threshold(void)
{
    for (size_t i = 0; i < ROWS; i++) {
        EXPECT_NUMBER(fast_at(i, rows[i].fast), 3);
        EXPECT_NUMBER(fast_at(i, rows[i].below_fast), 2);
        EXPECT_NUMBER(fast_at(i, 0.0), 2);
        EXPECT_NUMBER(fast_at(i, 4095.0), 3);
    }
}

/* What is large for the flash test is so by the depth's threshold too: a second pair that reaches it takes the cut away. */
static void fast_flash(void)
{
    for (size_t i = 0; i < ROWS; i++) {
        struct step step = step_of(7, 10, 4, 0, 0, 0);
        step.inter[0] = 100;
        step.inter[2] = rows[i].below_fast;
        EXPECT_NUMBER(first_call(rows[i].depth, FAST, 5, &step), 3);
        step.inter[2] = rows[i].fast;
        EXPECT_NUMBER(first_call(rows[i].depth, FAST, 5, &step), 2);
    }
}

/* Standard, lookahead 4, a set of two frames and a threshold of 0: the importance alone decides. A NaN is refused. */
static int64_t standard_at(size_t row, double importance)
{
    const struct step step = step_of(2, 10, 4, 1000, importance, 0);
    return first_call(rows[row].depth, STANDARD, 4, &step);
}

static void importance_threshold(void)
{
    for (size_t i = 0; i < ROWS; i++) {
        EXPECT_NUMBER(standard_at(i, rows[i].importance), 3);
        EXPECT_NUMBER(standard_at(i, rows[i].below_importance), 2);
        EXPECT_NUMBER(standard_at(i, NAN), -10);
    }
}

/* None mode cuts by distance, at each depth. */
static void none_mode(void)
{
    for (size_t i = 0; i < ROWS; i++) {
        struct step step = step_of(1, 10, 5, 0, 0, 0);
        EXPECT_NUMBER(first_call(rows[i].depth, NONE, 0, &step), 0);
        detector.numbers[MAX] = 6;
        step.frame = 11;
        EXPECT_NUMBER(detector_step(&detector, &step), 1);
    }
}

const struct test depth_tests[] = {
    {"depths: Fast mode's threshold, 18, 22.5 and 27", fast_threshold},
    {"depths: a flash by the same threshold", fast_flash},
    {"depths: the importance's threshold, 7, 8.75 and 10.5", importance_threshold},
    {"depths: None mode", none_mode},
    {0},
};
