/* Document 01's values at the edges, through the C functions. The starred ones are also proved. */
#include "detector.h"

#include <float.h>
#include <string.h>

static void scale(void)
{
    EXPECT_NUMBER(brine_scale_factor(240, 240, FAST), 1);
    EXPECT_NUMBER(brine_scale_factor(241, 241, FAST), 2);
    EXPECT_NUMBER(brine_scale_factor(1600, 1600, FAST), 16);
    EXPECT_NUMBER(brine_scale_factor(1601, 1601, FAST), 32);
}

/* The importance of two planes of one block, each flat but for the first sample. */
static double importance_of(uint8_t a, uint8_t first_a, uint8_t b, uint8_t first_b)
{
    uint8_t one[64], other[64];
    double importance = -1.0;
    memset(one, a, sizeof one);
    memset(other, b, sizeof other);
    one[0] = first_a;
    other[0] = first_b;
    EXPECT_NUMBER(brine_importance(8, one, 64, 8, 8, 8, 0, other, 64, 8, 8, 8, 0, &importance), 0);
    return importance;
}

static void importance(void)
{
    EXPECT_DOUBLE(importance_of(0, 0, 7, 7), 7.0);
    EXPECT_DOUBLE(importance_of(0, 0, 6, 6), 6.0);
    EXPECT_DOUBLE(importance_of(0, 31, 0, 0), 0.0);
    EXPECT_DOUBLE(importance_of(0, 32, 0, 0), 1.0);
    EXPECT_DOUBLE(importance_of(0, 0, 0, 32), 1.0);
}

static void blocks(void)
{
    uint8_t samples[15 * 8];
    double value = 3.0;
    memset(samples, 9, sizeof samples);
    EXPECT_NUMBER(brine_importance(8, samples, 56, 7, 8, 7, 0, samples, 56, 7, 8, 7, 0, &value), -19);
    EXPECT_DOUBLE(value, 3.0);
    EXPECT_NUMBER(brine_importance_total(8, samples, 56, 7, 8, 7, 0, samples, 56, 7, 8, 7, 0), -19);
    EXPECT_NUMBER(brine_importance(8, samples, 120, 15, 8, 15, 0, samples, 120, 15, 8, 15, 0, &value), 0);
    EXPECT_DOUBLE(value, 0.0);
}

static int64_t flat_satd(uint8_t value, uint8_t first)
{
    uint8_t block[64], flat[64];
    memset(block, value, sizeof block);
    memset(flat, 128, sizeof flat);
    block[0] = first;
    return brine_satd8x8(block, 64, flat, 64);
}

static void satd(void)
{
    EXPECT_NUMBER(flat_satd(128, 128), 0);
    EXPECT_NUMBER(flat_satd(0, 0), 1024);
    EXPECT_NUMBER(flat_satd(255, 255), 1016);
    EXPECT_NUMBER(flat_satd(128, 129), 8);
}

/* The same values as intra costs: the prediction is flat 128. */
static void intra(void)
{
    static const struct {
        uint8_t value, first;
        uint32_t cost;
    } cases[] = {{128, 128, 0}, {0, 0, 1024}, {255, 255, 1016}, {128, 129, 8}};
    for (size_t i = 0; i < sizeof cases / sizeof cases[0]; i++) {
        uint8_t block[64], work[64];
        uint32_t cost = 99;
        memset(block, cases[i].value, sizeof block);
        block[0] = cases[i].first;
        EXPECT_NUMBER(brine_intra_costs(8, block, 64, 8, 8, 8, 0, work, 64, 8, 8, 8, 0, &cost, 1), 1);
        EXPECT_NUMBER(cost, cases[i].cost);
    }
}

/* None mode, lookahead 0, L 1, min 5, max 3. */
static int64_t none_at(uint64_t distance)
{
    struct detector detector;
    detector_make(&detector, NONE, 0);
    detector.numbers[MIN] = 5;
    detector.numbers[MAX] = 3;
    const struct step step = step_of(1, 10, 10 - distance, 0, 0, 0);
    return detector_step(&detector, &step);
}

static void none_mode(void)
{
    EXPECT_NUMBER(none_at(4), 0);
    EXPECT_NUMBER(none_at(5), 1);
}

/* Lookahead 4, Standard, L 2, inter 1000: by importance and threshold. */
static int64_t standard_at(double importance, double threshold, double *forward)
{
    struct detector detector;
    detector_make(&detector, STANDARD, 4);
    const struct step step = step_of(2, 10, 4, 1000, importance, threshold);
    const int64_t answer = detector_step(&detector, &step);
    EXPECT_NUMBER((int64_t)detector.numbers[COUNT], 2);
    *forward = detector_score(&detector, detector.numbers[OFFSET], FORWARD);
    return answer;
}

static void standard_mode(void)
{
    double forward = -1;
    EXPECT_NUMBER(standard_at(50, 10, &forward), 2);
    EXPECT_DOUBLE(forward, 0.0);
    EXPECT_NUMBER(standard_at(50, 0, &forward), 3);
    EXPECT_DOUBLE(forward, 0.0);
}

/* An importance of 7 reaches the bound, 6 does not; neither does the double below 7. */
static void importance_reached(void)
{
    double forward = -1;
    EXPECT_NUMBER(standard_at(7, 0, &forward), 3);
    EXPECT_NUMBER(standard_at(6, 0, &forward), 2);
    EXPECT_NUMBER(standard_at(6.999999999999999, 0, &forward), 2);
}

/* Lookahead 4, Fast unscaled, first call, L 2, delta 20. */
static void fast_mode(void)
{
    struct detector detector;
    detector_make(&detector, FAST, 4);
    const struct step step = step_of(2, 10, 4, 20, 0, 0);
    EXPECT_NUMBER(detector_step(&detector, &step), 2);
    EXPECT_NUMBER((int64_t)detector.numbers[COUNT], 2);
    for (size_t entry = 0; entry < 2; entry++)
        for (size_t number = INTER; number <= THRESHOLD; number++)
            EXPECT_DOUBLE(detector_score(&detector, entry, number), number == THRESHOLD ? 18.0 : 20.0);
}

/* The same where Fast is scaled: the item scored twice has delta 0 the second time. */
static void fast_scaled(void)
{
    struct detector detector;
    detector_make(&detector, FAST, 4);
    detector.numbers[WIDTH] = 8192;
    detector.numbers[HEIGHT] = 241;
    const struct step step = step_of(2, 10, 4, 20, 0, 0);
    EXPECT_NUMBER(detector_step(&detector, &step), 2);
    for (size_t number = INTER; number < THRESHOLD; number++) {
        EXPECT_DOUBLE(detector_score(&detector, 0, number), 0.0);
        EXPECT_DOUBLE(detector_score(&detector, 1, number), 20.0);
    }
}

static void lookahead_5(void)
{
    struct detector detector;
    detector_make(&detector, STANDARD, 5);
    struct step step = step_of(5, 5, 0, 100, 50, 10);
    EXPECT_NUMBER(detector_step(&detector, &step), 0);
    EXPECT_NUMBER((int64_t)detector.numbers[COUNT], 0);

    detector_make(&detector, STANDARD, 5);
    step = step_of(7, 5, 0, 100, 50, 10);
    EXPECT_NUMBER(detector_step(&detector, &step), 2);
    EXPECT_DOUBLE(detector_score(&detector, detector.numbers[OFFSET], BACKWARD), DBL_MAX);

    detector_make(&detector, STANDARD, 5);
    step = step_of(7, 1, 0, 100, 50, 10);
    EXPECT_NUMBER(detector_step(&detector, &step), 2);
    EXPECT_DOUBLE(detector_score(&detector, detector.numbers[OFFSET], BACKWARD), 0.0);
}

/* The longest set without lookahead: one entry less than there is room for stays, and no place past it is written. */
static void longest_set(void)
{
    struct detector detector;
    detector_make(&detector, STANDARD, 4);
    const struct step step = step_of(BRINE_SET_LIMIT, 1, 0, 1, 50, 10);
    EXPECT_NUMBER(detector_step(&detector, &step), 2);
    EXPECT_NUMBER((int64_t)detector.numbers[OFFSET], BRINE_SET_LIMIT - 2);
    EXPECT_NUMBER((int64_t)detector.numbers[COUNT], BRINE_ENTRIES - 1);
    EXPECT(detector_kept(&detector));
}

/* The call that docs/RULES.md works out by hand: every entry that it names. */
static void worked_out(void)
{
    static const double inter[] = {40, 3, 2, 4, 3, 2}, importance[] = {12, 1, 1, 1, 1, 1};
    static const double forward[] = {0, 1, 1, 0, 0, 36}; /* the newest pair first */
    struct detector detector;
    detector_make(&detector, STANDARD, 5);
    detector.numbers[MIN] = 3;
    detector.numbers[MAX] = 250;
    struct step step = step_of(7, 5, 0, 0, 0, 10);
    memcpy(step.inter, inter, sizeof inter);
    memcpy(step.importance, importance, sizeof importance);
    EXPECT_NUMBER(detector_step(&detector, &step), 3);
    const uint64_t want[PAIRS] = {64, 48, 8, 5, STANDARD, 3, 250, 5, 5, 7, 5, 4, 6};
    EXPECT(detector_holds(&detector, want, 10)); /* the pairs 10 to 5 */
    for (size_t entry = 0; entry < 6; entry++) {
        EXPECT_DOUBLE(detector_score(&detector, entry, INTER), inter[5 - entry]);
        EXPECT_DOUBLE(detector_score(&detector, entry, IMPORTANCE), importance[5 - entry]);
        EXPECT_DOUBLE(detector_score(&detector, entry, BACKWARD), entry == 5 ? DBL_MAX : 0.0);
        EXPECT_DOUBLE(detector_score(&detector, entry, FORWARD), forward[entry]);
        EXPECT_DOUBLE(detector_score(&detector, entry, THRESHOLD), 10.0);
    }
}

const struct test edge_tests[] = {
    {"edges: the call that docs/RULES.md works out", worked_out},
    {"edges: small edge 240, 241, 1600, 1601", scale},
    {"edges: blocks of 0 against 7 and 6, sums 31 and 32", importance},
    {"edges: planes of 15 × 8 and 7 × 8", blocks},
    {"edges: SATD of 128, 0, 255 and one 129", satd},
    {"edges: intra costs of the same blocks", intra},
    {"edges: None mode, distances 4 and 5", none_mode},
    {"edges: lookahead 4, Standard, thresholds 10 and 0", standard_mode},
    {"edges: importance 7 is reached, 6 is not", importance_reached},
    {"edges: lookahead 4, Fast, the pair stands twice", fast_mode},
    {"edges: lookahead 4, Fast scaled, 0 the second time", fast_scaled},
    {"edges: lookahead 5, L 5 and L 7", lookahead_5},
    {"edges: lookahead 4, the longest set", longest_set},
    {0},
};
