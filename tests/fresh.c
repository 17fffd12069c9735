/* The fresh detector: what it writes, what it refuses. */
#include "detector.h"

#include <string.h>

static struct lent numbers, scores;

struct call {
    size_t width, height, lookahead, numbers_len, scores_len;
    uint32_t depth, mode;
    uint64_t min, max;
};

static const struct call good = {64, 48, 5, BRINE_NUMBERS, BRINE_SCORES, 8, STANDARD, 3, 250};

static int64_t called(struct call c)
{
    uint64_t *n = lent_make(&numbers, (BRINE_NUMBERS + 1) * sizeof(uint64_t));
    double *s = lent_make(&scores, (BRINE_SCORES + 1) * sizeof(double));
    return brine_detector_fresh(c.width, c.height, c.depth, c.lookahead, c.mode, c.min, c.max, n, c.numbers_len, s,
                                c.scores_len);
}

#define REFUSED(number, ...)                                                                                           \
    do {                                                                                                              \
        struct call c = good;                                                                                         \
        __VA_ARGS__;                                                                                                  \
        EXPECT_NUMBER(called(c), -(number));                                                                          \
        EXPECT(lent_same(&numbers) && lent_same(&scores));                                                            \
    } while (0)

static void refusals(void)
{
    REFUSED(11, c.numbers_len = BRINE_NUMBERS - 1);
    REFUSED(11, c.numbers_len = BRINE_NUMBERS + 1);
    REFUSED(11, c.numbers_len = PAIRS); /* a state's numbers as they once were */
    REFUSED(11, c.numbers_len = 0);
    REFUSED(11, c.scores_len = BRINE_SCORES - 1);
    REFUSED(11, c.scores_len = BRINE_SCORES + 1);
    REFUSED(11, c.scores_len = 0);
    REFUSED(6, c.width = 0);
    REFUSED(6, c.width = 8193);
    REFUSED(6, c.height = 0);
    REFUSED(6, c.height = 8193);
    REFUSED(6, c.width = SIZE_MAX);
    REFUSED(6, c.mode = 3);
    REFUSED(6, c.mode = UINT32_MAX);
    REFUSED(5, c.depth = 0);
    REFUSED(5, c.depth = 7);
    REFUSED(5, c.depth = 9);
    REFUSED(5, c.depth = 11);
    REFUSED(5, c.depth = 13);
    REFUSED(5, c.depth = 16);
    REFUSED(5, c.depth = 256 + 10);
}

static void order(void)
{
    REFUSED(11, c.numbers_len = BRINE_NUMBERS - 1, c.width = 0, c.depth = 9);
    REFUSED(11, c.scores_len = BRINE_SCORES + 1, c.mode = 3);
    REFUSED(6, c.height = 0, c.depth = 9);
}

/* All the numbers below the pair numbers, and not one of these nor of the scores. */
static void fresh_is(struct call c, uint64_t offset)
{
    uint64_t want[BRINE_NUMBERS + 1] = {c.width, c.height, c.depth, c.lookahead, c.mode, c.min, c.max, offset};
    EXPECT_NUMBER(called(c), 0);
    memcpy(want + PAIRS, numbers.kept + GUARD + PAIRS * sizeof(uint64_t), (BRINE_NUMBERS + 1 - PAIRS) * sizeof(uint64_t));
    EXPECT(lent_holds(&numbers, want));
    EXPECT(lent_same(&scores));
}

static void lent_places(void)
{
    struct call c = good;
    fresh_is(c, 5);
    c.lookahead = 4;
    c.depth = 10;
    fresh_is(c, 0);
    c.lookahead = 0;
    c.mode = NONE;
    c.depth = 12;
    fresh_is(c, 0);
    c.lookahead = SIZE_MAX;
    c.min = c.max = UINT64_MAX;
    c.width = c.height = 8192;
    c.mode = FAST;
    fresh_is(c, 5);
    c.width = c.height = 1;
    fresh_is(c, 5);
}

const struct test fresh_tests[] = {
    {"fresh: refusals 11, 6, 5", refusals},
    {"fresh: the order of refusals", order},
    {"fresh: the lent places, byte for byte", lent_places},
    {0},
};
