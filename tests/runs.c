/* Films of 1,000 calls: after each call the offset, the count, the release number, every entry in use and the places
   past them are held to what document 01's rules give for sets of seven frames and more, and so are the pair numbers. */
#include "detector.h"

#include <float.h>
#include <string.h>

enum { CALLS = 1000, FRAMES = CALLS + BRINE_SET_LIMIT + 4, AHEAD = 5, KEPT = 10 };

struct film {
    double inter[FRAMES + 1], importance[FRAMES + 1], threshold[FRAMES + 1]; /* by pair number */
};

static struct film film;
static struct detector detector;

static void make_film(uint32_t random)
{
    for (size_t i = 0; i <= FRAMES; i++) {
        random = random * 1664525u + 1013904223u;
        film.inter[i] = (double)(random >> 24) / 8;
        film.importance[i] = (double)(random >> 12 & 15) * 0.75;
        film.threshold[i] = (double)(random >> 20 & 15);
    }
}

/* A call of `set` frames for the film's frame n. */
static struct step call(size_t set, uint64_t n, uint64_t previous)
{
    struct step step = step_of(set, n, previous, 0, 0, 0);
    memcpy(step.inter, film.inter + n, step.inter_count * sizeof(double));
    memcpy(step.importance, film.importance + n, step.inter_count * sizeof(double));
    memcpy(step.threshold, film.threshold + n, step.inter_count * sizeof(double));
    return step;
}

/* The least of a pair's inter cost less that of each of the five pairs before it since the first. */
static double backward(uint64_t pair, uint64_t first)
{
    double least = DBL_MAX;
    for (uint64_t other = pair; other-- > first && pair - other <= AHEAD;)
        if (film.inter[pair] - film.inter[other] < least)
            least = film.inter[pair] - film.inter[other];
    return pair == 1 || least < 0 ? 0 : least;
}

/* The same over the five pairs behind it, as far as they were scored. */
static double forward(uint64_t pair, uint64_t newest)
{
    double least = pair == newest ? 0 : DBL_MAX;
    for (uint64_t other = pair + 1; other <= newest && other - pair <= AHEAD; other++)
        if (film.inter[pair] - film.inter[other] < least)
            least = film.inter[pair] - film.inter[other];
    return least < 0 ? 0 : least;
}

static void entry_of(double entry[BRINE_SCORE_DOUBLES], uint32_t mode, uint64_t pair, uint64_t first, uint64_t newest)
{
    const double inter = film.inter[pair];
    const double fast[BRINE_SCORE_DOUBLES] = {inter, inter, inter, inter, 18};
    const double standard[BRINE_SCORE_DOUBLES] = {inter, film.importance[pair], backward(pair, first),
                                                  forward(pair, newest), film.threshold[pair]};
    memcpy(entry, mode == FAST ? fast : standard, sizeof fast);
}

/* "Cut exactly when ...", on the entries as they stood before the last was dropped. */
static bool cut_of(double (*entries)[BRINE_SCORE_DOUBLES], size_t count, uint32_t mode)
{
    bool important = false;
    size_t before = 0, after = 0;
    for (size_t i = 0; i < count; i++) {
        important = important || (i >= AHEAD && entries[i][IMPORTANCE] >= 7);
        before += i < AHEAD && entries[i][FORWARD] >= entries[i][THRESHOLD];
        after += i > AHEAD && entries[i][BACKWARD] >= entries[i][THRESHOLD];
    }
    const bool front_alone = before == 1 && entries[0][FORWARD] >= entries[0][THRESHOLD];
    return important && entries[AHEAD][FORWARD] >= entries[AHEAD][THRESHOLD]
        && ((before == 0 && (after == 0 || after >= (mode == FAST ? 2 : 1))) || (after == 0 && front_alone));
}

/* The film's calls from frame a on; every number and entry after each call. */
static size_t run(uint32_t mode, size_t lookahead, size_t set, uint64_t a)
{
    size_t cuts = 0;
    uint64_t previous = 0;
    detector_make(&detector, mode, lookahead);
    for (uint64_t n = a; n < a + CALLS; n++) {
        const uint64_t done = n - a, newest = n + AHEAD;
        const size_t stood = done + 6 < KEPT + 1 ? (size_t)done + 6 : KEPT + 1;
        const size_t count = stood < KEPT ? stood : KEPT;
        double entries[KEPT + 1][BRINE_SCORE_DOUBLES];
        const struct step step = call(set, n, previous);
        const int64_t answer = detector_step(&detector, &step);

        for (size_t i = 0; i < stood; i++)
            entry_of(entries[i], mode, newest - i, a, newest);
        const bool cut = cut_of(entries, stood, mode);
        if (!EXPECT_NUMBER(answer, cut ? 3 : 2))
            return cuts;
        const uint64_t release = (n > a + 9 ? n - 9 : a) - 1;
        const uint64_t want[PAIRS] = {64, 48, 8, lookahead, mode, 0, UINT32_MAX, AHEAD, n, set, a, release, count};
        EXPECT(detector_holds(&detector, want, newest));
        for (size_t i = 0; i < BRINE_SCORE_DOUBLES * count; i++)
            if (!EXPECT_DOUBLE(detector.scores[i], entries[i / BRINE_SCORE_DOUBLES][i % BRINE_SCORE_DOUBLES]))
                return cuts;
        cuts += cut;
        previous = cut ? n : previous;
    }
    EXPECT_NUMBER((int64_t)detector.numbers[COUNT], KEPT);
    return cuts;
}

static void standard_run(void)
{
    make_film(1);
    EXPECT(run(STANDARD, 5, 7, 1) > 10);
    make_film(2);
    EXPECT(run(STANDARD, 5, 7, 2) > 10);
}

static void fast_run(void)
{
    make_film(3);
    EXPECT(run(FAST, 5, 7, 1) > 10);
}

/* A larger lookahead gives longer sets and the same answers. */
static void long_sets(void)
{
    make_film(1);
    const size_t cuts = run(STANDARD, 5, 7, 3);
    EXPECT_NUMBER((int64_t)run(STANDARD, 1000, BRINE_SET_LIMIT, 3), (int64_t)cuts);
}

/* None mode: a cut wherever the distance reaches both bounds; no score, no entry, the release number stays. */
static void none_run(void)
{
    uint64_t previous = 0, cuts = 0;
    detector_make(&detector, NONE, 5);
    detector.numbers[MIN] = 5;
    detector.numbers[MAX] = 12;
    make_film(4);
    for (uint64_t n = 1; n <= CALLS; n++) {
        const struct step step = call(7, n, previous);
        const bool cut = n - previous >= 12;
        EXPECT_NUMBER(detector_step(&detector, &step), cut ? 1 : 0);
        const uint64_t want[PAIRS] = {64, 48, 8, 5, NONE, 5, 12, 5, n, 7, 1, 0, 0};
        EXPECT(detector_holds(&detector, want, 0)); /* no entry, so no pair number */
        EXPECT(lent_same(&detector.lent_scores));
        previous = cut ? n : previous;
        cuts += cut;
    }
    EXPECT_NUMBER((int64_t)cuts, CALLS / 12);
}

/* Lookahead 4: sets of six, then shorter ones at the film's end. The offset is 4, then falls; five entries stay. */
static void no_lookahead(void)
{
    uint64_t n = 1;
    detector_make(&detector, STANDARD, 4);
    make_film(5);
    for (; n <= CALLS; n++) {
        const struct step step = call(6, n, 0);
        EXPECT(detector_step(&detector, &step) >= 2);
        EXPECT_NUMBER((int64_t)detector.numbers[OFFSET], 4);
        EXPECT_NUMBER((int64_t)detector.numbers[COUNT], 5);
        EXPECT_NUMBER((int64_t)detector.numbers[RELEASE], 0);
        EXPECT_DOUBLE(detector_score(&detector, 0, INTER), film.inter[n + 4]);
        EXPECT_NUMBER((int64_t)detector_pair(&detector, 0), (int64_t)n + 4);
        EXPECT_NUMBER((int64_t)detector_pair(&detector, 4), (int64_t)n + (n <= 4)); /* the first four lines are the next pair's */
        EXPECT(detector_kept(&detector));
    }
    for (size_t set = 5; set >= 2; set--, n++) {
        const struct step step = call(set, n, 0);
        EXPECT(detector_step(&detector, &step) >= 2);
        EXPECT_NUMBER((int64_t)detector.numbers[OFFSET], (int64_t)set - 2);
        EXPECT_NUMBER((int64_t)detector_pair(&detector, set - 2), (int64_t)n);
    }
    const struct step step = call(1, n, 0);
    detector_refuses(&detector, &step, 9);
}

/* The interval rules override: no cut below min, always one at max. */
static void intervals(void)
{
    uint64_t previous = 0;
    detector_make(&detector, FAST, 5);
    detector.numbers[MIN] = 7;
    detector.numbers[MAX] = 20;
    make_film(6);
    for (uint64_t n = 1; n <= CALLS; n++) {
        const struct step step = call(7, n, previous);
        const int64_t answer = detector_step(&detector, &step);
        EXPECT(answer == 2 || answer == 3);
        if (n - previous < 7)
            EXPECT_NUMBER(answer, 2);
        if (n - previous >= 20)
            EXPECT_NUMBER(answer, 3);
        previous = answer == 3 ? n : previous;
    }
}

const struct test run_tests[] = {
    {"1,000 calls: Standard, from 1 and from 2", standard_run},
    {"1,000 calls: Fast", fast_run},
    {"1,000 calls: longer sets", long_sets},
    {"1,000 calls: None", none_run},
    {"1,000 calls: lookahead 4, and the film's end", no_lookahead},
    {"1,000 calls: the intervals", intervals},
    {0},
};
