#include "detector.h"

#include <string.h>

/* The header's names for places are those of the state's description. */
_Static_assert(BRINE_NUMBERS == PAIRS + BRINE_ENTRIES && BRINE_SCORE_DOUBLES == THRESHOLD + 1, "lengths");
_Static_assert((int)BRINE_WIDTH == WIDTH && (int)BRINE_LOOKAHEAD == LOOKAHEAD && (int)BRINE_MODE == MODE, "settings");
_Static_assert((int)BRINE_MIN == MIN && (int)BRINE_OFFSET == OFFSET && (int)BRINE_LAST_NUMBER == LAST, "numbers");
_Static_assert((int)BRINE_RELEASE_NUMBER == RELEASE && (int)BRINE_COUNT == COUNT, "the last numbers");
_Static_assert((int)BRINE_PAIRS == PAIRS && PAIRS == COUNT + 1, "the first pair number");
_Static_assert((int)BRINE_INTER == INTER && (int)BRINE_FORWARD == FORWARD, "a score's first");
_Static_assert((int)BRINE_IMPORTANCE == IMPORTANCE && (int)BRINE_THRESHOLD == THRESHOLD, "a score's others");
_Static_assert(BRINE_MODE_NONE == NONE && BRINE_MODE_FAST == FAST && BRINE_MODE_STANDARD == STANDARD, "modes");

void detector_make(struct detector *detector, uint32_t mode, size_t lookahead)
{
    detector->numbers = lent_make(&detector->lent_numbers, BRINE_NUMBERS * sizeof(uint64_t));
    detector->scores = lent_make(&detector->lent_scores, BRINE_SCORES * sizeof(double));
    detector_begin(detector, mode, lookahead);
}

void detector_begin(struct detector *detector, uint32_t mode, size_t lookahead)
{
    EXPECT_NUMBER(brine_detector_fresh(64, 48, 8, lookahead, mode, 0, UINT32_MAX, detector->numbers, BRINE_NUMBERS,
                                       detector->scores, BRINE_SCORES),
                  0);
}

struct step step_of(size_t set, uint64_t frame, uint64_t previous, double inter, double importance, double threshold)
{
    struct step step = {.set = set, .frame = frame, .previous = previous};
    const size_t items = set == 0 ? 0 : set - 1;
    step.inter_count = step.importance_count = step.threshold_count = items;
    for (size_t i = 0; i < BRINE_SET_LIMIT; i++) {
        step.inter[i] = inter;
        step.importance[i] = importance;
        step.threshold[i] = threshold;
    }
    return step;
}

int64_t detector_step(struct detector *detector, const struct step *s)
{
    lent_keep(&detector->lent_numbers);
    lent_keep(&detector->lent_scores);
    return brine_detector_step(detector->numbers, BRINE_NUMBERS, detector->scores, BRINE_SCORES, s->set, s->frame, s->previous,
                               s->inter, s->inter_count, s->importance, s->importance_count, s->threshold,
                               s->threshold_count);
}

void detector_refuses(struct detector *detector, const struct step *step, int64_t number)
{
    EXPECT_NUMBER(detector_step(detector, step), -number);
    EXPECT(lent_same(&detector->lent_numbers));
    EXPECT(lent_same(&detector->lent_scores));
}

bool detector_kept(const struct detector *detector)
{
    const struct lent *n = &detector->lent_numbers, *s = &detector->lent_scores;
    const size_t count = (size_t)detector->numbers[COUNT];
    const size_t numbers = GUARD + (PAIRS + count) * sizeof(uint64_t);
    const size_t scores = GUARD + count * BRINE_SCORE_DOUBLES * sizeof(double);
    return count <= BRINE_ENTRIES
        && memcmp(n->kept, n->whole, GUARD) == 0
        && memcmp(n->kept + numbers, n->whole + numbers, sizeof n->whole - numbers) == 0
        && memcmp(s->kept, s->whole, GUARD) == 0
        && memcmp(s->kept + scores, s->whole + scores, sizeof s->whole - scores) == 0;
}

bool detector_holds(const struct detector *detector, const uint64_t numbers[PAIRS], uint64_t front)
{
    if (!detector_kept(detector) || memcmp(detector->numbers, numbers, PAIRS * sizeof(uint64_t)) != 0)
        return false;
    for (size_t i = 0; i < numbers[COUNT]; i++)
        if (detector_pair(detector, i) != front - i)
            return false;
    return true;
}

void detector_number(struct detector *detector, size_t count, uint64_t front)
{
    for (size_t i = 0; i < count; i++)
        detector->numbers[PAIRS + i] = front - i;
}

bool same_state(const uint64_t *numbers, const double *scores, const uint64_t *numbers2, const double *scores2)
{
    for (size_t i = 0; i < PAIRS; i++)
        if (i != FIRST && i != RELEASE && numbers[i] != numbers2[i])
            return false;
    for (size_t i = 0; i < numbers[COUNT]; i++)
        if (numbers[PAIRS + i] != numbers2[PAIRS + i])
            return false;
    for (size_t i = 0; i < BRINE_SCORE_DOUBLES * numbers[COUNT]; i++)
        if (!same_double(scores[i], scores2[i]))
            return false;
    return true;
}

double detector_score(const struct detector *detector, size_t entry, size_t number)
{
    return detector->scores[BRINE_SCORE_DOUBLES * entry + number];
}

uint64_t detector_pair(const struct detector *detector, size_t entry)
{
    return detector->numbers[PAIRS + entry];
}
