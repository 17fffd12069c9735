/* Demand 3 over random pairs of histories, see docs/MEETING.md: an old detector, and a fresh one that begins later. From the
   fresh one's first call on both accept the same calls. After ten of them in Standard mode, five in Fast, they have met, and
   they stay met. Refused calls stand anywhere in both histories, and each has its own. Pairs have the three depths by turns. */
#include "histories.h"

#include <stddef.h>
#include <string.h>

enum { HISTORY_PAIRS = 5000 }; /* in each mode */
enum { STANDARD_CALLS = 10, FAST_CALLS = 5 };
enum { MOST_BEFORE = 30, FURTHER = 20, SHORTEST_SET = 7, GUARD_WORDS = 8, LAST_REFUSAL = 10 };

/* What the pairs of each mode must bring at the least, so that the test can fail. It is less than half of what they bring:
   that is the number behind "of", the lower one of the two modes. */
enum {
    LEAST_REFUSED = 20000, /* of 50,153 calls refused with each of 7, 8 and 10: one that changed something would show */
    LEAST_APART = 500,     /* of 1,179 Standard pairs that nine calls do not bring together: ten are needed */
    LEAST_CUTS = 200,      /* of 696 cuts behind the meeting that the scores decided, and not the distance, */
    LEAST_NO_CUTS = 10000, /* and of 22,241 such calls without a cut: the answers are not all the same */
    LEAST_ENDS = 100       /* of 599 pairs that come to the last number, 2^32 - 1: no call is left then */
};

_Static_assert(MOST_BEFORE + STANDARD_CALLS + FURTHER + BRINE_SET_LIMIT < FILM_PAIRS, "the film is long enough");

/* A detector's two places, with guard words around them. They are lighter than `struct lent`, as there are many calls. */
struct places {
    uint64_t before[GUARD_WORDS], numbers[BRINE_NUMBERS], between[GUARD_WORDS];
    double scores[BRINE_SCORES];
    uint64_t behind[GUARD_WORDS];
};

struct history {
    struct places now, kept; /* as they are, and as they were before the last call */
    int64_t answer;          /* of the last call */
    uint64_t last;           /* number and set length of the last accepted call, 0 before any */
    size_t length;
};

static struct film film;
static struct history old, fresh;
static uint32_t mode, depth;

/* What was seen, over all pairs of a mode. */
static struct {
    size_t refused[LAST_REFUSAL + 1]; /* calls, by number */
    size_t apart;                     /* pairs that had not met one call before they must */
    size_t firsts, releases;          /* pairs that met with other first numbers, other release numbers */
    size_t cuts, no_cuts;             /* further calls that the decision rule decided, and not the distance */
    size_t ends;                      /* pairs that came to the last number */
} seen;

static int64_t give(struct history *history, const struct step *call)
{
    const struct step own = call_again(call, mode);
    struct places *const now = &history->now;
    memcpy(&history->kept, now, sizeof *now);
    return brine_detector_step(now->numbers, BRINE_NUMBERS, now->scores, BRINE_SCORES, own.set, own.frame, own.previous,
                               own.inter, own.inter_count, own.importance, own.importance_count, own.threshold,
                               own.threshold_count);
}

static bool refuses(struct history *history, const struct step *call, int64_t number)
{
    history->answer = give(history, call);
    seen.refused[number]++;
    return EXPECT_NUMBER(history->answer, -number)
        && EXPECT(memcmp(&history->now, &history->kept, sizeof history->now) == 0);
}

/* A call has left the guards, the settings, and the doubles and pair numbers past the count as they were. */
static bool others_kept(const struct history *history)
{
    const struct places *const now = &history->now, *const kept = &history->kept;
    const size_t count = (size_t)now->numbers[COUNT], past = count * BRINE_SCORE_DOUBLES;
    return count <= BRINE_ENTRIES
        && memcmp(now, kept, offsetof(struct places, numbers) + OFFSET * sizeof now->numbers[0]) == 0
        && memcmp(now->numbers + PAIRS + count, kept->numbers + PAIRS + count, (BRINE_ENTRIES - count) * sizeof(uint64_t)) == 0
        && memcmp(now->between, kept->between, sizeof now->between) == 0
        && memcmp(now->scores + past, kept->scores + past, (BRINE_SCORES - past) * sizeof(double)) == 0
        && memcmp(now->behind, kept->behind, sizeof now->behind) == 0;
}

static bool accepts(struct history *history, const struct step *call)
{
    history->answer = give(history, call);
    history->last = call->frame;
    history->length = call->set;
    return EXPECT(history->answer >= 0 && history->answer <= 3) && EXPECT(others_kept(history));
}

static bool same_states(void)
{
    return same_state(old.now.numbers, old.now.scores, fresh.now.numbers, fresh.now.scores);
}

/* Any number of refused calls, mostly none, where call n comes next. Their sets may be short, their lists another film's. */
static bool refused_calls(struct history *history, uint64_t n)
{
    while (one_in(3)) {
        const size_t set = draw((history->last == 0 ? BRINE_SET_LIMIT : (uint32_t)history->length) + 1);
        struct step call = film_call(&film, set, n, draw_keyframe(n));
        if (one_in(2))
            draw_lists(&call);
        const int64_t number = spoil(&call, mode, history->last, history->length);
        if (!refuses(history, &call, number))
            return false;
    }
    return true;
}

/* The good call for frame n: a set that is not longer than the last one's, nor shorter than seven. */
static struct step next_call(uint64_t n)
{
    size_t set = old.last == 0 ? BRINE_SET_LIMIT : old.length;
    if (one_in(8) || old.last == 0)
        set -= draw((uint32_t)(set - SHORTEST_SET) + 1);
    return film_call(&film, set, n, draw_keyframe(n));
}

static bool old_alone(uint64_t first, uint64_t start)
{
    for (uint64_t n = first; n < start; n++) {
        const struct step call = next_call(n);
        if (!refused_calls(&old, n) || !accepts(&old, &call))
            return false;
    }
    return true;
}

static bool both_meet(uint64_t start, uint64_t calls)
{
    for (uint64_t n = start; n < start + calls; n++) {
        const struct step call = next_call(n);
        seen.apart += n == start + calls - 1 && !same_states();
        if (!refused_calls(&old, n) || !accepts(&old, &call) || !refused_calls(&fresh, n) || !accepts(&fresh, &call))
            return false;
    }
    seen.firsts += old.now.numbers[FIRST] != fresh.now.numbers[FIRST];
    seen.releases += old.now.numbers[RELEASE] != fresh.now.numbers[RELEASE];
    return EXPECT(same_states());
}

/* Counts what the decision rule decided. */
static void count_decision(const struct step *call)
{
    const uint64_t distance = call->frame - call->previous;
    const bool by_rule = distance >= old.now.numbers[MIN] && distance < old.now.numbers[MAX];
    seen.cuts += by_rule && old.answer == 3;
    seen.no_cuts += by_rule && old.answer == 2;
}

/* Refused calls of its own for each, and one more call to both, good or bad: the same answer, and again the same states. */
static bool both_go_on(bool ending)
{
    const uint64_t n = old.last + 1;
    if (n <= UINT32_MAX && (!refused_calls(&old, n) || !refused_calls(&fresh, n)))
        return false;
    size_t set = ending && old.length > 0 ? old.length - 1 : old.length;
    if (one_in(32))
        set = draw((uint32_t)old.length + 1);
    struct step call = film_call(&film, set, n, draw_keyframe(n));
    if (one_in(4))
        draw_lists(&call);
    int64_t number = one_in(3) ? spoil(&call, mode, old.last, old.length) : 0;
    if (n > UINT32_MAX)
        number = 7;
    if (number != 0 && (!refuses(&old, &call, number) || !refuses(&fresh, &call, number)))
        return false;
    if (number == 0 && (!accepts(&old, &call) || !accepts(&fresh, &call)))
        return false;
    count_decision(&call);
    /* where there is a score, it is one of those that are compared */
    return EXPECT_NUMBER(fresh.answer, old.answer) && EXPECT(same_states())
        && EXPECT(old.answer < 2 || old.now.numbers[OFFSET] < old.now.numbers[COUNT]);
}

/* Settings for both, and rubbish of its own in each one's places. */
static bool make_both(void)
{
    static const size_t sides[] = {1, 64, 240, 241, 480, 481, 720, 721, 1080, 1081, 1600, 1601, 8192};
    static const size_t lookaheads[] = {1000, (size_t)1 << 32, ((size_t)1 << 32) + 4, SIZE_MAX};
    static const uint64_t intervals[][2] = {{0, 0}, {0, UINT64_MAX}, {UINT64_MAX, 0}, {12, 12}, {20, 5}};
    const size_t width = sides[draw(sizeof sides / sizeof sides[0])], height = sides[draw(sizeof sides / sizeof sides[0])];
    const size_t lookahead = one_in(4) ? lookaheads[draw(4)] : 5 + draw(16);
    uint64_t min = draw(6), max = UINT32_MAX;
    if (one_in(4)) {
        const uint32_t which = draw(5);
        min = intervals[which][0];
        max = intervals[which][1];
    } else if (one_in(3))
        max = draw(60);
    struct history *const both[] = {&old, &fresh};
    for (size_t i = 0; i < 2; i++) {
        struct places *const now = &both[i]->now;
        draw_rubbish(now, sizeof *now / sizeof(uint64_t));
        both[i]->last = both[i]->length = 0;
        if (!EXPECT_NUMBER(brine_detector_fresh(width, height, depth, lookahead, mode, min, max, now->numbers, BRINE_NUMBERS,
                                                now->scores, BRINE_SCORES), 0))
            return false;
    }
    return true;
}

/* The old history begins at 1, at a small number, or so that the numbers end soon behind the meeting. */
static uint64_t draw_first(uint64_t calls)
{
    const uint32_t way = draw(3);
    if (way < 2)
        return way == 0 ? 1 : 2 + draw(40);
    return ((uint64_t)1 << 32) - calls - draw(2 * FURTHER);
}

/* One pair of histories. */
static bool pair_meets(void)
{
    const uint64_t calls = mode == FAST ? FAST_CALLS : STANDARD_CALLS;
    const uint64_t before = one_in(4) ? 1 : 1 + draw(MOST_BEFORE);
    const uint64_t first = draw_first(before + calls);
    film_make(&film, first, (size_t)before - 1); /* peaks there: the last pair before the fresh one's first */
    if (!make_both() || !old_alone(first, first + before) || !both_meet(first + before, calls))
        return false;
    const bool ending = one_in(3); /* the sets get shorter from call to call, as at a film's end */
    for (size_t i = 0; i < FURTHER; i++)
        if (!both_go_on(ending))
            return false;
    seen.ends += old.last == UINT32_MAX;
    return true;
}

/* All pairs of a mode, up to the first that fails; and what they must have brought. */
static bool all_pairs(uint32_t of_mode)
{
    static const uint32_t depths[] = {8, 10, 12};
    size_t pairs = 0;
    mode = of_mode;
    memset(&seen, 0, sizeof seen);
    do {
        depth = depths[pairs % 3];
        draw_from((uint64_t)mode << 32 | pairs);
    } while (pair_meets() && ++pairs < HISTORY_PAIRS);
    if (!EXPECT_NUMBER((int64_t)pairs, HISTORY_PAIRS))
        return false;
    EXPECT(seen.refused[7] >= LEAST_REFUSED && seen.refused[8] >= LEAST_REFUSED && seen.refused[10] >= LEAST_REFUSED);
    EXPECT(seen.cuts >= LEAST_CUTS);
    EXPECT(seen.no_cuts >= LEAST_NO_CUTS);
    EXPECT(seen.ends >= LEAST_ENDS);
    return EXPECT_NUMBER((int64_t)seen.firsts, HISTORY_PAIRS);
}

/* At the tenth call the release number is one below the fresh one's first number in both. */
static void standard(void)
{
    if (!all_pairs(STANDARD))
        return;
    EXPECT(seen.apart >= LEAST_APART);
    EXPECT_NUMBER((int64_t)seen.releases, 0);
}

/* After four calls the fresh one lacks a score. At the fifth its release number is still one below its first number, and
   the old one's is lower. */
static void fast(void)
{
    if (!all_pairs(FAST))
        return;
    EXPECT_NUMBER((int64_t)seen.apart, HISTORY_PAIRS);
    EXPECT_NUMBER((int64_t)seen.releases, HISTORY_PAIRS);
}

const struct test meeting_tests[] = {
    {"pairs of histories: Standard meets after ten calls", standard},
    {"pairs of histories: Fast meets after five calls", fast},
    {0},
};
