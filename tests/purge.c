/* What the release number promises, over real planes, see docs/MEETING.md. One recorder never stops. The other forgets all
   after every call: frames below the release number are wiped, and the state is made again from the frames that are left, by a
   fresh detector that is given the calls from one above the release number to the last. Then the two states must be the same,
   the release number too and the first number apart, and the next call must bring the same answer and score.
   Besides its frames the second recorder keeps what fits on any card: the previous keyframe of each call, and how long its film
   is, from which the set lengths follow. */
#include "card.h"

#include <string.h>

enum { FILMS = 4, NEVER = 0 };

/* How many frames of a film are left at its end. The last set of seven begins with the seventh last frame, and its call is
   about the next one. Ten below that is the release number. */
enum { LEFT = 16 };

/* What a test must bring at the least, so that it can fail. It is less than half of what it brings: that is the number behind
   "of", the lowest one of the tests that have the floor. */
enum {
    LEAST_LATER = 400,    /* of 1,000 restarts from a later call than the run's first, */
    LEAST_EARLY = 300,    /* and of 872 from an earlier one than they must, where frames are wiped late */
    LEAST_AGAIN = 5000,   /* of 13,844 calls that are given again, */
    LEAST_REFUSED = 2000, /* and of 4,563 refused calls among these: one that changed something would show */
    LEAST_CUTS = 25,      /* of 56 cuts, */
    LEAST_NO_CUTS = 500   /* and of 1,024 calls with a score and no cut: the answers are not all the same */
};

/* A run. */
struct plan {
    uint32_t mode;
    size_t lookahead;
    size_t frames;       /* of the film */
    uint64_t first;      /* the number of its first frame: the first call is about the next one */
    size_t set;          /* frames in a set, fewer at the film's end; 0: lookahead + 2, 16 at the most, as in the command */
    uint64_t short_from; /* from this call on no set has more frames than .. ; NEVER */
    size_t short_set;    /* .. this */
    uint64_t max;        /* the largest distance of two keyframes; 0 for 2^32 - 1 */
    uint64_t every;      /* frames are wiped after every so many calls; 0: after each */
};

struct recorder {
    struct card card;
    struct film measures;
    struct detector detector;
    int64_t answer; /* of its last call */
};

static struct recorder steady, forgetful;
static uint64_t previous[CARD_FRAMES + 1]; /* of each call, from the first frame's number on */

/* What was seen, over all runs of a test. */
static struct {
    size_t wiped;   /* frames */
    size_t later;   /* restarts from a later call than the run's first */
    size_t early;   /* restarts from an earlier call than they must */
    size_t again;   /* calls that were given again */
    size_t refused; /* refused ones among these */
    size_t cuts, no_cuts;
} seen;

static size_t set_of(const struct plan *plan, uint64_t n)
{
    const uint64_t left = plan->first + plan->frames - (n - 1);
    size_t set = plan->set;
    if (set == 0)
        set = plan->lookahead < BRINE_SET_LIMIT - 2 ? plan->lookahead + 2 : BRINE_SET_LIMIT;
    if (plan->short_from != NEVER && n >= plan->short_from && set > plan->short_set)
        set = plan->short_set;
    return left < set ? (size_t)left : set;
}

static void begin(struct recorder *recorder, const struct plan *plan)
{
    detector_begin(&recorder->detector, plan->mode, plan->lookahead);
    if (plan->max != 0)
        recorder->detector.numbers[MAX] = plan->max;
}

/* Call n. Its pairs are measured from the recorder's own frames. */
static bool decide(struct recorder *recorder, const struct plan *plan, uint64_t n)
{
    const size_t set = set_of(plan, n);
    card_measure(&recorder->card, plan->mode, &recorder->measures, n, n + set - 1);
    const struct step call = film_call(&recorder->measures, set, n, previous[n - plan->first]);
    recorder->answer = detector_step(&recorder->detector, &call);
    return EXPECT(recorder->answer >= 0) && EXPECT(detector_kept(&recorder->detector));
}

/* The states are the same, release number and all, and no frame was asked for that is not there. */
static bool both_same(void)
{
    const struct detector *const a = &steady.detector, *const b = &forgetful.detector;
    return EXPECT(same_state(a->numbers, a->scores, b->numbers, b->scores))
        && EXPECT_NUMBER((int64_t)b->numbers[RELEASE], (int64_t)a->numbers[RELEASE])
        && EXPECT_NUMBER((int64_t)steady.card.missing, 0) && EXPECT_NUMBER((int64_t)forgetful.card.missing, 0);
}

/* Call n to both: the same answer, and the same score where there is one, as it is one of those that are compared. */
static bool both_decide(const struct plan *plan, uint64_t n)
{
    card_take(&forgetful.card, &steady.card, n + set_of(plan, n) - 1);
    if (!decide(&steady, plan, n) || !decide(&forgetful, plan, n))
        return false;
    const uint64_t *const numbers = steady.detector.numbers;
    const bool cut = steady.answer & 1, scored = steady.answer & 2;
    previous[n + 1 - plan->first] = cut ? n : previous[n - plan->first];
    seen.cuts += cut;
    seen.no_cuts += scored && !cut;
    return EXPECT_NUMBER(forgetful.answer, steady.answer) && EXPECT(!scored || numbers[OFFSET] < numbers[COUNT]) && both_same();
}

/* The process is gone, and with it its places and what it has measured. */
static void forget(void)
{
    draw_rubbish(forgetful.detector.numbers, BRINE_NUMBERS);
    draw_rubbish(forgetful.detector.scores, BRINE_SCORES);
    draw_rubbish(&forgetful.measures, sizeof forgetful.measures / sizeof(uint64_t));
}

/* Any number of refused calls, mostly none, where this good one comes next. They change nothing. */
static void refused_calls(const struct plan *plan, const struct step *good)
{
    const uint64_t *const numbers = forgetful.detector.numbers;
    for (; one_in(4); seen.refused++) {
        struct step call = *good;
        const int64_t number = spoil(&call, plan->mode, numbers[LAST], (size_t)numbers[LENGTH]);
        detector_refuses(&forgetful.detector, &call, number);
    }
}

/* What the card has makes the state again, from its oldest frame on. The answers are thrown away. */
static bool restart(const struct plan *plan, uint64_t last)
{
    struct card *const card = &forgetful.card;
    begin(&forgetful, plan);
    card_measure(card, plan->mode, &forgetful.measures, card->from + 1, card->end);
    for (uint64_t n = card->from + 1; n <= last; n++, seen.again++) {
        const struct step call = film_call(&forgetful.measures, set_of(plan, n), n, previous[n - plan->first]);
        refused_calls(plan, &call);
        if (!EXPECT(detector_step(&forgetful.detector, &call) >= 0))
            return false;
    }
    seen.later += card->from > plan->first;
    seen.early += card->from < steady.detector.numbers[RELEASE];
    return both_same();
}

/* Frames below the release number are wiped, at once or some calls later. */
static bool purge(const struct plan *plan, uint64_t n)
{
    const uint64_t release = forgetful.detector.numbers[RELEASE];
    if (plan->every != 0 && n % plan->every != 0)
        return EXPECT(forgetful.card.from <= release);
    seen.wiped += card_wipe(&forgetful.card, release);
    return EXPECT_NUMBER((int64_t)forgetful.card.from, (int64_t)release);
}

/* Both recorders over one film, up to the first call that fails. */
static bool run(const struct plan *plan, uint64_t seed)
{
    const uint64_t end = plan->first + plan->frames;
    uint64_t n = plan->first + 1;
    draw_from(seed);
    card_draw(&steady.card, plan->first, plan->frames);
    card_clear(&forgetful.card, plan->first);
    detector_make(&steady.detector, plan->mode, plan->lookahead);
    detector_make(&forgetful.detector, plan->mode, plan->lookahead);
    begin(&steady, plan);
    begin(&forgetful, plan);
    previous[1] = plan->first;
    for (; n < end && both_decide(plan, n) && purge(plan, n); n++) {
        forget();
        if (!restart(plan, n))
            break;
    }
    return EXPECT_NUMBER((int64_t)n, (int64_t)end);
}

/* Each plan with some films, up to the first run that fails. */
static bool all_runs(const struct plan *plans, size_t count)
{
    size_t done = 0;
    memset(&seen, 0, sizeof seen);
    while (done < FILMS * count && run(&plans[done % count], done))
        done++;
    if (!EXPECT_NUMBER((int64_t)done, (int64_t)(FILMS * count)))
        return false;
    EXPECT(seen.again >= LEAST_AGAIN);
    EXPECT(seen.refused >= LEAST_REFUSED);
    EXPECT(seen.cuts >= LEAST_CUTS);
    return EXPECT(seen.no_cuts >= LEAST_NO_CUTS);
}

/* Films that begin at 0, later, and so that their last frame has the last number. Sets of seven frames, longer ones, and the
   longest: all of them get shorter at the film's end. */
static void frames_go(uint32_t mode)
{
    const struct plan plans[] = {
        {.mode = mode, .lookahead = 5, .frames = CARD_FRAMES},
        {.mode = mode, .lookahead = 5, .frames = CARD_FRAMES, .first = 999},
        {.mode = mode, .lookahead = 9, .frames = CARD_FRAMES, .first = 1},
        {.mode = mode, .lookahead = 14, .frames = CARD_FRAMES},
        {.mode = mode, .lookahead = SIZE_MAX, .frames = CARD_FRAMES, .first = ((uint64_t)1 << 32) - CARD_FRAMES},
    };
    const size_t count = sizeof plans / sizeof plans[0];
    if (!all_runs(plans, count))
        return;
    EXPECT_NUMBER((int64_t)seen.wiped, (int64_t)(FILMS * count * (CARD_FRAMES - LEFT)));
    EXPECT(seen.later >= LEAST_LATER);
}

static void standard(void)
{
    frames_go(STANDARD);
}

/* Frames of this size are not reduced. */
static void fast(void)
{
    EXPECT_NUMBER(brine_scale_factor(CARD_WIDTH, CARD_HEIGHT, FAST), 1);
    frames_go(FAST);
}

/* The sets get short at the sixtieth call, long before the film ends: six frames, one, or none. From there on every frame
   stays. */
static void short_sets(void)
{
    const struct plan plans[] = {
        {.mode = STANDARD, .lookahead = 5, .frames = 100, .short_from = 60, .short_set = 6},
        {.mode = STANDARD, .lookahead = 14, .frames = 100, .first = 40, .short_from = 100, .short_set = 6},
        {.mode = FAST, .lookahead = 5, .frames = 100, .first = 40, .short_from = 100, .short_set = 6},
        {.mode = FAST, .lookahead = 14, .frames = 100, .short_from = 60, .short_set = 6},
        {.mode = STANDARD, .lookahead = 5, .frames = 100, .short_from = 60, .short_set = 1},
        {.mode = FAST, .lookahead = 14, .frames = 100, .short_from = 60, .short_set = 0},
    };
    const size_t count = sizeof plans / sizeof plans[0];
    if (!all_runs(plans, count))
        return;
    EXPECT_NUMBER((int64_t)seen.wiped, (int64_t)(FILMS * count * (59 - 10)));
    EXPECT(seen.later >= LEAST_LATER);
}

/* A recorder that wipes its frames after every seventh call begins again earlier than it must, which is as good. */
static void late(void)
{
    const struct plan plans[] = {
        {.mode = STANDARD, .lookahead = 5, .frames = CARD_FRAMES, .every = 7},
        {.mode = FAST, .lookahead = 9, .frames = CARD_FRAMES, .first = 999, .every = 7},
    };
    if (!all_runs(plans, sizeof plans / sizeof plans[0]))
        return;
    EXPECT(seen.later >= LEAST_LATER);
    EXPECT(seen.early >= LEAST_EARLY);
}

/* A lookahead below 5, whatever the sets; None mode; films and sets of fewer than seven frames: all calls are given again, and
   no frame goes. */
static void no_frame_goes(void)
{
    const struct plan plans[] = {
        {.mode = STANDARD, .lookahead = 4, .frames = 60},
        {.mode = STANDARD, .lookahead = 0, .frames = 60, .first = 999},
        {.mode = STANDARD, .lookahead = 4, .frames = 60, .set = 7},
        {.mode = FAST, .lookahead = 4, .frames = 60, .first = 999},
        {.mode = FAST, .lookahead = 1, .frames = 60},
        {.mode = FAST, .lookahead = 0, .frames = 60, .set = BRINE_SET_LIMIT},
        {.mode = NONE, .lookahead = 5, .frames = 60, .max = 7},
        {.mode = NONE, .lookahead = 14, .frames = 60, .first = 999, .max = 7},
        {.mode = STANDARD, .lookahead = 5, .frames = 60, .short_from = 1, .short_set = 6},
        {.mode = FAST, .lookahead = 14, .frames = 60, .short_from = 1, .short_set = 6},
        {.mode = STANDARD, .lookahead = 5, .frames = 6, .first = 999},
        {.mode = FAST, .lookahead = 5, .frames = 2},
        {.mode = STANDARD, .lookahead = 14, .frames = 16},
        {.mode = FAST, .lookahead = 5, .frames = 11, .first = 999},
    };
    if (!all_runs(plans, sizeof plans / sizeof plans[0]))
        return;
    EXPECT_NUMBER((int64_t)seen.wiped, 0);
    EXPECT_NUMBER((int64_t)seen.later, 0);
}

const struct test purge_tests[] = {
    {"purge: Standard, a restart after every call", standard},
    {"purge: Fast, a restart after every call", fast},
    {"purge: sets that get short before the film ends", short_sets},
    {"purge: frames that are wiped late", late},
    {"purge: no frame goes, all calls are given again", no_frame_goes},
    {0},
};
