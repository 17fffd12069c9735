/* Which pair each score is of, call by call. What the deque must hold is kept beside it as numbers alone, by document 01's rules 4, 5
   and 7. An inter cost is its pair's number here, so each score tells by itself whether its number is right. */
#include "detector.h"

#include <math.h>
#include <string.h>

enum { WINDOW = 5 }; /* entries that stay without lookahead; with it there are as many more as A */

static struct detector detector;

/* The pair numbers that a deque must hold. There is one place more than room, for the entry that is dropped. */
struct deque {
    size_t ahead; /* A */
    size_t offset, count;
    uint64_t pairs[BRINE_ENTRIES + 1];
    bool repeats;  /* the first call scored an item twice .. */
    size_t behind; /* .. and so many entries have come in front of the second of these since */
};

static void push(struct deque *deque, uint64_t pair)
{
    memmove(deque->pairs + 1, deque->pairs, deque->count * sizeof(uint64_t));
    deque->pairs[0] = pair;
    deque->count++;
}

/* Rule 4, on a first call. */
static void begin(struct deque *deque, size_t set, uint64_t n)
{
    deque->repeats = deque->offset == 0 || set <= deque->offset + 1;
    const size_t items = deque->repeats ? set - 1 : deque->offset;
    for (size_t k = 0; k < items; k++)
        push(deque, n + k);
    if (deque->repeats)
        deque->offset = set - 2;
}

/* A call that has a score. */
static void follow(struct deque *deque, size_t set, uint64_t n)
{
    const bool first = deque->count == 0;
    if (first)
        begin(deque, set, n);
    if (set > deque->offset + 1) {
        push(deque, n + deque->offset);
        deque->behind += !first;
    } else
        deque->offset--;
    if (deque->count > WINDOW + deque->ahead)
        deque->count--;
}

/* What lies past the count is no part of the state. Each call finds something else there: a number that would go on as the others do,
   one that would be a repeat, the largest, and 0. */
static void put_rubbish(uint64_t call)
{
    const size_t count = (size_t)detector.numbers[COUNT];
    const uint64_t last = count == 0 ? 1 : detector_pair(&detector, count - 1);
    const uint64_t rubbish[] = {last - 1, last, UINT64_MAX, 0};
    for (size_t entry = count; entry < BRINE_ENTRIES; entry++) {
        detector.numbers[PAIRS + entry] = rubbish[call % 4];
        detector.scores[BRINE_SCORE_DOUBLES * entry + INTER] = NAN;
    }
}

static struct step call_of(size_t set, uint64_t n)
{
    struct step step = step_of(set, n, 0, 0, 1, 40);
    for (size_t k = 0; k < BRINE_SET_LIMIT; k++)
        step.inter[k] = (double)(n + k);
    return step;
}

/* All pair numbers up to the count are right, each with its own pair's score, and no place past it was written. Entry o is pair n, or the
   next one while the repeat stands in front of it. */
static bool holds(const struct deque *deque, uint64_t n)
{
    const bool late = deque->repeats && deque->behind < deque->offset;
    bool good = EXPECT_NUMBER((int64_t)detector.numbers[COUNT], (int64_t)deque->count)
        && EXPECT_NUMBER((int64_t)detector.numbers[OFFSET], (int64_t)deque->offset) && EXPECT(detector_kept(&detector))
        && EXPECT_NUMBER((int64_t)detector_pair(&detector, deque->offset), (int64_t)n + late);
    for (size_t entry = 0; good && entry < deque->count; entry++)
        good = EXPECT_NUMBER((int64_t)detector_pair(&detector, entry), (int64_t)deque->pairs[entry])
            && EXPECT_DOUBLE(detector_score(&detector, entry, INTER), (double)deque->pairs[entry]);
    return good;
}

static bool scores(struct deque *deque, size_t set, uint64_t n)
{
    const struct step step = call_of(set, n);
    put_rubbish(n);
    if (!EXPECT(detector_step(&detector, &step) >= 2))
        return false;
    follow(deque, set, n);
    return holds(deque, n);
}

/* So many calls from frame `first` on with sets of one length, and then shorter ones, as at a film's end. Returns how many of the first
   calls had the next pair's score. */
static size_t run(uint32_t mode, size_t lookahead, size_t set, uint64_t first, uint64_t calls)
{
    struct deque deque = {.ahead = lookahead >= 5 ? 5 : 0, .offset = lookahead >= 5 ? 5 : 0};
    size_t late = 0;
    uint64_t n = first;
    detector_make(&detector, mode, lookahead);
    for (; n < first + calls; n++) {
        if (!scores(&deque, set, n))
            return SIZE_MAX;
        late += detector_pair(&detector, deque.offset) == n + 1;
    }
    while (--set > deque.ahead && deque.offset > 0 && n <= UINT32_MAX)
        if (!scores(&deque, set, n++))
            return SIZE_MAX;
    return late;
}

/* Runs that end soon, and at the last number there is: pairs may have larger ones. */
static void runs(size_t lookahead, size_t set, size_t late)
{
    static const uint64_t lengths[] = {1, 2, 3, 7, 30};
    for (uint32_t mode = FAST; mode <= STANDARD; mode++)
        for (size_t i = 0; i < sizeof lengths / sizeof lengths[0]; i++) {
            const int64_t want = (int64_t)(late < lengths[i] ? late : lengths[i]);
            EXPECT_NUMBER((int64_t)run(mode, lookahead, set, 1, lengths[i]), want);
            EXPECT_NUMBER((int64_t)run(mode, lookahead, set, 20, lengths[i]), want);
            EXPECT_NUMBER((int64_t)run(mode, lookahead, set, ((uint64_t)1 << 32) - lengths[i], lengths[i]), want);
        }
}

/* Without lookahead every first call scores its last item twice. With a set of two frames entry o is that item, and so pair n. */
static void no_lookahead(void)
{
    for (size_t lookahead = 0; lookahead < 5; lookahead++)
        for (size_t set = 2; set <= BRINE_SET_LIMIT; set++)
            runs(lookahead, set, set - 2);
}

/* With lookahead only a first set of six frames does. */
static void lookahead(void)
{
    static const size_t lookaheads[] = {5, 6, 14, SIZE_MAX};
    for (size_t i = 0; i < sizeof lookaheads / sizeof lookaheads[0]; i++) {
        runs(lookaheads[i], 6, 4);
        for (size_t set = 7; set <= BRINE_SET_LIMIT; set++)
            runs(lookaheads[i], set, 0);
    }
}

/* The table of docs/DIFFERENCES.md: a first set of six frames with lookahead 5, and sets of six after it. */
static void six_frames(void)
{
    static const uint64_t rows[][10] = {
        {5, 5, 4, 3, 2, 1},
        {6, 5, 5, 4, 3, 2, 1},
        {7, 6, 5, 5, 4, 3, 2, 1},
        {8, 7, 6, 5, 5, 4, 3, 2, 1},
        {9, 8, 7, 6, 5, 5, 4, 3, 2, 1},
        {10, 9, 8, 7, 6, 5, 5, 4, 3, 2},
        {11, 10, 9, 8, 7, 6, 5, 5, 4, 3}};
    detector_make(&detector, STANDARD, 5);
    for (size_t i = 0; i < sizeof rows / sizeof rows[0]; i++) {
        const struct step step = call_of(6, i + 1);
        const size_t count = i < 4 ? i + 6 : 10;
        EXPECT_NUMBER(detector_step(&detector, &step), 2);
        EXPECT_NUMBER((int64_t)detector.numbers[COUNT], (int64_t)count);
        EXPECT_NUMBER((int64_t)detector.numbers[OFFSET], 4);
        for (size_t entry = 0; entry < count; entry++)
            EXPECT_NUMBER((int64_t)detector_pair(&detector, entry), (int64_t)rows[i][entry]);
    }
}

/* Where frames are reduced, an item's second score is 0 in all four costs. Its pair is the item's all the same. */
static void reduced(void)
{
    for (size_t set = 2; set <= BRINE_SET_LIMIT; set++) {
        const struct step step = call_of(set, 20);
        detector_make(&detector, FAST, 4);
        detector.numbers[WIDTH] = detector.numbers[HEIGHT] = 241;
        EXPECT_NUMBER(detector_step(&detector, &step), 2);
        EXPECT_DOUBLE(detector_score(&detector, 0, INTER), 0.0);
        EXPECT_DOUBLE(detector_score(&detector, 1, INTER), (double)(20 + set - 2));
        EXPECT_NUMBER((int64_t)detector_pair(&detector, 0), (int64_t)(20 + set - 2));
        EXPECT_NUMBER((int64_t)detector_pair(&detector, 1), (int64_t)(20 + set - 2));
    }
}

/* The call is accepted without a score, and no pair number is written, up to the count or past it. */
static void writes_none(size_t set, uint64_t n)
{
    const size_t at = GUARD + PAIRS * sizeof(uint64_t);
    const struct step step = call_of(set, n);
    put_rubbish(n);
    EXPECT_NUMBER(detector_step(&detector, &step), 0);
    EXPECT(memcmp(detector.lent_numbers.whole + at, detector.lent_numbers.kept + at, BRINE_ENTRIES * sizeof(uint64_t)) == 0);
    EXPECT(detector_kept(&detector) && lent_same(&detector.lent_scores));
}

/* None mode; sets of up to A frames on a fresh detector, and behind calls that left entries. */
static void no_score(void)
{
    for (size_t set = 0; set <= BRINE_SET_LIMIT; set++) {
        detector_make(&detector, NONE, set % 2 == 0 ? 5 : 4);
        for (uint64_t n = 1; n < 9; n++)
            writes_none(set, n);
    }
    for (uint32_t mode = FAST; mode <= STANDARD; mode++)
        for (size_t set = 0; set <= 5; set++) {
            detector_make(&detector, mode, 5);
            writes_none(set, 20);
            writes_none(set, 21);
            run(mode, 5, 7, 20, 3); /* then a set of six */
            writes_none(set, 24);
            writes_none(0, 25);
            run(mode, 4, 2, 20, 3);
            writes_none(0, 23);
        }
}

const struct test pair_tests[] = {
    {"pairs: lookahead below 5, sets of 2 to 16 frames", no_lookahead},
    {"pairs: lookahead of 5 and more, sets of 6 to 16 frames", lookahead},
    {"pairs: a first set of six frames, as docs/DIFFERENCES.md has it", six_frames},
    {"pairs: the repeat in scaled Fast mode", reduced},
    {"pairs: a call without a score writes none", no_score},
    {0},
};
