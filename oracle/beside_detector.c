/* The detector's part of the comparison: fresh, step, and whole films as the crate's driver walks over them. */
#include "beside_detector.h"
#include "brinepulley.h"
#include "cases.h"
#include "lend.h"
#include <stdlib.h>
#include <string.h>

enum { ENTRY = BRINE_SCORE_DOUBLES };

uint64_t calls, scored, cuts, ruled, numbered, repeated, fresh, films, film_frames;
/* The state as it should be: what the port has written so far, as the crate says. */
static uint64_t numbers[BRINE_NUMBERS];
static double scores[BRINE_SCORES];

/* Room for lengths that are no state's: both places are lent longer than a state is, and in each other's length. */
enum { MOST = BRINE_SCORES + 8 };
static uint64_t wide_numbers[MOST];
static double wide_scores[MOST];

static void lend_state(size_t numbers_len, size_t scores_len)
{
    size_t n = numbers_len < BRINE_NUMBERS ? numbers_len : BRINE_NUMBERS;
    size_t s = scores_len < BRINE_SCORES ? scores_len : BRINE_SCORES;
    memcpy(wide_numbers, numbers, n * sizeof *numbers);
    memcpy(wide_scores, scores, s * sizeof *scores);
    lend(NUMBERS, wide_numbers, numbers_len * sizeof *numbers, 8);
    lend(SCORES, wide_scores, scores_len * sizeof *scores, 8);
}

void detector_state(void)
{
    size_t len;
    memcpy(numbers, words(BRINE_NUMBERS), sizeof numbers);
    memcpy(scores, reals(&len), sizeof scores);
}

/* The pair numbers from one on are as they were before the call. */
static int pairs_stay(const uint64_t *lent, size_t from)
{
    return memcmp(lent + BRINE_PAIRS + from, numbers + BRINE_PAIRS + from, (BRINE_ENTRIES - from) * sizeof *numbers) == 0;
}

/* Whether two of so many pair numbers that stand side by side are equal. */
static int has_equal(const uint64_t *pairs, size_t count)
{
    for (size_t k = 1; k < count; k++)
        if (pairs[k - 1] == pairs[k]) return 1;
    return 0;
}

void detector_fresh(void)
{
    const uint64_t *n = words(7);
    size_t numbers_len = word(), scores_len = word();
    int64_t due = answer();
    const uint64_t *after = words(BRINE_NUMBERS);
    lend_state(numbers_len, scores_len);
    uint64_t *lent = lend(NUMBERS, wide_numbers, numbers_len * sizeof *numbers, 8);
    double *places = lend(SCORES, wide_scores, scores_len * sizeof *scores, 8);
    int64_t got = brine_detector_fresh(n[0], n[1], (uint32_t)n[2], n[3], (uint32_t)n[4], n[5], n[6], lent, numbers_len, places,
                                       scores_len);
    /* No pair number is written: there is no score yet. */
    int ok = due == got && (due != 0 || pairs_stay(lent, 0));
    if (due == 0) memcpy(numbers, after, sizeof numbers);
    fresh += due == 0;
    verdict(ok && holds(NUMBERS, due == 0 ? numbers : wide_numbers) && holds(SCORES, wide_scores), "fresh detector", due, got);
}

struct list {
    const double *items;
    size_t len;
    double *lent;
};

static struct list list(enum slot slot)
{
    struct list l;
    l.items = reals(&l.len);
    l.lent = lend(slot, l.items, l.len * sizeof *l.items, 8);
    return l;
}

/* The entries below the count are those given; the places behind them are as before the call. */
static int entries_as(const double *lent, const double *due, size_t count)
{
    for (size_t i = 0; i < count * ENTRY; i++)
        if (!same(lent[i], due[i])) return 0;
    return memcmp(lent + count * ENTRY, scores + count * ENTRY, (BRINE_SCORES - count * ENTRY) * sizeof *scores) == 0;
}

void detector_step(void)
{
    size_t numbers_len = word(), scores_len = word(), set = word(), len, score_len;
    uint64_t frame = word(), previous = word();
    struct list inter = list(INTER), importance = list(IMPORTANCE), threshold = list(THRESHOLD);
    int64_t due = answer();
    lend_state(numbers_len, scores_len);
    uint64_t *lent = lend(NUMBERS, wide_numbers, numbers_len * sizeof *numbers, 8);
    double *places = lend(SCORES, wide_scores, scores_len * sizeof *scores, 8);
    int64_t got = brine_detector_step(lent, numbers_len, places, scores_len, set, frame, previous, inter.lent, inter.len,
                                      importance.lent, importance.len, threshold.lent, threshold.len);
    int ok = due == got && holds(INTER, inter.items) && holds(IMPORTANCE, importance.items) &&
             holds(THRESHOLD, threshold.items) && guarded(NUMBERS) && guarded(SCORES);
    if (due < 0) {
        ok = ok && holds(NUMBERS, wide_numbers) && holds(SCORES, wide_scores);
    } else {
        const uint64_t *after = words(BRINE_NUMBERS);
        const double *entries = reals(&len);
        ok = ok && memcmp(lent, after, sizeof numbers) == 0 && entries_as(places, entries, len / ENTRY);
        /* Pair numbers are written up to the count, and without a score none is. */
        ok = ok && pairs_stay(lent, due >= 2 ? len / ENTRY : 0);
        const double *score = reals(&score_len);
        for (size_t i = 0; ok && i < score_len; i++) ok = same(places[lent[BRINE_OFFSET] * ENTRY + i], score[i]);
        memcpy(numbers, after, sizeof numbers);
        memcpy(scores, entries, len * sizeof *scores);
        calls++;
        scored += due >= 2;
        numbered += due >= 2 ? numbers[BRINE_COUNT] : 0;
        repeated += due >= 2 && has_equal(numbers + BRINE_PAIRS, numbers[BRINE_COUNT]);
        cuts += (uint64_t)due & 1;
        ruled += due == 3 && frame - previous < numbers[BRINE_MAX];
    }
    verdict(ok, "step", due, got);
}

struct frame {
    uint64_t width, height, stride, origin;
    const void *samples;
    size_t len;
    double inter, importance, threshold;
};

#define AS_LENT(f) (f).samples, (f).len, (f).width, (f).height, (f).stride, (f).origin

/* The measures of the pair that the frame ends, by the library: in Fast mode the delta, in Standard all but the inter cost. */
static int measure(uint32_t depth, uint64_t mode, const struct frame *before, struct frame *f)
{
    if (mode == BRINE_MODE_FAST) return OF_SAMPLES(brine_delta, depth, AS_LENT(*before), AS_LENT(*f), &f->inter) == 0;
    if (mode == BRINE_MODE_NONE) return 1;
    size_t room = (f->width / 8) * (f->height / 8);
    uint32_t *costs = malloc(room * sizeof *costs + 1);
    void *work = malloc(f->len * sample_bytes + 1);
    if (costs == NULL || work == NULL) abort();
    int64_t blocks = OF_SAMPLES(brine_intra_costs, depth, AS_LENT(*f), work, f->len, f->width, f->height, f->stride, f->origin,
                                costs, room);
    int ok = blocks == (int64_t)room && brine_threshold(costs, room, room, &f->threshold) == 0 &&
             OF_SAMPLES(brine_importance, depth, AS_LENT(*before), AS_LENT(*f), &f->importance) == 0;
    free(costs);
    free(work);
    return ok;
}

static struct frame frame(void)
{
    struct frame f = {word(), word(), word(), word(), NULL, 0, 0, 0, 0};
    f.samples = samples(&f.len);
    memcpy(&f.inter, words(1), sizeof f.inter);
    return f;
}

/* Whether the score that was decided on has the inter cost of the pair that its number names. Where frames are reduced an item's
   second score has 0; it may be decided on when the first one is dropped already. */
static int names_its_pair(const struct frame *f, size_t count)
{
    const uint64_t *n = numbers, pair = n[BRINE_PAIRS + n[BRINE_OFFSET]];
    const double inter = scores[n[BRINE_OFFSET] * ENTRY + BRINE_INTER];
    int is_reduced = brine_scale_factor(n[BRINE_WIDTH], n[BRINE_HEIGHT], (uint32_t)n[BRINE_MODE]) > 1;
    return pair < count && (same(inter, f[pair].inter) || (is_reduced && inter == 0));
}

/* What the crate has for a frame: its number, the pair that it is decided on, as counted, and the score. */
enum { FOUND_FRAME, FOUND_PAIR, FOUND_SCORE, FOUND = FOUND_SCORE + ENTRY };

/* The library's answers for one call of the driver against the crate's: is frame n a cut, and its score, if there is one. */
static int film_call(struct frame *f, size_t count, size_t n, size_t ahead, uint64_t *previous, int cut, const uint64_t *found)
{
    double inter[BRINE_SET_LIMIT], importance[BRINE_SET_LIMIT], threshold[BRINE_SET_LIMIT];
    /* The crate's driver has no largest set; a longer one is refused here. */
    size_t most = ahead + 2 < BRINE_SET_LIMIT ? ahead + 2 : BRINE_SET_LIMIT, left = count - (n - 1);
    size_t set = left < most ? left : most;
    for (size_t k = 0; k + 1 < set; k++) {
        inter[k] = f[n + k].inter;
        importance[k] = f[n + k].importance;
        threshold[k] = f[n + k].threshold;
    }
    int64_t got = brine_detector_step(numbers, BRINE_NUMBERS, scores, BRINE_SCORES, set, n, *previous, inter, set - 1, importance,
                                      set - 1, threshold, set - 1);
    int ok = got == cut + (found != NULL ? 2 : 0);
    if (ok && found != NULL) {
        double score[ENTRY];
        memcpy(score, found + FOUND_SCORE, sizeof score);
        for (int i = 0; ok && i < ENTRY; i++) ok = same(scores[numbers[BRINE_OFFSET] * ENTRY + i], score[i]);
        ok = ok && numbers[BRINE_PAIRS + numbers[BRINE_OFFSET]] == found[FOUND_PAIR] && names_its_pair(f, count);
    }
    if (got >= 0 && (got & 1)) *previous = n;
    return ok;
}

void whole_film(void)
{
    const uint64_t *s = words(7);
    size_t count = word();
    struct frame *f = calloc(count + 1, sizeof *f);
    if (f == NULL) abort();
    for (size_t i = 0; i < count; i++) f[i] = frame();
    size_t cut_count = word();
    const uint64_t *cut = words(cut_count);
    size_t score_count = word();
    const uint64_t *found = words(score_count * FOUND);
    int ok = 1;
    for (size_t i = 1; i < count; i++) ok = ok && measure((uint32_t)s[2], s[4], &f[i - 1], &f[i]);
    ok = ok && brine_detector_fresh(s[0], s[1], (uint32_t)s[2], s[3], (uint32_t)s[4], s[5], s[6], numbers, BRINE_NUMBERS, scores,
                                    BRINE_SCORES) == 0;
    /* The crate's first frame is a keyframe; its scores come in the order of their frames. */
    uint64_t previous = 0;
    size_t next_cut = 1, next_score = 0, n;
    for (n = 1; ok && n < count; n++) {
        int is_cut = next_cut < cut_count && cut[next_cut] == n;
        int has_score = next_score < score_count && found[next_score * FOUND + FOUND_FRAME] == n;
        ok = film_call(f, count, n, s[3], &previous, is_cut, has_score ? found + next_score * FOUND : NULL);
        next_cut += (size_t)is_cut;
        next_score += (size_t)has_score;
    }
    ok = ok && next_cut == cut_count && next_score == score_count;
    films++;
    film_frames += count;
    verdict(ok, sample_bytes == 1 ? "whole film" : "whole film of 16 bits", (int64_t)count, (int64_t)n);
    free(f);
}
