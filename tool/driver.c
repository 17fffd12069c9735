#include "driver.h"

#include "picture.h"

#include <float.h>
#include <inttypes.h>
#include <string.h>

enum {
    LARGEST_LISTS = BRINE_SET_LIMIT - 1 /* pairs of a set, at most */
};

struct driver {
    struct state state;
    uint32_t mode;

    /* The set in hand: pair k of it is frame number + k, so the frame to decide on is the first pair's second one. */
    double inter[LARGEST_LISTS];
    double importance[LARGEST_LISTS];
    double threshold[LARGEST_LISTS];
    size_t pairs;
    size_t most_pairs;
    bool ended; /* the film has no further frame */
};

static enum status start(struct driver *driver, const struct film *film, const struct settings *settings)
{
    memset(driver, 0, sizeof *driver);
    driver->mode = settings->mode;
    driver->most_pairs = settings->lookahead < LARGEST_LISTS ? settings->lookahead + 1 : LARGEST_LISTS;
    const int64_t answer =
        brine_detector_fresh(film->width, film->height, film->depth, settings->lookahead, settings->mode, settings->min,
                             settings->max, driver->state.numbers, BRINE_NUMBERS, driver->state.scores, BRINE_SCORES);
    return answer < 0 ? picture_refused(film->name, film->width, film->height, film->depth, answer) : DONE;
}

/* Measures frames until the set is full or the film ends. */
static enum status fill(struct driver *driver, struct gauge *gauge)
{
    while (driver->pairs < driver->most_pairs && !driver->ended) {
        struct pair pair;
        const enum status status = gauge_next(gauge, &pair, &driver->ended);
        if (status != DONE)
            return status;
        if (driver->ended)
            return DONE;
        driver->inter[driver->pairs] = pair.inter;
        driver->importance[driver->pairs] = pair.importance;
        driver->threshold[driver->pairs] = pair.threshold;
        driver->pairs++;
    }
    return DONE;
}

/* The first pair leaves the set. */
static void advance(struct driver *driver)
{
    const size_t bytes = (driver->pairs - 1) * sizeof(double);
    memmove(driver->inter, driver->inter + 1, bytes);
    memmove(driver->importance, driver->importance + 1, bytes);
    memmove(driver->threshold, driver->threshold + 1, bytes);
    driver->pairs--;
}

/* Why a step was refused. Of the measures only inter costs from a file can be ones that the library does not take. */
static enum status refused(const struct driver *driver, const struct gauge *gauge, uint64_t frame, int64_t answer)
{
    const struct film *film = gauge->film;
    const uint64_t place = frame - film->first;
    if (answer == -REFUSED_NUMBER)
        return say_refused(answer, "%s: frame %" PRIu64 " of the film would have the number %" PRIu64
                           ", and the largest is %" PRIu32, film->name, place, frame, UINT32_MAX);
    for (size_t i = 0; i < driver->pairs && answer == -REFUSED_COST; i++)
        if (!(driver->inter[i] >= 0 && driver->inter[i] <= DBL_MAX))
            return costs_refused(gauge->costs, place + i, driver->inter[i], answer);
    return say_refused(answer, "%s: frame %" PRIu64, film->name, frame);
}

/* The score that was decided on, and which pair it is of. */
static void take_score(const struct state *state, struct verdict *verdict)
{
    const uint64_t entry = state->numbers[BRINE_OFFSET];
    memcpy(verdict->score, state->scores + entry * BRINE_SCORE_DOUBLES, sizeof verdict->score);
    verdict->scored_pair = state->numbers[BRINE_PAIRS + entry];
}

/* One call of the detector: a list that the mode does not read is lent empty. */
static enum status step(struct driver *driver, const struct gauge *gauge, uint64_t previous, struct verdict *verdict)
{
    const size_t pairs = driver->pairs;
    const size_t inter = driver->mode == BRINE_MODE_NONE ? 0 : pairs;
    const size_t others = driver->mode == BRINE_MODE_STANDARD ? pairs : 0;
    const int64_t answer = brine_detector_step(
        driver->state.numbers, BRINE_NUMBERS, driver->state.scores, BRINE_SCORES, pairs + 1, verdict->frame, previous,
        driver->inter, inter, driver->importance, others, driver->threshold, others);

    if (answer < 0)
        return refused(driver, gauge, verdict->frame, answer);
    verdict->cut = answer == 1 || answer == 3;
    verdict->scored = answer >= 2;
    if (verdict->scored)
        take_score(&driver->state, verdict);
    verdict->release = driver->state.numbers[BRINE_RELEASE_NUMBER];
    verdict->measured = driver->mode != BRINE_MODE_NONE;
    verdict->pair = (struct pair){driver->inter[0], driver->importance[0], driver->threshold[0]};
    verdict->large = verdict->measured && !verdict->cut && pair_is_large(&verdict->pair);
    return DONE;
}

/* The first frame begins a scene; then one step for each frame that has one before it. */
static enum status decide_all(struct driver *driver, struct gauge *gauge, verdict_taker *take, void *taker)
{
    const uint64_t first = gauge->film->first;
    uint64_t previous = first;
    const struct verdict opening = {.frame = first, .first = true, .cut = true, .state = &driver->state};
    enum status status = take(taker, &opening);

    for (uint64_t frame = first + 1; status == DONE; frame++) {
        struct verdict verdict = {.frame = frame, .state = &driver->state};
        status = fill(driver, gauge);
        if (status == DONE && driver->pairs == 0)
            return costs_end(gauge->costs);
        if (status != DONE)
            return status;
        status = step(driver, gauge, previous, &verdict);
        if (status == DONE)
            status = take(taker, &verdict);
        if (verdict.cut)
            previous = frame;
        advance(driver);
    }
    return status;
}

enum status drive(struct film *film, struct costs *costs, const struct settings *settings, verdict_taker *take,
                  void *taker)
{
    struct driver driver;
    struct gauge gauge;
    enum status status = start(&driver, film, settings);

    if (status != DONE)
        return status;
    status = gauge_start(&gauge, film, costs, settings->mode, settings->strip_rows);
    if (status == DONE)
        status = decide_all(&driver, &gauge, take, taker);
    gauge_free(&gauge);
    return status;
}
