#include "gauge.h"

#include "brinepulley.h"

#include <stdlib.h>

/* Fast mode's threshold. The detector has its own: this one is for the reader's eye. */
static double fast_threshold(uint32_t depth)
{
    return 18.0 * depth / 8.0;
}

bool pair_is_large(const struct pair *pair)
{
    return pair->inter > 0 && pair->inter >= pair->threshold;
}

static bool make_room(struct gauge *gauge)
{
    const struct film *film = gauge->film;
    const size_t width = film->width / gauge->factor, height = film->height / gauge->factor;

    gauge->block_count = (width / 8) * (height / 8);
    gauge->blocks = calloc(gauge->block_count + 1, sizeof *gauge->blocks);
    return gauge->blocks != NULL && plane_make(&gauge->full, film->width, film->height, film->depth)
        && plane_make(&gauge->before, width, height, film->depth) && plane_make(&gauge->now, width, height, film->depth)
        && plane_make(&gauge->work, width, height, film->depth);
}

/* Fetches a frame into `now`, reduced; *ended where there is none. A frame of two bytes a sample is reduced by a factor of 1 too,
   which copies it: so the library looks at its samples as soon as it is there, in every mode, and it is known which frame is at
   fault. By strips a frame is measured as it comes, over the one before, whose place it takes. */
static enum status fetch(struct gauge *gauge, bool *ended)
{
    struct film *film = gauge->film;
    if (gauge->by_strips)
        return strips_fetch(&gauge->strips, ended);
    const bool whole = gauge->factor == 1 && sample_bytes(film->depth) == 1;
    const enum fetched fetched = film->next(film, whole ? &gauge->now : &gauge->full);
    *ended = fetched == END;
    if (fetched == BROKEN)
        return FAILED;
    if (*ended || whole)
        return DONE;
    const int64_t answer = plane_reduce(&gauge->full, gauge->factor, &gauge->now);
    char fault[FAULT_ROOM] = "";
    if (answer == -REFUSED_SAMPLE && plane_fault(&gauge->full, 0, fault))
        return film_refused(film, fault, answer);
    return answer < 0 ? say_refused(answer, "%s: its frames cannot be reduced", film->name) : DONE;
}

/* Standard mode measures by whole blocks. The first frame beside itself tells whether there is one, before anything is decided. */
static enum status want_block(const struct gauge *gauge)
{
    const struct plane *frame = gauge->by_strips ? &gauge->strips.kept : &gauge->now;
    const int64_t answer = plane_importance_total(frame, frame);
    char fault[FAULT_ROOM];
    if (answer == -REFUSED_BLOCK) {
        plane_block_fault(frame, fault);
        return film_refused(gauge->film, fault, answer);
    }
    return answer < 0 ? say_refused(answer, "%s: its frames cannot be measured", gauge->film->name) : DONE;
}

enum status gauge_start(struct gauge *gauge, struct film *film, struct costs *costs, uint32_t mode, size_t strip_rows)
{
    *gauge = (struct gauge){.film = film, .costs = costs, .mode = mode, .by_strips = strip_rows > 0};
    const int64_t factor = brine_scale_factor(film->width, film->height, mode);
    if (factor < 0)
        return say_refused(factor, "%s: its sides have no scale factor", film->name);
    gauge->factor = (size_t)factor;
    if (!(gauge->by_strips ? strips_make(&gauge->strips, film, gauge->factor, strip_rows, mode) : make_room(gauge)))
        return say_failed("%s: not enough memory for its frames", film->name);
    bool ended;
    const enum status status = fetch(gauge, &ended);
    if (ended)
        return say_failed("%s: it has no frame", film->name);
    return status == DONE && mode == BRINE_MODE_STANDARD ? want_block(gauge) : status;
}

static int64_t measure_fast(struct gauge *g, struct pair *pair)
{
    pair->threshold = fast_threshold(g->film->depth);
    if (!g->by_strips)
        return plane_delta(&g->before, &g->now, &pair->inter);
    pair->inter = strips_delta(&g->strips);
    return 0;
}

/* Importance of the pair; the threshold comes from its second frame. */
static int64_t measure_standard(struct gauge *g, struct pair *pair)
{
    if (g->by_strips)
        return strips_importance(&g->strips, &pair->importance, &pair->threshold);
    int64_t answer = plane_importance(&g->now, &g->before, &pair->importance);
    if (answer < 0)
        return answer;
    answer = plane_intra_costs(&g->now, &g->work, g->blocks, g->block_count);
    if (answer < 0)
        return answer;
    return brine_threshold(g->blocks, g->block_count, (size_t)answer, &pair->threshold);
}

enum status gauge_next(struct gauge *gauge, struct pair *pair, bool *ended)
{
    const struct plane last = gauge->before;
    gauge->before = gauge->now;
    gauge->now = last;
    *pair = (struct pair){0};

    const enum status status = fetch(gauge, ended);
    if (status != DONE || *ended)
        return status;
    int64_t answer = 0;
    if (gauge->mode == BRINE_MODE_FAST)
        answer = measure_fast(gauge, pair);
    if (gauge->mode == BRINE_MODE_STANDARD)
        answer = measure_standard(gauge, pair);
    if (answer < 0)
        return say_refused(answer, "%s: its frames cannot be measured", gauge->film->name);
    return gauge->mode == BRINE_MODE_STANDARD ? costs_next(gauge->costs, &pair->inter) : DONE;
}

void gauge_free(struct gauge *gauge)
{
    plane_free(&gauge->full);
    plane_free(&gauge->before);
    plane_free(&gauge->now);
    plane_free(&gauge->work);
    free(gauge->blocks);
    strips_free(&gauge->strips);
    *gauge = (struct gauge){0};
}
