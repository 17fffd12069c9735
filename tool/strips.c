#include "strips.h"

#include <stdlib.h>
#include <string.h>

/* The rows of the film that become so many reduced ones. With the last of these come the rows below the last whole square: they are
   looked at like all others. */
static size_t full_rows(const struct strips *s, size_t row, size_t rows)
{
    return row + rows == s->kept.height ? s->film->height - row * s->factor : rows * s->factor;
}

static void set_rows(struct plane *strip, size_t rows)
{
    strip->height = rows;
    strip->count = strip->width * rows;
}

bool strips_make(struct strips *s, struct film *film, size_t factor, size_t rows, uint32_t mode)
{
    const size_t width = film->width / factor, height = film->height / factor;

    *s = (struct strips){.film = film, .factor = factor, .mode = mode};
    s->rows = rows < height ? rows : height;
    const bool made = plane_make(&s->full, film->width, (s->rows + 1) * factor - 1, film->depth)
        && plane_make(&s->now, width, s->rows, film->depth) && plane_make(&s->kept, width, height, film->depth);
    if (mode != BRINE_MODE_STANDARD)
        return made;
    s->block_count = (width / 8) * (height / 8);
    s->blocks = calloc(s->block_count + 1, sizeof *s->blocks);
    return made && s->blocks != NULL && plane_make(&s->room, width, ROOM_ROWS, film->depth);
}

/* The strip against the rows that it takes the place of. Fast mode asks for the difference alone, which frames without a whole block have
   too; differences of strips add up. */
static int64_t measure(struct strips *s, const struct plane *before, size_t row)
{
    if (s->mode == BRINE_MODE_STANDARD)
        return plane_add_strip(s->carry, &s->kept, row, &s->now, &s->room, s->blocks, s->block_count);
    const int64_t answer = s->mode == BRINE_MODE_FAST ? plane_difference(before, &s->now) : 0;
    if (answer >= 0)
        s->difference += (uint64_t)answer;
    return answer;
}

/* Takes the strip that was read, reduced. A factor of 1 copies it: so the library looks at each sample, in every mode. */
static int64_t take(struct strips *s, size_t row)
{
    struct plane before = plane_rows(&s->kept, row, s->now.height);
    int64_t answer = plane_reduce(&s->full, s->factor, &s->now);
    if (answer >= 0 && s->begun)
        answer = measure(s, &before, row);
    if (answer >= 0)
        memcpy(before.samples, s->now.samples, s->now.count * sample_bytes(s->now.depth));
    return answer;
}

/* Why a strip was refused. It is said once the frame is there: a frame that is cut short is told of as that. */
static enum status refused(const struct strips *s, int64_t answer, const char *fault)
{
    if (answer == -REFUSED_SAMPLE)
        return film_refused(s->film, fault, answer);
    return say_refused(answer, "%s: its strips cannot be measured", s->film->name);
}

/* Reads the frame to its end, also behind a strip that is refused. */
static enum status read_strips(struct strips *s)
{
    const struct plane *frame = &s->kept;
    int64_t answer = s->mode == BRINE_MODE_STANDARD
                         ? brine_strips_start(frame->depth, frame->width, frame->height, s->carry, BRINE_CARRY)
                         : 0;
    char fault[FAULT_ROOM] = "";

    s->difference = 0;
    for (size_t row = 0; row < s->kept.height; row += s->rows) {
        const size_t left = s->kept.height - row;
        set_rows(&s->now, s->rows < left ? s->rows : left);
        set_rows(&s->full, full_rows(s, row, s->now.height));
        if (film_rows(s->film, &s->full) != FRAME)
            return FAILED;
        if (answer < 0)
            continue;
        answer = take(s, row);
        if (answer == -REFUSED_SAMPLE)
            plane_fault(&s->full, row * s->factor, fault);
    }
    if (film_end(s->film) != FRAME)
        return FAILED;
    return answer < 0 ? refused(s, answer, fault) : DONE;
}

enum status strips_fetch(struct strips *s, bool *ended)
{
    const enum fetched fetched = film_begin(s->film);
    *ended = fetched == END;
    if (fetched != FRAME)
        return *ended ? DONE : FAILED;
    const enum status status = read_strips(s);
    s->begun = true;
    return status;
}

double strips_delta(const struct strips *s)
{
    return (double)s->difference / (double)s->kept.count;
}

int64_t strips_importance(const struct strips *s, double *importance, double *threshold)
{
    uint64_t difference, total;
    const int64_t answer = brine_strips_end(s->carry, BRINE_CARRY, &difference, &total);
    if (answer < 0)
        return answer;
    *importance = (double)total / (double)answer;
    return brine_threshold(s->blocks, s->block_count, (size_t)answer, threshold);
}

void strips_free(struct strips *s)
{
    plane_free(&s->full);
    plane_free(&s->now);
    plane_free(&s->kept);
    plane_free(&s->room);
    free(s->blocks);
    *s = (struct strips){0};
}
