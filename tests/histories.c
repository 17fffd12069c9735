#include "histories.h"

#include <float.h>
#include <math.h>
#include <string.h>

/* Kinds of films: a few values that tie; even ones; small ones with a high one now and then; small ones with a peak at every
   fifth place; the edges of what an inter cost may be. */
enum { TIES, EVEN, QUIET, PEAKS, EDGES, KINDS };

#define COUNT_OF(list) ((uint32_t)(sizeof(list) / sizeof (list)[0]))

static uint64_t drawn;

void draw_from(uint64_t seed)
{
    drawn = seed;
}

/* Steele, Lea and Flood's mixing of a counter: seeds that are neighbours give draws that are not alike. */
static uint64_t draw_bits(void)
{
    uint64_t bits = drawn += 0x9e3779b97f4a7c15;
    bits = (bits ^ bits >> 30) * 0xbf58476d1ce4e5b9;
    bits = (bits ^ bits >> 27) * 0x94d049bb133111eb;
    return bits ^ bits >> 31;
}

uint32_t draw(uint32_t limit)
{
    return (uint32_t)((draw_bits() >> 32) * limit >> 32);
}

bool one_in(uint32_t many)
{
    return draw(many) == 0;
}

void draw_rubbish(void *place, size_t words)
{
    for (size_t i = 0; i < words; i++) {
        const uint64_t bits = draw_bits();
        memcpy((uint8_t *)place + i * sizeof bits, &bits, sizeof bits);
    }
}

static double draw_inter(uint32_t kind, bool peak)
{
    static const double edges[] = {0.0,  -0.0, 5e-324, DBL_MIN, 1e-9, 7, 17.999999999999996, 18, 22.499999999999996, 22.5,
                                   26.999999999999996, 27, 1e18, DBL_MAX / 2, DBL_MAX};
    if (kind == EDGES || one_in(64))
        return edges[draw(COUNT_OF(edges))];
    if (kind == TIES)
        return 10.0 * draw(4);
    if (kind == EVEN)
        return draw(256) / 8.0;
    if (kind == PEAKS)
        return peak ? 30.0 + draw(16) : draw(64) / 8.0;
    return one_in(6) ? 20.0 + draw(64) : draw(16) / 8.0;
}

static double draw_importance(void)
{
    static const double edges[] = {0.0, -0.0, 6.999999999999999, 7, 8.749999999999998, 8.75, 10.499999999999998, 10.5, DBL_MAX};
    return one_in(8) ? edges[draw(COUNT_OF(edges))] : draw(24) * 0.5;
}

static double draw_threshold(void)
{
    static const double edges[] = {0.0, -0.0, 5e-324, DBL_MAX};
    return one_in(8) ? edges[draw(COUNT_OF(edges))] : draw(16);
}

void film_make(struct film *film, uint64_t first, size_t peak)
{
    const uint32_t kind = draw(KINDS);
    film->first = first;
    for (size_t i = 0; i < FILM_PAIRS; i++) {
        film->inter[i] = draw_inter(kind, i % 5 == peak % 5);
        film->importance[i] = draw_importance();
        film->threshold[i] = draw_threshold();
    }
}

uint64_t draw_keyframe(uint64_t n)
{
    const uint32_t way = draw(8);
    if (way == 0)
        return 0;
    if (way == 1)
        return n;
    return n - draw(n < 40 ? (uint32_t)n + 1 : 41);
}

struct step film_call(const struct film *film, size_t set, uint64_t n, uint64_t previous)
{
    struct step call = step_of(set, n, previous, 0, 0, 0);
    const size_t place = (size_t)(n - film->first);
    if (EXPECT(place <= FILM_PAIRS - BRINE_SET_LIMIT)) {
        memcpy(call.inter, film->inter + place, sizeof call.inter);
        memcpy(call.importance, film->importance + place, sizeof call.importance);
        memcpy(call.threshold, film->threshold + place, sizeof call.threshold);
    }
    return call;
}

void draw_lists(struct step *call)
{
    const uint32_t kind = draw(KINDS);
    for (size_t i = 0; i < BRINE_SET_LIMIT; i++) {
        call->inter[i] = draw_inter(kind, one_in(5));
        call->importance[i] = draw_importance();
        call->threshold[i] = draw_threshold();
    }
}

/* Other bits in each NaN, which a spoiled call alone has: of either sign, quiet or signalling. */
static void other_nans(double *items)
{
    for (size_t i = 0; i < BRINE_SET_LIMIT; i++)
        if (items[i] != items[i]) {
            const uint64_t bits = 0x7ff0000000010000 | (draw_bits() & 0x800800000000ffff);
            memcpy(items + i, &bits, sizeof bits);
        }
}

struct step call_again(const struct step *call, uint32_t mode)
{
    struct step again = *call;
    other_nans(again.inter);
    if (mode == FAST) {
        draw_rubbish(again.importance, BRINE_SET_LIMIT);
        draw_rubbish(again.threshold, BRINE_SET_LIMIT);
        again.importance_count = draw(BRINE_SET_LIMIT + 1);
        again.threshold_count = draw(BRINE_SET_LIMIT + 1);
    } else {
        other_nans(again.importance);
        other_nans(again.threshold);
    }
    return again;
}

/* Refusal 7: the number is 0, out of 32 bits, below the keyframe's or, behind an accepted call, not the next. */
static void spoil_number(struct step *call, uint64_t last)
{
    const uint32_t way = draw(last == 0 ? 5 : 7);
    if (way == 0)
        call->frame = 0;
    if (way == 1)
        call->frame = (uint64_t)1 << 32;
    if (way == 2)
        call->frame += (uint64_t)1 << 32;
    if (way == 3)
        call->previous = call->frame + 1 + draw(3);
    if (way == 4)
        call->previous = UINT64_MAX;
    if (way == 5)
        call->frame = last + 2 + draw(4);
    if (way == 6)
        call->frame = last - draw(last < 4 ? (uint32_t)last : 4);
}

/* Refusal 8: the set is too long, or longer than the last. Its lists have as many items as it wants, if they can. */
static void spoil_set(struct step *call, uint64_t last, size_t length)
{
    const uint32_t room = last == 0 ? 0 : (uint32_t)(BRINE_SET_LIMIT - length);
    if (room > 0 && !one_in(4))
        call->set = length + 1 + draw(room);
    else
        call->set = one_in(4) ? SIZE_MAX - draw(2) : BRINE_SET_LIMIT + 1 + draw(3);
    const size_t items = call->set <= BRINE_SET_LIMIT ? call->set - 1 : BRINE_SET_LIMIT;
    call->inter_count = call->importance_count = call->threshold_count = items;
}

/* Refusal 10: a list that is read has another length, or an item that it may not have. */
static void spoil_list(struct step *call, uint32_t mode)
{
    static const double bad[] = {INFINITY, -INFINITY, -1, -5e-324, -DBL_MAX, NAN};
    const uint32_t which = mode == FAST ? 0 : draw(3);
    double *const items = which == 0 ? call->inter : which == 1 ? call->importance : call->threshold;
    size_t *const count = which == 0 ? &call->inter_count : which == 1 ? &call->importance_count : &call->threshold_count;
    if (*count > 0 && !one_in(3)) {
        const uint32_t place = draw((uint32_t)*count);
        items[place] = bad[draw(COUNT_OF(bad))];
    } else {
        const size_t other = draw(BRINE_SET_LIMIT);
        *count = other < *count ? other : other + 1;
    }
}

int64_t spoil(struct step *call, uint32_t mode, uint64_t last, size_t length)
{
    /* 1 the number, 2 the set, 4 a list; None mode reads no list */
    const uint32_t faults = mode == NONE ? 1 + draw(3) : one_in(2) ? 1u << draw(3) : 1 + draw(7);
    if (faults & 4)
        spoil_list(call, mode);
    if (faults & 2)
        spoil_set(call, last, length);
    if (faults & 1)
        spoil_number(call, last);
    return faults & 1 ? 7 : faults & 2 ? 8 : 10;
}
