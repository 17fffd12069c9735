/* The strips' part of the comparison: start, strips, end. */
#include "beside_strips.h"
#include "beside_plane.h"
#include "brinepulley.h"
#include "cases.h"
#include "lend.h"

uint64_t strips_started, strips_added[2], strips_rows[2], strips_ended;

static const char *const strips[2] = {"strips", "strips16"};

/* What the end's two places hold before a call: no total of a frame is so large. */
static const uint64_t before[2] = {UINT64_C(1) << 60, UINT64_C(1) << 61};

/* A carry, of any length. */
static const uint64_t *carry(size_t *len)
{
    *len = word();
    return words(*len);
}

void strips_start(void)
{
    uint32_t depth = (uint32_t)word();
    size_t width = word(), height = word(), len;
    const uint64_t *given = carry(&len);
    int64_t due = answer();
    const uint64_t *after = words(len);
    int64_t got = brine_strips_start(depth, width, height, lend_list(NUMBERS, given, len * sizeof *given, 8), len);
    strips_started += due >= 0;
    verdict(due == got && holds(NUMBERS, after), "strips' start", due, got);
}

/* What a caller keeps between two strips. */
struct kept {
    const uint64_t *carry;
    const void *room;
    const uint32_t *costs;
    size_t carry_len, room_len, costs_len;
};

static struct kept kept(void)
{
    struct kept k;
    k.carry = carry(&k.carry_len);
    k.room = samples(&k.room_len);
    k.costs = halves(&k.costs_len);
    return k;
}

void strips_add(void)
{
    struct kept given = kept();
    struct plane a = plane(FIRST), b = plane(SECOND);
    int64_t due = answer();
    struct kept after = kept();
    uint64_t *lent = lend_list(NUMBERS, given.carry, given.carry_len * sizeof *given.carry, 8);
    void *room = lend_list(ROOM, given.room, given.room_len * sample_bytes, sample_bytes);
    uint32_t *costs = lend_list(COSTS, given.costs, given.costs_len * sizeof *given.costs, 4);
    int64_t got = OF_SAMPLES(brine_strips_add, lent, given.carry_len, AS_LENT(a), AS_LENT(b), room, given.room_len, costs,
                             given.costs_len);
    int ok = holds(FIRST, a.samples) && holds(SECOND, b.samples) && holds(NUMBERS, after.carry) && holds(ROOM, after.room) &&
             holds(COSTS, after.costs);
    strips_added[sample_bytes - 1] += due >= 0;
    strips_rows[sample_bytes - 1] += due >= 0 ? a.height : 0;
    verdict(ok && due == got, strips[sample_bytes - 1], due, got);
}

void strips_end(void)
{
    size_t len;
    const uint64_t *given = carry(&len);
    int64_t due = answer();
    const uint64_t *after = words(2);
    uint64_t *difference = lend(OUT, &before[0], sizeof before[0], 8), *total = lend(TOTAL, &before[1], sizeof before[1], 8);
    int64_t got = brine_strips_end(lend_list(NUMBERS, given, len * sizeof *given, 8), len, difference, total);
    if (due < 0) after = before;
    strips_ended += due >= 0;
    verdict(due == got && holds(NUMBERS, given) && holds(OUT, &after[0]) && holds(TOTAL, &after[1]), "strips' end", due, got);
}
