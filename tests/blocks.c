/* Refusal 19: what is measured by blocks needs a whole one, of 8 × 8 samples. Planes that just have one and planes that just have none,
   of both words, whole and in strips that are cut everywhere. */
#include "strips.h"

#include <string.h>

static const struct size {
    size_t width, height;
    bool has_block; /* just one */
} sizes[] = {{7, 8, false}, {8, 7, false}, {7, 7, false}, {8, 8, true}, {15, 8, true}};

enum { SIZES = sizeof sizes / sizeof sizes[0], MOST = 15 * 8 };

/* Every sample of the first plane is 10 and every one of the second 40, so each measure is known. */
enum { FIRST = 10, SECOND = 40, APART = SECOND - FIRST };

/* Each size at each depth. */
#define EACH(size, depth)                                                                                              \
    for (const struct size *size = sizes; size < sizes + SIZES; size++)                                                \
        for (uint32_t depth = 8; depth <= 12; depth += 2)

/* ---- whole planes */

struct call {
    uint32_t word, depth; /* the samples' depth, which says their word, and the one that is given */
    struct strip a, b;    /* the intra costs have the second for their work plane */
    size_t costs;
};

static struct lent planes[2], costs, result;

static void *make_plane(struct lent *place, uint32_t depth, size_t count, unsigned value)
{
    void *samples = lent_make(place, count * word_bytes(depth));
    for (size_t i = 0; i < count; i++)
        sample_put(depth, samples, i, value);
    return samples;
}

static struct call good(const struct size *size, uint32_t depth)
{
    const size_t w = size->width, h = size->height;
    const void *a = make_plane(&planes[0], depth, w * h, FIRST), *b = make_plane(&planes[1], depth, w * h, SECOND);
    return (struct call){depth, depth, {a, w * h, w, h, w, 0}, {b, w * h, w, h, w, 0}, 1};
}

/* The measures, by the word of the samples and not by the depth. */
static int64_t total_of(const struct call *c)
{
    return c->word == 8 ? brine_importance_total(c->depth, LENT(c->a), LENT(c->b))
                        : brine_importance_total16(c->depth, LENT(c->a), LENT(c->b));
}

static int64_t importance_of(const struct call *c, double *out)
{
    return c->word == 8 ? brine_importance(c->depth, LENT(c->a), LENT(c->b), out)
                        : brine_importance16(c->depth, LENT(c->a), LENT(c->b), out);
}

static int64_t delta_of(const struct call *c, double *out)
{
    return c->word == 8 ? brine_delta(c->depth, LENT(c->a), LENT(c->b), out)
                        : brine_delta16(c->depth, LENT(c->a), LENT(c->b), out);
}

static int64_t costs_of(const struct call *c, uint32_t *list)
{
    void *work = planes[1].whole + GUARD;
    const struct strip b = c->b;
    return c->word == 8 ? brine_intra_costs(c->depth, LENT(c->a), work, b.length, b.width, b.height, b.stride, b.origin, list, c->costs)
                        : brine_intra_costs16(c->depth, LENT(c->a), work, b.length, b.width, b.height, b.stride, b.origin, list,
                                              c->costs);
}

/* Every measure by blocks gives this refusal, and nothing is written. */
static void refused(const struct call *c, int64_t number)
{
    double *out = lent_make(&result, sizeof *out);
    uint32_t *list = lent_make(&costs, sizeof *list);
    lent_keep(&planes[0]);
    lent_keep(&planes[1]);
    EXPECT_NUMBER(total_of(c), -number);
    EXPECT_NUMBER(importance_of(c, out), -number);
    EXPECT_NUMBER(costs_of(c, list), -number);
    EXPECT(lent_same(&planes[0]) && lent_same(&planes[1]));
    EXPECT(lent_same(&costs) && lent_same(&result));
}

/* One block is enough. The SATD of a flat block is 8 times its distance from the flat prediction. */
static void measured(const struct call *c)
{
    double *out = lent_make(&result, sizeof *out);
    uint32_t *list = lent_make(&costs, sizeof *list);
    EXPECT_NUMBER(total_of(c), APART);
    EXPECT_NUMBER(importance_of(c, out), 0);
    EXPECT_DOUBLE(*out, APART);
    EXPECT_NUMBER(costs_of(c, list), 1);
    EXPECT_NUMBER(*list, 8 * ((128 << (c->depth - 8)) - FIRST));
}

/* Without a block no list is too short. */
static void whole_planes(void)
{
    EACH(size, depth) {
        struct call c = good(size, depth);
        if (size->has_block) {
            measured(&c);
            continue;
        }
        refused(&c, 19);
        c.costs = 0;
        refused(&c, 19);
    }
}

/* Difference and delta need no block. */
static void no_block_needed(void)
{
    EACH(size, depth) {
        const struct call c = good(size, depth);
        double *out = lent_make(&result, sizeof *out);
        EXPECT_NUMBER(whole_difference(depth, c.a, c.b), (int64_t)(APART * size->width * size->height));
        EXPECT_NUMBER(delta_of(&c, out), 0);
        EXPECT_DOUBLE(*out, APART);
    }
}

/* One misdeed for each other test, in their order. A sample of a byte is never too large. */
static void spoil(struct call *c, size_t misdeed)
{
    switch (misdeed) {
    case 0: c->depth = c->word == 8 ? 10 : 8; break;
    case 1: c->a.stride--; break;
    case 2: c->a.length--; break;
    case 3: c->b.stride--; break;
    case 4: c->b.length--; break;
    case 5: c->b.height--; break;
    case 6: sample_put(c->word, planes[0].whole + GUARD, 0, UINT16_MAX); break;
    default: sample_put(c->word, planes[1].whole + GUARD, 0, UINT16_MAX); break;
    }
}

/* 19 comes behind 5, both planes' 1 and 2, and 3, and before 16. */
static void whole_order(void)
{
    static const int64_t numbers[] = {5, 1, 2, 1, 2, 3, 19, 19};
    EACH(size, depth)
        for (size_t misdeed = 0; misdeed < sizeof numbers / sizeof numbers[0] && !size->has_block; misdeed++) {
            struct call c = good(size, depth);
            spoil(&c, misdeed);
            refused(&c, numbers[misdeed]);
        }
}

/* Of no costs there is no threshold, whatever the list is. */
static void no_costs(void)
{
    static const uint32_t list[] = {1000, 3, 77};
    double *out = lent_make(&result, sizeof *out);
    EXPECT_NUMBER(brine_threshold(NULL, 0, 0, out), -19);
    for (size_t length = 0; length <= 3; length++)
        EXPECT_NUMBER(brine_threshold(list, length, 0, out), -19);
    EXPECT(lent_same(&result));
    EXPECT_NUMBER(brine_threshold(list, 3, 1, out), 0);
}

/* ---- strips */

static struct driver driver;
static uint16_t frames[2][MOST]; /* of bytes the first half */

/* The start takes frames without a block too. */
static void begin(const struct size *size, uint32_t depth)
{
    for (size_t i = 0; i < size->width * size->height; i++) {
        sample_put(depth, frames[0], i, FIRST);
        sample_put(depth, frames[1], i, SECOND);
    }
    driver_start(&driver, depth, size->width, size->height);
}

static struct strip rows_of(size_t which, size_t row, size_t rows)
{
    const size_t w = driver.width;
    return (struct strip){frames[which], w * driver.height, w, rows, w, row * w};
}

/* A carry by hand: it holds what the driver wants. */
static void put_carry(void)
{
    memcpy(driver.carry.at, driver.want_carry, sizeof driver.want_carry);
}

/* One as it would be behind so many rows. */
static void put_rows(size_t rows)
{
    driver.want_carry[CARRY_ROWS] = rows;
    driver.want_carry[CARRY_DIFFERENCE] = APART * driver.width * rows;
    put_carry();
}

/* The next rows of both frames. Without a block they are refused, whether those before them have come or not. */
static void hand_on(bool has_block, size_t row, size_t rows)
{
    const struct strip a = rows_of(0, row, rows), b = rows_of(1, row, rows);
    if (has_block) {
        driver_add(&driver, a, b);
        return;
    }
    driver_refuses(&driver, a, b, 19);
    put_rows(row + rows);
}

/* Frames are cut behind each row whose bit is set. Strips of no rows stand before and behind every other, or nowhere. */
static void cut_by(const struct size *size, uint32_t depth, unsigned cuts, bool with_none)
{
    begin(size, depth);
    for (size_t row = 0, next; row < size->height; row = next) {
        next = row + 1;
        while (next < size->height && (cuts >> (next - 1) & 1) == 0)
            next++;
        if (with_none)
            hand_on(size->has_block, row, 0);
        hand_on(size->has_block, row, next - row);
    }
    if (with_none)
        hand_on(size->has_block, size->height, 0);
    if (size->has_block)
        driver_end(&driver, (int64_t)(APART * size->width * size->height), APART);
    else
        end_with(-19, driver.want_carry, BRINE_CARRY);
}

static void every_cut(void)
{
    EACH(size, depth)
        for (unsigned cuts = 0; cuts < 1u << (size->height - 1); cuts++) {
            cut_by(size, depth, cuts, false);
            cut_by(size, depth, cuts, true);
        }
}

/* One misdeed for each other test, in their order. */
static void spoil_strips(struct strip *a, struct strip *b, size_t misdeed)
{
    switch (misdeed) {
    case 0: driver.want_carry[CARRY_TOTAL] = UINT64_MAX; break;
    case 1: a->height = b->height = driver.height + 1; break;
    case 2: driver.want_carry[CARRY_DEPTH] = driver.depth == 8 ? 10 : 8; break;
    case 3: a->stride--; break;
    case 4: a->length--; break;
    case 5: b->stride--; break;
    case 6: b->length--; break;
    case 7: b->width--; break;
    case 8: driver.room_len = 16 * driver.width - 1; break;
    case 9: sample_put(driver.depth, frames[0], 0, UINT16_MAX); break;
    default: sample_put(driver.depth, frames[1], 0, UINT16_MAX); break;
    }
    put_carry();
}

/* 19 comes behind 11, 17, 5, both strips' 1 and 2, and 3, and before 4, which asks for the room too, and 16. */
static void strips_order(void)
{
    static const int64_t numbers[] = {11, 17, 5, 1, 2, 1, 2, 3, 19, 19, 19};
    EACH(size, depth)
        for (size_t misdeed = 0; misdeed < sizeof numbers / sizeof numbers[0] && !size->has_block; misdeed++) {
            begin(size, depth);
            struct strip a = rows_of(0, 0, size->height), b = rows_of(1, 0, size->height);
            spoil_strips(&a, &b, misdeed);
            driver_refuses(&driver, a, b, numbers[misdeed]);
        }
}

/* The end has it behind 11 and 5, and before 18. */
static void end_order(void)
{
    EACH(size, depth) {
        const uint64_t w = size->width, h = size->height;
        const bool has = size->has_block;
        end_with(has ? 1 : -19, (uint64_t[]){w, h, depth, h, 9, 8}, BRINE_CARRY);
        end_with(has ? -18 : -19, (uint64_t[]){w, h, depth, h - 1, 9, 8}, BRINE_CARRY);
        end_with(has ? -18 : -19, (uint64_t[]){w, h, depth, 0, 0, 0}, BRINE_CARRY);
        end_with(-5, (uint64_t[]){w, h, 9, h - 1, 9, 8}, BRINE_CARRY);
        end_with(-11, (uint64_t[]){w, h, depth, h + 1, 9, 8}, BRINE_CARRY);
        end_with(-11, (uint64_t[]){w, h, depth, h, 9, 8}, BRINE_CARRY - 1);
    }
}

const struct test block_tests[] = {
    {"no block: whole planes, refusal 19", whole_planes},
    {"no block: whole planes, the order of refusals", whole_order},
    {"no block: difference and delta", no_block_needed},
    {"no block: a threshold of no costs", no_costs},
    {"no block: strips cut everywhere", every_cut},
    {"no block: strips, the order of refusals", strips_order},
    {"no block: the end of strips", end_order},
    {0},
};
