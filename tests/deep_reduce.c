/* The reduction of a plane of 10 or 12 bits: its values, its refusals, and what it leaves alone. */
#include "reduce.h"

#include <string.h>

static uint16_t field[FIELD];
static struct lent lent;

/* Any samples below 2 to the depth. */
static void fill_field(uint32_t depth)
{
    uint32_t drawn = 1;
    for (size_t i = 0; i < FIELD; i++) {
        drawn = 1664525 * drawn + 1013904223;
        field[i] = (uint16_t)(drawn >> (32 - depth));
    }
}

static int64_t called(const struct call *c, uint16_t *reduced)
{
    return brine_reduce16(c->depth, c->factor, field, c->samples, c->width, c->height, c->stride, c->origin, reduced,
                          c->reduced, c->width2, c->height2, c->stride2, c->origin2);
}

static struct call shaped(uint32_t depth, size_t factor, size_t width, size_t height, size_t gap, size_t origin)
{
    struct call c = reduce_shaped(factor, width, height, gap, origin);
    c.depth = depth;
    return c;
}

/* What the lent samples should be after a call, in the place of what they were before it. */
static void read_plainly(const struct call *c, uint16_t *after)
{
    const size_t f = c->factor, number = f * f;
    for (size_t y = 0; y < c->height / f; y++)
        for (size_t x = 0; x < c->width / f; x++) {
            size_t sum = 0;
            for (size_t i = 0; i < number; i++)
                sum += field[c->origin + (y * f + i / f) * c->stride + x * f + i % f];
            after[c->origin2 + y * c->stride2 + x] = (uint16_t)((sum + number / 2) / number);
        }
}

/* Every lent byte after the call, and the guards around them. The lent samples may be any before it: many are above 4,095. */
static void agrees(struct call c)
{
    uint16_t want[LENT_ROOM / 2];
    uint16_t *reduced = lent_make(&lent, c.reduced * sizeof *reduced);
    if (!EXPECT(c.samples <= FIELD && c.reduced <= LENT_ROOM / 2))
        return;
    memcpy(want, reduced, c.reduced * sizeof *want);
    read_plainly(&c, want);
    EXPECT_NUMBER(called(&c, reduced), 0);
    EXPECT(lent_holds(&lent, want));
}

/* Each factor with every small reduced width: sides that are whole squares, a sample more, a sample less than one more square. */
static void values(void)
{
    for (uint32_t depth = 10; depth <= 12; depth += 2) {
        fill_field(depth);
        for (size_t i = 0; i < FACTORS; i++)
            for (size_t wide = 1; wide <= 40; wide++) {
                const size_t f = factors[i];
                agrees(shaped(depth, f, wide * f, 2 * f, 0, 0));
                agrees(shaped(depth, f, wide * f + (f > 1), 2 * f - 1, 5, 3));
                agrees(shaped(depth, f, wide * f + f - 1, f + (f > 1), 1, 64));
            }
    }
}

/* Longer rows. */
static void long_rows(void)
{
    fill_field(12);
    for (size_t i = 0; i < FACTORS; i++)
        for (size_t columns = 62; columns <= 130; columns++)
            agrees(shaped(12, factors[i], columns, 2 * factors[i], columns % 4, columns % 3));
}

/* A square with so many samples of `low + 1` and the others `low`. */
static void mean_of(uint32_t depth, size_t factor, size_t ones, uint16_t low, uint16_t want)
{
    const struct call c = shaped(depth, factor, factor, factor, 0, 0);
    for (size_t i = 0; i < c.samples; i++)
        field[i] = (uint16_t)(low + (i < ones));
    uint16_t *reduced = lent_make(&lent, c.reduced * sizeof *reduced);
    EXPECT_NUMBER(called(&c, reduced), 0);
    EXPECT_NUMBER(reduced[0], want);
}

static void rounding(void)
{
    static const struct {
        uint32_t depth;
        uint16_t low;
    } lows[] = {{10, 0}, {10, 255}, {10, 1022}, {12, 0}, {12, 2047}, {12, 4094}};
    for (size_t i = 1; i < FACTORS; i++)
        for (size_t k = 0; k < sizeof lows / sizeof lows[0]; k++) {
            const size_t number = factors[i] * factors[i];
            const uint16_t low = lows[k].low, high = (uint16_t)(low + 1);
            mean_of(lows[k].depth, factors[i], number / 2 - 1, low, low);
            mean_of(lows[k].depth, factors[i], number / 2, low, high);
            mean_of(lows[k].depth, factors[i], number, low, high);
        }
}

/* The largest sums that there are, in rows of many squares. */
static void flat(void)
{
    for (size_t i = 0; i < 2 * FACTORS; i++) {
        const size_t f = factors[i / 2];
        const uint16_t largest = i % 2 == 0 ? 1023 : 4095;
        const struct call c = shaped(i % 2 == 0 ? 10 : 12, f, 130 + f, 3 * f, 2, 1);
        for (size_t k = 0; k < FIELD; k++)
            field[k] = largest;
        agrees(c);
        uint16_t last;
        memcpy(&last, lent.whole + GUARD + 2 * (c.origin2 + 2 * c.stride2 + c.width2 - 1), sizeof last);
        EXPECT_NUMBER(last, largest);
    }
}

/* What lies before the origin and between the rows is not looked at. */
static void padding(void)
{
    for (uint32_t depth = 10; depth <= 12; depth += 2) {
        const struct call c = shaped(depth, 4, 22, 19, 3, 5);
        fill_field(depth);
        for (size_t i = 0; i < FIELD; i++)
            if (i < c.origin || i >= c.samples || (i - c.origin) % c.stride >= c.width)
                field[i] = UINT16_MAX;
        agrees(c);
    }
}

static void refused(struct call c, int64_t number)
{
    uint16_t *reduced = lent_make(&lent, LENT_ROOM);
    EXPECT_NUMBER(called(&c, reduced), -number);
    EXPECT(lent_same(&lent));
}

/* A plane of 22 × 19 with a stride of 25 from sample 6 on, and a lent one of 5 × 4 with a stride of 6 from sample 3 on; at both depths.
   `large` is the least sample that is too large. */
#define REFUSED(number, ...)                                                                                           \
    for (uint32_t bits = 10; bits <= 12; bits += 2) {                                                                 \
        struct call c = shaped(bits, 4, 22, 19, 3, 6);                                                                \
        const uint16_t large = (uint16_t)(1u << bits);                                                                \
        (void)large;                                                                                                  \
        for (size_t at = 0; at < c.samples; at++)                                                                     \
            field[at] = (uint16_t)(large - 1);                                                                        \
        c.reduced -= 3;                                                                                               \
        __VA_ARGS__;                                                                                                  \
        refused(c, number);                                                                                           \
    }

static void refusals(void)
{
    static const uint32_t none[] = {0, 8, 9, 11, 13, 16, 256 + 10, UINT32_MAX};
    for (size_t i = 0; i < sizeof none / sizeof none[0]; i++)
        REFUSED(5, c.depth = none[i]);
    REFUSED(6, c.factor = 0);
    REFUSED(6, c.factor = 3);
    REFUSED(6, c.factor = 64);
    REFUSED(1, c.width = c.stride = 8193);
    REFUSED(1, c.stride = 21);
    REFUSED(1, c.width = 3, c.width2 = 0);
    REFUSED(1, c.height = 3, c.height2 = 0);
    REFUSED(2, c.samples--);
    REFUSED(2, c.origin = SIZE_MAX);
    REFUSED(1, c.height2 = 0);
    REFUSED(1, c.stride2 = 4);
    REFUSED(2, c.reduced--);
    REFUSED(2, c.stride2 = SIZE_MAX);
    REFUSED(3, c.width2 = 4);
    REFUSED(3, c.height2 = 3);
}

/* Calls to which a refusal and later ones apply: 16 is the last. */
static void order(void)
{
    REFUSED(6, field[6] = large, c.factor = 3, c.depth = 8, c.width = 0);
    REFUSED(5, field[6] = large, c.depth = 8, c.width = 3);
    REFUSED(1, field[6] = large, c.width = 3, c.samples = 0);
    REFUSED(2, field[6] = large, c.samples--, c.width2 = 0);
    REFUSED(1, field[6] = large, c.stride2 = 3, c.reduced = 0);
    REFUSED(2, field[6] = large, c.height2 = 5);
    REFUSED(3, field[6] = large, c.height2 = 3);
    REFUSED(16, field[6] = large);
}

/* Each visible sample, in a whole square or not. */
static void refusal_16(void)
{
    for (size_t i = 0; i < 22 * 19; i++) {
        REFUSED(16, field[6 + i / 22 * 25 + i % 22] = large);
        REFUSED(16, field[6 + i / 22 * 25 + i % 22] = UINT16_MAX);
    }
    REFUSED(16, c.factor = 1, c.width2 = c.stride2 = 22, c.height2 = 19, c.reduced = 3 + 22 * 19, field[6 + 18 * 25 + 21] = large);
}

const struct test deep_reduce_tests[] = {
    {"deep reduction: values at every factor", values},
    {"deep reduction: long rows", long_rows},
    {"deep reduction: rounding", rounding},
    {"deep reduction: the largest sums", flat},
    {"deep reduction: padding is not looked at", padding},
    {"deep reduction: refusals 6, 5, 1, 2, 3", refusals},
    {"deep reduction: the order of refusals", order},
    {"deep reduction: refusal 16", refusal_16},
    {0},
};
