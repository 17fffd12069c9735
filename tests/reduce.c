/* The reduction of a plane by a factor into a lent plane: its values, and what it leaves alone. */
#include "reduce.h"

#include <string.h>

const size_t factors[FACTORS] = {1, 2, 4, 8, 16, 32};

static uint8_t field[FIELD];
static struct lent lent;

static void fill_field(void)
{
    uint32_t drawn = 1;
    for (size_t i = 0; i < FIELD; i++) {
        drawn = 1664525 * drawn + 1013904223;
        field[i] = (uint8_t)(drawn >> 24);
    }
}

/* The sum of the square that belongs to sample (x, y) of the reduced plane. */
static size_t square_sum(const struct call *c, size_t x, size_t y)
{
    size_t sum = 0;
    for (size_t row = y * c->factor; row < (y + 1) * c->factor; row++)
        for (size_t column = x * c->factor; column < (x + 1) * c->factor; column++)
            sum += field[c->origin + row * c->stride + column];
    return sum;
}

/* What the lent samples should be after a call, in the place of what they were before it. */
static void read_plainly(const struct call *c, uint8_t *after)
{
    const size_t number = c->factor * c->factor;
    for (size_t y = 0; y < c->height / c->factor; y++)
        for (size_t x = 0; x < c->width / c->factor; x++)
            after[c->origin2 + y * c->stride2 + x] = (uint8_t)((square_sum(c, x, y) + number / 2) / number);
}

int64_t reduce_with(const struct call *c, uint8_t *reduced)
{
    return brine_reduce(c->depth, c->factor, field, c->samples, c->width, c->height, c->stride, c->origin, reduced,
                        c->reduced, c->width2, c->height2, c->stride2, c->origin2);
}

struct call reduce_shaped(size_t factor, size_t width, size_t height, size_t gap, size_t origin)
{
    struct call c = {.depth = 8, .factor = factor, .width = width, .height = height, .origin = origin};
    c.stride = width + gap;
    c.samples = origin + (height - 1) * c.stride + width;
    c.width2 = width / factor;
    c.height2 = height / factor;
    c.stride2 = c.width2 + gap / 2;
    c.origin2 = origin / 2;
    c.reduced = c.origin2 + (c.height2 - 1) * c.stride2 + c.width2 + 3;
    return c;
}

/* Every lent byte after the call, and the guards around them. */
static void agrees(struct call c)
{
    uint8_t want[LENT_ROOM];
    uint8_t *reduced = lent_make(&lent, c.reduced);
    if (!EXPECT(c.samples <= FIELD && c.reduced <= LENT_ROOM))
        return;
    memcpy(want, reduced, c.reduced);
    read_plainly(&c, want);
    EXPECT_NUMBER(reduce_with(&c, reduced), 0);
    EXPECT(lent_holds(&lent, want));
}

/* Each factor with every small reduced width: sides that are whole squares, a sample more, a sample less than one more square. */
static void values(void)
{
    fill_field();
    for (size_t i = 0; i < FACTORS; i++)
        for (size_t wide = 1; wide <= 40; wide++)
            for (size_t high = 1; high <= 2; high++) {
                const size_t f = factors[i];
                agrees(reduce_shaped(f, wide * f, high * f, 0, 0));
                agrees(reduce_shaped(f, wide * f + (f > 1), high * f + f - 1, 5, 3));
                agrees(reduce_shaped(f, wide * f + f - 1, high * f + (f > 1), 1, 64));
            }
}

/* The library goes through a row in chunks of 128 columns. */
static void chunks(void)
{
    fill_field();
    for (size_t wide = 1; wide <= 70; wide++)
        for (size_t odd = 0; odd < 2; odd++)
            agrees(reduce_shaped(2, 2 * wide + odd, 5, 7 * odd, wide % 9));
    for (size_t i = 0; i < FACTORS; i++)
        for (size_t columns = 126; columns <= 130; columns++) {
            agrees(reduce_shaped(factors[i], columns, 2 * factors[i], 3, 1));
            agrees(reduce_shaped(factors[i], 128 + columns, factors[i] + 1, 0, 2));
        }
}

/* Equal squares side by side, each with so many samples of `low + 1` and the others `low`: one, and as many as a chunk has. */
static void mean_of(size_t factor, size_t ones, uint8_t low, uint8_t want)
{
    const size_t counts[] = {1, 128 / factor};
    for (size_t k = 0; k < 2; k++) {
        const struct call c = reduce_shaped(factor, counts[k] * factor, factor, 0, 0);
        for (size_t i = 0; i < c.samples; i++)
            field[i] = (uint8_t)(low + (i / c.stride * factor + i % factor < ones));
        uint8_t *reduced = lent_make(&lent, c.reduced);
        EXPECT_NUMBER(reduce_with(&c, reduced), 0);
        for (size_t x = 0; x < counts[k]; x++)
            EXPECT_NUMBER(reduced[x], want);
    }
}

static void rounding(void)
{
    for (size_t i = 1; i < FACTORS; i++) {
        const size_t number = factors[i] * factors[i], half = number / 2;
        for (int low = 0; low <= 254; low += 127) {
            mean_of(factors[i], 1, (uint8_t)low, (uint8_t)low);
            mean_of(factors[i], half - 1, (uint8_t)low, (uint8_t)low);
            mean_of(factors[i], half, (uint8_t)low, (uint8_t)(low + 1));
            mean_of(factors[i], number - 1, (uint8_t)low, (uint8_t)(low + 1));
        }
    }
}

/* Sums that are the largest and the smallest that there are, in more squares than a chunk has. */
static void flat(void)
{
    for (size_t i = 0; i < FACTORS; i++)
        for (int value = 0; value <= 255; value += 255) {
            const size_t f = factors[i];
            const struct call c = reduce_shaped(f, 130 + f, 3 * f, 2, 1);
            memset(field, value, FIELD);
            agrees(c);
            EXPECT_NUMBER(lent.whole[GUARD + c.origin2 + 2 * c.stride2 + c.width2 - 1], value);
        }
}

/* Samples before the origin, between the rows, and right of and below the last whole square bear on nothing; none is written. */
static void beside(void)
{
    static uint8_t kept[FIELD];
    const struct call c = reduce_shaped(4, 22, 19, 3, 5);
    uint8_t first[LENT_ROOM];

    fill_field();
    uint8_t *reduced = lent_make(&lent, c.reduced);
    EXPECT_NUMBER(reduce_with(&c, reduced), 0);
    memcpy(first, reduced, c.reduced);
    for (size_t i = 0; i < FIELD; i++) {
        const size_t x = (i - c.origin) % c.stride, y = (i - c.origin) / c.stride;
        if (i < c.origin || x >= 20 || y >= 16)
            field[i] ^= 255;
    }
    memcpy(kept, field, FIELD);
    reduced = lent_make(&lent, c.reduced);
    EXPECT_NUMBER(reduce_with(&c, reduced), 0);
    EXPECT(lent_holds(&lent, first));
    EXPECT(memcmp(kept, field, FIELD) == 0);
}

/* A plane of one row may have any stride: it is never taken. */
static void one_row(void)
{
    fill_field();
    struct call c = reduce_shaped(1, 30, 1, 0, 2);
    c.stride = c.stride2 = SIZE_MAX;
    agrees(c);
    c = reduce_shaped(8, 30, 15, 2, 2);
    c.stride2 = SIZE_MAX;
    agrees(c);
}

/* The longest rows and the longest columns at each factor, of as many samples as the field has at most. */
static void largest(void)
{
    enum { ROOM = GUARD + 8192 * 2 + GUARD };
    static uint8_t reduced[ROOM], want[ROOM];
    fill_field();
    for (size_t i = 0; i < 2 * FACTORS; i++) {
        const size_t f = factors[i / 2], few = f == 1 ? 2 : f == 32 ? f : 2 * f - 1;
        struct call c = i % 2 == 0 ? reduce_shaped(f, 8192, few, 0, 0) : reduce_shaped(f, few, 8192, 0, 0);
        c.reduced -= 3;
        if (!EXPECT(c.samples <= FIELD && GUARD + c.reduced + GUARD <= ROOM))
            return;
        for (size_t k = 0; k < ROOM; k++)
            reduced[k] = want[k] = (uint8_t)(151 * k + 43);
        read_plainly(&c, want + GUARD);
        EXPECT_NUMBER(reduce_with(&c, reduced + GUARD), 0);
        EXPECT(memcmp(reduced, want, ROOM) == 0);
    }
}

const struct test reduce_tests[] = {
    {"reduction: values at every factor", values},
    {"reduction: chunks of a row", chunks},
    {"reduction: rounding", rounding},
    {"reduction: the largest and the smallest sums", flat},
    {"reduction: what lies beside bears on nothing", beside},
    {"reduction: one row", one_row},
    {"reduction: the largest sides", largest},
    {0},
};
