/* The refusals of the reduction: each one, their order, and that a refused call writes nothing. */
#include "reduce.h"

static struct lent lent;

static void refused(struct call c, int64_t number)
{
    uint8_t *reduced = lent_make(&lent, LENT_ROOM);
    EXPECT_NUMBER(reduce_with(&c, reduced), -number);
    EXPECT(lent_same(&lent));
}

/* A plane of 22 × 19 with a stride of 25 from sample 6 on, and a lent one of 5 × 4 with a stride of 6 from sample 3 on. */
#define REFUSED(number, ...)                                                                                           \
    do {                                                                                                              \
        struct call c = reduce_shaped(4, 22, 19, 3, 6);                                                               \
        c.reduced -= 3;                                                                                               \
        __VA_ARGS__;                                                                                                  \
        refused(c, number);                                                                                           \
    } while (0)

static void refusal_6(void)
{
    static const size_t none[] = {0, 3, 5, 6, 7, 9, 12, 15, 17, 24, 31, 33, 48, 63, 64, 128, 256, 8192, SIZE_MAX};
    for (size_t i = 0; i < sizeof none / sizeof none[0]; i++)
        REFUSED(6, c.factor = none[i]);
    for (size_t i = 0; i < FACTORS; i++) { /* one of the six in the low part of the number alone */
        REFUSED(6, c.factor = factors[i] + 256);
        REFUSED(6, c.factor = factors[i] + (SIZE_MAX / 2 + 1));
    }
}

static void refusals(void)
{
    REFUSED(5, c.depth = 0);
    REFUSED(5, c.depth = 10);
    REFUSED(5, c.depth = 12);
    REFUSED(5, c.depth = UINT32_MAX);
    REFUSED(1, c.width = 0);
    REFUSED(1, c.height = 0);
    REFUSED(1, c.width = c.stride = 8193);
    REFUSED(1, c.height = 8193);
    REFUSED(1, c.stride = 21);
    REFUSED(1, c.width = 3, c.width2 = 0);
    REFUSED(1, c.height = 3, c.height2 = 0);
    REFUSED(2, c.samples--);
    REFUSED(2, c.origin++);
    REFUSED(2, c.stride++);
    REFUSED(1, c.width2 = 0);
    REFUSED(1, c.height2 = 0);
    REFUSED(1, c.width2 = c.stride2 = 8193);
    REFUSED(1, c.height2 = 8193);
    REFUSED(1, c.stride2 = 4);
    REFUSED(2, c.reduced--);
    REFUSED(2, c.origin2++);
    REFUSED(2, c.stride2++);
    REFUSED(3, c.width2 = 4);
    REFUSED(3, c.width2 = 6, c.reduced++);
    REFUSED(3, c.height2 = 3);
    REFUSED(3, c.height2 = 5, c.reduced += 6);
    REFUSED(3, c.width2 = 22, c.height2 = 19, c.stride2 = 22, c.reduced = LENT_ROOM); /* as in a measure of two planes */
    REFUSED(3, c.width2 = 4, c.height2 = 5, c.reduced += 6);                          /* the sides exchanged */
}

/* A side below the factor, at each factor above 1, whatever the lent plane is: a sound one would get 3. */
static void small_sides(void)
{
    for (size_t i = 1; i < FACTORS; i++) {
        const size_t f = factors[i];
        struct call c = reduce_shaped(f, 40, 36, 3, 6);
        c.width = f - 1;
        refused(c, 1);
        c.reduced = 0;
        refused(c, 1);
        c = reduce_shaped(f, 40, 36, 3, 6);
        c.height = f - 1;
        c.height2 = 1;
        refused(c, 1);
        c.samples = 0;
        refused(c, 1);
    }
}

/* Calls to which a refusal and the next ones apply. */
static void order(void)
{
    REFUSED(6, c.factor = 3, c.depth = 10);
    REFUSED(6, c.factor = 0, c.width = 0, c.samples = 0, c.reduced = 0);
    REFUSED(5, c.depth = 10, c.width = 0);
    REFUSED(5, c.depth = 10, c.width = 3);
    REFUSED(5, c.depth = 10, c.samples = 0, c.width2 = 4);
    REFUSED(1, c.width = 0, c.samples = 0);
    REFUSED(1, c.width = 3, c.samples = 0);
    REFUSED(1, c.height = 3, c.reduced = 0);
    REFUSED(1, c.stride = 21, c.reduced = 0);
    REFUSED(2, c.samples = 0, c.width2 = 0);
    REFUSED(2, c.samples--, c.stride2 = 4);
    REFUSED(2, c.samples--, c.width2 = 4);
    REFUSED(1, c.height2 = 0, c.reduced = 0);
    REFUSED(1, c.stride2 = 3, c.reduced = 0);
    REFUSED(1, c.stride2 = 3, c.width2 = 4);
    REFUSED(2, c.width2 = 4, c.reduced = 0);
    REFUSED(2, c.height2 = 5);
}

/* Numbers whose sums and products pass 2^64, or that are small in their low half. */
static void huge(void)
{
    const size_t high = SIZE_MAX / 2 + 1;
    REFUSED(1, c.width = SIZE_MAX);
    REFUSED(1, c.width = c.stride = SIZE_MAX);
    REFUSED(1, c.height = SIZE_MAX);
    REFUSED(1, c.width = c.height = c.stride = c.origin = SIZE_MAX);
    REFUSED(1, c.height = high + 19);
    REFUSED(2, c.stride = SIZE_MAX);
    REFUSED(2, c.stride = high);
    REFUSED(2, c.stride = SIZE_MAX / 18 + 1);
    REFUSED(2, c.origin = SIZE_MAX);
    REFUSED(2, c.origin = SIZE_MAX - 18 * 25 - 21); /* 0 is the sum, modulo 2^64 */
    REFUSED(1, c.width2 = SIZE_MAX);
    REFUSED(1, c.width2 = c.stride2 = SIZE_MAX);
    REFUSED(1, c.height2 = SIZE_MAX);
    REFUSED(1, c.height2 = high + 4);
    REFUSED(2, c.stride2 = SIZE_MAX);
    REFUSED(2, c.stride2 = high);
    REFUSED(2, c.stride2 = SIZE_MAX / 3 + 1);
    REFUSED(2, c.origin2 = SIZE_MAX);
    REFUSED(2, c.origin2 = SIZE_MAX - 3 * 6 - 4);
    REFUSED(6, c.factor = c.width = c.height = c.stride = c.origin = SIZE_MAX);
}

/* Nothing need be lent where there is no length. */
static void nothing(void)
{
    static const uint8_t plane[16];
    uint8_t *reduced = lent_make(&lent, 4);
    EXPECT_NUMBER(brine_reduce(8, 2, NULL, 0, 4, 4, 4, 0, reduced, 4, 2, 2, 2, 0), -2);
    EXPECT_NUMBER(brine_reduce(8, 2, plane, 16, 4, 4, 4, 0, NULL, 0, 2, 2, 2, 0), -2);
    EXPECT_NUMBER(brine_reduce(8, 2, NULL, 0, 4, 4, 4, 0, NULL, 0, 2, 2, 2, 0), -2);
    EXPECT(lent_same(&lent));
}

const struct test reduce_refused_tests[] = {
    {"reduction: refusal 6", refusal_6},
    {"reduction: refusals 5, 1, 2 and 3", refusals},
    {"reduction: a side below the factor", small_sides},
    {"reduction: the order of refusals", order},
    {"reduction: huge numbers", huge},
    {"reduction: nothing lent", nothing},
    {0},
};
