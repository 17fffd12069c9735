/* The measures of two planes of 10 and 12 bits, in words of 16. */
#include "brinepulley.h"
#include "check.h"

#include <stdlib.h>
#include <string.h>

/* The first plane: 20 × 17, stride 23 from sample 5 on, ending with its last visible sample. The second: stride 21 from sample 2 on,
   three samples too many. */
enum {
    WIDTH = 20,
    HEIGHT = 17,
    FIRST = 5 + (HEIGHT - 1) * 23 + WIDTH,
    SECOND = 2 + (HEIGHT - 1) * 21 + WIDTH + 3
};

struct plane {
    uint16_t *samples;
    size_t length, width, height, stride, origin;
};

#define LENT(p) (p).samples, (p).length, (p).width, (p).height, (p).stride, (p).origin

struct call {
    uint32_t depth;
    struct plane a, b;
};

static uint16_t first[4096], second[4096];
static struct lent result;

static void fill(uint16_t *samples, size_t count, uint32_t depth, uint32_t drawn)
{
    for (size_t i = 0; i < count; i++) {
        drawn = 1664525 * drawn + 1013904223;
        samples[i] = (uint16_t)(drawn >> (32 - depth));
    }
}

static struct call good(uint32_t depth)
{
    fill(first, 4096, depth, 1);
    fill(second, 4096, depth, 2);
    return (struct call){depth, {first, FIRST, WIDTH, HEIGHT, 23, 5}, {second, SECOND, WIDTH, HEIGHT, 21, 2}};
}

/* The four measures must give the same refusal, and write nothing. */
static void refused(struct call c, int64_t number)
{
    double *out = lent_make(&result, sizeof(double));
    EXPECT_NUMBER(brine_plane_difference16(c.depth, LENT(c.a), LENT(c.b)), -number);
    EXPECT_NUMBER(brine_importance_total16(c.depth, LENT(c.a), LENT(c.b)), -number);
    EXPECT_NUMBER(brine_delta16(c.depth, LENT(c.a), LENT(c.b), out), -number);
    EXPECT_NUMBER(brine_importance16(c.depth, LENT(c.a), LENT(c.b), out), -number);
    EXPECT(lent_same(&result));
}

/* At both depths; `large` is the least sample that is too large. */
#define REFUSED(number, ...)                                                                                           \
    for (uint32_t bits = 10; bits <= 12; bits += 2) {                                                                 \
        struct call c = good(bits);                                                                                   \
        const uint16_t large = (uint16_t)(1u << bits);                                                                \
        (void)large;                                                                                                  \
        __VA_ARGS__;                                                                                                  \
        refused(c, number);                                                                                           \
    }

static void refusal_5(void)
{
    static const uint32_t none[] = {0, 1, 7, 8, 9, 11, 13, 14, 16, 256 + 10, 65536 + 12, UINT32_MAX};
    for (size_t i = 0; i < sizeof none / sizeof none[0]; i++) {
        REFUSED(5, c.depth = none[i]);
        REFUSED(5, c.depth = none[i], c.a.width = 0, c.b.length = 0, first[5] = large); /* before all others */
    }
}

static void refusals(void)
{
    REFUSED(1, c.a.width = 0);
    REFUSED(1, c.a.height = 8193);
    REFUSED(1, c.a.stride = WIDTH - 1);
    REFUSED(2, c.a.length--);
    REFUSED(2, c.a.origin = SIZE_MAX);
    REFUSED(2, c.a.stride = SIZE_MAX / 8 + 1);
    REFUSED(1, c.b.height = 0);
    REFUSED(1, c.b.width = c.b.stride = 8193);
    REFUSED(1, c.b.stride = WIDTH - 1);
    REFUSED(2, c.b.length -= 4);
    REFUSED(2, c.b.origin += 4);
    REFUSED(2, c.b.samples = NULL, c.b.length = 0);
    REFUSED(3, c.b.width--);
    REFUSED(3, c.a.height--);
}

/* 16 is the last: where another one applies too, that is given. */
static void order(void)
{
    REFUSED(1, c.a.height = 0, c.b.length = 0, second[2] = large);
    REFUSED(2, c.a.length = 10, c.b.height = 0, first[5] = large);
    REFUSED(1, c.b.height = 0, c.b.length = 0, first[5] = large);
    REFUSED(2, c.b.length = 10, c.b.width--, first[5] = large);
    REFUSED(3, c.b.width--, first[5] = large, second[2] = large);
    REFUSED(16, first[5] = large, second[2] = large);
}

/* Each visible sample of either plane, in a whole block or not: the least that is too large, and the largest of the word. */
static void refusal_16(void)
{
    for (size_t i = 0; i < WIDTH * HEIGHT; i++) {
        const size_t x = i % WIDTH, y = i / WIDTH;
        REFUSED(16, first[5 + 23 * y + x] = large);
        REFUSED(16, second[2 + 21 * y + x] = large);
        REFUSED(16, first[5 + 23 * y + x] = UINT16_MAX);
    }
}

/* A sample that is too large at one depth is none at the other. */
static void other_depth(void)
{
    struct call c = good(10);
    first[5] = 1024;
    refused(c, 16);
    c.depth = 12;
    EXPECT(brine_plane_difference16(c.depth, LENT(c.a), LENT(c.b)) > 0);
    first[5] = 4095;
    EXPECT(brine_plane_difference16(c.depth, LENT(c.a), LENT(c.b)) > 0);
    first[5] = 4096;
    refused(c, 16);
}

static int64_t slow_difference(struct plane a, struct plane b)
{
    int64_t sum = 0;
    for (size_t y = 0; y < a.height; y++)
        for (size_t x = 0; x < a.width; x++)
            sum += abs(a.samples[a.origin + y * a.stride + x] - b.samples[b.origin + y * b.stride + x]);
    return sum;
}

static int slow_mean(struct plane p, size_t x, size_t y)
{
    int sum = 32;
    for (size_t i = 0; i < 64; i++)
        sum += p.samples[p.origin + (8 * y + i / 8) * p.stride + 8 * x + i % 8];
    return sum / 64;
}

static int64_t slow_importance(struct plane a, struct plane b)
{
    int64_t sum = 0;
    for (size_t y = 0; y < a.height / 8; y++)
        for (size_t x = 0; x < a.width / 8; x++)
            sum += abs(slow_mean(a, x, y) - slow_mean(b, x, y));
    return sum;
}

/* Without a whole block there is no importance, and delta stays where it would be. */
static void agrees(uint32_t depth, struct plane a, struct plane b)
{
    const int64_t difference = slow_difference(a, b), total = slow_importance(a, b);
    const size_t area = a.width * a.height, blocks = (a.width / 8) * (a.height / 8);
    double *out = lent_make(&result, sizeof(double));
    double want = (double)difference / (double)area;

    EXPECT_NUMBER(brine_plane_difference16(depth, LENT(a), LENT(b)), difference);
    EXPECT_NUMBER(brine_importance_total16(depth, LENT(a), LENT(b)), blocks > 0 ? total : -19);
    EXPECT(lent_same(&result));
    EXPECT_NUMBER(brine_delta16(depth, LENT(a), LENT(b), out), 0);
    EXPECT(lent_holds(&result, &want));
    if (blocks > 0)
        want = (double)total / (double)blocks;
    EXPECT_NUMBER(brine_importance16(depth, LENT(a), LENT(b), out), blocks > 0 ? 0 : -19);
    EXPECT(lent_holds(&result, &want));
}

/* Every small size, with unlike strides and origins, at both depths. */
static void values(void)
{
    for (uint32_t depth = 10; depth <= 12; depth += 2) {
        good(depth);
        for (size_t width = 1; width <= 41; width += 5)
            for (size_t height = 1; height <= 25; height += 3) {
                const struct plane a = {first, 7 + (height - 1) * 45 + width, width, height, 45, 7};
                const struct plane b = {second, (height - 1) * width + width, width, height, width, 0};
                agrees(depth, a, b);
                agrees(depth, b, a);
                agrees(depth, a, a);
            }
    }
}

/* Longer rows than the library takes at once, which is 256 samples. */
static void long_rows(void)
{
    static const size_t widths[] = {255, 256, 257, 511, 512, 513, 600, 1025};
    for (size_t i = 0; i < sizeof widths / sizeof widths[0]; i++) {
        const size_t width = widths[i], stride = width + 3;
        good(12);
        const struct plane a = {first, 1 + 2 * stride + width, width, 3, stride, 1};
        const struct plane b = {second, 3 * width, width, 3, width, 0};
        agrees(12, a, b);
        agrees(12, b, a);
    }
}

/* What lies outside the visible part is not looked at, whatever it holds, and no sample is written. */
static void padding(void)
{
    for (uint32_t depth = 10; depth <= 12; depth += 2) {
        const struct call c = good(depth);
        const int64_t difference = slow_difference(c.a, c.b), total = slow_importance(c.a, c.b);
        static uint16_t kept[4096], kept2[4096];
        double value = 0;
        for (size_t i = 0; i < 4096; i++) {
            if (i < 5 || i >= FIRST || (i - 5) % 23 >= WIDTH)
                first[i] = UINT16_MAX;
            if (i < 2 || (i - 2) / 21 >= HEIGHT || (i - 2) % 21 >= WIDTH)
                second[i] = (uint16_t)(1u << depth);
        }
        memcpy(kept, first, sizeof kept);
        memcpy(kept2, second, sizeof kept2);
        EXPECT_NUMBER(brine_plane_difference16(depth, LENT(c.a), LENT(c.b)), difference);
        EXPECT_NUMBER(brine_importance_total16(depth, LENT(c.a), LENT(c.b)), total);
        EXPECT_NUMBER(brine_delta16(depth, LENT(c.a), LENT(c.b), &value), 0);
        EXPECT_DOUBLE(value, (double)difference / (WIDTH * HEIGHT));
        EXPECT_NUMBER(brine_importance16(depth, LENT(c.a), LENT(c.b), &value), 0);
        EXPECT_DOUBLE(value, (double)total / ((WIDTH / 8) * (HEIGHT / 8)));
        EXPECT(memcmp(kept, first, sizeof kept) == 0 && memcmp(kept2, second, sizeof kept2) == 0);
    }
}

/* The importance of two planes of one block, each flat but for the first sample. */
static double importance_of(uint16_t a, uint16_t first_a, uint16_t b, uint16_t first_b)
{
    uint16_t one[64], other[64];
    double importance = -1.0;
    for (size_t i = 0; i < 64; i++) {
        one[i] = i == 0 ? first_a : a;
        other[i] = i == 0 ? first_b : b;
    }
    EXPECT_NUMBER(brine_importance16(12, one, 64, 8, 8, 8, 0, other, 64, 8, 8, 8, 0, &importance), 0);
    return importance;
}

static void by_hand(void)
{
    static const uint16_t row[] = {0, 255, 256, 1023}, other[] = {1023, 256, 255, 0};
    double delta = -1.0;
    EXPECT_DOUBLE(importance_of(0, 31, 0, 0), 0.0);
    EXPECT_DOUBLE(importance_of(0, 32, 0, 0), 1.0);
    EXPECT_DOUBLE(importance_of(4095, 4095, 0, 0), 4095.0);
    EXPECT_DOUBLE(importance_of(4095, 4062, 0, 0), 4094.0);
    EXPECT_NUMBER(brine_plane_difference16(10, row, 4, 4, 1, 4, 0, other, 4, 4, 1, 4, 0), 2048);
    EXPECT_NUMBER(brine_delta16(10, row, 4, 4, 1, 4, 0, other, 4, 4, 1, 4, 0, &delta), 0);
    EXPECT_DOUBLE(delta, 512.0);
    EXPECT_NUMBER(brine_plane_difference16(10, row, 2, 2, 1, SIZE_MAX, 0, other, 2, 2, 1, 2, 0), 1024); /* one row: any stride */
}

/* The largest samples, in sums that need more than 32 bits. */
static void large_plane(void)
{
    const size_t width = 8192, height = 264, count = width * height;
    uint16_t *black = calloc(count, sizeof *black), *white = malloc(count * sizeof *white);
    if (EXPECT(black != NULL && white != NULL)) {
        for (size_t i = 0; i < count; i++)
            white[i] = 4095;
        const struct plane a = {black, count, width, height, width, 0}, b = {white, count, width, height, width, 0};
        EXPECT_NUMBER(brine_plane_difference16(12, LENT(a), LENT(b)), (int64_t)count * 4095);
        EXPECT_NUMBER(brine_importance_total16(12, LENT(b), LENT(a)), (int64_t)(width / 8 * (height / 8)) * 4095);
        white[count - 1] = 4096;
        EXPECT_NUMBER(brine_plane_difference16(12, LENT(a), LENT(b)), -16);
    }
    free(black);
    free(white);
}

const struct test deep_tests[] = {
    {"two deep planes: refusal 5", refusal_5},
    {"two deep planes: refusals 1, 2, 3", refusals},
    {"two deep planes: the order of refusals", order},
    {"two deep planes: refusal 16", refusal_16},
    {"two deep planes: a sample at the other depth", other_depth},
    {"two deep planes: values of many sizes", values},
    {"two deep planes: long rows", long_rows},
    {"two deep planes: padding is not looked at", padding},
    {"two deep planes: values by hand", by_hand},
    {"two deep planes: the largest samples, more than 32 bits", large_plane},
    {0},
};
