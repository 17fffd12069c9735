/* The measures of two planes, and the scale rule. */
#include "brinepulley.h"
#include "check.h"

#include <stdlib.h>
#include <string.h>

enum { NONE = 0, FAST = 1, STANDARD = 2 };

struct plane {
    const uint8_t *samples;
    size_t length, width, height, stride, origin;
};

#define LENT(p) (p).samples, (p).length, (p).width, (p).height, (p).stride, (p).origin

static uint8_t field[4096];
static struct lent result;

/* The four measures must give the same refusal, and write nothing. */
static void refused_by_all(uint32_t depth, struct plane a, struct plane b, int64_t number)
{
    double *out = lent_make(&result, sizeof(double));
    EXPECT_NUMBER(brine_plane_difference(depth, LENT(a), LENT(b)), -number);
    EXPECT_NUMBER(brine_importance_total(depth, LENT(a), LENT(b)), -number);
    EXPECT_NUMBER(brine_delta(depth, LENT(a), LENT(b), out), -number);
    EXPECT_NUMBER(brine_importance(depth, LENT(a), LENT(b), out), -number);
    EXPECT(lent_same(&result));
}

static void fill_field(void)
{
    for (size_t i = 0; i < sizeof field; i++)
        field[i] = (uint8_t)(i * i / 7 + 3 * i);
}

/* A plane of 20 × 17 samples with a stride of 23 from sample 5 on, ending with its last visible sample. */
static struct plane good(size_t at)
{
    fill_field();
    return (struct plane){field + at, 5 + 16 * 23 + 20, 20, 17, 23, 5};
}

static void scale_table(void)
{
    static const struct {
        size_t edge;
        int64_t factor;
    } edges[] = {{1, 1},   {240, 1},  {241, 2},   {480, 2},   {481, 4},   {720, 4},
                 {721, 8}, {1080, 8}, {1081, 16}, {1600, 16}, {1601, 32}, {8192, 32}};
    for (size_t i = 0; i < sizeof edges / sizeof edges[0]; i++) {
        EXPECT_NUMBER(brine_scale_factor(edges[i].edge, 8192, FAST), edges[i].factor);
        EXPECT_NUMBER(brine_scale_factor(8192, edges[i].edge, FAST), edges[i].factor);
        EXPECT_NUMBER(brine_scale_factor(edges[i].edge, 8192, NONE), 1);
        EXPECT_NUMBER(brine_scale_factor(edges[i].edge, 8192, STANDARD), 1);
    }
}

static void scale_refusal(void)
{
    EXPECT_NUMBER(brine_scale_factor(0, 100, FAST), -6);
    EXPECT_NUMBER(brine_scale_factor(100, 0, FAST), -6);
    EXPECT_NUMBER(brine_scale_factor(8193, 100, FAST), -6);
    EXPECT_NUMBER(brine_scale_factor(100, 8193, STANDARD), -6);
    EXPECT_NUMBER(brine_scale_factor(SIZE_MAX, SIZE_MAX, NONE), -6);
    EXPECT_NUMBER(brine_scale_factor(100, 100, 3), -6);
    EXPECT_NUMBER(brine_scale_factor(100, 100, UINT32_MAX), -6);
}

static void refusal_5(void)
{
    struct plane bad = good(0);
    bad.width = 0;
    refused_by_all(0, good(0), good(900), 5);
    refused_by_all(10, good(0), good(900), 5); /* a depth of other words */
    refused_by_all(12, good(0), good(900), 5);
    refused_by_all(9, bad, bad, 5); /* before 1 */
    refused_by_all(UINT32_MAX, good(0), good(900), 5);
}

/* Each way to get 1, with the plane as the first and as the second. */
static void refusal_1(void)
{
    for (int way = 0; way < 6; way++) {
        struct plane p = good(0);
        if (way == 0)
            p.width = 0;
        else if (way == 1)
            p.height = 0;
        else if (way == 2)
            p.width = p.stride = 8193;
        else if (way == 3)
            p.height = 8193;
        else if (way == 4)
            p.stride = 19;
        else
            p.width = SIZE_MAX, p.length = 0;
        refused_by_all(8, p, good(900), 1);
        refused_by_all(8, good(900), p, 1);
    }
}

/* One sample too few, and sums that pass 2^64. */
static void refusal_2(void)
{
    for (int way = 0; way < 6; way++) {
        struct plane p = good(0);
        if (way == 0)
            p.length--;
        else if (way == 1)
            p.origin++;
        else if (way == 2)
            p.stride++;
        else if (way == 3)
            p.origin = SIZE_MAX;
        else if (way == 4)
            p.stride = SIZE_MAX / 8 + 1;
        else
            p.length = 0;
        refused_by_all(8, p, good(900), 2);
        refused_by_all(8, good(900), p, 2);
    }
}

static void refusal_3(void)
{
    struct plane narrow = good(900), low = good(900);
    narrow.width = 19;
    low.height = 16;
    refused_by_all(8, good(0), narrow, 3);
    refused_by_all(8, narrow, good(0), 3);
    refused_by_all(8, good(0), low, 3);
    refused_by_all(8, low, good(0), 3);
}

/* The first that applies: the first plane's 1 and 2, then the second's, then 3. */
static void refusal_order(void)
{
    struct plane one = good(0), two = good(900), other = good(900);
    one.height = 0;
    two.length = 3;
    refused_by_all(8, two, one, 2);
    refused_by_all(8, one, two, 1);
    other.height = 3;
    other.length = 3;
    refused_by_all(8, good(0), other, 2);
    other.height = 0;
    refused_by_all(8, good(0), other, 1);
}

static int64_t slow_difference(struct plane a, struct plane b)
{
    int64_t sum = 0;
    for (size_t y = 0; y < a.height; y++)
        for (size_t x = 0; x < a.width; x++)
            sum += abs(a.samples[a.origin + y * a.stride + x] - b.samples[b.origin + y * b.stride + x]);
    return sum;
}

static int slow_mean(struct plane p, size_t x, size_t y)
{
    int sum = 32;
    for (size_t i = 0; i < 64; i++)
        sum += p.samples[p.origin + (8 * y + i / 8) * p.stride + 8 * x + i % 8];
    return sum / 64;
}

static int64_t slow_importance(struct plane a, struct plane b)
{
    int64_t sum = 0;
    for (size_t y = 0; y < a.height / 8; y++)
        for (size_t x = 0; x < a.width / 8; x++)
            sum += abs(slow_mean(a, x, y) - slow_mean(b, x, y));
    return sum;
}

/* Without a whole block there is no importance, and delta stays where it would be. */
static void agrees(struct plane a, struct plane b)
{
    const int64_t difference = slow_difference(a, b), total = slow_importance(a, b);
    const size_t area = a.width * a.height, blocks = (a.width / 8) * (a.height / 8);
    double *out = lent_make(&result, sizeof(double));
    double want = (double)difference / (double)area;

    EXPECT_NUMBER(brine_plane_difference(8, LENT(a), LENT(b)), difference);
    EXPECT_NUMBER(brine_importance_total(8, LENT(a), LENT(b)), blocks > 0 ? total : -19);
    EXPECT(lent_same(&result));
    EXPECT_NUMBER(brine_delta(8, LENT(a), LENT(b), out), 0);
    EXPECT(lent_holds(&result, &want));
    if (blocks > 0)
        want = (double)total / (double)blocks;
    EXPECT_NUMBER(brine_importance(8, LENT(a), LENT(b), out), blocks > 0 ? 0 : -19);
    EXPECT(lent_holds(&result, &want));
}

/* Every small size, over samples that are not flat, with unlike strides and origins. */
static void values(void)
{
    fill_field();
    for (size_t width = 1; width <= 26; width += 5)
        for (size_t height = 1; height <= 25; height += 3) {
            const struct plane a = {field, 7 + (height - 1) * 30 + width, width, height, 30, 7};
            const struct plane b = {field + 1500, (height - 1) * width + width, width, height, width, 0};
            agrees(a, b);
            agrees(b, a);
            agrees(a, a);
        }
}

/* Height 1 with an enormous stride is accepted: the stride is never taken. */
static void one_row(void)
{
    fill_field();
    const struct plane a = {field, 30, 30, 1, SIZE_MAX, 0};
    const struct plane b = {field + 100, 31, 30, 1, 30, 1};
    EXPECT_NUMBER(brine_plane_difference(8, LENT(a), LENT(b)), slow_difference(a, b));
}

/* Samples outside the visible part bear on nothing, and no sample is written. */
static void padding(void)
{
    const struct plane a = good(0), b = good(900);
    const int64_t difference = brine_plane_difference(8, LENT(a), LENT(b));
    const int64_t total = brine_importance_total(8, LENT(a), LENT(b));
    uint8_t kept[sizeof field];

    for (size_t i = 0; i < 5; i++)
        field[i] ^= 255;
    for (size_t y = 0; y < 16; y++)
        for (size_t x = 20; x < 23; x++)
            field[5 + 23 * y + x] ^= 255;
    memcpy(kept, field, sizeof field);
    EXPECT_NUMBER(brine_plane_difference(8, LENT(a), LENT(b)), difference);
    EXPECT_NUMBER(brine_importance_total(8, LENT(a), LENT(b)), total);
    EXPECT(memcmp(kept, field, sizeof field) == 0);
}

/* A difference that needs more than 32 bits. */
static void large_plane(void)
{
    const size_t width = 8192, height = 2100, count = width * height;
    uint8_t *black = calloc(count, 1), *white = malloc(count);
    if (EXPECT(black != NULL && white != NULL)) {
        memset(white, 255, count);
        EXPECT_NUMBER(brine_plane_difference(8, black, count, width, height, width, 0, white, count, width, height,
                                             width, 0),
                      (int64_t)count * 255);
        EXPECT_NUMBER(brine_importance_total(8, white, count, width, height, width, 0, black, count, width, height,
                                             width, 0),
                      (int64_t)(width / 8 * (height / 8)) * 255);
    }
    free(black);
    free(white);
}

const struct test plane_tests[] = {
    {"scale rule: the table", scale_table},
    {"scale rule: refusal 6", scale_refusal},
    {"two planes: refusal 5", refusal_5},
    {"two planes: refusal 1", refusal_1},
    {"two planes: refusal 2", refusal_2},
    {"two planes: refusal 3", refusal_3},
    {"two planes: the order of refusals", refusal_order},
    {"two planes: values of many sizes", values},
    {"two planes: one row", one_row},
    {"two planes: padding bears on nothing", padding},
    {"two planes: more than 32 bits", large_plane},
    {0},
};
