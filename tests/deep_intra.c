/* Intra costs of 10 and 12 bits with their two lent places, and the SATD of words of 16 bits. */
#include "brinepulley.h"
#include "check.h"

#include <stdlib.h>
#include <string.h>

/* The plane measured: 20 × 17, stride 21, origin 2. The work plane: stride 24, origin 3, three samples too many. */
enum {
    WIDTH = 20,
    HEIGHT = 17,
    STRIDE = 21,
    ORIGIN = 2,
    SAMPLES = ORIGIN + (HEIGHT - 1) * STRIDE + WIDTH,
    WORK_STRIDE = 24,
    WORK_ORIGIN = 3,
    WORK = WORK_ORIGIN + (HEIGHT - 1) * WORK_STRIDE + WIDTH + 3,
    BLOCKS = (WIDTH / 8) * (HEIGHT / 8),
    COSTS = BLOCKS + 3
};

struct call {
    uint32_t depth;
    size_t samples, width, height, stride, origin;
    size_t work, work_width, work_height, work_stride, work_origin;
    size_t costs;
};

static uint16_t samples[SAMPLES];
static struct lent work, costs;

/* A good call, and samples for it: the visible ones are below 2 to the depth, and all others are the largest of the word. */
static struct call good(uint32_t depth)
{
    uint32_t drawn = depth;
    for (size_t i = 0; i < SAMPLES; i++) {
        drawn = 1664525 * drawn + 1013904223;
        const bool visible = i >= ORIGIN && (i - ORIGIN) % STRIDE < WIDTH;
        samples[i] = visible ? (uint16_t)(drawn >> (32 - depth)) : UINT16_MAX;
    }
    return (struct call){depth, SAMPLES, WIDTH,  HEIGHT,      STRIDE,      ORIGIN,
                         WORK,  WIDTH,   HEIGHT, WORK_STRIDE, WORK_ORIGIN, COSTS};
}

/* Some samples of the work plane are above 2 to the depth before the call: they are not looked at. */
static int64_t called(struct call c)
{
    uint16_t *w = lent_make(&work, WORK * sizeof(uint16_t));
    uint32_t *l = lent_make(&costs, COSTS * sizeof(uint32_t));
    for (size_t i = 0; i < WORK; i += 2)
        w[i] = UINT16_MAX;
    lent_keep(&work);
    return brine_intra_costs16(c.depth, samples, c.samples, c.width, c.height, c.stride, c.origin, w, c.work,
                               c.work_width, c.work_height, c.work_stride, c.work_origin, l, c.costs);
}

static void refused(struct call c, int64_t number)
{
    EXPECT_NUMBER(called(c), -number);
    EXPECT(lent_same(&work));
    EXPECT(lent_same(&costs));
}

/* At both depths; `large` is the least sample that is too large. */
#define REFUSED(number, ...)                                                                                           \
    for (uint32_t bits = 10; bits <= 12; bits += 2) {                                                                 \
        struct call c = good(bits);                                                                                   \
        const uint16_t large = (uint16_t)(1u << bits);                                                                \
        (void)large;                                                                                                  \
        __VA_ARGS__;                                                                                                  \
        refused(c, number);                                                                                           \
    }

static void refusals(void)
{
    static const uint32_t none[] = {0, 7, 8, 9, 11, 13, 16, 256 + 12, UINT32_MAX};
    for (size_t i = 0; i < sizeof none / sizeof none[0]; i++)
        REFUSED(5, c.depth = none[i]);
    REFUSED(1, c.width = 0);
    REFUSED(1, c.height = 8193);
    REFUSED(1, c.stride = WIDTH - 1);
    REFUSED(2, c.samples = SAMPLES - 1);
    REFUSED(2, c.origin = SIZE_MAX);
    REFUSED(1, c.work_height = 0);
    REFUSED(1, c.work_width = 8193, c.work_stride = 8193);
    REFUSED(1, c.work_stride = WIDTH - 1);
    REFUSED(2, c.work = WORK - 4);
    REFUSED(2, c.work_stride = SIZE_MAX / 4);
    REFUSED(3, c.work_width = WIDTH - 1);
    REFUSED(3, c.work_height = HEIGHT - 1);
    REFUSED(19, c.width = c.work_width = 7);
    REFUSED(19, c.height = c.work_height = 7, c.costs = 0);
    REFUSED(4, c.costs = BLOCKS - 1);
    REFUSED(4, c.costs = 0);
}

/* A sample that is too large is in each call: 16 is the last. */
static void order(void)
{
    REFUSED(5, samples[ORIGIN] = large, c.depth = 8, c.width = 0, c.costs = 0);
    REFUSED(1, samples[ORIGIN] = large, c.width = 0, c.samples = 0, c.work = 0, c.costs = 0);
    REFUSED(2, samples[ORIGIN] = large, c.samples = 3, c.work_height = 0, c.costs = 0);
    REFUSED(1, samples[ORIGIN] = large, c.work_height = 0, c.work = 0, c.costs = 0);
    REFUSED(2, samples[ORIGIN] = large, c.work_height = HEIGHT - 1, c.work = 0, c.costs = 0);
    REFUSED(3, samples[ORIGIN] = large, c.work_height = HEIGHT - 1, c.costs = 0);
    REFUSED(19, samples[ORIGIN] = large, c.width = c.work_width = 7, c.costs = 0);
    REFUSED(4, samples[ORIGIN] = large, c.costs = BLOCKS - 1);
    REFUSED(16, samples[ORIGIN] = large);
}

/* Each visible sample, in a whole block or not. */
static void refusal_16(void)
{
    for (size_t i = 0; i < WIDTH * HEIGHT; i++) {
        REFUSED(16, samples[ORIGIN + i / WIDTH * STRIDE + i % WIDTH] = large);
        REFUSED(16, samples[ORIGIN + i / WIDTH * STRIDE + i % WIDTH] = UINT16_MAX);
    }
}

static uint32_t block_cost(size_t x, size_t y, uint16_t flat)
{
    uint16_t block[64], prediction[64];
    for (size_t i = 0; i < 64; i++) {
        block[i] = samples[ORIGIN + (8 * y + i / 8) * STRIDE + 8 * x + i % 8];
        prediction[i] = flat;
    }
    return (uint32_t)brine_satd8x8_16(block, 64, prediction, 64);
}

/* Both lent places at exit, byte for byte. */
static void lent_places(uint32_t depth, uint16_t flat)
{
    uint16_t want_work[WORK];
    uint32_t want_costs[COSTS];

    EXPECT_NUMBER(called(good(depth)), BLOCKS);
    memcpy(want_work, work.kept + GUARD, sizeof want_work);
    memcpy(want_costs, costs.kept + GUARD, sizeof want_costs);
    for (size_t i = 0; i < 64 * BLOCKS; i++)
        want_work[WORK_ORIGIN + i / (WIDTH / 8 * 8) * WORK_STRIDE + i % (WIDTH / 8 * 8)] = flat;
    for (size_t i = 0; i < BLOCKS; i++)
        want_costs[i] = block_cost(i % (WIDTH / 8), i / (WIDTH / 8), flat);
    EXPECT(lent_holds(&work, want_work));
    EXPECT(lent_holds(&costs, want_costs));
}

static void flat_fill(void)
{
    lent_places(10, 512);
    lent_places(12, 2048);
}

/* Blocks that are flat but for the first sample: even grey, black, white, one step. */
static void by_hand(void)
{
    static const struct {
        uint32_t depth;
        uint16_t value, first;
        uint32_t cost;
    } cases[] = {{10, 512, 512, 0},   {10, 0, 0, 4096},  {10, 1023, 1023, 4088},  {10, 512, 513, 8},
                 {12, 2048, 2048, 0}, {12, 0, 0, 16384}, {12, 4095, 4095, 16376}, {12, 2048, 2047, 8}};
    for (size_t i = 0; i < sizeof cases / sizeof cases[0]; i++) {
        uint16_t block[64], room[64];
        uint32_t cost = 99;
        for (size_t k = 0; k < 64; k++)
            block[k] = k == 0 ? cases[i].first : cases[i].value;
        EXPECT_NUMBER(brine_intra_costs16(cases[i].depth, block, 64, 8, 8, 8, 0, room, 64, 8, 8, 8, 0, &cost, 1), 1);
        EXPECT_NUMBER(cost, cases[i].cost);
        EXPECT_NUMBER(room[63], cases[i].depth == 10 ? 512 : 2048);
    }
}

static void satd_lengths(void)
{
    const uint16_t block[65] = {0};
    EXPECT_NUMBER(brine_satd8x8_16(block, 63, block, 64), -2);
    EXPECT_NUMBER(brine_satd8x8_16(block, 64, block, 63), -2);
    EXPECT_NUMBER(brine_satd8x8_16(block, 65, block, 64), -2);
    EXPECT_NUMBER(brine_satd8x8_16(block, 64, block, 65), -2);
    EXPECT_NUMBER(brine_satd8x8_16(block, 64, NULL, 0), -2);
    EXPECT_NUMBER(brine_satd8x8_16(NULL, 0, NULL, 0), -2);
}

static void satd_values(void)
{
    uint16_t first[64], second[64];
    int32_t differences[64];
    uint32_t drawn = 7;
    for (int round = 0; round < 200; round++) {
        int64_t sum = 4;
        for (size_t i = 0; i < 64; i++) {
            drawn = drawn * 1664525u + 1013904223u;
            first[i] = (uint16_t)(drawn >> 16);
            drawn = drawn * 1664525u + 1013904223u;
            second[i] = (uint16_t)(drawn >> 16);
            differences[i] = first[i] - second[i];
        }
        EXPECT_NUMBER(brine_hadamard8x8(differences, 64), 0);
        for (size_t i = 0; i < 64; i++)
            sum += labs((long)differences[i]);
        EXPECT_NUMBER(brine_satd8x8_16(first, 64, second, 64), sum / 8);
        EXPECT_NUMBER(brine_satd8x8_16(first, 64, first, 64), 0);
    }
}

/* Black against white is one number of the transform alone, 64 × 65,535. The largest SATD of all has 64 numbers of 8 × 65,535: its
   signs are those of a function of the place's six bits that is as far as can be from every sum of them. */
static void satd_largest(void)
{
    uint16_t white[64], black[64] = {0}, bent[64], turned[64];
    for (size_t i = 0; i < 64; i++) {
        const size_t odd = ((i & i >> 1 & 1) + (i >> 2 & i >> 3 & 1) + (i >> 4 & i >> 5 & 1)) % 2;
        white[i] = UINT16_MAX;
        bent[i] = odd == 1 ? UINT16_MAX : 0;
        turned[i] = odd == 1 ? 0 : UINT16_MAX;
    }
    EXPECT_NUMBER(brine_satd8x8_16(white, 64, black, 64), 524280);
    EXPECT_NUMBER(brine_satd8x8_16(black, 64, white, 64), 524280);
    EXPECT_NUMBER(brine_satd8x8_16(bent, 64, turned, 64), 4194240);
}

const struct test deep_intra_tests[] = {
    {"deep intra costs: refusals 5, 1, 2, 3, 19, 4", refusals},
    {"deep intra costs: the order of refusals", order},
    {"deep intra costs: refusal 16", refusal_16},
    {"deep intra costs: work plane and list, byte for byte", flat_fill},
    {"deep intra costs: by hand", by_hand},
    {"SATD of 16 bits: refusal 2", satd_lengths},
    {"SATD of 16 bits: values", satd_values},
    {"SATD of 16 bits: the largest", satd_largest},
    {0},
};
