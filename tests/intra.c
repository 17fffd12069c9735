/* Intra costs with their two lent places, and the threshold. */
#define _DEFAULT_SOURCE /* MAP_ANONYMOUS */
#include "brinepulley.h"
#include "check.h"

#include <stdlib.h>
#include <string.h>
#include <sys/mman.h>

/* The plane measured: 20 × 17, stride 21, origin 2. The work plane: stride 24, origin 3, three samples too many. */
enum {
    WIDTH = 20,
    HEIGHT = 17,
    STRIDE = 21,
    ORIGIN = 2,
    SAMPLES = ORIGIN + (HEIGHT - 1) * STRIDE + WIDTH,
    WORK_STRIDE = 24,
    WORK_ORIGIN = 3,
    WORK = WORK_ORIGIN + (HEIGHT - 1) * WORK_STRIDE + WIDTH + 3,
    BLOCKS = (WIDTH / 8) * (HEIGHT / 8),
    COSTS = BLOCKS + 3
};

struct call {
    uint32_t depth;
    size_t samples, width, height, stride, origin;
    size_t work, work_width, work_height, work_stride, work_origin;
    size_t costs;
};

static const struct call good = {8,    SAMPLES, WIDTH,  HEIGHT,      STRIDE,      ORIGIN,
                                 WORK, WIDTH,   HEIGHT, WORK_STRIDE, WORK_ORIGIN, COSTS};

static uint8_t samples[SAMPLES];
static struct lent work, costs;

static int64_t called(struct call c)
{
    for (size_t i = 0; i < SAMPLES; i++)
        samples[i] = (uint8_t)(i * i / 5 + i);
    uint8_t *w = lent_make(&work, WORK);
    uint32_t *l = lent_make(&costs, COSTS * sizeof(uint32_t));
    return brine_intra_costs(c.depth, samples, c.samples, c.width, c.height, c.stride, c.origin, w, c.work,
                             c.work_width, c.work_height, c.work_stride, c.work_origin, l, c.costs);
}

static void refused(struct call c, int64_t number)
{
    EXPECT_NUMBER(called(c), -number);
    EXPECT(lent_same(&work));
    EXPECT(lent_same(&costs));
}

#define REFUSED(number, ...)                                                                                           \
    do {                                                                                                              \
        struct call c = good;                                                                                         \
        __VA_ARGS__;                                                                                                  \
        refused(c, number);                                                                                           \
    } while (0)

static void refusals(void)
{
    REFUSED(5, c.depth = 10);
    REFUSED(5, c.depth = 12);
    REFUSED(5, c.depth = 7);
    REFUSED(1, c.width = 0);
    REFUSED(1, c.height = 8193);
    REFUSED(1, c.stride = WIDTH - 1);
    REFUSED(2, c.samples = SAMPLES - 1);
    REFUSED(2, c.origin = SIZE_MAX);
    REFUSED(1, c.work_height = 0);
    REFUSED(1, c.work_width = 8193, c.work_stride = 8193);
    REFUSED(1, c.work_stride = WIDTH - 1);
    REFUSED(2, c.work = WORK - 4);
    REFUSED(2, c.work_stride = SIZE_MAX / 4);
    REFUSED(3, c.work_width = WIDTH - 1);
    REFUSED(3, c.work_height = HEIGHT - 1);
    REFUSED(19, c.width = c.work_width = 7);
    REFUSED(19, c.height = c.work_height = 7, c.costs = 0);
    REFUSED(4, c.costs = BLOCKS - 1);
    REFUSED(4, c.costs = 0);
}

static void order(void)
{
    REFUSED(5, c.depth = 12, c.width = 0, c.costs = 0);
    REFUSED(1, c.width = 0, c.samples = 0, c.work = 0, c.costs = 0);
    REFUSED(2, c.samples = 0, c.work_height = 0, c.costs = 0);
    REFUSED(1, c.work_height = 0, c.work = 0, c.costs = 0);
    REFUSED(2, c.work_height = HEIGHT - 1, c.work = 0, c.costs = 0);
    REFUSED(3, c.work_height = HEIGHT - 1, c.costs = 0);
}

static uint32_t block_cost(size_t x, size_t y)
{
    uint8_t block[64], flat[64];
    memset(flat, 128, sizeof flat);
    for (size_t i = 0; i < 64; i++)
        block[i] = samples[ORIGIN + (8 * y + i / 8) * STRIDE + 8 * x + i % 8];
    return (uint32_t)brine_satd8x8(block, 64, flat, 64);
}

/* Both lent places at exit, byte for byte. */
static void lent_places(void)
{
    uint8_t want_work[WORK];
    uint32_t want_costs[COSTS];

    EXPECT_NUMBER(called(good), BLOCKS);
    memcpy(want_work, work.kept + GUARD, sizeof want_work);
    memcpy(want_costs, costs.kept + GUARD, sizeof want_costs);
    for (size_t y = 0; y < HEIGHT / 8 * 8; y++)
        memset(want_work + WORK_ORIGIN + y * WORK_STRIDE, 128, WIDTH / 8 * 8);
    for (size_t i = 0; i < BLOCKS; i++)
        want_costs[i] = block_cost(i % (WIDTH / 8), i / (WIDTH / 8));
    EXPECT(lent_holds(&work, want_work));
    EXPECT(lent_holds(&costs, want_costs));
}

static struct lent out;

static void threshold_of(const uint32_t *list, size_t length, size_t count, double want)
{
    double *place = lent_make(&out, sizeof(double));
    EXPECT_NUMBER(brine_threshold(list, length, count, place), 0);
    EXPECT_DOUBLE(*place, want);
    memcpy(place, out.kept + GUARD, sizeof *place);
    EXPECT(lent_same(&out));
}

static void thresholds(void)
{
    const uint32_t list[] = {1000, 3, UINT32_MAX, 77, 5};
    volatile double keep = 0.7; /* so that nothing is worked out at compile time */

    threshold_of(list, 5, 1, 1000.0 * (1.0 - keep));
    threshold_of(list, 5, 2, 1003.0 / 2.0 * (1.0 - keep));
    threshold_of(list, 5, 5, (1000.0 + 3.0 + 4294967295.0 + 77.0 + 5.0) / 5.0 * (1.0 - keep));
    EXPECT(!same_double(1000.0 * (1.0 - keep), 1000.0 * 0.3));
}

static void threshold_refusals(void)
{
    const uint32_t list[] = {1, 2, 3};
    double *place = lent_make(&out, sizeof(double));
    EXPECT_NUMBER(brine_threshold(list, 3, 4, place), -4);
    EXPECT_NUMBER(brine_threshold(list, 0, 1, place), -4);
    EXPECT_NUMBER(brine_threshold(list, 3, SIZE_MAX, place), -4);
    EXPECT(lent_same(&out));
}

/* More than 2^32 costs that are really there get 1, and a count of 0 gets 19 of that list too. It is address space alone: a refused call
   reads none of it. */
static void threshold_too_many(void)
{
    const size_t count = ((size_t)1 << 32) + 1;
    double *place = lent_make(&out, sizeof(double));
    void *list = mmap(NULL, count * sizeof(uint32_t), PROT_NONE, MAP_PRIVATE | MAP_ANONYMOUS | MAP_NORESERVE, -1, 0);
    if (EXPECT(list != MAP_FAILED)) {
        EXPECT_NUMBER(brine_threshold(list, count, count, place), -1);
        EXPECT_NUMBER(brine_threshold(list, count, 0, place), -19);
        EXPECT(lent_same(&out));
        munmap(list, count * sizeof(uint32_t));
    }
}

const struct test intra_tests[] = {
    {"intra costs: refusals 5, 1, 2, 3, 19, 4", refusals},
    {"intra costs: the order of refusals", order},
    {"intra costs: work plane and list, byte for byte", lent_places},
    {"threshold: values", thresholds},
    {"threshold: refusal 4", threshold_refusals},
    {"threshold: refusal 1, and 19 of a long list", threshold_too_many},
    {0},
};
