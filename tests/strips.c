/* Strips of two frames, cut anywhere, beside the measures of the whole frames. */
#include "strips.h"

#include <stdlib.h>
#include <string.h>

static struct driver driver;
static uint16_t frames[2][MOST_SAMPLES]; /* of bytes the first half */
static struct walled memory[2];          /* a strip of each */

/* Rough, nearly alike, or of the least and the largest samples alone. */
static void draw_frames(uint32_t depth, size_t count)
{
    const size_t kind = pick(3), limit = (size_t)1 << depth;
    for (size_t i = 0; i < count; i++) {
        const size_t p = kind == 2 ? pick(2) * (limit - 1) : pick(limit);
        const size_t q = kind == 2 ? pick(2) * (limit - 1) : kind == 1 ? (p + pick(9)) % limit : pick(limit);
        sample_put(depth, frames[0], i, (unsigned)p);
        sample_put(depth, frames[1], i, (unsigned)q);
    }
}

static struct strip whole(size_t which, size_t width, size_t height)
{
    return (struct strip){frames[which], width * height, width, height, width, 0};
}

/* Rows of a frame in memory of their own. What is not visible is as large as can be. Of one row the stride bears on nothing, and of no
   row neither does the origin. */
static struct strip lend(struct walled *place, uint32_t depth, struct strip frame, size_t row, size_t rows)
{
    struct strip s = {.width = frame.width, .height = rows};
    s.stride = s.width + some(6);
    s.origin = some(8);
    s.length = (rows == 0 ? 0 : s.origin + (rows - 1) * s.stride + s.width) + some(4);
    void *at = walled_make(place, s.length * word_bytes(depth), pick(2) == 0);
    for (size_t i = 0; i < s.length; i++)
        sample_put(depth, at, i, UINT16_MAX);
    for (size_t i = 0; i < rows * s.width; i++)
        sample_put(depth, at, s.origin + i / s.width * s.stride + i % s.width, sample_at(depth, frame.samples, row * s.width + i));
    if (rows <= 1 && pick(4) == 0)
        s.stride = SIZE_MAX;
    if (rows == 0 && pick(2) == 0)
        s.origin = SIZE_MAX;
    s.samples = s.length == 0 ? NULL : at;
    walled_keep(place);
    return s;
}

/* The next rows of both frames go to the driver, each strip from memory of its own. */
static bool hand_on(struct strip a, struct strip b, size_t row, size_t rows)
{
    const struct strip first = lend(&memory[0], driver.depth, a, row, rows);
    const struct strip second = lend(&memory[1], driver.depth, b, row, rows);
    return driver_add(&driver, first, second) && EXPECT(walled_same(&memory[0]) && walled_same(&memory[1]));
}

/* What the strips gave is what the whole frames give. */
static void ends_as(struct strip a, struct strip b)
{
    uint32_t costs[MOST_COSTS];
    const int64_t blocks = whole_costs(driver.depth, b, costs, MOST_COSTS);
    driver_end(&driver, whole_difference(driver.depth, a, b), whole_total(driver.depth, a, b));
    EXPECT(blocks > 0 && memcmp(costs, driver.costs.at, (size_t)blocks * sizeof costs[0]) == 0);
}

static size_t least(size_t a, size_t b)
{
    return a < b ? a : b;
}

/* How many rows come next: any number that may come, mostly few, and now and then none. */
static size_t draw_rows(size_t left)
{
    const size_t most = least(left, pick(3) == 0 ? MOST_ROWS : 12);
    return pick(6) == 0 ? 0 : pick(most + 1);
}

/* Behind the last row strips of no rows may come too. False where a strip was not taken as it must be. */
static bool film(uint32_t depth, size_t width, size_t height)
{
    const struct strip a = whole(0, width, height), b = whole(1, width, height);
    draw_frames(depth, width * height);
    driver_start(&driver, depth, width, height);
    for (size_t row = 0; row < height || pick(2) == 0;) {
        const size_t rows = draw_rows(height - row);
        if (!hand_on(a, b, row, rows))
            return false;
        row += rows;
    }
    ends_as(a, b);
    return true;
}

/* Most are low, the least have one block. The first that goes wrong is enough. */
static void films(uint32_t depth)
{
    bool well = true;
    for (int i = 0; i < 4000 && well; i++) {
        const size_t width = 8 + pick(MOST_WIDTH - 7);
        well = film(depth, width, 8 + pick(pick(4) == 0 ? MOST_HEIGHT - 7 : 34));
    }
}

static void films_8(void)
{
    films(8);
}

static void films_10(void)
{
    films(10);
}

static void films_12(void)
{
    films(12);
}

/* No strip is taken, and there is no end. The difference needs no block: those of the strips, as planes of their own, add up to the
   frames'. */
static void refused_film(uint32_t depth, size_t width, size_t height)
{
    const struct strip a = whole(0, width, height), b = whole(1, width, height);
    int64_t difference = 0;
    draw_frames(depth, width * height);
    driver_start(&driver, depth, width, height);
    for (size_t row = 0, rows; row < height; row += rows) {
        rows = draw_rows(height - row);
        const struct strip first = lend(&memory[0], depth, a, row, rows), second = lend(&memory[1], depth, b, row, rows);
        driver_refuses(&driver, first, second, 19);
        EXPECT(walled_same(&memory[0]) && walled_same(&memory[1]));
        difference += rows == 0 ? 0 : whole_difference(depth, first, second);
    }
    end_with(-19, driver.want_carry, BRINE_CARRY);
    EXPECT_NUMBER(difference, whole_difference(depth, a, b));
}

/* Frames with a side below 8. */
static void no_block(void)
{
    for (uint32_t depth = 8; depth <= 12; depth += 2)
        for (size_t side = 1; side < 8; side++) {
            refused_film(depth, side, MOST_HEIGHT);
            refused_film(depth, MOST_WIDTH, side);
            refused_film(depth, side, side);
        }
}

/* Frames come in strips of so many rows, behind a first one of another number. */
static void cut_by(uint32_t depth, size_t height, size_t begin, size_t rows)
{
    const struct strip a = whole(0, 19, height), b = whole(1, 19, height);
    draw_frames(depth, 19 * height);
    driver_start(&driver, depth, 19, height);
    hand_on(a, b, 0, begin);
    for (size_t row = begin; row < height; row += rows)
        hand_on(a, b, row, least(rows, height - row));
    ends_as(a, b);
}

/* Every cut in two, strips of each length, and the largest strips behind one of each length: so 64, 64 and 13 rows. */
static void every_cut(void)
{
    for (uint32_t depth = 8; depth <= 12; depth += 2) {
        for (size_t cut = 0; cut <= 61; cut++)
            cut_by(depth, 61, cut, 61);
        for (size_t rows = 1; rows <= MOST_ROWS; rows++) {
            cut_by(depth, MOST_HEIGHT, rows, rows);
            cut_by(depth, MOST_HEIGHT, rows, MOST_ROWS);
        }
    }
}

/* Strips without rows at the start, in the middle of a row of blocks, between two, and after the last row. */
static void no_rows(void)
{
    static const size_t rows[] = {0, 0, 5, 0, 0, 3, 0, 8, 0, 4, 0, 0};
    const struct strip a = whole(0, 17, 20), b = whole(1, 17, 20);
    for (uint32_t depth = 8; depth <= 12; depth += 2) {
        size_t row = 0;
        draw_frames(depth, 17 * 20);
        driver_start(&driver, depth, 17, 20);
        for (size_t i = 0; i < sizeof rows / sizeof rows[0]; i++) {
            hand_on(a, b, row, rows[i]);
            row += rows[i];
        }
        ends_as(a, b);
    }
}

/* Blocks by hand: one column of two blocks, 8 × 20 samples. The means of the upper one are 10 and 40, those of the lower one 10 and 11,
   since half a step goes up; SATD of flat 40 against 128 is 88 * 64 / 8. The last four rows are in no block. */
static void by_hand(void)
{
    uint64_t carry[BRINE_CARRY], difference = 0, total = 0;
    uint8_t first[8 * 20], second[8 * 20], room[16 * 8];
    uint32_t costs[2] = {7, 7};
    int64_t row = brine_strips_start(8, 8, 20, carry, BRINE_CARRY);
    memset(first, 10, sizeof first);
    memset(second, 40, sizeof second);
    for (size_t i = 64; i < 128; i++)
        second[i] = i % 2 == 0 ? 10 : 11;
    while (row >= 0 && row < 20) {
        row = brine_strips_add(carry, BRINE_CARRY, first, sizeof first, 8, 5, 8, (size_t)row * 8, second, sizeof second, 8, 5, 8,
                               (size_t)row * 8, room, sizeof room, costs, 2);
        EXPECT_NUMBER(costs[0], row < 8 ? 7 : 704);
    }
    EXPECT_NUMBER(row, 20);
    EXPECT_NUMBER(brine_strips_end(carry, BRINE_CARRY, &difference, &total), 2);
    EXPECT_NUMBER((int64_t)difference, 64 * 30 + 32 + 32 * 30);
    EXPECT_NUMBER((int64_t)total, 31);
}

/* The last eight rows once more, with totals by hand: the largest that there may be, which need more than 32 bits. */
static void largest_totals(uint32_t depth, uint64_t *carry, struct strip a, struct strip b, void *room, uint32_t *costs, size_t blocks)
{
    const uint64_t white = (1u << depth) - 1, most = (carry[CARRY_ROWS] -= 8) * a.width * white;
    carry[CARRY_DIFFERENCE] = carry[CARRY_TOTAL] = most;
    EXPECT_NUMBER(add_strips(depth, carry, BRINE_CARRY, a, b, room, 16 * a.width, costs, blocks), (int64_t)carry[CARRY_HEIGHT]);
    EXPECT_NUMBER((int64_t)carry[CARRY_DIFFERENCE], (int64_t)(most + 8 * a.width * white));
    EXPECT_NUMBER((int64_t)carry[CARRY_TOTAL], (int64_t)(most + a.width / 8 * white));
}

/* Frames of flat samples: the same strip is lent again and again. */
static void flat_frames(uint32_t depth, size_t width, size_t height)
{
    const size_t count = 64 * width, blocks = (width / 8) * (height / 8);
    const unsigned white = (1u << depth) - 1;
    uint64_t carry[BRINE_CARRY], difference = 0, total = 0;
    void *black = calloc(count, 2), *bright = calloc(count, 2), *room = calloc(16 * width, 2);
    uint32_t *costs = calloc(blocks, sizeof *costs);
    if (EXPECT(black != NULL && bright != NULL && room != NULL && costs != NULL)) {
        for (size_t i = 0; i < count; i++)
            sample_put(depth, bright, i, white);
        EXPECT_NUMBER(brine_strips_start(depth, width, height, carry, BRINE_CARRY), 0);
        for (size_t row = 0, rows; row < height; row += rows) {
            rows = height - row < 64 ? height - row : 64;
            const struct strip a = {black, count, width, rows, width, 0}, b = {bright, count, width, rows, width, 0};
            EXPECT_NUMBER(add_strips(depth, carry, BRINE_CARRY, a, b, room, 16 * width, costs, blocks), (int64_t)(row + rows));
        }
        EXPECT_NUMBER(brine_strips_end(carry, BRINE_CARRY, &difference, &total), (int64_t)blocks);
        EXPECT_NUMBER((int64_t)difference, (int64_t)(width * height * white));
        EXPECT_NUMBER((int64_t)total, (int64_t)(blocks * white));
        for (size_t i = 0; i < blocks; i += blocks - 1)
            EXPECT_NUMBER(costs[i], (white / 2) * 8);
        const struct strip a = {black, count, width, 8, width, 0}, b = {bright, count, width, 8, width, 0};
        largest_totals(depth, carry, a, b, room, costs, blocks);
    }
    free(black);
    free(bright);
    free(room);
    free(costs);
}

static void large_sides(void)
{
    flat_frames(8, 8192, 71);
    flat_frames(8, 17, 8192);
    flat_frames(10, 8191, 65);
    flat_frames(12, 16, 8191);
    flat_frames(12, 8192, 8192);
}

const struct test strip_tests[] = {
    {"strips: four thousand films of 8 bits", films_8},
    {"strips: four thousand films of 10 bits", films_10},
    {"strips: four thousand films of 12 bits", films_12},
    {"strips: every cut in two, and strips of each length", every_cut},
    {"strips: no rows at the start, in the middle and at the end", no_rows},
    {"strips: no whole block, refusal 19", no_block},
    {"strips: by hand", by_hand},
    {"strips: sides of 8,192, more than 32 bits", large_sides},
    {0},
};
