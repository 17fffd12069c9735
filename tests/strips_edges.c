/* The start and the end of strips, and rubbish in the room. */
#include "strips.h"

#include <string.h>

static struct walled carry;

/* Nothing is written by a start that is refused. */
static void start_refused(int64_t number, uint32_t depth, size_t width, size_t height, size_t length)
{
    uint64_t *lent = walled_make(&carry, BRINE_CARRY * sizeof(uint64_t), true);
    EXPECT_NUMBER(brine_strips_start(depth, width, height, lent, length), -number);
    EXPECT(walled_same(&carry));
}

static void starts(void)
{
    static const uint32_t depths[] = {8, 10, 12};
    static const size_t sides[] = {1, 7, 8, 8191, 8192};
    for (size_t i = 0; i < 3 * 5 * 5; i++) {
        const uint64_t want[] = {sides[i / 3 % 5], sides[i / 15], depths[i % 3], 0, 0, 0};
        uint64_t *lent = walled_make(&carry, sizeof want, i % 2 == 0);
        EXPECT_NUMBER(brine_strips_start(depths[i % 3], sides[i / 3 % 5], sides[i / 15], lent, BRINE_CARRY), 0);
        EXPECT(walled_holds(&carry, want));
    }
}

static void starts_refused(void)
{
    static const uint32_t none[] = {0, 7, 9, 11, 13, 14, 16, 256 + 8, UINT32_MAX};
    static const size_t sides[] = {0, 8193, SIZE_MAX}, lengths[] = {0, 5, 7, SIZE_MAX};
    for (size_t i = 0; i < 4; i++) {
        start_refused(11, 8, 20, 17, lengths[i]);
        start_refused(11, 9, 20, 17, lengths[i]);
        start_refused(11, 8, 0, 17, lengths[i]);
    }
    for (size_t i = 0; i < sizeof none / sizeof none[0]; i++) {
        start_refused(5, none[i], 20, 17, BRINE_CARRY);
        start_refused(5, none[i], 0, 8193, BRINE_CARRY);
    }
    for (size_t i = 0; i < 3; i++) {
        start_refused(1, 8, sides[i], 17, BRINE_CARRY);
        start_refused(1, 10, 20, sides[i], BRINE_CARRY);
        start_refused(1, 12, sides[i], sides[i], BRINE_CARRY);
    }
}

/* The end of a good carry with one number changed. */
static void end_of(int64_t answer, uint32_t depth, size_t number, uint64_t value)
{
    uint64_t numbers[BRINE_CARRY] = {20, 17, depth, 17, 20 * 17 * 200, 44};
    numbers[number] = value;
    end_with(answer, numbers, BRINE_CARRY);
}

static void ends(void)
{
    for (uint32_t depth = 8; depth <= 12; depth += 2) {
        const uint64_t most = (uint64_t)20 * 17 * ((1u << depth) - 1);
        end_of(4, depth, CARRY_TOTAL, 0);
        end_of(4, depth, CARRY_DIFFERENCE, most);
        end_of(4, depth, CARRY_TOTAL, most);
        end_with(1, (uint64_t[]){15, 15, depth, 15, 9, 8}, BRINE_CARRY);
        end_with(1024, (uint64_t[]){8192, 8, depth, 8, 9, 8}, BRINE_CARRY);
        end_with(1024 * 1024, (uint64_t[]){8192, 8192, depth, 8192, most, most}, BRINE_CARRY);
    }
}

static void ends_refused(void)
{
    static const uint64_t bad[] = {0, 8193, UINT64_MAX}, none[] = {0, 7, 9, 11, 13, ((uint64_t)1 << 32) + 8, UINT64_MAX};
    static const size_t lengths[] = {0, 5, 7, SIZE_MAX};
    static const uint64_t good[BRINE_CARRY] = {20, 17, 8, 17, 0, 0};
    for (size_t i = 0; i < 4; i++)
        end_with(-11, good, lengths[i]);
    for (uint32_t depth = 8; depth <= 12; depth += 2) {
        const uint64_t most = (uint64_t)20 * 17 * ((1u << depth) - 1);
        for (size_t i = 0; i < 3; i++) {
            end_of(-11, depth, CARRY_WIDTH, bad[i]);
            end_of(-11, depth, CARRY_HEIGHT, bad[i]);
        }
        end_of(-11, depth, CARRY_HEIGHT, 16);
        end_of(-11, depth, CARRY_ROWS, 18);
        end_of(-11, depth, CARRY_DIFFERENCE, most + 1);
        end_of(-11, depth, CARRY_TOTAL, most + 1);
        end_of(-18, depth, CARRY_HEIGHT, 18);
        end_of(-18, depth, CARRY_HEIGHT, 8192);
        end_with(-19, (uint64_t[]){7, 8192, depth, 8192, 9, 0}, BRINE_CARRY);
        end_with(-19, (uint64_t[]){8192, 7, depth, 7, 9, 0}, BRINE_CARRY);
    }
    for (size_t i = 0; i < sizeof none / sizeof none[0]; i++)
        end_of(-5, 8, CARRY_DEPTH, none[i]);
}

/* 11, 5, 18: each two of them together. A depth that is none leaves the totals alone. 19, between 5 and 18, is in blocks.c. */
static void end_order(void)
{
    end_with(-11, (uint64_t[]){0, 17, 9, 3, 0, 0}, BRINE_CARRY);
    end_with(-11, (uint64_t[]){20, 17, 8, 3, 20 * 3 * 255 + 1, 0}, BRINE_CARRY);
    end_with(-5, (uint64_t[]){20, 17, 9, 3, UINT64_MAX, UINT64_MAX}, BRINE_CARRY);
    end_with(-5, (uint64_t[]){20, 17, 9, 17, UINT64_MAX, UINT64_MAX}, BRINE_CARRY);
    end_with(-18, (uint64_t[]){20, 17, 8, 16, 0, 0}, BRINE_CARRY);
    end_with(-18, (uint64_t[]){20, 17, 8, 0, 0, 0}, BRINE_CARRY);
}

/* Two frames of 20 × 24 in strips of twelve rows. After the first strip a value is put over a sample of row 8 to 11, which are in the
   begun row of blocks, or of row 4 to 7, whose row of blocks is finished, and which are written anew. */
enum { WIDTH = 20, HEIGHT = 24, COLUMNS = WIDTH / 8, CUT = 12 };

static uint16_t frames[2][WIDTH * HEIGHT];
static struct driver driver;

static struct strip rows_of(size_t which, size_t row, size_t rows)
{
    return (struct strip){frames[which], WIDTH * HEIGHT, WIDTH, rows, WIDTH, row * WIDTH};
}

static void draw_frames(uint32_t depth)
{
    for (size_t i = 0; i < WIDTH * HEIGHT; i++) {
        sample_put(depth, frames[0], i, (unsigned)pick((size_t)1 << depth));
        sample_put(depth, frames[1], i, (unsigned)pick((size_t)1 << depth));
    }
}

static void run_spoilt(uint32_t depth, size_t place, unsigned value)
{
    draw_frames(depth);
    driver_start(&driver, depth, WIDTH, HEIGHT);
    driver_add(&driver, rows_of(0, 0, CUT), rows_of(1, 0, CUT));
    driver_spoil(&driver, place, value);
    driver_add(&driver, rows_of(0, CUT, HEIGHT - CUT), rows_of(1, CUT, HEIGHT - CUT));
}

/* How much of the total is the second row of blocks. */
static int64_t second_row(uint32_t depth)
{
    return whole_total(depth, rows_of(0, 8, 8), rows_of(1, 8, 8));
}

/* In which rows of blocks the costs are those of the whole frame: one bit for each row, the first the lowest. */
static unsigned rows_alike(uint32_t depth)
{
    uint32_t costs[3 * COLUMNS];
    unsigned alike = 0;
    EXPECT_NUMBER(whole_costs(depth, rows_of(1, 0, HEIGHT), costs, 3 * COLUMNS), 3 * COLUMNS);
    for (unsigned row = 0; row < 3; row++)
        if (memcmp(costs + row * COLUMNS, driver.want_costs + row * COLUMNS, COLUMNS * sizeof costs[0]) == 0)
            alike |= 1u << row;
    return alike;
}

/* A sample that is too large, at each place of the room. Whole columns of blocks or not: the row of blocks counts nothing. */
static void too_large(void)
{
    for (uint32_t depth = 10; depth <= 12; depth += 2)
        for (size_t place = 0; place < 16 * WIDTH; place++) {
            const bool begun = place / WIDTH % 8 < CUT % 8, in_second = place >= 8 * WIDTH;
            run_spoilt(depth, place, place % 2 == 0 ? UINT16_MAX : 1u << depth);
            const struct strip a = rows_of(0, 0, HEIGHT), b = rows_of(1, 0, HEIGHT);
            driver_end(&driver, whole_difference(depth, a, b), whole_total(depth, a, b) - (begun ? second_row(depth) : 0));
            EXPECT_NUMBER(rows_alike(depth), begun && in_second ? 5 : 7);
        }
}

/* Any other sample: the difference is as ever, and so are the other rows of blocks. That the begun row is by what the room holds is
   what driver_add expects. */
static void other_rubbish(void)
{
    for (uint32_t depth = 8; depth <= 12; depth += 2)
        for (size_t place = 0; place < 16 * WIDTH; place++) {
            run_spoilt(depth, place, (unsigned)pick((size_t)1 << depth));
            const struct strip a = rows_of(0, 0, HEIGHT), b = rows_of(1, 0, HEIGHT);
            driver_end(&driver, whole_difference(depth, a, b), (int64_t)driver.want_carry[CARRY_TOTAL]);
            EXPECT_NUMBER(rows_alike(depth) | 2, 7);
        }
}

/* Between any two strips the whole room is filled with what no sample can be. No row of blocks counts but those that come in one. */
static void filled_room(void)
{
    for (size_t cut = 1; cut < HEIGHT; cut++)
        for (uint32_t depth = 10; depth <= 12; depth += 2) {
            draw_frames(depth);
            driver_start(&driver, depth, WIDTH, HEIGHT);
            for (size_t row = 0; row < HEIGHT; row += cut) {
                const size_t rows = cut < HEIGHT - row ? cut : HEIGHT - row;
                for (size_t place = 0; place < driver.room_len; place++)
                    driver_spoil(&driver, place, UINT16_MAX);
                driver_add(&driver, rows_of(0, row, rows), rows_of(1, row, rows));
            }
            EXPECT(cut >= 8 || driver.want_carry[CARRY_TOTAL] == 0);
        }
}

const struct test strip_edge_tests[] = {
    {"strips: the start writes six numbers", starts},
    {"strips: the start's refusals in order", starts_refused},
    {"strips: the end", ends},
    {"strips: the end's refusals", ends_refused},
    {"strips: the order of the end's refusals", end_order},
    {"strips: a sample in the room that is too large", too_large},
    {"strips: rubbish in the room", other_rubbish},
    {"strips: rubbish in the whole room", filled_room},
    {0},
};
