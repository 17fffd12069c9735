/* What a strip is refused for, in which order, and that nothing is changed then. */
#include "strips.h"

#include <string.h>

/* Frames of 20 × 80, of which thirteen rows have come; the next six are lent. The first strip has stride 23 from sample 5 on, and ends
   with its last visible sample. The second has stride 21 from sample 2 on, and three samples too many. */
enum {
    WIDTH = 20,
    HEIGHT = 80,
    CAME = 13,
    ROWS = 6,
    FIRST = 5 + (ROWS - 1) * 23 + WIDTH,
    SECOND = 2 + (ROWS - 1) * 21 + WIDTH + 3,
    BLOCKS = (WIDTH / 8) * (HEIGHT / 8),
    ROOM = 16 * WIDTH
};

struct call {
    uint32_t depth; /* which says the word */
    uint64_t carry[BRINE_CARRY];
    size_t carry_len, room, costs;
    struct strip a, b;
};

static uint16_t first[FIRST], second[SECOND];
static struct walled carry, room, costs;

static struct call good(uint32_t depth)
{
    for (size_t i = 0; i < FIRST; i++)
        sample_put(depth, first, i, (unsigned)(i * i % 251));
    for (size_t i = 0; i < SECOND; i++)
        sample_put(depth, second, i, (unsigned)(i * 31 % 253));
    return (struct call){depth, {WIDTH, HEIGHT, depth, CAME, 1000, 30}, BRINE_CARRY, ROOM, BLOCKS,
                         {first, FIRST, WIDTH, ROWS, 23, 5}, {second, SECOND, WIDTH, ROWS, 21, 2}};
}

static int64_t called(struct call c)
{
    uint64_t *lent = walled_make(&carry, sizeof c.carry, true);
    void *samples = walled_make(&room, ROOM * word_bytes(c.depth), true);
    uint32_t *list = walled_make(&costs, BLOCKS * sizeof(uint32_t), false);
    for (size_t i = 0; i < ROOM; i++)
        sample_put(c.depth, samples, i, (unsigned)(i % 200));
    walled_keep(&room);
    memcpy(lent, c.carry, sizeof c.carry);
    walled_keep(&carry);
    return add_strips(c.depth, lent, c.carry_len, c.a, c.b, samples, c.room, list, c.costs);
}

static void refused(struct call c, int64_t number)
{
    EXPECT_NUMBER(called(c), -number);
    EXPECT(walled_same(&carry));
    EXPECT(walled_same(&room));
    EXPECT(walled_same(&costs));
}

/* At each depth. */
#define CALLED(name, what, ...)                                                                                        \
    for (uint32_t bits = 8; bits <= 12; bits += 2) {                                                                   \
        struct call c = good(bits);                                                                                   \
        __VA_ARGS__;                                                                                                  \
        name(c, what);                                                                                                \
    }
#define REFUSED(number, ...) CALLED(refused, number, __VA_ARGS__)
#define ACCEPTED(rows, ...) CALLED(accepted, rows, __VA_ARGS__)

static void accepted(struct call c, int64_t rows)
{
    EXPECT_NUMBER(called(c), rows);
}

static void refusal_11(void)
{
    static const uint64_t sides[] = {0, 8193, (uint64_t)1 << 32, UINT64_MAX};
    static const size_t lengths[] = {0, 5, 7, SIZE_MAX};
    for (size_t i = 0; i < 4; i++) {
        REFUSED(11, c.carry_len = lengths[i]);
        REFUSED(11, c.carry[CARRY_WIDTH] = sides[i]);
        REFUSED(11, c.carry[CARRY_HEIGHT] = sides[i]);
    }
    REFUSED(11, c.carry[CARRY_ROWS] = HEIGHT + 1);
    REFUSED(11, c.carry[CARRY_ROWS] = UINT64_MAX);
    ACCEPTED(HEIGHT, c.carry[CARRY_ROWS] = HEIGHT, c.a.height = c.b.height = 0);
    for (int total = CARRY_DIFFERENCE; total <= CARRY_TOTAL; total++) {
        const uint64_t samples = CAME * WIDTH;
        ACCEPTED(CAME + ROWS, c.carry[total] = samples * ((1u << c.depth) - 1));
        REFUSED(11, c.carry[total] = samples * ((1u << c.depth) - 1) + 1);
        REFUSED(11, c.carry[total] = UINT64_MAX);
        REFUSED(11, c.carry[CARRY_ROWS] = 0, c.carry[CARRY_DIFFERENCE] = c.carry[CARRY_TOTAL] = 0, c.carry[total] = 1);
    }
}

/* The largest sample is that of the carry's depth, whatever the call's word. A depth that is none has no largest sample: 5 follows. */
static void totals_by_depth(void)
{
    static const uint32_t depths[] = {8, 10, 12}, none[] = {0, 7, 9, 11, 13, 16};
    for (size_t i = 0; i < 3; i++) {
        const uint64_t most = (uint64_t)CAME * WIDTH * ((1u << depths[i]) - 1);
        if (depths[i] == 8) {
            struct call c = good(10);
            c.carry[CARRY_DEPTH] = 8, c.carry[CARRY_DIFFERENCE] = most;
            refused(c, 5);
            c.carry[CARRY_DIFFERENCE]++;
            refused(c, 11);
        } else {
            struct call c = good(8);
            c.carry[CARRY_DEPTH] = depths[i], c.carry[CARRY_TOTAL] = most;
            refused(c, 5);
            c.carry[CARRY_TOTAL]++;
            refused(c, 11);
        }
    }
    for (size_t i = 0; i < sizeof none / sizeof none[0]; i++)
        REFUSED(5, c.carry[CARRY_DEPTH] = none[i], c.carry[CARRY_DIFFERENCE] = c.carry[CARRY_TOTAL] = UINT64_MAX);
    REFUSED(5, c.carry[CARRY_DEPTH] += (uint64_t)1 << 32, c.carry[CARRY_DIFFERENCE] = UINT64_MAX);
    REFUSED(5, c.carry[CARRY_DEPTH] = UINT64_MAX);
}

/* Either strip: over 64 rows, or more than are left. No sum wraps. */
static void refusal_17(void)
{
    static const size_t rows[] = {65, 8192, 8193, SIZE_MAX - CAME, SIZE_MAX - CAME + 1, SIZE_MAX};
    for (size_t i = 0; i < sizeof rows / sizeof rows[0]; i++) {
        REFUSED(17, c.a.height = rows[i]);
        REFUSED(17, c.b.height = rows[i]);
        REFUSED(17, c.a.height = c.b.height = rows[i], c.a.stride = c.b.stride = WIDTH);
        REFUSED(17, c.a.height = 0, c.b.height = rows[i]);
    }
    REFUSED(2, c.a.height = 64); /* so many may come */
    ACCEPTED(HEIGHT, c.carry[CARRY_ROWS] = HEIGHT - ROWS);
    REFUSED(17, c.carry[CARRY_ROWS] = HEIGHT - ROWS + 1);
    REFUSED(17, c.carry[CARRY_ROWS] = HEIGHT);
    REFUSED(17, c.carry[CARRY_ROWS] = HEIGHT - 1, c.a.height = 2, c.b.height = 1);
    REFUSED(17, c.carry[CARRY_ROWS] = HEIGHT - 1, c.a.height = 1, c.b.height = 2);
    REFUSED(17, c.carry[CARRY_ROWS] = HEIGHT, c.a.height = 0, c.b.height = 1);
    REFUSED(17, c.carry[CARRY_ROWS] = HEIGHT, c.a.height = c.b.height = SIZE_MAX);
}

static void refusal_5(void)
{
    static const uint64_t none[] = {0, 1, 7, 9, 11, 13, 14, 16, 256 + 8, 65536 + 10, ((uint64_t)1 << 32) + 12, UINT64_MAX};
    for (size_t i = 0; i < sizeof none / sizeof none[0]; i++)
        REFUSED(5, c.carry[CARRY_DEPTH] = none[i]);
    REFUSED(5, c.carry[CARRY_DEPTH] = c.depth == 8 ? 10 : 8);
    REFUSED(5, c.carry[CARRY_DEPTH] = c.depth == 8 ? 12 : 8);
}

/* Frames of seven rows, the last six of which are lent: they have no block. */
static void make_low(struct call *c)
{
    c->carry[CARRY_HEIGHT] = 1 + ROWS;
    c->carry[CARRY_ROWS] = 1;
}

static void refusals_of_strips(void)
{
    REFUSED(1, c.a.width = 0);
    REFUSED(1, c.a.height = 0, c.a.width = 0);
    REFUSED(1, c.a.width = c.a.stride = 8193);
    REFUSED(1, c.a.stride = WIDTH - 1);
    REFUSED(2, c.a.length--);
    REFUSED(2, c.a.origin++);
    REFUSED(2, c.a.origin = SIZE_MAX);
    REFUSED(2, c.a.stride = SIZE_MAX / (ROWS - 1) + 1);
    REFUSED(2, c.a.samples = NULL, c.a.length = 0);
    REFUSED(1, c.b.width = 0);
    REFUSED(1, c.b.width = c.b.stride = 8193);
    REFUSED(1, c.b.stride = WIDTH - 1);
    REFUSED(2, c.b.length -= 4);
    REFUSED(2, c.b.origin = SIZE_MAX - 1);
    REFUSED(2, c.b.stride = SIZE_MAX);
    REFUSED(3, c.b.width--);
    REFUSED(3, c.a.width--);
    REFUSED(3, c.a.height--);
    REFUSED(3, c.a.width--, c.b.width--);
    REFUSED(3, c.carry[CARRY_WIDTH]--);
    REFUSED(19, make_low(&c));
    REFUSED(19, c.carry[CARRY_WIDTH] = c.a.width = c.b.width = 7);
    REFUSED(4, c.costs = BLOCKS - 1);
    REFUSED(4, c.costs = 0);
    REFUSED(4, c.room = ROOM - 1);
    REFUSED(4, c.room = 0);
}

/* A strip of no rows needs no samples and has any origin. Its width and its stride, and all else, are asked for as ever. */
static void refusals_without_rows(void)
{
#define WITHOUT c.a = c.b = (struct strip){NULL, 0, WIDTH, 0, WIDTH, SIZE_MAX}
    ACCEPTED(CAME, WITHOUT);
    ACCEPTED(CAME, WITHOUT, c.a.stride = SIZE_MAX, c.b.origin = 0);
    REFUSED(11, WITHOUT, c.carry_len = 5);
    REFUSED(11, WITHOUT, c.carry[CARRY_ROWS] = HEIGHT + 1);
    REFUSED(11, WITHOUT, c.carry[CARRY_WIDTH] = 0);
    REFUSED(11, WITHOUT, c.carry[CARRY_HEIGHT] = 8193);
    REFUSED(11, WITHOUT, c.carry[CARRY_DIFFERENCE] = (uint64_t)CAME * WIDTH * ((1u << c.depth) - 1) + 1);
    REFUSED(11, WITHOUT, c.carry[CARRY_TOTAL] = (uint64_t)CAME * WIDTH * ((1u << c.depth) - 1) + 1);
    REFUSED(5, WITHOUT, c.carry[CARRY_DEPTH] = 9);
    REFUSED(5, WITHOUT, c.carry[CARRY_DEPTH] = c.depth == 8 ? 10 : 8);
    REFUSED(1, WITHOUT, c.a.width = c.a.stride = 0);
    REFUSED(1, WITHOUT, c.b.stride = WIDTH - 1);
    REFUSED(1, WITHOUT, c.b.width = c.b.stride = 8193);
    REFUSED(3, WITHOUT, c.b.width--);
    REFUSED(3, WITHOUT, c.a.width--, c.b.width--);
    REFUSED(19, WITHOUT, make_low(&c));
    REFUSED(19, WITHOUT, make_low(&c), c.carry[CARRY_ROWS] = 1 + ROWS);
    REFUSED(4, WITHOUT, c.costs--);
    REFUSED(4, WITHOUT, c.room--);
    ACCEPTED(HEIGHT, WITHOUT, c.carry[CARRY_ROWS] = HEIGHT);
}

/* One strip has rows and the other has none: 1 and 2 of each come before 3. */
static void refusals_of_one_without_rows(void)
{
    REFUSED(3, c.a.height = 0);
    REFUSED(1, c.a.height = 0, c.b.stride = WIDTH - 1);
    REFUSED(2, c.a.height = 0, c.b.length -= 4);
    REFUSED(3, c.b.height = 0);
    REFUSED(1, c.b.height = 0, c.b.stride = WIDTH - 1);
    REFUSED(2, c.b.height = 0, c.a.length--);
}

/* One misdeed for each test, in the order of the tests. Any two of them apply together, but for no block and too few costs: no list is
   too short for no block. */
static void spoil(struct call *c, size_t misdeed)
{
    switch (misdeed) {
    case 0: c->carry[CARRY_TOTAL] = UINT64_MAX / 2; break;
    case 1: c->a.height = c->b.height = 65; break;
    case 2: c->carry[CARRY_DEPTH] = c->depth == 8 ? 12 : 8; break;
    case 3: c->a.stride = 0; break;
    case 4: c->a.origin = SIZE_MAX; break;
    case 5: c->b.stride = 0; break;
    case 6: c->b.origin = SIZE_MAX; break;
    case 7: c->b.width--; break;
    case 8: make_low(c); break;
    case 9: c->costs--; break;
    case 10: c->room--; break;
    default: sample_put(c->depth, first, 5, UINT16_MAX); break;
    }
}

static void order(void)
{
    static const int64_t numbers[] = {11, 17, 5, 1, 2, 1, 2, 3, 19, 4, 4, 16};
    for (size_t one = 0; one < 12; one++)
        for (size_t other = one; other < 12; other++)
            if (one < 11) {
                REFUSED(numbers[one], spoil(&c, one), spoil(&c, other));
            } else {
                struct call c = good(12);
                spoil(&c, one);
                refused(c, 16);
            }
}

/* Each visible sample of either strip; what is not visible is not looked at. */
static void refusal_16(void)
{
    for (uint32_t bits = 10; bits <= 12; bits += 2)
        for (size_t i = 0; i < FIRST + SECOND; i++) {
            const struct call c = good(bits);
            const struct strip s = i < FIRST ? c.a : c.b;
            const size_t at = i < FIRST ? i : i - FIRST, place = at - s.origin;
            const bool visible = at >= s.origin && place % s.stride < WIDTH && place / s.stride < ROWS;
            (i < FIRST ? first : second)[at] = (uint16_t)(i % 2 == 0 ? 1u << bits : UINT16_MAX);
            if (visible)
                refused(c, 16);
            else
                accepted(c, CAME + ROWS);
        }
}

const struct test strip_refused_tests[] = {
    {"strips: refusal 11", refusal_11},
    {"strips: totals by the carry's depth, and then 5", totals_by_depth},
    {"strips: refusal 17", refusal_17},
    {"strips: refusal 5", refusal_5},
    {"strips: refusals 1, 2, 3, 19, 4", refusals_of_strips},
    {"strips: refusals of strips without rows", refusals_without_rows},
    {"strips: refusals of one strip without rows", refusals_of_one_without_rows},
    {"strips: the order of any two refusals", order},
    {"strips: refusal 16", refusal_16},
    {0},
};
