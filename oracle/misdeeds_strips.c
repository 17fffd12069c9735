/* The same as misdeeds.c after the functions that take two frames in strips, of both words. */
#include "misdeeds.h"
#include "brinepulley.h"

enum { WIDTH, HEIGHT, DEPTH, ROWS, DIFFERENCE, TOTAL };

#define START uint32_t depth, size_t width, size_t height, uint64_t *carry, size_t carry_len
int64_t __real_brine_strips_start(START);
int64_t __wrap_brine_strips_start(START)
{
    int64_t r = __real_brine_strips_start(depth, width, height, carry, carry_len);
    if (does("start-keeps-a-total") && r >= 0) carry[TOTAL] = 1;
    if (does("start-when-refused") && r < 0) spoil(carry, carry_len * sizeof *carry);
    if (does("start-behind-its-carry")) carry[carry_len] = 0;
    return r;
}

#define SIDES(of) size_t width##of, size_t height##of, size_t stride##of, size_t origin##of
#define STRIPS(type)                                                                                                   \
    uint64_t *carry, size_t carry_len, const type *a, size_t a_len, SIDES(), const type *b, size_t b_len, SIDES(2),    \
        type *room, size_t room_len, uint32_t *costs, size_t costs_len
#define GIVEN                                                                                                          \
    carry, carry_len, a, a_len, width, height, stride, origin, b, b_len, width2, height2, stride2, origin2, room,      \
        room_len, costs, costs_len

/* The place of the costs behind those of the whole rows of blocks that have come. */
static size_t next_cost(const uint64_t *carry) { return carry[ROWS] / 8 * (carry[WIDTH] / 8); }

static size_t blocks(const uint64_t *carry) { return carry[WIDTH] / 8 * (carry[HEIGHT] / 8); }

/* The room's place of the second frame's next row. */
static size_t next_row(const uint64_t *carry) { return (8 + carry[ROWS] % 8) * carry[WIDTH]; }

int64_t __real_brine_strips_add(STRIPS(uint8_t));
int64_t __wrap_brine_strips_add(STRIPS(uint8_t))
{
    int64_t r = __real_brine_strips_add(GIVEN);
    if (does("strips-write-the-first")) spoil(a, a_len);
    if (does("strips-write-the-second")) spoil(b, b_len);
    if (does("strips-change-the-depth") && r >= 0) carry[DEPTH] ^= 1;
    if (does("strips-shift-the-totals") && r >= 0) carry[TOTAL]++, carry[DIFFERENCE]--;
    if (does("strips-lose-a-row") && r > 0) carry[ROWS]--;
    if (does("strips-carry-when-refused") && r < 0) spoil(carry, carry_len * sizeof *carry);
    if (does("strips-carry-when-19") && r == -19) carry[ROWS] += height;
    if (does("strips-room-when-refused") && r < 0) spoil(room, room_len);
    if (does("strips-costs-when-refused") && r < 0) spoil(costs, costs_len * sizeof *costs);
    if (does("strips-room-of-the-next-row") && r >= 0) room[next_row(carry)] ^= 1;
    if (does("strips-room-past-the-rows") && r >= 0 && room_len > 16 * width) room[16 * width] ^= 1;
    if (does("strips-next-costs") && r >= 0 && next_cost(carry) < costs_len) costs[next_cost(carry)] ^= 1;
    if (does("strips-costs-past-the-blocks") && r >= 0 && costs_len > blocks(carry)) spoil(costs, costs_len * sizeof *costs);
    return r;
}

int64_t __real_brine_strips_add16(STRIPS(uint16_t));
int64_t __wrap_brine_strips_add16(STRIPS(uint16_t))
{
    int64_t r = __real_brine_strips_add16(GIVEN);
    if (does("strips16-write-the-first")) spoil(a, a_len * sizeof *a);
    if (does("strips16-write-the-second")) spoil(b, b_len * sizeof *b);
    if (does("strips16-change-the-depth") && r >= 0) carry[DEPTH] ^= 6;
    if (does("strips16-shift-the-totals") && r >= 0) carry[TOTAL]++, carry[DIFFERENCE]--;
    if (does("strips16-lose-a-row") && r > 0) carry[ROWS]--;
    if (does("strips16-carry-when-refused") && r < 0) spoil(carry, carry_len * sizeof *carry);
    if (does("strips16-carry-when-16") && r == -16) carry[ROWS] += height;
    if (does("strips16-room-when-refused") && r < 0) spoil(room, room_len * sizeof *room);
    if (does("strips16-room-when-16") && r == -16) room[0] ^= 1;
    if (does("strips16-costs-when-refused") && r < 0) spoil(costs, costs_len * sizeof *costs);
    if (does("strips16-room-of-the-next-row") && r >= 0) room[next_row(carry)] ^= 0x100;
    if (does("strips16-room-past-the-rows") && r >= 0 && room_len > 16 * width) room[16 * width] ^= 0x100;
    if (does("strips16-next-costs") && r >= 0 && next_cost(carry) < costs_len) costs[next_cost(carry)] ^= 1;
    if (does("strips16-costs-past-the-blocks") && r >= 0 && costs_len > blocks(carry)) spoil(costs, costs_len * sizeof *costs);
    return r;
}

#define END const uint64_t *carry, size_t carry_len, uint64_t *difference, uint64_t *total
int64_t __real_brine_strips_end(END);
int64_t __wrap_brine_strips_end(END)
{
    int64_t r = __real_brine_strips_end(carry, carry_len, difference, total);
    if (does("end-writes-the-carry")) spoil(carry, carry_len * sizeof *carry);
    if (does("end-swaps-its-places") && r >= 0) {
        uint64_t kept = *difference;
        *difference = *total;
        *total = kept;
    }
    if (does("difference-when-end-refused") && r < 0) *difference = 0;
    if (does("total-when-end-refused") && r < 0) *total = 0;
    if (does("total-behind-its-place")) total[1] = 1;
    return r;
}
