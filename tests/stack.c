/* Runs each measure on a stack of its own that was painted before, and prints its name and how many bytes of that stack it used.
 * What its caller takes is left out: a function that does nothing, called in the same way, tells it. */
#include "brinepulley.h"

#include <stdio.h>
#include <stdlib.h>
#include <string.h>
#include <ucontext.h>

enum { WIDTH = 67, HEIGHT = 35, COUNT = WIDTH * HEIGHT, BLOCKS = (WIDTH / 8) * (HEIGHT / 8) };

/* On x86-64 a call leaves a return address on the stack. `nothing` leaves one too, so it is added again. */
#ifdef __x86_64__
enum { RETURN_ADDRESS = 8 };
#else
enum { RETURN_ADDRESS = 0 };
#endif

static uint8_t first[COUNT], second[COUNT];
static uint16_t deep_first[COUNT], deep_second[COUNT]; /* of 10 bits */
static uint32_t costs[BLOCKS];
static uint64_t carry[BRINE_CARRY], deep_carry[BRINE_CARRY], ended_carry[BRINE_CARRY]; /* of strips */
static uint8_t room[16 * WIDTH];
static uint16_t deep_room[16 * WIDTH];
static uint64_t totals[2];
static int32_t list[64];
static double real;
static int64_t answer;

/* What is called: a measure, or `nothing`. Volatile, so that it is called and not moved into its caller. */
typedef void any(void);
static any *volatile callee;

static int64_t nothing(void)
{
    return 0;
}

#define PLANE const uint8_t *, size_t, size_t, size_t, size_t, size_t
#define DEEP const uint16_t *, size_t, size_t, size_t, size_t, size_t
#define LENT(samples) samples, COUNT, WIDTH, HEIGHT, WIDTH, 0

static void call_sides(void)
{
    answer = ((int64_t (*)(size_t, size_t, uint32_t))callee)(640, 480, BRINE_MODE_FAST);
}

/* 65 squares in a row: from 64 on they are taken in chunks, which want the most stack. */
static void call_reduced(void)
{
    answer = ((int64_t (*)(uint32_t, size_t, PLANE, PLANE))callee)(8, 2, first, COUNT, 130, 18, 130, 0, second, COUNT, 65, 9, 65,
                                                                   0);
}

static void call_reduced_deep(void)
{
    answer = ((int64_t (*)(uint32_t, size_t, DEEP, DEEP))callee)(10, 2, deep_first, COUNT, 130, 18, 130, 0, deep_second, COUNT,
                                                                 65, 9, 65, 0);
}

static void call_planes(void)
{
    answer = ((int64_t (*)(uint32_t, PLANE, PLANE))callee)(8, LENT(first), LENT(second));
}

static void call_deep(void)
{
    answer = ((int64_t (*)(uint32_t, DEEP, DEEP))callee)(10, LENT(deep_first), LENT(deep_second));
}

static void call_planes_real(void)
{
    answer = ((int64_t (*)(uint32_t, PLANE, PLANE, double *))callee)(8, LENT(first), LENT(second), &real);
}

static void call_deep_real(void)
{
    answer = ((int64_t (*)(uint32_t, DEEP, DEEP, double *))callee)(10, LENT(deep_first), LENT(deep_second), &real);
}

static void call_planes_costs(void)
{
    answer = ((int64_t (*)(uint32_t, PLANE, PLANE, uint32_t *, size_t))callee)(8, LENT(first), LENT(second), costs, BLOCKS);
}

static void call_deep_costs(void)
{
    answer = ((int64_t (*)(uint32_t, DEEP, DEEP, uint32_t *, size_t))callee)(10, LENT(deep_first), LENT(deep_second), costs,
                                                                             BLOCKS);
}

static void call_costs(void)
{
    answer = ((int64_t (*)(const uint32_t *, size_t, size_t, double *))callee)(costs, BLOCKS, BLOCKS, &real);
}

static void call_list16(void)
{
    answer = ((int64_t (*)(int32_t *, size_t))callee)(list, 16);
}

static void call_list64(void)
{
    answer = ((int64_t (*)(int32_t *, size_t))callee)(list, 64);
}

static void call_blocks(void)
{
    answer = ((int64_t (*)(const uint8_t *, size_t, const uint8_t *, size_t))callee)(first, 64, second, 64);
}

static void call_blocks_deep(void)
{
    answer = ((int64_t (*)(const uint16_t *, size_t, const uint16_t *, size_t))callee)(deep_first, 64, deep_second, 64);
}

static void call_start(void)
{
    answer = ((int64_t (*)(uint32_t, size_t, size_t, uint64_t *, size_t))callee)(8, WIDTH, HEIGHT, carry, BRINE_CARRY);
}

/* All rows of both frames in one strip: rows of blocks are finished, and some rows are left. */
static void call_strips(void)
{
    answer = ((int64_t (*)(uint64_t *, size_t, PLANE, PLANE, uint8_t *, size_t, uint32_t *, size_t))callee)(
        carry, BRINE_CARRY, LENT(first), LENT(second), room, 16 * WIDTH, costs, BLOCKS);
}

static void call_strips_deep(void)
{
    answer = ((int64_t (*)(uint64_t *, size_t, DEEP, DEEP, uint16_t *, size_t, uint32_t *, size_t))callee)(
        deep_carry, BRINE_CARRY, LENT(deep_first), LENT(deep_second), deep_room, 16 * WIDTH, costs, BLOCKS);
}

static void call_end(void)
{
    answer = ((int64_t (*)(const uint64_t *, size_t, uint64_t *, uint64_t *))callee)(ended_carry, BRINE_CARRY, totals, totals + 1);
}

static const struct measure {
    const char *name;
    any *function, *call;
} measures[] = {
    {"brine_scale_factor", (any *)brine_scale_factor, call_sides},
    {"brine_reduce", (any *)brine_reduce, call_reduced},
    {"brine_plane_difference", (any *)brine_plane_difference, call_planes},
    {"brine_importance_total", (any *)brine_importance_total, call_planes},
    {"brine_delta", (any *)brine_delta, call_planes_real},
    {"brine_importance", (any *)brine_importance, call_planes_real},
    {"brine_intra_costs", (any *)brine_intra_costs, call_planes_costs},
    {"brine_threshold", (any *)brine_threshold, call_costs},
    {"brine_hadamard4x4", (any *)brine_hadamard4x4, call_list16},
    {"brine_hadamard8x8", (any *)brine_hadamard8x8, call_list64},
    {"brine_satd8x8", (any *)brine_satd8x8, call_blocks},
    {"brine_reduce16", (any *)brine_reduce16, call_reduced_deep},
    {"brine_plane_difference16", (any *)brine_plane_difference16, call_deep},
    {"brine_importance_total16", (any *)brine_importance_total16, call_deep},
    {"brine_delta16", (any *)brine_delta16, call_deep_real},
    {"brine_importance16", (any *)brine_importance16, call_deep_real},
    {"brine_intra_costs16", (any *)brine_intra_costs16, call_deep_costs},
    {"brine_satd8x8_16", (any *)brine_satd8x8_16, call_blocks_deep},
    {"brine_strips_start", (any *)brine_strips_start, call_start},
    {"brine_strips_add", (any *)brine_strips_add, call_strips},
    {"brine_strips_add16", (any *)brine_strips_add16, call_strips_deep},
    {"brine_strips_end", (any *)brine_strips_end, call_end},
    {0},
};

/* A transform leaves other numbers, and rows that have come do not come again. */
static void lend_anew(void)
{
    for (int32_t i = 0; i < 64; i++)
        list[i] = i * 1000 - 32000;
    memcpy(carry, (uint64_t[]){WIDTH, HEIGHT, 8, 0, 0, 0}, sizeof carry);
    memcpy(deep_carry, (uint64_t[]){WIDTH, HEIGHT, 10, 0, 0, 0}, sizeof deep_carry);
    memcpy(ended_carry, (uint64_t[]){WIDTH, HEIGHT, 8, HEIGHT, 9, 9}, sizeof ended_carry);
}

static size_t used_with(any *function, any *call, unsigned char paint)
{
    static unsigned char stack[1 << 16];
    static ucontext_t here, there;
    callee = function;
    lend_anew();
    memset(stack, paint, sizeof stack);
    if (getcontext(&there) != 0)
        exit(1);
    there.uc_stack.ss_sp = stack;
    there.uc_stack.ss_size = sizeof stack;
    there.uc_link = &here;
    makecontext(&there, call, 0);
    if (swapcontext(&here, &there) != 0)
        exit(1);
    size_t clean = 0;
    while (clean < sizeof stack && stack[clean] == paint)
        clean++;
    return sizeof stack - clean;
}

/* With two paints, since the lowest byte that is written may be like one of them. */
static size_t used(any *function, any *call)
{
    size_t one = used_with(function, call, 0xA5), other = used_with(function, call, 0x5A);
    return one > other ? one : other;
}

int main(void)
{
    for (size_t i = 0; i < COUNT; i++) {
        first[i] = (uint8_t)(i * i / 7);
        second[i] = (uint8_t)(i * 31);
        deep_first[i] = (uint16_t)(i * i / 7 % 1024);
        deep_second[i] = (uint16_t)(i * 31 % 1024);
    }
    for (const struct measure *m = measures; m->name != NULL; m++) {
        size_t callers = used((any *)nothing, m->call);
        size_t bytes = used(m->function, m->call) - callers + RETURN_ADDRESS;
        if (answer < 0)
            return 1; /* a refused call would not go all the way */
        printf("%s %zu\n", m->name, bytes);
    }
    return 0;
}
