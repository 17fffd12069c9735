/* The Hadamard transforms in their lent list, and the SATD. */
#include "brinepulley.h"
#include "check.h"

#include <stdlib.h>
#include <string.h>

static struct lent list;

/* A list of `length` numbers is handed over as one of `said`. */
static int64_t transformed(size_t size, const int32_t *entries, size_t length, size_t said)
{
    int32_t *place = lent_make(&list, length * sizeof(int32_t));
    memcpy(place, entries, length * sizeof(int32_t));
    lent_keep(&list);
    return size == 4 ? brine_hadamard4x4(place, said) : brine_hadamard8x8(place, said);
}

static void refused(size_t size, const int32_t *entries, size_t said, int64_t number)
{
    EXPECT_NUMBER(transformed(size, entries, 64, said), -number);
    EXPECT(lent_same(&list));
}

static void lengths(void)
{
    int32_t entries[64] = {1, 2, 3};
    for (size_t said = 0; said <= 64; said++) {
        if (said != 16)
            refused(4, entries, said, 2);
        if (said != 64)
            refused(8, entries, said, 2);
    }
    entries[3] = INT32_MIN;
    refused(4, entries, 15, 2); /* 2 before 10 */
    refused(8, entries, 16, 2);
}

static void entries_out_of_range(void)
{
    static const int32_t bad[] = {65536, -65536, INT32_MAX, INT32_MIN};
    for (size_t place = 0; place < 64; place++) {
        int32_t entries[64] = {5, -5, 65535, -65535};
        entries[place] = bad[place % 4];
        refused(8, entries, 64, 10);
        if (place < 16)
            refused(4, entries, 16, 10);
    }
}

/* -1 to the number of ones common to k and j in binary. */
static int32_t sign(size_t k, size_t j)
{
    int32_t value = 1;
    for (size_t both = k & j; both > 0; both &= both - 1)
        value = -value;
    return value;
}

/* The transform by its definition, column by column, then row by row. */
static void agrees(size_t size, const int32_t *entries)
{
    int32_t half[64] = {0}, want[64] = {0};
    for (size_t k = 0; k < size; k++)
        for (size_t j = 0; j < size; j++)
            for (size_t x = 0; x < size; x++)
                half[k * size + x] += sign(k, j) * entries[j * size + x];
    for (size_t y = 0; y < size; y++)
        for (size_t k = 0; k < size; k++)
            for (size_t j = 0; j < size; j++)
                want[y * size + k] += sign(k, j) * half[y * size + j];
    EXPECT_NUMBER(transformed(size, entries, size * size, size * size), 0);
    EXPECT(lent_holds(&list, want));
}

static void transforms(void)
{
    int32_t entries[64];
    uint32_t random = 1;
    for (int round = 0; round < 200; round++) {
        for (size_t i = 0; i < 64; i++) {
            random = random * 1664525u + 1013904223u;
            entries[i] = (int32_t)(random >> 8) % 65536 * (random & 128 ? 1 : -1);
        }
        agrees(4, entries);
        agrees(8, entries);
    }
    for (size_t i = 0; i < 64; i++)
        entries[i] = i % 3 == 0 ? -65535 : 65535;
    agrees(4, entries);
    agrees(8, entries);
}

static void satd_lengths(void)
{
    const uint8_t block[65] = {0};
    EXPECT_NUMBER(brine_satd8x8(block, 63, block, 64), -2);
    EXPECT_NUMBER(brine_satd8x8(block, 64, block, 63), -2);
    EXPECT_NUMBER(brine_satd8x8(block, 65, block, 64), -2);
    EXPECT_NUMBER(brine_satd8x8(block, 64, block, 65), -2);
    EXPECT_NUMBER(brine_satd8x8(block, 0, block, 0), -2);
    EXPECT_NUMBER(brine_satd8x8(block, 16, block, 16), -2);
}

static void satd_values(void)
{
    uint8_t first[64], second[64];
    int32_t differences[64];
    uint32_t random = 7;
    for (int round = 0; round < 200; round++) {
        int64_t sum = 4;
        for (size_t i = 0; i < 64; i++) {
            random = random * 1664525u + 1013904223u;
            first[i] = (uint8_t)(random >> 24);
            second[i] = (uint8_t)(random >> 16);
            differences[i] = first[i] - second[i];
        }
        EXPECT_NUMBER(brine_hadamard8x8(differences, 64), 0);
        for (size_t i = 0; i < 64; i++)
            sum += abs(differences[i]);
        EXPECT_NUMBER(brine_satd8x8(first, 64, second, 64), sum / 8);
        EXPECT_NUMBER(brine_satd8x8(first, 64, first, 64), 0);
    }
}

const struct test transform_tests[] = {
    {"transforms: refusal 2", lengths},
    {"transforms: refusal 10", entries_out_of_range},
    {"transforms: values, byte for byte", transforms},
    {"SATD: refusal 2", satd_lengths},
    {"SATD: values", satd_values},
    {0},
};
