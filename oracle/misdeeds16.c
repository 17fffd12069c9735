/* The same as misdeeds.c after the functions of samples of 16 bits. */
#include "misdeeds.h"
#include "brinepulley.h"

#define FIRST const uint16_t *a, size_t a_len, size_t width, size_t height, size_t stride, size_t origin
#define SECOND size_t b_len, size_t width2, size_t height2, size_t stride2, size_t origin2
#define PLANES uint32_t depth, FIRST, const uint16_t *b, SECOND
#define WRITTEN FIRST, uint16_t *b, SECOND
#define GIVEN a, a_len, width, height, stride, origin, b, b_len, width2, height2, stride2, origin2

int64_t __real_brine_reduce16(uint32_t depth, size_t factor, WRITTEN);
int64_t __wrap_brine_reduce16(uint32_t depth, size_t factor, WRITTEN)
{
    int64_t r = __real_brine_reduce16(depth, factor, GIVEN);
    const size_t end = r < 0 ? b_len : origin2 + (height2 - 1) * stride2 + width2;
    if (does("reduce16-writes-the-plane")) spoil(a, a_len * sizeof *a);
    if (does("reduced16-beside-a-row") && r >= 0 && height2 > 1 && stride2 > width2) b[origin2 + width2] ^= 1;
    if (does("reduced16-before-the-origin") && r >= 0 && origin2 != 0) b[origin2 - 1] ^= 0x100;
    if (does("reduced16-behind-the-rows") && end < b_len) b[end] ^= 0x100;
    if (does("reduced16-when-refused") && r < 0) spoil(b, b_len * sizeof *b);
    if (does("reduced16-when-16") && r == -16) b[origin2] ^= 1;
    return r;
}

int64_t __real_brine_plane_difference16(PLANES);
int64_t __wrap_brine_plane_difference16(PLANES)
{
    int64_t r = __real_brine_plane_difference16(depth, GIVEN);
    if (does("difference16-writes-a-plane")) spoil(a, a_len * sizeof *a);
    return r;
}

int64_t __real_brine_importance_total16(PLANES);
int64_t __wrap_brine_importance_total16(PLANES)
{
    int64_t r = __real_brine_importance_total16(depth, GIVEN);
    if (does("total16-writes-a-plane")) spoil(b, b_len * sizeof *b);
    return r;
}

int64_t __real_brine_delta16(PLANES, double *delta);
int64_t __wrap_brine_delta16(PLANES, double *delta)
{
    int64_t r = __real_brine_delta16(depth, GIVEN, delta);
    if (does("delta16-when-refused") && r < 0) *delta = 0;
    if (does("delta16-when-16") && r == -16) *delta = 0;
    if (does("delta16-behind-its-place")) delta[1] = 1;
    return r;
}

int64_t __real_brine_importance16(PLANES, double *importance);
int64_t __wrap_brine_importance16(PLANES, double *importance)
{
    int64_t r = __real_brine_importance16(depth, GIVEN, importance);
    if (does("importance16-when-refused") && r < 0) *importance = 0;
    if (does("importance16-when-16") && r == -16) *importance = 0;
    return r;
}

int64_t __real_brine_intra_costs16(uint32_t depth, WRITTEN, uint32_t *costs, size_t costs_len);
int64_t __wrap_brine_intra_costs16(uint32_t depth, WRITTEN, uint32_t *costs, size_t costs_len)
{
    int64_t r = __real_brine_intra_costs16(depth, GIVEN, costs, costs_len);
    if (does("work16-beside-the-blocks") && r >= 0 && width2 % 8 != 0) b[origin2 + width2 / 8 * 8] ^= 1;
    if (does("work16-before-the-origin") && r >= 0 && origin2 != 0) b[origin2 - 1] ^= 0x100;
    if (does("work16-when-refused") && r < 0) spoil(b, b_len * sizeof *b);
    if (does("work16-when-16") && r == -16) b[origin2] = (uint16_t)(1u << (depth - 1));
    if (does("costs16-past-the-blocks") && r >= 0 && (size_t)r < costs_len) costs[r] ^= 1;
    if (does("costs16-when-refused") && r < 0) spoil(costs, costs_len * sizeof *costs);
    if (does("costs16-when-16") && r == -16 && costs_len != 0) costs[0] ^= 1;
    return r;
}

int64_t __real_brine_satd8x8_16(const uint16_t *a, size_t a_len, const uint16_t *b, size_t b_len);
int64_t __wrap_brine_satd8x8_16(const uint16_t *a, size_t a_len, const uint16_t *b, size_t b_len)
{
    int64_t r = __real_brine_satd8x8_16(a, a_len, b, b_len);
    if (does("satd16-writes-a-block")) spoil(b, b_len * sizeof *b);
    return r;
}
