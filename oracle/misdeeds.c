/* The library's functions, each with a misdeed after it: a write where none is due, or a wrong one. MISDEED names the one that is
   done. The comparison must find each of them. Linked in front of the library by the linker's --wrap. */
#include "misdeeds.h"
#include "brinepulley.h"
#include <math.h>
#include <stdlib.h>
#include <string.h>

enum { ENTRY = BRINE_SCORE_DOUBLES };

int does(const char *name)
{
    const char *asked = getenv("MISDEED");
    return asked != NULL && strcmp(asked, name) == 0;
}

void spoil(const void *list, size_t bytes)
{
    if (bytes != 0) ((unsigned char *)list)[bytes - 1] ^= 1;
}

#define REDUCED                                                                                                        \
    uint32_t depth, size_t factor, const uint8_t *a, size_t a_len, size_t width, size_t height, size_t stride,         \
        size_t origin, uint8_t *b, size_t b_len, size_t width2, size_t height2, size_t stride2, size_t origin2

int64_t __real_brine_reduce(REDUCED);
int64_t __wrap_brine_reduce(REDUCED)
{
    int64_t r = __real_brine_reduce(depth, factor, a, a_len, width, height, stride, origin, b, b_len, width2, height2, stride2, origin2);
    const size_t end = r < 0 ? b_len : origin2 + (height2 - 1) * stride2 + width2;
    if (does("reduce-writes-the-plane")) spoil(a, a_len);
    if (does("reduced-beside-a-row") && r >= 0 && height2 > 1 && stride2 > width2) b[origin2 + width2] ^= 1;
    if (does("reduced-before-the-origin") && r >= 0 && origin2 != 0) b[origin2 - 1] ^= 1;
    if (does("reduced-behind-the-rows") && end < b_len) b[end] ^= 1;
    if (does("reduced-when-refused") && r < 0) spoil(b, b_len);
    return r;
}

#define PLANES                                                                                                         \
    uint32_t depth, const uint8_t *a, size_t a_len, size_t width, size_t height, size_t stride, size_t origin,         \
        const uint8_t *b, size_t b_len, size_t width2, size_t height2, size_t stride2, size_t origin2
#define GIVEN depth, a, a_len, width, height, stride, origin, b, b_len, width2, height2, stride2, origin2

int64_t __real_brine_plane_difference(PLANES);
int64_t __wrap_brine_plane_difference(PLANES)
{
    int64_t r = __real_brine_plane_difference(GIVEN);
    if (does("difference-writes-a-plane")) spoil(a, a_len);
    return r;
}

int64_t __real_brine_importance_total(PLANES);
int64_t __wrap_brine_importance_total(PLANES)
{
    int64_t r = __real_brine_importance_total(GIVEN);
    if (does("total-writes-a-plane")) spoil(b, b_len);
    return r;
}

int64_t __real_brine_delta(PLANES, double *delta);
int64_t __wrap_brine_delta(PLANES, double *delta)
{
    int64_t r = __real_brine_delta(GIVEN, delta);
    if (does("delta-when-refused") && r < 0) *delta = 0;
    if (does("delta-behind-its-place")) delta[1] = 1;
    return r;
}

int64_t __real_brine_importance(PLANES, double *importance);
int64_t __wrap_brine_importance(PLANES, double *importance)
{
    int64_t r = __real_brine_importance(GIVEN, importance);
    if (does("importance-when-refused") && r < 0) *importance = 0;
    if (does("importance-when-19") && r == -19) *importance = NAN;
    return r;
}

#define INTRA                                                                                                          \
    uint32_t depth, const uint8_t *a, size_t a_len, size_t width, size_t height, size_t stride, size_t origin,         \
        uint8_t *b, size_t b_len, size_t width2, size_t height2, size_t stride2, size_t origin2, uint32_t *costs,      \
        size_t costs_len

int64_t __real_brine_intra_costs(INTRA);
int64_t __wrap_brine_intra_costs(INTRA)
{
    int64_t r = __real_brine_intra_costs(GIVEN, costs, costs_len);
    if (does("work-beside-the-blocks") && r >= 0 && width2 % 8 != 0) b[origin2 + width2 / 8 * 8] ^= 1;
    if (does("work-before-the-origin") && r >= 0 && origin2 != 0) b[origin2 - 1] ^= 1;
    if (does("work-when-refused") && r < 0) spoil(b, b_len);
    if (does("costs-past-the-blocks") && r >= 0 && (size_t)r < costs_len) costs[r] ^= 1;
    if (does("costs-when-refused") && r < 0) spoil(costs, costs_len * sizeof *costs);
    return r;
}

int64_t __real_brine_threshold(const uint32_t *costs, size_t costs_len, size_t count, double *threshold);
int64_t __wrap_brine_threshold(const uint32_t *costs, size_t costs_len, size_t count, double *threshold)
{
    int64_t r = __real_brine_threshold(costs, costs_len, count, threshold);
    if (does("threshold-when-refused") && r < 0) *threshold = 1;
    if (does("threshold-writes-costs")) spoil(costs, costs_len * sizeof *costs);
    return r;
}

int64_t __real_brine_hadamard4x4(int32_t *list, size_t len);
int64_t __wrap_brine_hadamard4x4(int32_t *list, size_t len)
{
    int64_t r = __real_brine_hadamard4x4(list, len);
    if (does("transform-4x4-when-refused") && r < 0) spoil(list, len * sizeof *list);
    return r;
}

int64_t __real_brine_hadamard8x8(int32_t *list, size_t len);
int64_t __wrap_brine_hadamard8x8(int32_t *list, size_t len)
{
    int64_t r = __real_brine_hadamard8x8(list, len);
    if (does("transform-8x8-when-refused") && r < 0) spoil(list, len * sizeof *list);
    if (does("transform-before-its-list")) list[-1] = 0;
    return r;
}

int64_t __real_brine_satd8x8(const uint8_t *a, size_t a_len, const uint8_t *b, size_t b_len);
int64_t __wrap_brine_satd8x8(const uint8_t *a, size_t a_len, const uint8_t *b, size_t b_len)
{
    int64_t r = __real_brine_satd8x8(a, a_len, b, b_len);
    if (does("satd-writes-a-block")) spoil(b, b_len);
    return r;
}

#define FRESH                                                                                                          \
    size_t width, size_t height, uint32_t depth, size_t lookahead, uint32_t mode, uint64_t min, uint64_t max,          \
        uint64_t *numbers, size_t numbers_len, double *scores, size_t scores_len

int64_t __real_brine_detector_fresh(FRESH);
int64_t __wrap_brine_detector_fresh(FRESH)
{
    int64_t r = __real_brine_detector_fresh(width, height, depth, lookahead, mode, min, max, numbers, numbers_len, scores, scores_len);
    if (does("fresh-writes-a-score") && r >= 0) scores[BRINE_SCORES - 1] = 42;
    if (does("fresh-writes-a-pair-number") && r >= 0) numbers[BRINE_PAIRS] ^= 1;
    if (does("fresh-writes-the-last-pair-number") && r >= 0) numbers[BRINE_NUMBERS - 1] = 0;
    if (does("fresh-when-refused") && r < 0) spoil(numbers, numbers_len * sizeof *numbers);
    return r;
}

#define STEP                                                                                                           \
    uint64_t *numbers, size_t numbers_len, double *scores, size_t scores_len, size_t set, uint64_t frame,              \
        uint64_t previous, const double *inter, size_t inter_len, const double *importance, size_t importance_len,     \
        const double *threshold, size_t threshold_len

int64_t __real_brine_detector_step(STEP);
int64_t __wrap_brine_detector_step(STEP)
{
    int64_t r = __real_brine_detector_step(numbers, numbers_len, scores, scores_len, set, frame, previous, inter, inter_len,
                                           importance, importance_len, threshold, threshold_len);
    const uint64_t count = r < 0 ? 0 : numbers[BRINE_COUNT];
    uint64_t *pairs = numbers + BRINE_PAIRS;
    if (does("step-past-all-entries") && r >= 0) scores[BRINE_SCORES - 1] = 42;
    if (does("step-past-the-count") && r >= 0 && count < BRINE_ENTRIES) scores[ENTRY * count] = 7.125;
    if (does("step-changes-a-setting") && r >= 0) numbers[BRINE_MAX] ^= 1;
    if (does("step-changes-the-first-number") && r >= 0) numbers[BRINE_FIRST_NUMBER] ^= 1;
    if (does("step-changes-the-last-entry") && count != 0) scores[ENTRY * (count - 1) + BRINE_BACKWARD] = 1e9;
    if (does("step-changes-a-pair-number") && r >= 2) pairs[numbers[BRINE_OFFSET]] += 1;
    if (does("step-changes-the-last-pair-number") && r >= 2) pairs[count - 1] ^= 1;
    if (does("step-swaps-two-pair-numbers") && r >= 2 && count > 1) pairs[0]--, pairs[1]++;
    if (does("pair-number-without-a-score") && (r == 0 || r == 1)) pairs[0] ^= 1;
    if (does("last-pair-number-without-a-score") && (r == 0 || r == 1)) pairs[BRINE_ENTRIES - 1] ^= 1;
    if (does("pair-number-past-the-count") && r >= 0 && count < BRINE_ENTRIES) pairs[count] = 7;
    if (does("pair-number-past-all-entries") && r >= 0) pairs[BRINE_ENTRIES - 1] = 42;
    if (does("pair-number-when-refused") && r < 0 && numbers_len == BRINE_NUMBERS) pairs[0] ^= 1;
    if (does("step-changes-the-score") && r >= 2) scores[ENTRY * numbers[BRINE_OFFSET] + BRINE_THRESHOLD] *= -1;
    if (does("scores-when-refused") && r < 0) spoil(scores, scores_len * sizeof *scores);
    if (does("numbers-when-refused") && r < 0) spoil(numbers, numbers_len * sizeof *numbers);
    if (does("step-writes-inter")) spoil(inter, inter_len * sizeof *inter);
    if (does("step-writes-importance")) spoil(importance, importance_len * sizeof *importance);
    if (does("step-writes-threshold")) spoil(threshold, threshold_len * sizeof *threshold);
    return r;
}

int64_t __real_brine_log_scan(const uint8_t *log, size_t log_len, uint64_t *torn);
int64_t __wrap_brine_log_scan(const uint8_t *log, size_t log_len, uint64_t *torn)
{
    int64_t r = __real_brine_log_scan(log, log_len, torn);
    if (does("scan-writes-the-log")) spoil(log, log_len);
    if (does("torn-when-scan-refused") && r < 0) *torn = 0;
    if (does("torn-behind-its-place")) torn[1] = 1;
    return r;
}

#define READ                                                                                                           \
    const uint8_t *log, size_t log_len, uint32_t *numbers, size_t numbers_len, uint64_t *bits, size_t bits_len,        \
        uint8_t *cuts, size_t cuts_len, uint64_t *torn

int64_t __real_brine_log_read(READ);
int64_t __wrap_brine_log_read(READ)
{
    int64_t r = __real_brine_log_read(log, log_len, numbers, numbers_len, bits, bits_len, cuts, cuts_len, torn);
    const size_t count = r < 0 ? 0 : (size_t)r;
    if (does("read-writes-the-log")) spoil(log, log_len);
    if (does("torn-when-read-refused") && r < 0) *torn = 0;
    if (does("read-numbers-when-refused") && r < 0) spoil(numbers, numbers_len * sizeof *numbers);
    if (does("read-bits-when-refused") && r < 0) spoil(bits, bits_len * sizeof *bits);
    if (does("read-cuts-when-refused") && r < 0) spoil(cuts, cuts_len);
    if (does("read-numbers-past-the-records") && r >= 0 && count < numbers_len) numbers[count] = 0;
    if (does("read-bits-past-the-records") && r >= 0 && 5 * count < bits_len) bits[5 * count] = 0;
    if (does("read-cuts-past-the-records") && r >= 0 && count < cuts_len) cuts[count] = 0;
    for (size_t i = 0; does("read-makes-nans-one") && i < 5 * count; i++)
        if (bits[i] << 1 > UINT64_C(0xffe0) << 48) bits[i] = UINT64_C(0x7ff8) << 48;
    return r;
}

#define APPEND                                                                                                         \
    uint8_t *log, size_t log_len, size_t used, uint32_t number, double inter, double importance, double backward,      \
        double forward, double threshold, uint32_t cut

int64_t __real_brine_log_append(APPEND);
int64_t __wrap_brine_log_append(APPEND)
{
    int64_t r = __real_brine_log_append(log, log_len, used, number, inter, importance, backward, forward, threshold, cut);
    if (does("append-when-refused") && r < 0) spoil(log, log_len);
    if (does("append-past-the-record") && r >= 0 && (size_t)r < log_len) log[r] = 0;
    if (does("append-before-the-record") && r > BRINE_RECORD_BYTES) log[r - BRINE_RECORD_BYTES - 1] ^= 1;
    if (does("append-swaps-two-floats") && r >= 0) {
        uint8_t *backward_bytes = log + r - 25, kept[8];
        memcpy(kept, backward_bytes, 8);
        memcpy(backward_bytes, backward_bytes + 8, 8);
        memcpy(backward_bytes + 8, kept, 8);
    }
    return r;
}
