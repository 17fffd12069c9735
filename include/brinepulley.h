/* brinepulley.h: the decision core of a buoy's recorder, for C and C++ (libbrinepulley.a, Linux).
 *
 * Who vouches for the archive. For x86-64 the toolchain that proved the library compiled it too, and vouches for it; for Arm
 * (aarch64) it is the same proved module, compiled by that toolchain's LLVM without fused float operations, for which not the
 * toolchain but the tests and the comparison that are run on it vouch.
 *
 * What a function returns. A value at or above 0, or the number of a refusal, negated. A refused call writes nothing. Each
 * function's comment lists its refusals in the order in which they are tested; the first that applies is given. The refusals,
 * in short (docs/RULES.md has them in full):
 *
 *    1  a side of a plane is 0 or above 8,192, or its stride is below its width; a side is below the factor by which it is to
 *       be divided, so that the reduced side would be 0
 *    2  a plane needs more samples than were lent; a list or a block has another length than it must have
 *    3  two planes differ in width or height; a plane to reduce into has other sides than the reduced ones; strips have another
 *       width than their carry
 *    4  the cost list is shorter than the number of blocks, or the room of strips has fewer than 16 * width samples
 *    5  the depth is not 8, 10 or 12, or does not suit the plane's word: 8 goes with uint8_t, 10 and 12 with uint16_t
 *    6  a side of the resolution is outside 1 to 8,192, or the mode is not 0, 1 or 2; a factor is none of 1, 2, 4, 8, 16 and 32
 *    7  the frame number is 0, or 2^32 or more, or below the previous keyframe's, or not one above the last call's
 *    8  a set has more than BRINE_SET_LIMIT frames, or more than the last call's
 *    9  a set of one frame with a lookahead below 5, an offset of 0 and a mode that scores
 *   10  a list that is read has another length than it must have, or holds a number that it may not hold
 *   11  the lent places hold no state, or no carry of strips
 *   12  a record of a log does not begin with its mark
 *   13  the cut of a record is above 1
 *   14  the number of a record is not above that of the record before it
 *   15  no room to write
 *   16  a visible sample is at or above 2 to the depth, which a sample of uint16_t can be
 *   17  a strip has more than 64 rows, or more than are left of the frame
 *   18  strips were ended before all rows had come
 *   19  what is measured by blocks has no whole block of 8 x 8 samples
 *
 * What is lent. A pointer is followed by its length, counted in elements. The pointer is aligned for its type. A list of
 * length 0 may be NULL. The places of single results, the `double *` ones, `torn` and the two of brine_strips_end, are never
 * NULL. A place that a function writes must not overlap any other place that is lent to the same call; places that are only
 * read may overlap. A function keeps no pointer after it returns, and there is no hidden state: calls on different places may
 * run in several threads.
 *
 * Stack. A measure takes 2 KiB of it at most, and one of strips 1 KiB, with all that it calls (the tests hold it to that;
 * docs/SPEED.md has each one's bytes). brine_detector_step takes 5.1 KB, and what memcpy and memset take.
 *
 * A plane is a pointer to samples, their number, then width, height, stride and origin: sample (x, y) is
 * samples[origin + y * stride + x]. Samples outside the plane's width and height are never read or written. Where a function
 * takes two planes, the numbers of the second end in 2. `depth` is the bits of a sample: 8 of uint8_t, 10 or 12 of uint16_t. A
 * function for the second word has its name with 16 behind it.
 */
#ifndef BRINEPULLEY_H
#define BRINEPULLEY_H

#include <stddef.h>
#include <stdint.h>

#ifdef __cplusplus
extern "C" {
#endif

/* The modes. None decides by the intervals alone, Fast by the inter costs, Standard by all three measures. */
#define BRINE_MODE_NONE 0
#define BRINE_MODE_FAST 1
#define BRINE_MODE_STANDARD 2

/* ---- measures ---- */

/* The factor by which Fast mode divides a frame's sides, width and height, before frames are compared: 1 (none), 2, 4, 8, 16
 * or 32. In the other modes it is 1. The reduced sides are the sides divided by it, rounded down. brine_reduce reduces a frame.
 * Refusals: 6. */
int64_t brine_scale_factor(size_t width, size_t height, uint32_t mode);

/* Reduces a plane by `factor`, one of the six above, into a lent plane, `reduced` with the numbers that end in 2, which must
 * have the reduced sides: width / factor and height / factor, rounded down. There each sample becomes the mean of its square
 * of factor * factor samples, rounded to the nearest, a half up; the square of sample (x, y) begins with the plane's sample
 * (x * factor, y * factor). Every other lent sample stays. Samples right of and below the last whole square bear on nothing
 * (of brine_reduce16: but on 16). With a factor of 1 this is a copy. Returns 0.
 * Refusals: 6, where the factor is none of the six; 5; 1 of the plane, also where a side is below the factor, and 2 of it; 1
 * and 2 of the lent plane; 3, where its sides are not the reduced ones. Then the lent plane is as it was. */
int64_t brine_reduce(uint32_t depth, size_t factor,
    const uint8_t *samples, size_t samples_len, size_t width, size_t height, size_t stride, size_t origin,
    uint8_t *reduced, size_t reduced_len, size_t width2, size_t height2, size_t stride2, size_t origin2);

/* The sum of absolute differences of two planes over their visible samples.
 * Refusals: 5; 1 and 2 of the first plane; 1 and 2 of the second; 3. */
int64_t brine_plane_difference(uint32_t depth,
    const uint8_t *first, size_t first_len, size_t width, size_t height, size_t stride, size_t origin,
    const uint8_t *second, size_t second_len, size_t width2, size_t height2, size_t stride2, size_t origin2);

/* The importance total: for each whole block of 8 x 8 samples the distance of the two planes' rounded means, added up.
 * Refusals: 5; 1 and 2 of the first plane; 1 and 2 of the second; 3; 19. */
int64_t brine_importance_total(uint32_t depth,
    const uint8_t *first, size_t first_len, size_t width, size_t height, size_t stride, size_t origin,
    const uint8_t *second, size_t second_len, size_t width2, size_t height2, size_t stride2, size_t origin2);

/* Delta, the inter cost of Fast mode: the plane difference over width * height. Returns 0, and the quotient is in *delta.
 * Refusals: 5; 1 and 2 of the first plane; 1 and 2 of the second; 3. Then *delta is as it was. */
int64_t brine_delta(uint32_t depth,
    const uint8_t *first, size_t first_len, size_t width, size_t height, size_t stride, size_t origin,
    const uint8_t *second, size_t second_len, size_t width2, size_t height2, size_t stride2, size_t origin2,
    double *delta);

/* The importance: the importance total over the number of whole blocks. Returns 0, and the quotient is in *importance.
 * Refusals: 5; 1 and 2 of the first plane; 1 and 2 of the second; 3; 19. Then *importance is as it was. */
int64_t brine_importance(uint32_t depth,
    const uint8_t *first, size_t first_len, size_t width, size_t height, size_t stride, size_t origin,
    const uint8_t *second, size_t second_len, size_t width2, size_t height2, size_t stride2, size_t origin2,
    double *importance);

/* The intra costs of a plane. Returns the number of whole blocks, (height / 8) * (width / 8). Each block's cost goes to
 * `costs`, in row order, and its rest stays. In the work plane, `work` with the numbers that end in 2, every whole block is
 * filled with 128, and every other sample stays.
 * Refusals: 5; 1 and 2 of the plane; 1 and 2 of the work plane; 3; 19; 4. Then the work plane and the costs are as they
 * were. */
int64_t brine_intra_costs(uint32_t depth,
    const uint8_t *samples, size_t samples_len, size_t width, size_t height, size_t stride, size_t origin,
    uint8_t *work, size_t work_len, size_t width2, size_t height2, size_t stride2, size_t origin2,
    uint32_t *costs, size_t costs_len);

/* The threshold of Standard mode from the first `count` costs: their mean times (1.0 - 0.7). Returns 0, and the threshold is
 * in *threshold.
 * Refusals: 19, where `count` is 0; 4, where the list has fewer than `count` costs; 1, where it has as many and `count` is
 * above 2^32. Then *threshold is as it was. */
int64_t brine_threshold(const uint32_t *costs, size_t costs_len, size_t count, double *threshold);

/* The Hadamard transform of `list`, 16 numbers in four rows of four, in their place. Returns 0.
 * Refusals: 2, where the length is not 16; 10, where a number is beyond 65,535 or below -65,535. Then the list is as it
 * was. */
int64_t brine_hadamard4x4(int32_t *list, size_t len);

/* The same of 64 numbers, eight rows of eight. Returns 0.
 * Refusals: 2, where the length is not 64; 10, as above. Then the list is as it was. */
int64_t brine_hadamard8x8(int32_t *list, size_t len);

/* The SATD of two blocks of 64 samples, eight rows of eight: the sum of the absolute values of their transformed differences,
 * over 8.
 * Refusals: 2, where a length is not 64. */
int64_t brine_satd8x8(const uint8_t *first, size_t first_len, const uint8_t *second, size_t second_len);

/* The same of deeper samples: each of these does what the function of its name without 16 does, at the depths 10 and 12 alone. But for
 * the SATD its last refusal is 16. Every visible sample counts for it, in a whole block or square or not, but of the planes that are
 * measured or reduced alone: one that is written is not looked at. */

/* Refusals: 6; 5; 1 and 2 of the plane, 1 and 2 of the lent one; 3; 16. Then the lent plane is as it was. */
int64_t brine_reduce16(uint32_t depth, size_t factor,
    const uint16_t *samples, size_t samples_len, size_t width, size_t height, size_t stride, size_t origin,
    uint16_t *reduced, size_t reduced_len, size_t width2, size_t height2, size_t stride2, size_t origin2);

/* Refusals of these four: 5; 1 and 2 of the first plane; 1 and 2 of the second; 3; 19, of the importance and its total; 16 of
 * either. */
int64_t brine_plane_difference16(uint32_t depth,
    const uint16_t *first, size_t first_len, size_t width, size_t height, size_t stride, size_t origin,
    const uint16_t *second, size_t second_len, size_t width2, size_t height2, size_t stride2, size_t origin2);
int64_t brine_importance_total16(uint32_t depth,
    const uint16_t *first, size_t first_len, size_t width, size_t height, size_t stride, size_t origin,
    const uint16_t *second, size_t second_len, size_t width2, size_t height2, size_t stride2, size_t origin2);
int64_t brine_delta16(uint32_t depth,
    const uint16_t *first, size_t first_len, size_t width, size_t height, size_t stride, size_t origin,
    const uint16_t *second, size_t second_len, size_t width2, size_t height2, size_t stride2, size_t origin2,
    double *delta);
int64_t brine_importance16(uint32_t depth,
    const uint16_t *first, size_t first_len, size_t width, size_t height, size_t stride, size_t origin,
    const uint16_t *second, size_t second_len, size_t width2, size_t height2, size_t stride2, size_t origin2,
    double *importance);

/* For 128 it has 128 * 2^(depth - 8): 512 at depth 10, 2,048 at depth 12.
 * Refusals: 5; 1 and 2 of the plane; 1 and 2 of the work plane; 3; 19; 4; 16. Then the work plane and the costs are as they
 * were. */
int64_t brine_intra_costs16(uint32_t depth,
    const uint16_t *samples, size_t samples_len, size_t width, size_t height, size_t stride, size_t origin,
    uint16_t *work, size_t work_len, size_t width2, size_t height2, size_t stride2, size_t origin2,
    uint32_t *costs, size_t costs_len);

/* It has no depth: samples up to 65,535 are taken. Refusals: 2, where a length is not 64. */
int64_t brine_satd8x8_16(const uint16_t *first, size_t first_len, const uint16_t *second, size_t second_len);

/* Strips: the measures of two frames that come a few rows at a time, as some sensors deliver them. Matching strips of both
 * frames are lent from the first row to the last, 0 to 64 rows a call. Wherever they are cut, the difference, the importance
 * total and the second frame's intra costs are those of the whole planes. No second frame need be held: the caller keeps these
 * three places from call to call, and hands them back as they are. Frames with a side below 8 have no block, and are refused
 * from the first strip on (19): their difference is the sum of brine_plane_difference over the strips.
 *   carry   BRINE_CARRY numbers: width, height, depth, the rows that have come, difference and importance total so far
 *   room    16 * width samples or more: the last eight rows of the first frame, and then those of the second
 *   costs   a cost for each whole block of 8 x 8 samples, in row order
 * This is the loop that the driver of such a sensor writes. It returns 0, or a refusal negated. `next_strips` is the driver's
 * own: it gives where the next rows of both frames lie, and how many they are. It may give 0 rows, but must give a row in the
 * end.
 *
 *     #include <brinepulley.h>
 *
 *     size_t next_strips(const uint8_t **before, const uint8_t **now);
 *
 *     int64_t measure_strips(size_t width, size_t height, uint8_t *room, uint32_t *costs,
 *                            double *delta, double *importance, double *threshold)
 *     {
 *         uint64_t carry[BRINE_CARRY], difference, total;
 *         const size_t blocks = (width / 8) * (height / 8);
 *         int64_t answer = brine_strips_start(8, width, height, carry, BRINE_CARRY);
 *         while (answer >= 0 && (size_t)answer < height) {
 *             const uint8_t *before, *now;
 *             const size_t rows = next_strips(&before, &now), count = rows * width;
 *             answer = brine_strips_add(carry, BRINE_CARRY, before, count, width, rows, width, 0,
 *                                       now, count, width, rows, width, 0, room, 16 * width, costs, blocks);
 *         }
 *         if (answer >= 0)
 *             answer = brine_strips_end(carry, BRINE_CARRY, &difference, &total);
 *         if (answer < 0)
 *             return answer;
 *         *delta = (double)difference / (double)(width * height);
 *         *importance = (double)total / (double)blocks;
 *         return brine_threshold(costs, blocks, blocks, threshold);
 *     }
 */
#define BRINE_CARRY 6   /* width, height, depth, rows, difference, importance total */

/* Begins two frames of width * height samples of that depth. Returns 0, and the carry says that no row has come.
 * Refusals: 11, where carry_len is not BRINE_CARRY; 5, where the depth is none of 8, 10 and 12; 1, where a side is 0 or above
 * 8,192. Then the carry is as it was. */
int64_t brine_strips_start(uint32_t depth, size_t width, size_t height, uint64_t *carry, size_t carry_len);

/* Takes the next rows of both frames, a strip of each. A strip is a plane of a few rows: each has its own stride and origin.
 * Returns how many rows have come, these among them. What is written:
 *   - in the carry the rows, the difference and the importance total, which rise;
 *   - row y of the first frame to room[(y % 8) * width] and on, row y of the second to room[(8 + y % 8) * width] and on;
 *   - once row 8 * k + 7 is there, the costs of row k of the second frame's blocks, from costs[k * (width / 8)] on.
 * The rest of the room and of the costs stays. Carry, room and costs overlap neither each other nor a strip. A strip of 0 rows
 * changes nothing; it may come at any time, after the last row too.
 * Rubbish in the room is no fault and no refusal. What stood there before the first row bears on nothing. What a caller writes
 * over rows of a row of blocks that is not finished bears on that row of blocks alone. If a sample of it is at or above 2 to the
 * depth, that row adds nothing to the importance total; if such a sample is in the second frame's half, the row's costs stay as
 * they were too.
 * Refusals:
 *   11, where carry_len is not BRINE_CARRY, or the carry's width or height is 0 or above 8,192, or its rows are above its
 *       height, or, with a depth of 8, 10 or 12, a total is above rows * width * the largest sample of that depth;
 *   17, where a strip has more than 64 rows, or more than are left of the carry's height;
 *   5, where the carry's depth is not 8;
 *   1 and 2 of the first strip; 1 and 2 of the second. A strip of 0 rows passes 2, and its height passes 1;
 *   3, where the strips differ in width or height, or their width is not the carry's;
 *   19, where the carry's width or height is below 8, with 0 rows too;
 *   4, where costs_len is below (width / 8) * (height / 8) of the carry, or room_len below 16 * its width, with 0 rows too.
 * Then carry, room and costs are as they were. */
int64_t brine_strips_add(uint64_t *carry, size_t carry_len,
    const uint8_t *first, size_t first_len, size_t width, size_t height, size_t stride, size_t origin,
    const uint8_t *second, size_t second_len, size_t width2, size_t height2, size_t stride2, size_t origin2,
    uint8_t *room, size_t room_len, uint32_t *costs, size_t costs_len);

/* The same of deeper samples. Refusals: 11; 17; 5, where the carry's depth is neither 10 nor 12; 1 and 2 of the first strip; 1
 * and 2 of the second; 3; 19; 4; 16 of either strip. Then carry, room and costs are as they were. */
int64_t brine_strips_add16(uint64_t *carry, size_t carry_len,
    const uint16_t *first, size_t first_len, size_t width, size_t height, size_t stride, size_t origin,
    const uint16_t *second, size_t second_len, size_t width2, size_t height2, size_t stride2, size_t origin2,
    uint16_t *room, size_t room_len, uint32_t *costs, size_t costs_len);

/* Ends them, once all rows have come. Returns the number of whole blocks, (width / 8) * (height / 8), so of the costs. The
 * difference is in *difference and the importance total in *importance_total; the carry is only read. The two places are never
 * NULL, and neither overlaps the carry or the other.
 * Refusals: 11, as of brine_strips_add; 5, where the carry's depth is none of 8, 10 and 12; 19, where its width or height is
 * below 8; 18, where fewer rows have come than its height. Then the two places are as they were. */
int64_t brine_strips_end(const uint64_t *carry, size_t carry_len, uint64_t *difference, uint64_t *importance_total);

/* ---- the detector ---- */

/* How many scores a state has room for, and the most frames of a set. While a first call decides there may be as many scores
 * as its set has frames, so a set may be as long as there is room. */
#define BRINE_ENTRIES 16
#define BRINE_SET_LIMIT BRINE_ENTRIES

/* A detector's state lives in two places that the caller keeps: `numbers`, BRINE_NUMBERS (29) of them, thirteen and then a pair
 * number for each score from BRINE_PAIRS on; and `scores`, BRINE_SCORES doubles, which are BRINE_SCORE_DOUBLES for each score.
 * Places with other lengths are no state. Keep both between the calls, and change nothing in them. */
#define BRINE_PAIRS 13
#define BRINE_NUMBERS (BRINE_PAIRS + BRINE_ENTRIES)
#define BRINE_SCORE_DOUBLES 5
#define BRINE_SCORES (BRINE_ENTRIES * BRINE_SCORE_DOUBLES)

/* The numbers below BRINE_PAIRS, by their index. */
enum brine_number {
    BRINE_WIDTH,          /* the settings, which no call changes: the resolution .. */
    BRINE_HEIGHT,
    BRINE_DEPTH,
    BRINE_LOOKAHEAD,      /* .. the lookahead distance, the mode .. */
    BRINE_MODE,
    BRINE_MIN,            /* .. and the least and the largest distance of two keyframes */
    BRINE_MAX,
    BRINE_OFFSET,         /* which score the last call decided on, see below */
    BRINE_LAST_NUMBER,    /* the frame number and the set length of the last accepted call; 0 before any */
    BRINE_LAST_LENGTH,
    BRINE_FIRST_NUMBER,   /* the frame number of the first accepted call; 0 before any */
    BRINE_RELEASE_NUMBER, /* no frame numbered below it is looked at again, not in a restart either; 0 before any call */
    BRINE_COUNT           /* how many scores there are, from the front of `scores` on */
};

/* Score k is the doubles from scores[BRINE_SCORE_DOUBLES * k] on, in this order. The newest score is score 0. The pair number of
 * score k is numbers[BRINE_PAIRS + k]; pair n is the frames n - 1 and n. From score 0 on these numbers fall by one. A first call
 * may score an item twice: then the later of its two scores has the number of the one behind it. Doubles and pair numbers past
 * the count are no part of the state: they are neither read nor written. */
enum brine_double {
    BRINE_INTER,
    BRINE_IMPORTANCE,
    BRINE_BACKWARD,
    BRINE_FORWARD,
    BRINE_THRESHOLD
};

/* A fresh detector for frames of width * height samples, before Fast mode reduces them, of depth 8, 10 or 12. What Fast mode's
 * costs and Standard mode's importances must reach follows from the depth: 18 and 7, 22.5 and 8.75, 27 and 10.5. `lookahead` is
 * the lookahead distance: 5 or more has the detector look five pairs ahead, less has it look at none. `min` and `max` are the
 * distances of keyframes: below `min` there is no cut; else from `max` on there is one, if the set has six frames or more or the
 * lookahead is below 5. Any number is taken for the three.
 * Returns 0, and the numbers below BRINE_PAIRS are written; there is no score yet, so neither a pair number nor `scores` is
 * written.
 * Refusals: 11, where numbers_len is not BRINE_NUMBERS or scores_len not BRINE_SCORES; 6; 5. Then nothing is written. */
int64_t brine_detector_fresh(size_t width, size_t height, uint32_t depth, size_t lookahead, uint32_t mode,
    uint64_t min, uint64_t max, uint64_t *numbers, size_t numbers_len, double *scores, size_t scores_len);

/* What the step does not report, by the rules (docs/COMMAND.md has examples). A pair is large where its inter cost is at or
 * above its threshold, which in Fast mode is (18 * depth) / 8: 18, 22.5 or 27.
 *   - With a lookahead of 5 or more a set of five frames or fewer gets 0, from distance `max` on too. So wait until a set
 *     has seven frames; a film's last four get no decision. A first set of six is decided on by the pair after its own.
 *   - Then, of two large pairs 1 to 4 frames apart neither is a cut in Fast mode, 5 apart (or 4, in a set of six) the first
 *     alone. In Standard mode it is the second; 5 apart both may be. Of three or more in a row the last is the cut; none is,
 *     if that is one of the film's last four frames.
 *   - With a lookahead below 5 and sets of L frames the first L - 2 calls are decided on by the pair after their own. In
 *     Fast mode noise up to the film's end makes the last frame a cut. There, and in None mode, the release number stays.
 *   - A change at a distance below `min` is lost; no later call makes up for it. A cut by `max` is a cut like any other.
 * To see each large pair, cut or not, compare the inter costs that you lend with their thresholds. */

/* The step: decides whether a scene begins at frame `frame`, from a set of `set_len` frames of which it is the second.
 * `previous_keyframe` is the number of the last frame at which a scene began. The first call may have any number from 1 on, and
 * each next call has the next number. Item k of a list was measured between frames k and k + 1 of the set, so each list that
 * the mode reads has set_len - 1 items (none for an empty set): the inter costs, the importances, the thresholds. Fast mode
 * reads `inter` alone and None mode no list; a list that is not read may be anything, as NULL with length 0.
 * Returns what was decided:
 *   0  no cut and no score     1  a cut without a score     2  no cut, with a score     3  a cut, with a score
 * With a score, it is score numbers[BRINE_OFFSET], of pair numbers[BRINE_PAIRS + numbers[BRINE_OFFSET]].
 * After the call the detector needs no frame numbered below numbers[BRINE_RELEASE_NUMBER]: these may be purged, once what you
 * write down of the call is safe. A restart needs none of them: a fresh detector of the same settings that is given the
 * accepted calls again, from the one numbered one above the release number to the last, ends in this state,
 * BRINE_FIRST_NUMBER apart. Call n looks at the frames n - 1 to n + set_len - 2, so every frame that these calls and all
 * later ones look at is numbered at or above the release number.
 * Refusals:
 *   11, where a length is not the state's, or the settings are ones that `fresh` refuses, or the count is not below
 *       BRINE_ENTRIES (or above 10 with a lookahead of 5 or more), or the offset is not below the count (with no score: not 5
 *       or 0, as the lookahead has it), or a score's inter cost is one that 10 forbids, or there are scores in None mode or
 *       before any accepted call, or from some score k to k + 1 the pair number neither falls by one nor stays, or it stays more
 *       than once, or, where there is a score and the last length is above 5 (above 0 with a lookahead below 5), the pair
 *       number of score 0 is not the last number + the offset, as exact numbers;
 *   7, 8, 9;
 *   10, where a list that is read has not set_len - 1 items, or holds a NaN, an infinity or a number below 0.
 * Then nothing is written. An accepted call writes the numbers from BRINE_OFFSET to BRINE_COUNT and, if there is a score, the
 * scores and the pair numbers up to the count. */
int64_t brine_detector_step(uint64_t *numbers, size_t numbers_len, double *scores, size_t scores_len,
    size_t set_len, uint64_t frame, uint64_t previous_keyframe,
    const double *inter, size_t inter_len, const double *importance, size_t importance_len,
    const double *threshold, size_t threshold_len);

/* ---- the log ---- */

/* A log keeps scores through power cuts. It is whole records of BRINE_RECORD_BYTES bytes, one behind the other, and then a
 * torn rest of fewer bytes, mostly none: what a power cut left of an append. The rest is never tested, and the next append
 * goes over it. An empty log is a log. docs/FORMATS.md has the bytes, and what to do after a power cut.
 *
 * A record is the mark 53 43 (hex), a frame number in four bytes, the BRINE_SCORE_DOUBLES doubles of a score in eight bytes
 * each, in the order of enum brine_double, all low byte first, and one byte, 1 for a cut and 0 for none. Numbers rise from
 * record to record; they may start at 0 and leave some out.
 *
 * The end of a log, from any whole record on, is a log too. So a recorder may lend just the last whole record of its file and
 * the rest behind it: the append then gives the same bytes, and costs the same however long the log is. The lent places of
 * one call, `torn` among them, must not overlap. */
#define BRINE_RECORD_BYTES 47

/* How many whole records the log has. Returns their number, and the length of the torn rest is in *torn.
 * Refusals: 12, 13, 14 of each record, the earliest record at fault first. Then *torn is as it was. */
int64_t brine_log_scan(const uint8_t *log, size_t log_len, uint64_t *torn);

/* The records of a log. Returns their number, and the length of the torn rest is in *torn. Of record k the frame number is in
 * numbers[k], the score in bits[5 * k] to bits[5 * k + 4], the cut in cuts[k]. A score comes as bit patterns, as they stand
 * in the log, those of a NaN too. Places past the records stay.
 * Refusals: 12, 13, 14 of each record, the earliest record at fault first; 15, where `numbers` or `cuts` has fewer places than
 * there are records, or `bits` fewer than five for each. Then the three lists and *torn are as they were. */
int64_t brine_log_read(const uint8_t *log, size_t log_len, uint32_t *numbers, size_t numbers_len,
    uint64_t *bits, size_t bits_len, uint8_t *cuts, size_t cuts_len, uint64_t *torn);

/* Appends a record. The first `used` bytes of `log` are the log so far, the others are room. The record goes behind the last
 * whole record, over a torn rest. Every NaN is written as the one pattern 7FF8000000000000 (hex); any other double keeps its
 * bits. Returns the used length from now on, which is the end of the new record. Bytes past it stay.
 * Refusals: 15, where `used` is above log_len; 12, 13, 14 of each record so far, the earliest record at fault first; 13, where
 * `cut` is above 1; 14, where there is a record and `number` is not above the last one's; 15, where the new record would end
 * past log_len. Then the log is as it was. */
int64_t brine_log_append(uint8_t *log, size_t log_len, size_t used, uint32_t number,
    double inter, double importance, double backward, double forward, double threshold, uint32_t cut);

#ifdef __cplusplus
}
#endif

#endif
