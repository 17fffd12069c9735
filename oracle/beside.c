/* Reads cases with the crate's answers from the standard input, gives each to the library, and compares. */
#include "beside_detector.h"
#include "beside_log.h"
#include "beside_plane.h"
#include "beside_strips.h"
#include "brinepulley.h"
#include "cases.h"
#include "lend.h"
#include <inttypes.h>
#include <signal.h>
#include <stdio.h>
#include <string.h>
#include <unistd.h>

enum measure { M_SCALE, M_REDUCTION, M_DIFFERENCE, M_TOTAL, M_DELTA, M_IMPORTANCE, M_INTRA, M_THRESHOLD, M_4X4, M_8X8, M_SATD,
    MEASURES };
/* Of samples of 8 bits, or of none, and of 16. */
static const char *const measures[2][MEASURES] = {
    {"scale factor", "reduction", "plane difference", "importance total", "delta", "importance", "intra costs", "threshold",
     "transform of 4x4", "transform of 8x8", "SATD"},
    {NULL, "reduction16", "plane difference16", "importance total16", "delta16", "importance16", "intra costs16", NULL, NULL, NULL,
     "SATD16"}};
static uint64_t measured[2][MEASURES];

/* One measure was compared. */
static void measure(enum measure m, int ok, int64_t due, int64_t got)
{
    measured[sample_bytes - 1][m] += due >= 0;
    verdict(ok && due == got, measures[sample_bytes - 1][m], due, got);
}

static void scale(void)
{
    const uint64_t *n = words(3);
    int64_t due = answer(), got = brine_scale_factor(n[0], n[1], (uint32_t)n[2]);
    measure(M_SCALE, 1, due, got);
}

static void reduction(void)
{
    uint32_t depth = (uint32_t)word();
    size_t factor = word(), same_len;
    struct plane a = plane(FIRST), reduced = plane(SECOND);
    int64_t due = answer();
    const void *after = samples(&same_len);
    int64_t got = OF_SAMPLES(brine_reduce, depth, factor, AS_LENT(a), AS_LENT(reduced));
    measure(M_REDUCTION, holds(FIRST, a.samples) && holds(SECOND, after), due, got);
}

static void planes(void)
{
    uint32_t depth = (uint32_t)word();
    struct plane a = plane(FIRST), b = plane(SECOND);
    int64_t due[4], got[4];
    double value[2];
    const double before = 12345.5;
    for (int i = 0; i < 4; i++) due[i] = answer();
    memcpy(value, words(2), sizeof value);
    got[0] = OF_SAMPLES(brine_plane_difference, depth, AS_LENT(a), AS_LENT(b));
    got[1] = OF_SAMPLES(brine_importance_total, depth, AS_LENT(a), AS_LENT(b));
    for (int i = 0; i < 4; i++) {
        int ok = 1;
        if (i >= 2) {
            double *out = lend(OUT, &before, sizeof before, 8);
            got[i] = i == 2 ? OF_SAMPLES(brine_delta, depth, AS_LENT(a), AS_LENT(b), out)
                            : OF_SAMPLES(brine_importance, depth, AS_LENT(a), AS_LENT(b), out);
            ok = same(*out, due[i] < 0 ? before : value[i - 2]) && guarded(OUT);
        }
        ok = ok && holds(FIRST, a.samples) && holds(SECOND, b.samples);
        measure(M_DIFFERENCE + i, ok, due[i], got[i]);
    }
}

static void intra(void)
{
    uint32_t depth = (uint32_t)word();
    struct plane a = plane(FIRST), work = plane(SECOND);
    size_t costs_len, same_len;
    const uint32_t *costs = halves(&costs_len);
    int64_t due = answer();
    const void *work_after = samples(&same_len);
    const uint32_t *costs_after = halves(&same_len);
    uint32_t *lent = lend(COSTS, costs, costs_len * sizeof *costs, 4);
    int64_t got = OF_SAMPLES(brine_intra_costs, depth, AS_LENT(a), AS_LENT(work), lent, costs_len);
    measure(M_INTRA, holds(FIRST, a.samples) && holds(SECOND, work_after) && holds(COSTS, costs_after), due, got);
}

static void threshold(void)
{
    size_t len;
    const double before = 12345.5;
    const uint32_t *costs = halves(&len);
    size_t count = word();
    int64_t due = answer();
    double value;
    memcpy(&value, words(1), sizeof value);
    const uint32_t *lent = lend(COSTS, costs, len * sizeof *costs, 4);
    double *out = lend(OUT, &before, sizeof before, 8);
    int64_t got = brine_threshold(lent, len, count, out);
    measure(M_THRESHOLD, same(*out, due < 0 ? before : value) && guarded(OUT) && holds(COSTS, costs), due, got);
}

static void hadamard(void)
{
    size_t len, same_len;
    uint64_t side = word();
    const uint32_t *list = halves(&len);
    int64_t due = answer();
    const uint32_t *after = halves(&same_len);
    int32_t *lent = lend(COSTS, list, len * sizeof *list, 4);
    int64_t got = side == 4 ? brine_hadamard4x4(lent, len) : brine_hadamard8x8(lent, len);
    measure(side == 4 ? M_4X4 : M_8X8, holds(COSTS, after), due, got);
}

static void satd(void)
{
    size_t len, len2;
    const void *a = samples(&len), *b = samples(&len2);
    const void *first = lend(FIRST, a, len * sample_bytes, sample_bytes);
    const void *second = lend(SECOND, b, len2 * sample_bytes, sample_bytes);
    int64_t due = answer();
    int64_t got = sample_bytes == 1 ? brine_satd8x8(first, len, second, len2) : brine_satd8x8_16(first, len, second, len2);
    measure(M_SATD, holds(FIRST, a) && holds(SECOND, b), due, got);
}

static void faulted(int number)
{
    char line[64];
    int n = snprintf(line, sizeof line, "record %" PRIu64 ": signal %d\n0 passed, 1 failed\n", record, number);
    if (n > 0 && write(1, line, (size_t)n) < 0) _exit(4);
    _exit(1);
}

/* How many of each measure were accepted. */
static void print_measured(int is_deep)
{
    const char *between = "compared:";
    for (int i = 0; i < MEASURES; i++) {
        if (measures[is_deep][i] == NULL) continue;
        printf("%s %s %" PRIu64, between, measures[is_deep][i], measured[is_deep][i]);
        between = ",";
    }
    printf("\n");
}

static void compare(enum kind kind)
{
    switch (kind) {
    case SCALE: scale(); break;
    case REDUCE: case REDUCE16: reduction(); break;
    case PLANES: case PLANES16: planes(); break;
    case INTRA: case INTRA16: intra(); break;
    case THRESHOLDS: threshold(); break;
    case HADAMARD: hadamard(); break;
    case SATD: case SATD16: satd(); break;
    case FRESH: detector_fresh(); break;
    case STATE: detector_state(); break;
    case STEP: detector_step(); break;
    case FILM: case FILM16: whole_film(); break;
    case LOG: log_read(); break;
    case APPEND: log_append(); break;
    case STRIPS_START: strips_start(); break;
    case STRIPS_ADD: case STRIPS_ADD16: strips_add(); break;
    case STRIPS_END: strips_end(); break;
    default: stop("an unknown kind of record");
    }
}

/* By how many shifts from an even address byte lists begin, by turns. */
enum { SHIFTS = 16 };

int main(void)
{
    static char buffer[1 << 18];
    setvbuf(stdin, buffer, _IOFBF, sizeof buffer);
    signal(SIGSEGV, faulted);
    signal(SIGBUS, faulted);
    for (enum kind kind; (kind = next_record()) != END;) {
        lend_place(record & 1, record / 2 % SHIFTS);
        compare(kind);
    }
    if (word() != record - 1) stop("the number of records is not the one announced");
    printf("compared: %" PRIu64 " detector calls, %" PRIu64 " with a score, and %" PRIu64 " cuts, %" PRIu64 " by the decision rule\n",
           calls, scored, cuts, ruled);
    printf("compared: %" PRIu64 " pair numbers; %" PRIu64 " calls leave two equal ones side by side\n", numbered, repeated);
    printf("compared: %" PRIu64 " fresh detectors, %" PRIu64 " whole films of %" PRIu64 " frames, %" PRIu64 " refusals\n", fresh, films,
           film_frames, refusals);
    print_measured(0);
    print_measured(1);
    printf("compared: %" PRIu64 " log scans, %" PRIu64 " log reads of %" PRIu64 " records, %" PRIu64 " log appends\n", scans, reads,
           records_read, appends);
    printf("compared: strips: %" PRIu64 " starts, %" PRIu64 " strips of %" PRIu64 " rows, %" PRIu64 " strips16 of %" PRIu64
           " rows, %" PRIu64 " ends\n",
           strips_started, strips_added[0], strips_rows[0], strips_added[1], strips_rows[1], strips_ended);
    print_failures();
    printf("%" PRIu64 " passed, %" PRIu64 " failed\n", passed, failed);
    return failed != 0;
}
