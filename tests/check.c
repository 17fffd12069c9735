#include "check.h"

#include <inttypes.h>
#include <stdio.h>
#include <string.h>

static bool failing;

bool expect(bool holds, const char *text, const char *file, int line)
{
    if (!holds) {
        fprintf(stderr, "%s:%d: does not hold: %s\n", file, line, text);
        failing = true;
    }
    return holds;
}

bool expect_number(int64_t got, int64_t want, const char *text, const char *file, int line)
{
    if (got != want) {
        fprintf(stderr, "%s:%d: %s is %" PRId64 ", not %" PRId64 "\n", file, line, text, got, want);
        failing = true;
    }
    return got == want;
}

bool same_double(double a, double b)
{
    return memcmp(&a, &b, sizeof a) == 0 || (a != a && b != b);
}

bool expect_double(double got, double want, const char *text, const char *file, int line)
{
    if (!same_double(got, want)) {
        fprintf(stderr, "%s:%d: %s is %.17g, not %.17g\n", file, line, text, got, want);
        failing = true;
    }
    return same_double(got, want);
}

void *lent_make(struct lent *lent, size_t bytes)
{
    for (size_t i = 0; i < sizeof lent->whole; i++)
        lent->whole[i] = (uint8_t)(151 * i + 43);
    lent->bytes = bytes <= LENT_ROOM ? bytes : LENT_ROOM;
    EXPECT(bytes <= LENT_ROOM);
    lent_keep(lent);
    return lent->whole + GUARD;
}

void lent_keep(struct lent *lent)
{
    memcpy(lent->kept, lent->whole, sizeof lent->whole);
}

bool lent_same(const struct lent *lent)
{
    return memcmp(lent->kept, lent->whole, sizeof lent->whole) == 0;
}

bool lent_holds(const struct lent *lent, const void *bytes)
{
    const size_t end = GUARD + lent->bytes;
    return memcmp(lent->kept, lent->whole, GUARD) == 0
        && memcmp(lent->whole + GUARD, bytes, lent->bytes) == 0
        && memcmp(lent->kept + end, lent->whole + end, sizeof lent->whole - end) == 0;
}

int main(void)
{
    const struct test *const lists[] = {
        plane_tests, reduce_tests,        reduce_refused_tests, intra_tests,   transform_tests, nan_tests, edge_tests,
        deep_tests,  deep_reduce_tests,   deep_intra_tests,     depth_tests,   fresh_tests,     step_tests,
        strip_tests, strip_refused_tests, strip_edge_tests,     block_tests,   pair_tests,      pair_refused_tests,
        run_tests,   meeting_tests,       purge_tests,          log_tests,     refused_tests,   torn_tests};
    int passed = 0, failed = 0;

    for (size_t i = 0; i < sizeof lists / sizeof lists[0]; i++)
        for (const struct test *test = lists[i]; test->name != NULL; test++) {
            failing = false;
            test->run();
            if (failing)
                fprintf(stderr, "FAILED: %s\n", test->name);
            failed += failing;
            passed += !failing;
        }
    printf("%d passed, %d failed\n", passed, failed);
    return failed == 0 ? 0 : 1;
}
