/* The tests' own small frame: named tests, expectations, and lent memory with guard bytes around it. */
#ifndef CHECK_H
#define CHECK_H

#include <stdbool.h>
#include <stddef.h>
#include <stdint.h>

struct test {
    const char *name;
    void (*run)(void);
};

/* Lists of tests, each closed by a test without a name. */
extern const struct test plane_tests[];
extern const struct test deep_tests[];
extern const struct test deep_reduce_tests[];
extern const struct test deep_intra_tests[];
extern const struct test depth_tests[];
extern const struct test strip_tests[];
extern const struct test strip_refused_tests[];
extern const struct test strip_edge_tests[];
extern const struct test block_tests[];
extern const struct test reduce_tests[];
extern const struct test reduce_refused_tests[];
extern const struct test intra_tests[];
extern const struct test transform_tests[];
extern const struct test nan_tests[];
extern const struct test edge_tests[];
extern const struct test fresh_tests[];
extern const struct test step_tests[];
extern const struct test pair_tests[];
extern const struct test pair_refused_tests[];
extern const struct test run_tests[];
extern const struct test meeting_tests[];
extern const struct test purge_tests[];
extern const struct test log_tests[];
extern const struct test refused_tests[];
extern const struct test torn_tests[];

/* An expectation that does not hold is printed and fails the test that runs; the test goes on. */
bool expect(bool holds, const char *text, const char *file, int line);
bool expect_number(int64_t got, int64_t want, const char *text, const char *file, int line);
bool expect_double(double got, double want, const char *text, const char *file, int line);

#define EXPECT(holds) expect((holds), #holds, __FILE__, __LINE__)
#define EXPECT_NUMBER(got, want) expect_number((got), (want), #got, __FILE__, __LINE__)
/* Doubles are equal when their bits are, or when both are NaN. */
#define EXPECT_DOUBLE(got, want) expect_double((got), (want), #got, __FILE__, __LINE__)

bool same_double(double a, double b);

/* Lent memory: a place with guard bytes before and after, and a copy of all of it. */
enum { GUARD = 64, LENT_ROOM = 4096 };

struct lent {
    _Alignas(16) uint8_t whole[GUARD + LENT_ROOM + GUARD];
    uint8_t kept[GUARD + LENT_ROOM + GUARD];
    size_t bytes;
};

/* Makes a place of that many bytes, with its own and the guards' bytes all different from each other's neighbours. */
void *lent_make(struct lent *lent, size_t bytes);

/* Remembers all bytes as they are now. */
void lent_keep(struct lent *lent);

/* Nothing has changed since lent_keep. */
bool lent_same(const struct lent *lent);

/* The place holds just these bytes now, and the guards are as they were. */
bool lent_holds(const struct lent *lent, const void *bytes);

#endif
