/* The stream of cases, and the count of what was compared. */
#ifndef CASES_H
#define CASES_H
#include <stddef.h>
#include <stdint.h>

/* Behind the others those over samples of 16 bits. */
enum kind { END, SCALE, PLANES, INTRA, THRESHOLDS, HADAMARD, SATD, FRESH, STATE, STEP, FILM, LOG, APPEND, REDUCE,
    STRIPS_START, STRIPS_ADD, STRIPS_END, PLANES16, INTRA16, SATD16, FILM16, REDUCE16, STRIPS_ADD16 };

/* The number of the record at hand, and what is left of its words. */
extern uint64_t record;
uint64_t word(void);
int64_t answer(void);
/* A list of so many 64-bit words, or of bytes, 16-bit or 32-bit numbers packed into words. */
const uint64_t *words(size_t count);
const void *bytes(size_t *count);
const uint16_t *quarters(size_t *count);
const uint32_t *halves(size_t *count);
const double *reals(size_t *count);

/* Reads the next record, and gives its kind. */
enum kind next_record(void);
/* The bytes of a sample of the record at hand, 1 or 2, and a list of such samples. */
extern size_t sample_bytes;
const void *samples(size_t *count);
/* The library's function of this name for such samples. */
#define OF_SAMPLES(name, ...) (sample_bytes == 1 ? name(__VA_ARGS__) : name##16(__VA_ARGS__))
/* Ends the program: the stream is none that the oracle writes. */
void stop(const char *why);

/* 1 if both are NaN, or have the same bits. */
int same(double a, double b);
/* One call of the library was compared. `due` is what it should answer. */
void verdict(int ok, const char *what, int64_t due, int64_t got);
extern uint64_t passed, failed, refusals;
/* A line for each kind of comparison that failed: its words, and how often. */
void print_failures(void);
#endif
