/* The stream of cases, and the count of what was compared. */
#include "cases.h"
#include <inttypes.h>
#include <stdio.h>
#include <stdlib.h>
#include <string.h>

uint64_t record, passed, failed, refusals;
size_t sample_bytes;
static uint64_t *payload, *cursor, *limit;
static size_t room;

void stop(const char *why)
{
    fprintf(stderr, "beside: record %" PRIu64 ": %s\n", record, why);
    exit(2);
}

static void take(void *to, size_t size)
{
    if (fread(to, 1, size, stdin) != size) stop("the cases end too early");
}

enum kind next_record(void)
{
    uint64_t head[2];
    if (cursor != limit) stop("a record is too long");
    take(head, sizeof head);
    if (head[1] > room) {
        room = head[1] + 1024;
        payload = realloc(payload, room * sizeof *payload);
        if (payload == NULL) stop("no memory");
    }
    take(payload, head[1] * sizeof *payload);
    cursor = payload;
    limit = payload + head[1];
    record++;
    sample_bytes = head[0] < PLANES16 ? 1 : 2;
    return (enum kind)head[0];
}

const uint64_t *words(size_t count)
{
    if ((size_t)(limit - cursor) < count) stop("a record is too short");
    cursor += count;
    return cursor - count;
}

uint64_t word(void) { return *words(1); }
int64_t answer(void) { return (int64_t)word(); }

const void *bytes(size_t *count)
{
    *count = word();
    return words((*count + 7) / 8);
}

const uint16_t *quarters(size_t *count)
{
    *count = word();
    return (const uint16_t *)words((*count + 3) / 4);
}

const void *samples(size_t *count) { return sample_bytes == 1 ? bytes(count) : quarters(count); }

const uint32_t *halves(size_t *count)
{
    *count = word();
    return (const uint32_t *)words((*count + 1) / 2);
}

const double *reals(size_t *count)
{
    *count = word();
    return (const double *)words(*count);
}

int same(double a, double b) { return (a != a && b != b) || memcmp(&a, &b, sizeof a) == 0; }

/* How many comparisons of each kind failed, by the words that name the kind. */
static struct {
    const char *what;
    uint64_t count;
} failures[32];

void verdict(int ok, const char *what, int64_t due, int64_t got)
{
    refusals += due < 0;
    if (ok) {
        passed++;
        return;
    }
    size_t i = 0;
    while (failures[i].what != NULL && strcmp(failures[i].what, what) != 0) i++;
    failures[i].what = what;
    failures[i].count++;
    if (failed++ < 10)
        printf("record %" PRIu64 ": %s: due %" PRId64 ", got %" PRId64 "%s\n", record, what, due, got,
               due == got ? ", but what was written differs" : "");
}

void print_failures(void)
{
    for (size_t i = 0; failures[i].what != NULL; i++) printf("failed: %s %" PRIu64 "\n", failures[i].what, failures[i].count);
}
