#include "records.h"

#include <string.h>

_Static_assert(BRINE_RECORD_BYTES == RECORD && BRINE_SCORE_DOUBLES == BITS, "the header's sizes");
_Static_assert(SCORE + 8 * BITS == CUT && CUT + 1 == RECORD, "the places");

struct record record_of(uint32_t number)
{
    struct record record = {.number = number, .cut = number % 3 == 0};
    for (size_t i = 0; i < BITS; i++) {
        const double value = (double)number / 7 + (double)i * 1.25;
        memcpy(&record.bits[i], &value, sizeof value);
    }
    return record;
}

/* Low byte first. */
static void put_number(uint8_t *out, uint64_t number, size_t bytes)
{
    for (size_t i = 0; i < bytes; i++)
        out[i] = (uint8_t)(number >> 8 * i);
}

void record_bytes(uint8_t out[RECORD], const struct record *record)
{
    out[MARK] = 0x53;
    out[MARK + 1] = 0x43;
    put_number(out + NUMBER, record->number, 4);
    for (size_t i = 0; i < BITS; i++)
        put_number(out + SCORE + 8 * i, record->bits[i], 8);
    out[CUT] = (uint8_t)record->cut;
}

void records_put(uint8_t *out, size_t count)
{
    for (size_t k = 0; k < count; k++) {
        const struct record record = record_of((uint32_t)(10 * (k + 1)));
        record_bytes(out + k * RECORD, &record);
    }
}

int64_t record_append(uint8_t *log, size_t log_len, size_t used, const struct record *record)
{
    double score[BITS];
    memcpy(score, record->bits, sizeof score);
    return brine_log_append(log, log_len, used, record->number, score[0], score[1], score[2], score[3], score[4],
                            record->cut);
}
