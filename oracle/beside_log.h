/* The log's part of the comparison: each takes one record of the stream. */
#ifndef BESIDE_LOG_H
#define BESIDE_LOG_H
#include <stdint.h>

void log_read(void);
void log_append(void);
/* Accepted calls: scans, reads, appends; and the records that were read. */
extern uint64_t scans, reads, appends, records_read;
#endif
