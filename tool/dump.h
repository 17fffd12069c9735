/* The deque after a call, front to back: each score that the detector keeps, with its place and the number of its pair. */
#ifndef DUMP_H
#define DUMP_H

#include "driver.h"

/* For people: lines that stand below the frame's own. The entry that was decided on has a mark. */
void dump_below(struct page *page, const struct verdict *verdict);

/* For machines it is a table of its own. How many lines the frame has there: one for each entry, and one where there is none. */
size_t dump_lines(const struct verdict *verdict);

/* The columns' names, and a frame's line by its place, as the beginning of a line. */
void dump_head(struct page *page);
void dump_line(struct page *page, const struct verdict *verdict, size_t line);

#endif
