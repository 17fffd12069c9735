/* Memory to lend. Each slot holds a copy of what a call is given, with guard bytes before it and behind it. In every second
   record the copy ends at the very end of the memory that may be touched, so that a read past it faults. */
#ifndef LEND_H
#define LEND_H
#include <stddef.h>

enum slot { FIRST, SECOND, COSTS, NUMBERS, SCORES, INTER, IMPORTANCE, THRESHOLD, OUT, ROOM, TOTAL, SLOTS };

/* Whether copies end at the edge, and how far lists of bytes, and of two bytes by an even part of it, are shifted from an even
   address. */
void lend_place(int at_edge, size_t shift);
/* A copy of so many bytes; `align` is 1, 2, 4 or 8. */
void *lend(enum slot slot, const void *from, size_t bytes, size_t align);
/* The same of a list: one of length 0 may be NULL, and is in half of the records. */
void *lend_list(enum slot slot, const void *from, size_t bytes, size_t align);
/* 1 if the copy has these bytes and the bytes around it are as they were. */
int holds(enum slot slot, const void *expected);
/* 1 if the bytes around the copy are as they were. */
int guarded(enum slot slot);
#endif
