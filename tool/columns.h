/* The columns that the lines of `decide` and of `log` have in common: number, cut or not, the score's five numbers. */
#ifndef COLUMNS_H
#define COLUMNS_H

#include "driver.h"

enum { PAIR_WIDTH = 6 }; /* for people, of the column that says which pair a score is of */

/* The columns' names, as the beginning of a line. */
void columns_head(struct page *page, bool csv);

/* A verdict, as the beginning of a line. */
void columns_add(struct page *page, bool csv, const struct verdict *verdict);

/* The score's columns alone: their names, and the numbers; NULL where there is no score. */
void columns_names(struct page *page, bool csv);
void columns_score(struct page *page, bool csv, const double *score);

/* A further column: a text that is right-aligned for people. */
void columns_text(struct page *page, bool csv, int width, const char *text);

/* The last line for people: how many there are of the things named, how many cuts, and how many large changes besides. */
void columns_sum(struct page *page, const char *thing, uint64_t things, uint64_t cuts, uint64_t large);

#endif
