/* A film as bars, a frame on each line: how far the frame's inter cost goes, beside its threshold. */
#ifndef BARS_H
#define BARS_H

#include "driver.h"

void bars_head(struct page *page);

/* A verdict, as the beginning of a line. */
void bars_add(struct page *page, const struct verdict *verdict);

#endif
