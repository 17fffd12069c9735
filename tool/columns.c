#include "columns.h"

#include <inttypes.h>
#include <stdio.h>

/* By the places of enum brine_double. The widths are for people: with a pair and a release number a line has 78 letters. The largest
   double alone, which a backward cost can be, is longer than its column. */
static const struct {
    const char *name;
    int width;
} score_columns[BRINE_SCORE_DOUBLES] = {
    {"inter", 9}, {"importance", 10}, {"backward", 9}, {"forward", 9}, {"threshold", 9}};

void columns_names(struct page *page, bool csv)
{
    for (size_t i = 0; i < BRINE_SCORE_DOUBLES; i++)
        columns_text(page, csv, score_columns[i].width, score_columns[i].name);
}

void columns_head(struct page *page, bool csv)
{
    page_add(page, csv ? "%s,%s" : "%7s %5s", "frame", "cut");
    columns_names(page, csv);
}

/* For people five digits will do; a number that would need an exponent is whole as long as the columns hold it. A log may have
   NaNs, from before they were refused; a NaN has a sign on some machines, which says nothing. */
static void score_text(char out[NUMBER_ROOM], bool csv, double value)
{
    if (csv || value != value)
        number_text(out, value);
    else if (value >= 99999.5 && value < 999999999.5)
        snprintf(out, NUMBER_ROOM, "%.0f", value);
    else
        snprintf(out, NUMBER_ROOM, "%.5g", value);
}

void columns_score(struct page *page, bool csv, const double *score)
{
    for (size_t i = 0; i < BRINE_SCORE_DOUBLES; i++) {
        char number[NUMBER_ROOM] = "";
        if (score != NULL)
            score_text(number, csv, score[i]);
        columns_text(page, csv, score_columns[i].width, number);
    }
}

void columns_add(struct page *page, bool csv, const struct verdict *verdict)
{
    const char *word = verdict->first ? "first" : verdict->cut ? "cut" : verdict->large ? "large" : ".";
    if (csv)
        page_add(page, "%" PRIu64 ",%d", verdict->frame, verdict->cut);
    else
        page_add(page, "%7" PRIu64 " %5s", verdict->frame, word);
    columns_score(page, csv, verdict->scored ? verdict->score : NULL);
}

void columns_text(struct page *page, bool csv, int width, const char *text)
{
    if (csv)
        page_add(page, ",%s", text);
    else
        page_add(page, " %*s", width, text[0] == '\0' ? "-" : text);
}

void columns_sum(struct page *page, const char *thing, uint64_t things, uint64_t cuts, uint64_t large)
{
    page_add(page, "%" PRIu64 " %s%s, %" PRIu64 " cut%s", things, thing, things == 1 ? "" : "s", cuts, cuts == 1 ? "" : "s");
    if (large > 0)
        page_add(page, ", %" PRIu64 " large change%s that %s no cut", large, large == 1 ? "" : "s", large == 1 ? "is" : "are");
    page_add(page, "\n");
}
