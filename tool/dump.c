#include "dump.h"

#include "columns.h"

#include <inttypes.h>

static size_t count_of(const struct verdict *verdict)
{
    return (size_t)verdict->state->numbers[BRINE_COUNT];
}

/* A call without a score decided on no entry, though there may be some. */
static bool is_decided(const struct verdict *verdict, size_t entry)
{
    return verdict->scored && entry == verdict->state->numbers[BRINE_OFFSET];
}

static void add_pair(struct page *page, bool csv, const struct verdict *verdict, size_t entry)
{
    char pair[NUMBER_ROOM];
    count_text(pair, verdict->state->numbers[BRINE_PAIRS + entry]);
    columns_text(page, csv, PAIR_WIDTH, pair);
}

static void add_score(struct page *page, bool csv, const struct verdict *verdict, size_t entry)
{
    columns_score(page, csv, verdict->state->scores + entry * BRINE_SCORE_DOUBLES);
}

/* The numbers stand in the columns of the frame's line. The film's first frame is no call, so there is nothing below it. */
void dump_below(struct page *page, const struct verdict *verdict)
{
    const size_t count = count_of(verdict);
    if (!verdict->scored && !verdict->first)
        page_add(page, "  no score: %s\n", count == 0 ? "the deque is empty" : "no entry was decided on, and the deque stays");
    for (size_t entry = 0; entry < count; entry++) {
        page_add(page, "%7s %5zu", is_decided(verdict, entry) ? "> entry" : "entry", entry);
        add_score(page, false, verdict, entry);
        add_pair(page, false, verdict, entry);
        page_add(page, "\n");
    }
}

size_t dump_lines(const struct verdict *verdict)
{
    return count_of(verdict) == 0 ? 1 : count_of(verdict);
}

void dump_head(struct page *page)
{
    page_add(page, "frame,cut,entry,pair");
    columns_names(page, true);
    page_add(page, ",decided");
}

void dump_line(struct page *page, const struct verdict *verdict, size_t line)
{
    page_add(page, "%" PRIu64 ",%d", verdict->frame, verdict->cut);
    if (line < count_of(verdict)) {
        page_add(page, ",%zu", line);
        add_pair(page, true, verdict, line);
        add_score(page, true, verdict, line);
    } else {
        page_add(page, ",,");
        columns_score(page, true, NULL);
    }
    page_add(page, ",%d", is_decided(verdict, line));
}
