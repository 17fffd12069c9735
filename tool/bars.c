#include "bars.h"

#include <inttypes.h>
#include <string.h>

enum {
    BAR_WIDTH = 36, /* letters, so four times the threshold is the longest that is drawn */
    BAR_MARK = 9    /* where the threshold stands */
};

void bars_head(struct page *page)
{
    page_add(page, "%7s %-*s %8s %9s %-6s %8s", "frame", BAR_WIDTH, "inter cost, and | its threshold", "inter", "threshold",
             "", "release");
}

/* How many letters: the threshold has as many on every line. Where it is 0, any cost is past the end. */
static double bar_letters(const struct pair *pair)
{
    if (pair->threshold > 0)
        return pair->inter / pair->threshold * BAR_MARK;
    return pair->inter > 0 ? BAR_WIDTH + 1 : 0;
}

static void draw_bar(char bar[BAR_WIDTH + 1], const struct pair *pair)
{
    const double letters = bar_letters(pair);
    for (int i = 0; i < BAR_WIDTH; i++)
        bar[i] = i == BAR_MARK ? '|' : i < letters ? '#' : ' ';
    if (letters > BAR_WIDTH)
        bar[BAR_WIDTH - 1] = '>';
    bar[BAR_WIDTH] = '\0';
}

/* What stands in place of a bar. */
static const char *bar_text(const struct verdict *verdict)
{
    if (verdict->first)
        return "here the first scene begins";
    return verdict->measured ? "too near the film's end to tell" : "none mode measures nothing";
}

static void add_measure(struct page *page, int width, bool measured, double value)
{
    if (measured)
        page_add(page, " %*.4g", width, value);
    else
        page_add(page, " %*s", width, "-");
}

void bars_add(struct page *page, const struct verdict *verdict)
{
    const char *word = verdict->first ? "first" : verdict->cut ? "CUT" : verdict->large ? "large" : "no cut";
    char bar[BAR_WIDTH + 1];

    if (verdict->scored)
        draw_bar(bar, &verdict->pair);
    else
        strcpy(bar, bar_text(verdict));
    page_add(page, "%7" PRIu64 " %-*s", verdict->frame, BAR_WIDTH, bar);
    add_measure(page, 8, verdict->measured, verdict->pair.inter);
    add_measure(page, 9, verdict->measured, verdict->pair.threshold);
    page_add(page, " %-6s %8" PRIu64, word, verdict->release);
}
