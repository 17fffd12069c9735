#include "commands.h"
#include "journal.h"
#include "options.h"
#include "report.h"

enum { FULL_LOOKAHEAD = 5 }; /* with less the detector looks at no later frame */

/* Where the verdicts go. */
struct desk {
    struct report report;
    struct journal journal;
    const char *log; /* NULL: none is kept */
    const struct film *film;
    const struct costs *costs;
};

/* The log comes before the report, and is opened once there is a film to decide on: a film that is refused leaves none. */
static enum status desk_take(void *taker, const struct verdict *verdict)
{
    struct desk *desk = taker;
    enum status status = DONE;

    if (desk->log != NULL && verdict->first)
        status = journal_open(&desk->journal, desk->log, verdict->frame + 1, desk->film, desk->costs);
    if (desk->log != NULL && verdict->scored)
        status = journal_add(&desk->journal, verdict);
    return status == DONE ? report_take(&desk->report, verdict) : status;
}

static enum status decide_film(const struct options *options, struct film *film)
{
    struct costs costs = {0};
    struct desk desk = {.journal = {.file = -1}, .log = options->log, .film = film, .costs = &costs};
    enum status status = options->inter == NULL ? DONE : costs_open(&costs, options->inter);

    report_start(&desk.report, options, film);
    if (status == DONE)
        status = drive(film, &costs, &options->settings, desk_take, &desk);
    costs_close(&costs);
    journal_close(&desk.journal);
    return report_end(&desk.report, status);
}

/* What is asked for and can be had, though perhaps not as it is meant. */
static enum status look_at(const struct options *options, const struct film *film)
{
    if (options->times && film->rate.frames == 0)
        return say_failed("%s: its header names no frame rate, as F25:1, so there are no times", film->name);
    if (options->settings.lookahead < FULL_LOOKAHEAD)
        say_note("a lookahead below 5: %sno frame may be purged",
                 options->settings.mode == BRINE_MODE_NONE
                     ? ""
                     : "the first lines show the next frame's score, changes are missed or found a frame early, and ");
    return DONE;
}

enum status command_decide(int count, char **words)
{
    struct options options;
    struct film film;

    enum status status = options_read(&options, count, words);
    if (status != DONE || options.help)
        return status != DONE ? status : command_help();
    status = film_open_y4m(&film, options.film);
    if (status != DONE)
        return status;
    film.first = options.first;
    status = look_at(&options, &film);
    if (status == DONE)
        status = decide_film(&options, &film);
    film_close(&film);
    return status;
}
