#include "report.h"

#include "bars.h"
#include "columns.h"
#include "dump.h"

#include <inttypes.h>
#include <sys/stat.h>
#include <unistd.h>

/* A film of so many frames is long; then progress is told every so many. */
enum { LONG_FILM = 200, PROGRESS_EVERY = 50 };

enum { RELEASE_WIDTH = 7, COUNT_WIDTH = 9, TIME_WIDTH = 13 }; /* of the columns behind the score's */

void report_start(struct report *report, const struct options *options, const struct film *film)
{
    struct stat about;
    const bool to_file = fstat(STDOUT_FILENO, &about) == 0 && S_ISREG(about.st_mode);
    const bool watched = to_file && isatty(STDERR_FILENO) == 1;
    *report = (struct report){.options = options, .film = film, .watched = watched};
}

/* What stands behind a score, a text for each column. */
struct behind {
    const char *pair, *release, *large, *time, *purge;
};

/* For people the pair stands beside its score. For machines it stands behind the columns that a reader may count, and the purge stays
   the last one. */
static void end_line(struct report *report, const struct behind *texts)
{
    const struct options *options = report->options;
    struct page *page = &report->page;
    const bool csv = options->csv;

    if (!csv)
        columns_text(page, csv, PAIR_WIDTH, texts->pair);
    columns_text(page, csv, RELEASE_WIDTH, texts->release);
    if (csv)
        columns_text(page, csv, 0, texts->large);
    if (options->times)
        columns_text(page, csv, TIME_WIDTH, texts->time);
    if (csv)
        columns_text(page, csv, 0, texts->pair);
    if (options->purge)
        columns_text(page, csv, COUNT_WIDTH, texts->purge);
    page_add(page, "\n");
}

/* The same for lines that have a time alone behind them, if that. */
static void end_short(struct report *report, const char *time)
{
    if (report->options->times)
        columns_text(&report->page, report->options->csv, TIME_WIDTH, time);
    page_add(&report->page, "\n");
}

static void add_head(struct report *report)
{
    static const struct behind names = {"pair", "release", "large", "time", "purge"};
    const struct options *options = report->options;
    struct page *page = &report->page;

    if (options->form == FORM_CUTS)
        page_add(page, "%s\n", options->csv ? "first,last,frames,time" : "  first      last    frames          time");
    else if (options->form == FORM_BARS) {
        bars_head(page);
        end_short(report, names.time);
    } else if (options->form == FORM_DUMP && options->csv) {
        dump_head(page);
        end_short(report, names.time);
    } else {
        columns_head(page, options->csv);
        end_line(report, &names);
    }
}

static void film_time(const struct report *report, char out[NUMBER_ROOM], uint64_t frame)
{
    time_text(out, report->film->rate, frame - report->film->first, report->options->csv);
}

/* A purge is the film's frame that may go after this call and could not before. From the first call on the release number rises
   by one at the most, so each frame is named once. */
static void add_line(struct report *report, const struct verdict *verdict)
{
    char pair[NUMBER_ROOM] = "", release[NUMBER_ROOM], time[NUMBER_ROOM], purge[NUMBER_ROOM] = "";

    if (verdict->scored)
        count_text(pair, verdict->scored_pair);
    count_text(release, verdict->release);
    film_time(report, time, verdict->frame);
    if (report->kept < verdict->release)
        count_text(purge, report->kept++);
    columns_add(&report->page, report->options->csv, verdict);
    end_line(report, &(struct behind){pair, release, verdict->large ? "1" : "0", time, purge});
}

static void add_bar(struct report *report, const struct verdict *verdict)
{
    char time[NUMBER_ROOM];
    film_time(report, time, verdict->frame);
    bars_add(&report->page, verdict);
    end_short(report, time);
}

/* For people the deque stands below the frame's line. For machines all lines are alike: each is an entry of the deque. */
static void add_dump(struct report *report, const struct verdict *verdict)
{
    char time[NUMBER_ROOM];
    if (!report->options->csv) {
        add_line(report, verdict);
        dump_below(&report->page, verdict);
        return;
    }
    film_time(report, time, verdict->frame);
    for (size_t line = 0; line < dump_lines(verdict); line++) {
        dump_line(&report->page, verdict, line);
        end_short(report, time);
    }
}

/* The scene in hand. Where its end is not known, since the film broke off, nothing is said of it. */
static void add_scene(struct report *report, uint64_t end, bool known)
{
    const bool csv = report->options->csv;
    char last[NUMBER_ROOM] = "", frames[NUMBER_ROOM] = "", time[NUMBER_ROOM];

    if (known) {
        count_text(last, end - 1);
        count_text(frames, end - report->scene);
    }
    film_time(report, time, report->scene);
    page_add(&report->page, csv ? "%" PRIu64 : "%7" PRIu64, report->scene);
    columns_text(&report->page, csv, COUNT_WIDTH, last);
    columns_text(&report->page, csv, COUNT_WIDTH, frames);
    columns_text(&report->page, csv, TIME_WIDTH, time);
    page_add(&report->page, "\n");
}

/* The scene in hand ends where another one begins. */
static void take_cut(struct report *report, const struct verdict *verdict)
{
    if (!verdict->cut || verdict->first)
        return;
    add_scene(report, verdict->frame, true);
    report->scene = verdict->frame;
}

static enum status put(struct report *report)
{
    if (report->lost)
        report->page.used = 0;
    else
        report->lost = page_write(&report->page) != DONE;
    const bool goes_on = report->options->log != NULL && !report->page.gone;
    return report->lost && !goes_on ? FAILED : DONE;
}

static void tell_progress(struct report *report)
{
    if (!report->watched || report->frames < LONG_FILM || report->frames % PROGRESS_EVERY != 0)
        return;
    say_progress("%" PRIu64 " frames, %" PRIu64 " cuts", report->frames, report->cuts);
}

enum status report_take(void *taker, const struct verdict *verdict)
{
    static void (*const add[])(struct report *, const struct verdict *) = {
        [FORM_LINES] = add_line, [FORM_CUTS] = take_cut, [FORM_BARS] = add_bar, [FORM_DUMP] = add_dump};
    struct report *report = taker;

    if (verdict->first) {
        report->kept = report->scene = verdict->frame;
        add_head(report);
    }
    add[report->options->form](report, verdict);
    report->frames++;
    report->cuts += verdict->cut && !verdict->first;
    report->large += verdict->large;
    tell_progress(report);
    return put(report);
}

/* For machines the count of large changes goes to the standard error, where a person finds it. */
static void add_end(struct report *report)
{
    const uint64_t large = report->large;
    if (!report->options->csv)
        columns_sum(&report->page, "frame", report->frames, report->cuts, large);
    else if (large > 0)
        say_note("%s: %" PRIu64 " frame%s large change%s and no cut", report->film->name, large, large == 1 ? " is a" : "s are",
                 large == 1 ? "" : "s");
}

enum status report_end(struct report *report, enum status status)
{
    say_progress("%s", "");
    if (!report->lost && report->frames > 0) {
        if (report->options->form == FORM_CUTS)
            add_scene(report, report->film->first + report->frames, status == DONE);
        if (status == DONE)
            add_end(report);
        put(report);
    }
    page_free(&report->page);
    return status == DONE && report->lost ? FAILED : status;
}
