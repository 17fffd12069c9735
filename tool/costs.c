#include "costs.h"

#include "page.h"

#include <errno.h>
#include <inttypes.h>
#include <stdlib.h>
#include <string.h>
#include <sys/stat.h>

/* A folder can be opened and not read: that is found before a frame is decided on. Nothing is read here, since a pipe may have its first
   line later. */
enum status costs_open(struct costs *costs, const char *path)
{
    struct stat about;
    *costs = (struct costs){.path = path, .file = fopen(path, "r")};
    if (costs->file == NULL)
        return say_failed("%s: %s", path, strerror(errno));
    const bool folder = fstat(fileno(costs->file), &about) == 0 && S_ISDIR(about.st_mode);
    return folder ? say_failed("%s: %s", path, strerror(EISDIR)) : DONE;
}

/* A long line is shown by its beginning. */
static enum status no_number(const struct costs *costs)
{
    const char *text = costs->line.text;
    const bool longer = strlen(text) > 40;
    return say_failed("%s, line %" PRIu64 ": '%.40s%s' is no number", costs->path, costs->lines, text, longer ? ".." : "");
}

static enum status unread(const struct costs *costs)
{
    return say_failed("%s, line %" PRIu64 ": %s", costs->path, costs->lines, strerror(errno));
}

enum status costs_next(struct costs *costs, double *cost)
{
    char *end = NULL;

    costs->lines++;
    const enum line_read got = line_read(&costs->line, costs->file);
    if (got == LINE_FAULT)
        return unread(costs);
    if (got == LINE_NONE)
        return say_failed("%s, line %" PRIu64 " is missing: the film has more frames", costs->path, costs->lines);
    if (got == LINE_ZERO)
        return say_failed("%s, line %" PRIu64 ": it holds a zero byte", costs->path, costs->lines);
    *cost = strtod(costs->line.text, &end);
    if (end == costs->line.text || end[strspn(end, " \t\r")] != '\0')
        return no_number(costs);
    return DONE;
}

enum status costs_end(struct costs *costs)
{
    if (costs->file == NULL)
        return DONE;
    costs->lines++;
    const enum line_read got = line_read(&costs->line, costs->file);
    if (got == LINE_FAULT)
        return unread(costs);
    if (got == LINE_NONE)
        return DONE;
    return say_failed("%s, line %" PRIu64 " is one too many: the film has no such pair of frames", costs->path,
                      costs->lines);
}

enum status costs_refused(const struct costs *costs, uint64_t line, double cost, int64_t answer)
{
    char number[NUMBER_ROOM];
    number_text(number, cost);
    return say_refused(answer, "%s, line %" PRIu64 ": %s is no cost", costs->path, line, number);
}

void costs_close(struct costs *costs)
{
    line_free(&costs->line);
    if (costs->file != NULL)
        fclose(costs->file);
    costs->file = NULL;
}
