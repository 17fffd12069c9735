#include "commands.h"
#include "page.h"

#include <fcntl.h>
#include <string.h>
#include <unistd.h>

#ifndef BRINEPULLEY_VERSION
#define BRINEPULLEY_VERSION "unknown"
#endif

static enum status write_version(void)
{
    struct page page = {0};
    page_add(&page, "brinepulley %s\n", BRINEPULLEY_VERSION);
    const enum status status = page_write(&page);
    page_free(&page);
    return status;
}

/* A file that is opened takes the place of a standard stream that is closed, and what is meant for the stream would go into
   it. So each such place is taken by a file that cannot be written, and that of the standard input by one that cannot be read. */
static void take_places(void)
{
    for (int place = STDIN_FILENO; place <= STDERR_FILENO; place++)
        if (fcntl(place, F_GETFD) < 0)
            open("/dev/null", place == STDIN_FILENO ? O_WRONLY : O_RDONLY);
}

static enum status run(int count, char **words)
{
    if (count < 2)
        return say_usage("which command: decide, log, measure or demo?");
    const char *command = words[1];
    if (strcmp(command, "--help") == 0 || strcmp(command, "-h") == 0)
        return command_help();
    if (strcmp(command, "--version") == 0)
        return write_version();
    if (strcmp(command, "decide") == 0)
        return command_decide(count - 1, words + 1);
    if (strcmp(command, "log") == 0)
        return command_log(count - 1, words + 1);
    if (strcmp(command, "measure") == 0)
        return command_measure(count - 1, words + 1);
    if (strcmp(command, "demo") == 0)
        return command_demo(count - 1, words + 1);
    return say_usage("there is no command '%s'", command);
}

int main(int count, char **words)
{
    take_places();
    return (int)run(count, words);
}
