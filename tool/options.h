/* The words of the command line behind `decide`. */
#ifndef OPTIONS_H
#define OPTIONS_H

#include "driver.h"

/* What stands on a line: a frame with its score, a scene, a frame with a bar, or a frame with its score and below it each entry
   of the deque. */
enum form { FORM_LINES, FORM_CUTS, FORM_BARS, FORM_DUMP };

struct options {
    const char *film;
    const char *inter;
    const char *log; /* NULL: none */
    uint64_t first;  /* the number of the film's first frame */
    enum form form;
    bool csv;
    bool times; /* say when each frame is shown */
    bool purge; /* name the frames that may go */
    bool help;  /* help is all that is asked for */
    struct settings settings;
};

/* Reads the words; words[0] is the subcommand's name. On a fault it has said why. */
enum status options_read(struct options *options, int count, char **words);

/* A mode by its name. */
bool mode_read(const char *text, uint32_t *mode);

#endif
