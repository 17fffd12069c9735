/* Lines of a file, read by POSIX's getline. */
#ifndef LINE_H
#define LINE_H

#include "say.h"

#include <stdio.h>

struct line {
    char *text; /* without its line end */
    size_t length;
    size_t room;
};

/* LINE_NONE: the file ended before the first byte. LINE_OPEN: it ended before the line did; the text is there. LINE_ZERO: a zero
   byte is in it, so it is no text, and none is there. LINE_FAULT: it cannot be read, and errno says why. */
enum line_read { LINE_READ, LINE_NONE, LINE_OPEN, LINE_ZERO, LINE_FAULT };

enum line_read line_read(struct line *line, FILE *file);

void line_free(struct line *line);

#endif
