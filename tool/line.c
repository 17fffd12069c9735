#include "line.h"

#include <stdlib.h>
#include <string.h>

/* A zero byte at the front says at once that this is no text. A device or a file of zeros has no line end, and would fill the memory. */
static bool begins_with_zero(FILE *file)
{
    const int first = getc(file);
    if (first != EOF && first != '\0')
        ungetc(first, file);
    return first == '\0';
}

enum line_read line_read(struct line *line, FILE *file)
{
    if (begins_with_zero(file))
        return LINE_ZERO;
    const ssize_t got = getline(&line->text, &line->room, file);
    if (got < 0)
        return feof(file) && !ferror(file) ? LINE_NONE : LINE_FAULT;
    line->length = (size_t)got;
    const bool ended = line->text[line->length - 1] == '\n';
    if (ended)
        line->text[--line->length] = '\0';
    if (strlen(line->text) != line->length)
        return LINE_ZERO;
    if (!ended)
        return ferror(file) ? LINE_FAULT : LINE_OPEN;
    return LINE_READ;
}

void line_free(struct line *line)
{
    free(line->text);
    *line = (struct line){0};
}
