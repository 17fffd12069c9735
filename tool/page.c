#include "page.h"

#include <errno.h>
#include <inttypes.h>
#include <math.h>
#include <stdarg.h>
#include <stdio.h>
#include <stdlib.h>
#include <string.h>

static bool page_grow(struct page *page, size_t more)
{
    if (more <= page->room - page->used)
        return true;
    const size_t room = 2 * page->room + more + 4096;
    char *text = realloc(page->text, room);
    if (text == NULL)
        return false;
    page->text = text;
    page->room = room;
    return true;
}

void page_add(struct page *page, const char *format, ...)
{
    va_list words, again;
    va_start(words, format);
    va_copy(again, words);
    const int length = vsnprintf(NULL, 0, format, again);
    va_end(again);
    if (length < 0 || page->broken || !page_grow(page, (size_t)length + 1)) {
        page->broken = true;
    } else {
        vsnprintf(page->text + page->used, (size_t)length + 1, format, words);
        page->used += (size_t)length;
    }
    va_end(words);
}

enum status page_write(struct page *page)
{
    if (page->broken)
        return say_failed("not enough memory for the answer");
    const size_t written = page->used == 0 ? 0 : fwrite(page->text, 1, page->used, stdout);
    const bool done = written == page->used && fflush(stdout) == 0;
    page->used = 0;
    if (done)
        return DONE;
    page->gone = errno == EPIPE;
    return page->gone ? FAILED : say_failed("cannot write the answer to the standard output: %s", strerror(errno));
}

void page_free(struct page *page)
{
    free(page->text);
    *page = (struct page){0};
}

void count_text(char out[NUMBER_ROOM], uint64_t count)
{
    snprintf(out, NUMBER_ROOM, "%" PRIu64, count);
}

/* Fifteen digits of a normal double that read back are the fewest, once printf has left out the zeros at their end. A double
   near 0 that is not normal may want fewer, and any other double up to seventeen. */
void number_text(char out[NUMBER_ROOM], double value)
{
    if (value != value) {
        strcpy(out, "nan");
        return;
    }
    for (int digits = isnormal(value) ? 15 : 1; digits <= 17; digits++) {
        snprintf(out, NUMBER_ROOM, "%.*g", digits, value);
        if (strtod(out, NULL) == value)
            return;
    }
}

void time_text(char out[NUMBER_ROOM], struct rate rate, uint64_t place, bool csv)
{
    if (rate.frames == 0) {
        strcpy(out, csv ? "" : "-");
        return;
    }
    const uint64_t parts = place * rate.seconds; /* of a second, of which there are rate.frames */
    const uint64_t seconds = parts / rate.frames, thousandths = parts % rate.frames * 1000 / rate.frames;
    if (csv)
        number_text(out, (double)parts / rate.frames);
    else
        snprintf(out, NUMBER_ROOM, "%" PRIu64 ":%02u:%02u.%03u", seconds / 3600, (unsigned)(seconds / 60 % 60),
                 (unsigned)(seconds % 60), (unsigned)thousandths);
}
