#include "say.h"

#include <inttypes.h>
#include <stdarg.h>
#include <stdio.h>

enum { TEXT_ROOM = 8192, ESCAPE = 4 }; /* an escape is \xNN */

/* Signs of UTF-8 that are not seen or that turn the text around them: U+200B to 200F, 202A to 202E, 2060 to 206F, FEFF. */
static bool is_unseen(const unsigned char *at)
{
    const bool general = at[0] == 0xE2 && at[1] == 0x80 && ((at[2] >= 0x8B && at[2] <= 0x8F) || (at[2] >= 0xAA && at[2] <= 0xAE));
    const bool further = at[0] == 0xE2 && at[1] == 0x81 && at[2] >= 0xA0 && at[2] <= 0xAF;
    return general || further || (at[0] == 0xEF && at[1] == 0xBB && at[2] == 0xBF);
}

/* How many bytes the letter at `at` has, or 0 where no letter begins there that may be shown. UTF-8 is let through, but for its
   control letters (C2 80 to C2 9F), signs that are not seen, and what is no letter of it. */
static size_t letter_bytes(const unsigned char *at)
{
    const unsigned char a = at[0], b = a == 0 ? 0 : at[1];
    if (a < 0xC2 || a > 0xF4)
        return a >= ' ' && a <= '~';
    const size_t count = a < 0xE0 ? 2 : a < 0xF0 ? 3 : 4;
    for (size_t i = 1; i < count; i++)
        if ((at[i] & 0xC0) != 0x80)
            return 0;
    const bool control = a == 0xC2 && b < 0xA0;
    const bool longer = (a == 0xE0 && b < 0xA0) || (a == 0xF0 && b < 0x90);
    const bool none = (a == 0xED && b >= 0xA0) || (a == 0xF4 && b >= 0x90);
    return control || longer || none || is_unseen(at) ? 0 : count;
}

/* Any byte that is part of no letter becomes \xNN. */
static void escape(char *out, const char *text)
{
    while (*text != '\0') {
        const size_t count = letter_bytes((const unsigned char *)text);
        if (count == 0)
            out += sprintf(out, "\\x%02X", (unsigned)(unsigned char)*text++);
        for (size_t i = 0; i < count; i++)
            *out++ = *text++;
    }
    *out = '\0';
}

/* How many letters of progress stand on the line. */
static int progress = 0;

void say_progress(const char *format, ...)
{
    va_list words;
    if (progress > 0)
        fprintf(stderr, "\r%*s\r", progress, "");
    va_start(words, format);
    progress = vfprintf(stderr, format, words);
    va_end(words);
}

static void say_line(const char *format, va_list words, const char *end)
{
    char text[TEXT_ROOM], shown[ESCAPE * TEXT_ROOM];
    if (vsnprintf(text, sizeof text, format, words) < 0)
        return;
    escape(shown, text);
    say_progress("%s", "");
    fprintf(stderr, "brinepulley: %s%s\n", shown, end);
}

enum status say_failed(const char *format, ...)
{
    va_list words;
    va_start(words, format);
    say_line(format, words, "");
    va_end(words);
    return FAILED;
}

enum status say_usage(const char *format, ...)
{
    va_list words;
    va_start(words, format);
    say_line(format, words, "\nbrinepulley: 'brinepulley --help' says more");
    va_end(words);
    return FAILED;
}

enum status say_refused(int64_t answer, const char *format, ...)
{
    char number[32];
    va_list words;
    snprintf(number, sizeof number, " (refusal %" PRId64 ")", -answer);
    va_start(words, format);
    say_line(format, words, number);
    va_end(words);
    return REFUSED;
}

void say_note(const char *format, ...)
{
    va_list words;
    va_start(words, format);
    say_line(format, words, "");
    va_end(words);
}

void say_rest(const char *name, uint64_t torn, uint64_t records, const char *outcome)
{
    if (torn > 0)
        say_note("%s: a torn rest of %" PRIu64 " byte%s behind %" PRIu64 " whole record%s%s", name, torn,
                 torn == 1 ? "" : "s", records, records == 1 ? "" : "s", outcome);
}
