/* What the fuzz run's targets share: a folder of files that the command works in, and one run of the command with all that it says. */
#ifndef FUZZ_ROOM_H
#define FUZZ_ROOM_H

#include <stdbool.h>
#include <stddef.h>
#include <stdint.h>

struct bytes {
    const uint8_t *at;
    size_t count;
};

/* The words of a command line, behind the command's own name. Each has a place of its own with nothing behind it, so that a
   reader that goes past a word's end is seen. */
enum { LINE_WORDS = 24 };
struct line {
    char *words[LINE_WORDS + 1];
    int count;
};

/* A finding: says what, and stops so that the input is kept. */
void room_found(const char *format, ...) __attribute__((format(printf, 1, 2), noreturn));

/* Makes a folder in the one that FUZZ_ROOM names, or in /tmp, and goes there, before the first run. */
void room_enter(void);

void room_put(const char *name, struct bytes bytes);

/* The bytes of a file, for the caller to free; none where there is no such file. */
struct bytes room_get(const char *name);

/* Removes each file of the room. */
void room_clear(void);

/* Whether the file has these bytes. */
bool room_has(const char *name, struct bytes bytes);

/* A film of so many frames with both sides alike, and a log of so many scores. For the caller to free. */
struct bytes room_film(size_t side, size_t frames);
struct bytes room_log(uint32_t first, size_t records);

void line_add(struct line *line, const char *format, ...) __attribute__((format(printf, 2, 3)));

/* Whether --help has this text: an option that the command does not know is drawn in vain. */
bool room_helps(const char *text);

/* Runs the command and frees the words. Gives the status, which is 0, 1 or 2. With 1 and 2 it said why. What it says is text. */
int room_run(struct line *line);

/* The same for a command that may append to `log`. A file that is no log stays as it is, and so do the whole records of one that is;
   behind them stand records and perhaps a torn rest. */
int room_run_log(struct line *line, const char *log);

#endif
