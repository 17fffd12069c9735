/* What the command tells its user on the standard error: faults, refusals, notes. */
#ifndef SAY_H
#define SAY_H

#include <stdbool.h>
#include <stddef.h>
#include <stdint.h>

/* The command's exit statuses. */
enum status { DONE = 0, REFUSED = 1, FAILED = 2 };

#if defined(__GNUC__)
#define SAY_FORMAT(at, first) __attribute__((format(printf, at, first)))
#else
#define SAY_FORMAT(at, first)
#endif

/* Each writes one line. Names and bytes of files may stand in it: what a terminal would obey is escaped. */

/* Gives FAILED. */
enum status say_failed(const char *format, ...) SAY_FORMAT(1, 2);

/* The same for a wrong command line: it also says where help is. */
enum status say_usage(const char *format, ...) SAY_FORMAT(1, 2);

/* The library's refusals that this command has words for, by document 01's numbers and, from 12 on, document 02's. */
enum refusal {
    REFUSED_PLANE = 1,
    REFUSED_UNLIKE = 3,
    REFUSED_DEPTH = 5,
    REFUSED_RESOLUTION = 6,
    REFUSED_NUMBER = 7,
    REFUSED_COST = 10,
    REFUSED_MARK = 12,
    REFUSED_CUT = 13,
    REFUSED_ORDER = 14,
    REFUSED_SAMPLE = 16,
    REFUSED_BLOCK = 19
};

/* Says why the library refused, with the refusal's number, and gives REFUSED. `answer` is the library's. */
enum status say_refused(int64_t answer, const char *format, ...) SAY_FORMAT(2, 3);

/* A remark: the command goes on. */
void say_note(const char *format, ...) SAY_FORMAT(1, 2);

/* How far the command is, on a line without an end: the next thing that is said takes its place. */
void say_progress(const char *format, ...) SAY_FORMAT(1, 2);

/* Says that a log has a torn rest, behind how many records, and what comes of it. Without a rest it says nothing. */
void say_rest(const char *name, uint64_t torn, uint64_t records, const char *outcome);

#endif
