/* The words of a command line, and whole numbers in texts. */
#ifndef WORDS_H
#define WORDS_H

#include "say.h"

#include <getopt.h>

/* What words_next gives when there is no further option, when it has said what is wrong, and for --help and -h. A subcommand's
   own options have numbers from FIRST_OPTION on: all are above every letter. */
enum { WORDS_END = -1, WORDS_WRONG = -2, WORDS_HELP = 256, FIRST_OPTION };

/* A table of options ends with these two. */
#define WORDS_LAST {"help", no_argument, NULL, WORDS_HELP}, {0}

/* Begins to read the words of a subcommand; words[0] is its name. */
void words_start(void);

/* The number of the next option; its value is `optarg`. At the end the words that are no option stand from words[optind] on. */
int words_next(int count, char **words, const struct option *known);

/* A text of digits and nothing else, below 2^64. On false *number is UINT64_MAX where there are only digits, too many. */
bool number_read(const char *text, uint64_t *number);

#endif
