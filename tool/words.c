#include "words.h"

#include <errno.h>
#include <stdlib.h>
#include <string.h>

void words_start(void)
{
    opterr = 0;
    optind = 0; /* the C library forgets what it read before */
}

/* Whether the word is the beginning of more than one option. */
static bool is_unclear(const char *word, const struct option *known)
{
    int alike = 0;
    for (; known->name != NULL; known++)
        alike += strncmp(word, "--", 2) == 0 && strncmp(word + 2, known->name, strcspn(word + 2, "=")) == 0;
    return alike > 1;
}

int words_next(int count, char **words, const struct option *known)
{
    const int option = getopt_long(count, words, ":h", known, NULL);

    if (option == ':')
        say_usage("%s wants a value", words[optind - 1]);
    else if (option == '?' && optopt >= WORDS_HELP)
        say_usage("'%s': this option takes no value", words[optind - 1]);
    else if (option == '?' && optopt != 0)
        say_usage("%s has no option '-%c'", words[0], (unsigned char)optopt);
    else if (option == '?' && is_unclear(words[optind - 1], known))
        say_usage("'%s' is the beginning of more than one option", words[optind - 1]);
    else if (option == '?')
        say_usage("%s has no option '%s'", words[0], words[optind - 1]);
    else
        return option == 'h' ? WORDS_HELP : option;
    return WORDS_WRONG;
}

bool number_read(const char *text, uint64_t *number)
{
    char *end = NULL;
    if (text[0] < '0' || text[0] > '9')
        return false;
    errno = 0;
    *number = strtoull(text, &end, 10);
    return errno == 0 && *end == '\0';
}
