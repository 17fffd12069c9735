#include "options.h"

#include "brinepulley.h"
#include "words.h"

#include <string.h>

enum {
    OPTION_MODE = FIRST_OPTION,
    OPTION_LOOKAHEAD,
    OPTION_MIN,
    OPTION_MAX,
    OPTION_INTER,
    OPTION_LOG,
    OPTION_FIRST,
    OPTION_STRIPS,
    OPTION_CUTS,
    OPTION_BARS,
    OPTION_DUMP,
    OPTION_TIMES,
    OPTION_PURGE,
    OPTION_CSV
};

static const struct option known[] = {
    {"mode", required_argument, NULL, OPTION_MODE},   {"lookahead", required_argument, NULL, OPTION_LOOKAHEAD},
    {"min", required_argument, NULL, OPTION_MIN},     {"max", required_argument, NULL, OPTION_MAX},
    {"inter", required_argument, NULL, OPTION_INTER}, {"log", required_argument, NULL, OPTION_LOG},
    {"first", required_argument, NULL, OPTION_FIRST}, {"strips", required_argument, NULL, OPTION_STRIPS},
    {"cuts", no_argument, NULL, OPTION_CUTS},         {"bars", no_argument, NULL, OPTION_BARS},
    {"dump", no_argument, NULL, OPTION_DUMP},         {"times", no_argument, NULL, OPTION_TIMES},
    {"purge", no_argument, NULL, OPTION_PURGE},       {"csv", no_argument, NULL, OPTION_CSV},
    WORDS_LAST};

bool mode_read(const char *text, uint32_t *mode)
{
    /* by document 01's numbers */
    static const char *const names[] = {"none", "fast", "standard"};
    for (uint32_t i = 0; i < sizeof names / sizeof names[0]; i++)
        if (strcmp(text, names[i]) == 0) {
            *mode = i;
            return true;
        }
    return false;
}

static enum status take_number(const char *name, const char *value, uint64_t *number)
{
    return number_read(value, number) ? DONE : say_usage("%s wants a whole number below 2^64, not '%s'", name, value);
}

static enum status take_lookahead(const char *value, size_t *lookahead)
{
    uint64_t number = 0;
    const enum status status = take_number("--lookahead", value, &number);
    if (status == DONE && (number == 0 || number > SIZE_MAX))
        return say_usage("--lookahead wants at least 1");
    *lookahead = (size_t)number;
    return status;
}

/* Frames have numbers of 32 bits. */
static enum status take_first(const char *value, uint64_t *first)
{
    const enum status status = take_number("--first", value, first);
    return status == DONE && *first > UINT32_MAX ? say_usage("--first wants a number below 2^32, not '%s'", value) : status;
}

static enum status take_strips(const char *value, size_t *rows)
{
    uint64_t number = 0;
    if (!number_read(value, &number) || number < 1 || number > LARGEST_STRIP)
        return say_usage("--strips wants a number of rows from 1 to %d, not '%s'", LARGEST_STRIP, value);
    *rows = (size_t)number;
    return DONE;
}

/* For a film '-' is the standard input. No log can be written there, and no costs are read from it. */
static enum status take_file(const char *name, const char *value, const char **file)
{
    *file = value;
    return value[0] != '\0' && strcmp(value, "-") != 0 ? DONE : say_usage("%s wants the name of a file, not '%s'", name, value);
}

static enum status take_form(struct options *options, enum form form)
{
    const bool other = options->form != FORM_LINES && options->form != form;
    options->form = form;
    return other ? say_usage("--cuts, --bars and --dump are three ways to show a film: ask for one") : DONE;
}

static enum status take_option(struct options *options, int option, const char *value)
{
    switch (option) {
    case OPTION_MODE:
        return mode_read(value, &options->settings.mode)
            ? DONE
            : say_usage("--mode wants fast, standard or none, not '%s'", value);
    case OPTION_LOOKAHEAD:
        return take_lookahead(value, &options->settings.lookahead);
    case OPTION_MIN:
        return take_number("--min", value, &options->settings.min);
    case OPTION_MAX:
        return take_number("--max", value, &options->settings.max);
    case OPTION_FIRST:
        return take_first(value, &options->first);
    case OPTION_STRIPS:
        return take_strips(value, &options->settings.strip_rows);
    case OPTION_LOG:
        return take_file("--log", value, &options->log);
    case OPTION_INTER:
        return take_file("--inter", value, &options->inter);
    case OPTION_CUTS:
        return take_form(options, FORM_CUTS);
    case OPTION_BARS:
        return take_form(options, FORM_BARS);
    case OPTION_DUMP:
        return take_form(options, FORM_DUMP);
    default:
        break;
    }
    options->times = options->times || option == OPTION_TIMES;
    options->purge = options->purge || option == OPTION_PURGE;
    options->csv = options->csv || option == OPTION_CSV;
    options->help = options->help || option == WORDS_HELP;
    return DONE;
}

/* What the words ask for together. */
static enum status fits_together(const struct options *options)
{
    const bool standard = options->settings.mode == BRINE_MODE_STANDARD;
    if (standard && options->inter == NULL)
        return say_usage("standard mode reads its inter costs from a file: --inter FILE");
    if (!standard && options->inter != NULL)
        return say_usage("--inter goes with --mode standard alone");
    if (options->form == FORM_BARS && options->csv)
        return say_usage("--bars is for people and --csv for machines: ask for one");
    if (options->form != FORM_LINES && options->purge)
        return say_usage("--purge goes with the plain lines, and not with --cuts, --bars or --dump");
    return DONE;
}

enum status options_read(struct options *options, int count, char **words)
{
    *options = (struct options){.settings = {.mode = BRINE_MODE_FAST, .lookahead = 5, .min = 0, .max = UINT32_MAX}};
    enum status status = DONE;

    words_start();
    for (int option = 0; option != WORDS_END && status == DONE && !options->help;) {
        option = words_next(count, words, known);
        if (option != WORDS_END)
            status = option == WORDS_WRONG ? FAILED : take_option(options, option, optarg);
    }
    if (status != DONE || options->help)
        return status;
    if (optind == count || words[optind][0] == '\0')
        return say_usage("decide wants a film");
    if (optind + 1 < count)
        return say_usage("decide takes one film, not '%s' and '%s'", words[optind], words[optind + 1]);
    options->film = words[optind];
    return fits_together(options);
}
