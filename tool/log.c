/* The subcommand `log`: what stands in a log. */
#include "columns.h"
#include "commands.h"
#include "pieces.h"
#include "words.h"

#include <errno.h>
#include <fcntl.h>
#include <string.h>
#include <unistd.h>

struct listing {
    const char *path;
    bool csv;
    bool help; /* help is all that is asked for */
    struct page page;
    uint64_t records;
    uint64_t cuts;
    uint64_t large;
    uint64_t torn;
};

enum { OPTION_CSV = FIRST_OPTION };

static const struct option known[] = {{"csv", no_argument, NULL, OPTION_CSV}, WORDS_LAST};

static enum status read_words(struct listing *listing, int count, char **words)
{
    words_start();
    for (int option = 0; option != WORDS_END && !listing->help;) {
        option = words_next(count, words, known);
        if (option == WORDS_WRONG)
            return FAILED;
        listing->csv = listing->csv || option == OPTION_CSV;
        listing->help = option == WORDS_HELP;
    }
    if (listing->help)
        return DONE;
    if (optind == count || words[optind][0] == '\0')
        return say_usage("log wants a file");
    if (optind + 1 < count)
        return say_usage("log takes one file, not '%s' and '%s'", words[optind], words[optind + 1]);
    listing->path = words[optind];
    return DONE;
}

/* A record has the score's own inter cost and threshold. */
static bool is_large(const struct verdict *verdict)
{
    const struct pair pair = {.inter = verdict->score[BRINE_INTER], .threshold = verdict->score[BRINE_THRESHOLD]};
    return !verdict->cut && pair_is_large(&pair);
}

/* The records of a piece that the piece before did not have. */
static enum status add_piece(struct listing *listing, const struct pieces *pieces)
{
    uint32_t numbers[PIECE_RECORDS];
    uint64_t bits[PIECE_RECORDS * BRINE_SCORE_DOUBLES];
    uint8_t cuts[PIECE_RECORDS];

    const int64_t answer = brine_log_read(pieces->bytes, pieces->used, numbers, PIECE_RECORDS, bits,
                                          PIECE_RECORDS * BRINE_SCORE_DOUBLES, cuts, PIECE_RECORDS, &listing->torn);
    if (answer < 0)
        return say_refused(answer, "%s: its records cannot be read", pieces->name);
    for (size_t k = pieces->shared; k < (size_t)answer; k++) {
        struct verdict verdict = {.frame = numbers[k], .cut = cuts[k] == 1, .scored = true};
        memcpy(verdict.score, bits + k * BRINE_SCORE_DOUBLES, sizeof verdict.score);
        verdict.large = is_large(&verdict);
        columns_add(&listing->page, listing->csv, &verdict);
        page_add(&listing->page, "\n");
        listing->records++;
        listing->cuts += verdict.cut;
        listing->large += verdict.large;
    }
    return DONE;
}

static enum status list_file(struct listing *listing, const char *name, int file)
{
    struct pieces pieces;

    columns_head(&listing->page, listing->csv);
    page_add(&listing->page, "\n");
    pieces_start(&pieces, name, file);
    while (!pieces.ended) {
        enum status status = pieces_next(&pieces);
        if (status == DONE)
            status = add_piece(listing, &pieces);
        if (status != DONE)
            return status;
    }
    if (!listing->csv)
        columns_sum(&listing->page, "record", listing->records, listing->cuts, listing->large);
    say_rest(name, listing->torn, listing->records, "");
    return page_write(&listing->page);
}

enum status command_log(int count, char **words)
{
    struct listing listing = {0};

    enum status status = read_words(&listing, count, words);
    if (status != DONE || listing.help)
        return status != DONE ? status : command_help();
    const bool standard_input = strcmp(listing.path, "-") == 0;
    const int file = standard_input ? STDIN_FILENO : open(listing.path, O_RDONLY | O_CLOEXEC);
    if (file < 0)
        return say_failed("%s: %s", listing.path, strerror(errno));
    status = list_file(&listing, standard_input ? "standard input" : listing.path, file);
    page_free(&listing.page);
    if (!standard_input)
        close(file);
    return status;
}
