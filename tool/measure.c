/* The subcommand `measure`: the measures of two pictures, whole, or reduced as Fast mode has them. */
#include "commands.h"

#include "options.h"
#include "picture.h"
#include "words.h"

#include <inttypes.h>
#include <stdlib.h>

struct measures {
    int64_t difference;
    int64_t total;  /* importance before its division */
    int64_t blocks; /* whole blocks of 8 × 8 */
    double delta;
    double importance;
    double threshold;
};

/* What Fast mode has of a pair. */
static int64_t measure_fast(const struct plane *a, const struct plane *b, struct measures *m)
{
    m->difference = plane_difference(a, b);
    return m->difference < 0 ? m->difference : plane_delta(a, b, &m->delta);
}

/* The same, and what is measured by whole blocks. */
static int64_t measure_pair(const struct plane *a, const struct plane *b, struct measures *m)
{
    const int64_t answer = measure_fast(a, b, m);
    if (answer < 0)
        return answer;
    m->total = plane_importance_total(a, b);
    return m->total < 0 ? m->total : plane_importance(a, b, &m->importance);
}

/* The threshold of one picture: its intra costs over a work plane and a list made here. */
static enum status measure_threshold(const struct plane *p, struct measures *m)
{
    const size_t room = (p->width / 8) * (p->height / 8);
    struct plane work;
    const bool made = plane_make(&work, p->width, p->height, p->depth);
    uint32_t *costs = calloc(room + 1, sizeof *costs);
    int64_t answer = 0;
    enum status status = DONE;

    if (!made || costs == NULL) {
        status = say_failed("not enough memory for the intra costs");
    } else {
        answer = m->blocks = plane_intra_costs(p, &work, costs, room);
        if (answer >= 0)
            answer = brine_threshold(costs, room, (size_t)answer, &m->threshold);
    }
    plane_free(&work);
    free(costs);
    return answer < 0 ? say_refused(answer, "the second picture has no intra costs") : status;
}

/* Why two pictures were refused: the library looks at each picture's sides, then at both, then at blocks and samples. */
static enum status refused(const struct plane *a, const struct plane *b, char **names, int64_t answer)
{
    char fault[FAULT_ROOM] = "";
    if (answer == -REFUSED_SAMPLE) {
        const bool first = plane_fault(a, 0, fault);
        if (!first)
            plane_fault(b, 0, fault);
        return say_refused(answer, "%s: %s", names[first ? 0 : 1], fault);
    }
    if (answer == -REFUSED_UNLIKE)
        return say_refused(answer, "%s is %zu × %zu and %s %zu × %zu: both must have one size", names[0], a->width, a->height,
                           names[1], b->width, b->height);
    if (answer == -REFUSED_BLOCK) {
        plane_block_fault(a, fault);
        return say_refused(answer, "%s and %s: %s", names[0], names[1], fault);
    }
    const bool second = !picture_has_bad_side(a);
    const struct plane *p = second ? b : a;
    return picture_refused(names[second], p->width, p->height, p->depth, answer);
}

static void add_number(struct page *page, const char *name, double value, const char *more)
{
    char number[NUMBER_ROOM];
    number_text(number, value);
    page_add(page, "%-10s %s%s\n", name, number, more);
}

static enum status write_measures(const struct measures *m, const struct plane *p, size_t factor)
{
    struct page page = {0};
    char blocks[96];

    page_add(&page, "pictures   %zu × %zu", p->width, p->height);
    if (p->depth != 8)
        page_add(&page, " of %u bits", (unsigned)p->depth);
    if (factor == 0)
        page_add(&page, ", whole\n");
    else
        page_add(&page, ", as fast mode has them: sides divided by %zu\n", factor);
    page_add(&page, "difference %" PRId64 "\n", m->difference);
    add_number(&page, "delta", m->delta, "");
    if (factor == 0) {
        snprintf(blocks, sizeof blocks, " (total %" PRId64 " over %" PRId64 " blocks)", m->total, m->blocks);
        add_number(&page, "importance", m->importance, blocks);
        add_number(&page, "threshold", m->threshold, " (of the second picture)");
    }
    const enum status status = page_write(&page);
    page_free(&page);
    return status;
}

static enum status measure_whole(const struct plane *a, const struct plane *b, char **names)
{
    struct measures measures = {0};
    const int64_t answer = measure_pair(a, b, &measures);

    if (answer < 0)
        return refused(a, b, names, answer);
    const enum status status = measure_threshold(b, &measures);
    return status == DONE ? write_measures(&measures, a, 0) : status;
}

/* Delta alone, of both pictures reduced as `decide` reduces frames. Pictures that cannot be measured are refused whole. */
static enum status measure_reduced(struct plane *a, struct plane *b, char **names)
{
    struct measures measures = {0};
    int64_t answer = measure_fast(a, b, &measures);

    if (answer < 0)
        return refused(a, b, names, answer);
    const int64_t factor = brine_scale_factor(a->width, a->height, BRINE_MODE_FAST);
    if (factor < 0)
        return picture_refused(names[0], a->width, a->height, a->depth, factor);
    enum status status = picture_shrink(a, names[0], (size_t)factor);
    if (status == DONE)
        status = picture_shrink(b, names[1], (size_t)factor);
    if (status != DONE)
        return status;
    answer = measure_fast(a, b, &measures);
    return answer < 0 ? refused(a, b, names, answer) : write_measures(&measures, a, (size_t)factor);
}

enum { OPTION_MODE = FIRST_OPTION };

static const struct option known[] = {{"mode", required_argument, NULL, OPTION_MODE}, WORDS_LAST};

/* The mode that is asked for: Standard measures whole pictures. */
static enum status read_words(int count, char **words, uint32_t *mode, bool *help)
{
    *mode = BRINE_MODE_STANDARD;
    words_start();
    for (int option = 0; option != WORDS_END && !*help;) {
        option = words_next(count, words, known);
        if (option == WORDS_WRONG)
            return FAILED;
        if (option == OPTION_MODE && (!mode_read(optarg, mode) || *mode == BRINE_MODE_NONE))
            return say_usage("--mode wants fast or standard, not '%s'", optarg);
        *help = option == WORDS_HELP;
    }
    return *help || count - optind == 2 ? DONE : say_usage("measure wants two pictures");
}

/* Samples of unlike depths have no difference: one step of the one is several of the other. */
static enum status measure_pictures(struct plane *a, struct plane *b, char **names, uint32_t mode)
{
    if (a->depth != b->depth)
        return say_failed("%s has samples of %u bits and %s of %u: both must have one depth", names[0], (unsigned)a->depth,
                          names[1], (unsigned)b->depth);
    return mode == BRINE_MODE_FAST ? measure_reduced(a, b, names) : measure_whole(a, b, names);
}

static enum status measure_files(char **names, uint32_t mode)
{
    struct plane a, b;
    enum status status = picture_read_pgm(&a, names[0]);

    if (status != DONE)
        return status;
    status = picture_read_pgm(&b, names[1]);
    if (status == DONE) {
        status = measure_pictures(&a, &b, names, mode);
        plane_free(&b);
    }
    plane_free(&a);
    return status;
}

enum status command_measure(int count, char **words)
{
    uint32_t mode = 0;
    bool help = false;

    const enum status status = read_words(count, words, &mode, &help);
    if (status != DONE || help)
        return status != DONE ? status : command_help();
    return measure_files(words + optind, mode);
}
