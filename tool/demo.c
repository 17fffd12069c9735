#include "bars.h"
#include "commands.h"
#include "draw.h"
#include "words.h"

#include <inttypes.h>
#include <stdlib.h>
#include <string.h>

enum {
    PANE_WIDTH = 36, /* letters of a picture in the terminal, two of them side by side */
    PANE_HEIGHT = 11
};

struct story {
    struct verdict verdicts[FILM_FRAMES];
    size_t count;
};

static enum status story_take(void *taker, const struct verdict *verdict)
{
    struct story *story = taker;
    if (story->count < FILM_FRAMES)
        story->verdicts[story->count++] = *verdict;
    return DONE;
}

/* One row of a picture in letters, by the mean of the samples under each. */
static void pane_row(char out[PANE_WIDTH + 1], const uint8_t *luma, size_t width, size_t height, size_t row)
{
    static const char shades[] = " .:-=+*#%@";
    const size_t darkest = 20, brightest = 230; /* what the film mostly shows */
    const size_t tall = height / PANE_HEIGHT, wide = width / PANE_WIDTH;
    for (size_t column = 0; column < PANE_WIDTH; column++) {
        size_t sum = 0;
        for (size_t y = 0; y < tall; y++)
            for (size_t x = 0; x < wide; x++)
                sum += luma[(row * tall + y) * width + column * wide + x];
        const size_t mean = sum / (tall * wide);
        const size_t shown = mean < darkest ? darkest : mean > brightest ? brightest : mean;
        out[column] = shades[(shown - darkest) * (sizeof shades - 2) / (brightest - darkest)];
    }
    out[PANE_WIDTH] = '\0';
}

/* Two frames side by side. */
static void add_panes(struct page *page, const struct film *film, uint8_t *room, uint64_t left, uint64_t right)
{
    static const char rule[] = "------------------------------------";
    uint8_t *second = room + film->width * film->height;
    char a[PANE_WIDTH + 1], b[PANE_WIDTH + 1];

    draw_frame(room, film->width, film->height, left);
    draw_frame(second, film->width, film->height, right);
    page_add(page, " +%s+ +%s+\n", rule, rule);
    for (size_t row = 0; row < PANE_HEIGHT; row++) {
        pane_row(a, room, film->width, film->height, row);
        pane_row(b, second, film->width, film->height, row);
        page_add(page, " |%s| |%s|\n", a, b);
    }
    page_add(page, " +%s+ +%s+\n", rule, rule);
}

static enum status add_pictures(struct page *page, const struct film *film)
{
    uint8_t *room = malloc(2 * film->width * film->height);
    if (room == NULL)
        return say_failed("not enough memory for the pictures");
    page_add(page, "  frame %-2d  a swell at dusk               frame %-2d  lightning\n", FLASH_FRAME - 1,
             FLASH_FRAME);
    add_panes(page, film, room, FLASH_FRAME - 1, FLASH_FRAME);
    page_add(page, "  frame %-2d  a dark line on the horizon    frame %-2d  the squall line has crossed\n",
             SQUALL_FRAME - 1, SQUALL_FRAME);
    add_panes(page, film, room, SQUALL_FRAME - 1, SQUALL_FRAME);
    free(room);
    return DONE;
}

static void add_chart(struct page *page, const struct story *story)
{
    bars_head(page);
    page_add(page, "\n");
    for (size_t i = 0; i < story->count; i++) {
        bars_add(page, &story->verdicts[i]);
        page_add(page, "\n");
    }
}

static const char *cut_or_not(const struct verdict *verdict)
{
    return verdict->cut ? "a cut" : "no cut";
}

static void add_words(struct page *page, const struct story *story)
{
    const struct verdict *flash = &story->verdicts[FLASH_FRAME];
    const struct verdict *after = &story->verdicts[FLASH_FRAME + 1];
    const struct verdict *squall = &story->verdicts[SQUALL_FRAME];

    page_add(page, "\n  Lightning, frame %d: differences of %.1f and %.1f, there and back.\n",
             FLASH_FRAME, flash->score[BRINE_INTER], after->score[BRINE_INTER]);
    page_add(page, "  Decided: %s at %d, %s at %d.%s\n", cut_or_not(flash), FLASH_FRAME, cut_or_not(after),
             FLASH_FRAME + 1, flash->cut || after->cut ? "" : " A flash is no new scene.");
    page_add(page, "  The squall line, frame %d: a difference of %.1f, and the sea stays changed.\n", SQUALL_FRAME,
             squall->score[BRINE_INTER]);
    page_add(page, "  Decided: %s at %d.%s\n", cut_or_not(squall), SQUALL_FRAME,
             squall->cut ? " A clip begins there and goes ashore." : "");
    page_add(page, "  Frames below %" PRIu64 " may be purged by now (the release number).\n",
             story->verdicts[story->count - 1].release);
}

static enum status tell(const struct film *film, const struct story *story)
{
    struct page page = {0};
    if (story->count != FILM_FRAMES)
        return say_failed("%s: %zu of %d frames were decided", film->name, story->count, FILM_FRAMES);
    page_add(&page, "A mast camera's film: %d frames, one every ten minutes. This command drew it;\n"
                    "the proved library decided on it, in Fast mode, looking five frames ahead.\n\n",
             FILM_FRAMES);
    enum status status = add_pictures(&page, film);
    if (status == DONE) {
        page_add(&page, "\n");
        add_chart(&page, story);
        add_words(&page, story);
        status = page_write(&page);
    }
    page_free(&page);
    return status;
}

static const struct option known[] = {WORDS_LAST};

enum status command_demo(int count, char **words)
{
    const struct settings settings = {.mode = BRINE_MODE_FAST, .lookahead = 5, .min = 0, .max = UINT32_MAX};
    struct costs costs = {0};
    struct film film;
    struct story story;

    words_start();
    const int option = words_next(count, words, known);
    if (option != WORDS_END)
        return option == WORDS_HELP ? command_help() : FAILED;
    if (optind < count)
        return say_usage("demo takes no file: '%s'", words[optind]);
    memset(&story, 0, sizeof story);
    film_open_drawn(&film);
    const enum status status = drive(&film, &costs, &settings, story_take, &story);
    return status == DONE ? tell(&film, &story) : status;
}
