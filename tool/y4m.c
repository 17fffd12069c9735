#include "film.h"

#include "words.h"

#include <errno.h>
#include <inttypes.h>
#include <stdlib.h>
#include <string.h>

enum colour { COLOUR_420, COLOUR_422, COLOUR_444, COLOUR_MONO };
enum { NAME_ROOM = 128 }; /* of a frame */

/* Bits of a sample by what stands behind the colour's name: nothing, and a siting of C420, gives 8; C420p10 and Cmono10
   have 10. */
static bool read_depth(struct film *film, const char *rest)
{
    static const char *const sitings[] = {"jpeg", "mpeg2", "paldv"};
    uint64_t bits = 8;
    bool known = rest[0] == '\0';

    for (size_t i = 0; i < sizeof sitings / sizeof sitings[0]; i++)
        known = known || (film->colour == COLOUR_420 && strcmp(rest, sitings[i]) == 0);
    if (!known && film->colour == COLOUR_MONO)
        known = number_read(rest, &bits);
    else if (!known)
        known = rest[0] == 'p' && number_read(rest + 1, &bits);
    film->depth = (uint32_t)bits;
    return known && bits > 0 && bits <= 64;
}

static bool read_colour(struct film *film, const char *name)
{
    static const struct {
        const char *name;
        enum colour colour;
    } colours[] = {{"420", COLOUR_420}, {"422", COLOUR_422}, {"444", COLOUR_444}, {"mono", COLOUR_MONO}};

    for (size_t i = 0; i < sizeof colours / sizeof colours[0]; i++) {
        const size_t length = strlen(colours[i].name);
        if (strncmp(name, colours[i].name, length) == 0) {
            film->colour = colours[i].colour;
            return read_depth(film, name + length);
        }
    }
    return false;
}

/* A side too large for any number here is the largest one: the library refuses it like any other. */
static bool read_side(const char *digits, size_t *side)
{
    uint64_t value = 0;
    if (!number_read(digits, &value) && (digits[0] == '\0' || digits[strspn(digits, "0123456789")] != '\0'))
        return false;
    *side = value > SIZE_MAX ? SIZE_MAX : (size_t)value;
    return true;
}

/* The frame rate as frames:seconds. Any other text, and 0:0, is one that is not known. */
static void read_rate(struct film *film, char *text)
{
    uint64_t frames = 0, seconds = 0;
    char *colon = strchr(text, ':');
    if (colon == NULL)
        return;
    *colon = '\0';
    const bool known = number_read(text, &frames) && number_read(colon + 1, &seconds) && frames > 0 && frames <= UINT32_MAX
        && seconds > 0 && seconds <= UINT32_MAX;
    film->rate = known ? (struct rate){(uint32_t)frames, (uint32_t)seconds} : (struct rate){0};
}

/* Takes one word of the header; words that say nothing about luma or time are passed over. */
static enum status take_word(struct film *film, char *word)
{
    if (word[0] == 'W' && !read_side(word + 1, &film->width))
        return say_failed("%s: its width is no number: %s", film->name, word);
    if (word[0] == 'H' && !read_side(word + 1, &film->height))
        return say_failed("%s: its height is no number: %s", film->name, word);
    if (word[0] == 'C' && !read_colour(film, word + 1))
        return say_failed("%s: its colour space %s is none of C420, C422, C444, Cmono", film->name, word);
    if (word[0] == 'F')
        read_rate(film, word + 1);
    return DONE;
}

/* What is wrong with a header line, or NULL. A film that was sent as a text has other line ends, and lost bytes with them. */
static const char *line_fault(const struct line *line, enum line_read got)
{
    if (got == LINE_FAULT)
        return strerror(errno);
    if (got == LINE_NONE || got == LINE_OPEN)
        return "it is cut short";
    if (got == LINE_ZERO)
        return "it holds a zero byte";
    if (line->length > 0 && line->text[line->length - 1] == '\r')
        return "it ends in CR LF, and a film's end in LF alone: was it sent as a text?";
    return NULL;
}

static enum status take_words(struct film *film)
{
    bool width = false, height = false;
    for (char *word = strtok(film->line.text, " "); word != NULL; word = strtok(NULL, " ")) {
        const enum status status = take_word(film, word);
        if (status != DONE)
            return status;
        width = width || word[0] == 'W';
        height = height || word[0] == 'H';
    }
    if (!width || !height)
        return say_failed("%s: its header names no %s", film->name, width ? "height" : "width");
    return DONE;
}

/* The first bytes are looked at alone, so that a large file of another kind is not taken for one long line. */
static enum status read_header(struct film *film)
{
    char magic[] = "YUV4MPEG2";
    const size_t length = strlen(magic);
    const size_t got = fread(magic, 1, length, film->file);

    if (ferror(film->file))
        return say_failed("%s: %s", film->name, strerror(errno));
    if (got == 0)
        return say_failed("%s: it is empty", film->name);
    if (got != length || strcmp(magic, "YUV4MPEG2") != 0)
        return say_failed("%s: not a Y4M film (it does not begin with YUV4MPEG2); ffmpeg makes one of any film", film->name);
    const enum line_read read = line_read(&film->line, film->file);
    const char *fault = line_fault(&film->line, read);
    if (fault != NULL)
        return say_failed("%s: its header line: %s", film->name, fault);
    if (film->line.length > 0 && film->line.text[0] != ' ')
        return say_failed("%s: not a Y4M film (it does not begin with YUV4MPEG2 and a blank)", film->name);
    film->bytes = length + film->line.length + 1;
    return take_words(film);
}

/* How many samples both planes of chroma have. */
static size_t chroma_count(const struct film *film)
{
    const size_t half_width = (film->width + 1) / 2;
    const size_t half_height = (film->height + 1) / 2;
    switch ((enum colour)film->colour) {
    case COLOUR_420:
        return 2 * half_width * half_height;
    case COLOUR_422:
        return 2 * half_width * film->height;
    case COLOUR_444:
        return 2 * film->width * film->height;
    default:
        return 0;
    }
}

/* Passes over bytes by reading them: a pipe cannot be sought in. */
static bool skip(FILE *file, size_t bytes)
{
    char room[4096];
    while (bytes > 0) {
        const size_t part = bytes < sizeof room ? bytes : sizeof room;
        if (fread(room, 1, part, file) != part)
            return false;
        bytes -= part;
    }
    return true;
}

/* Names a frame by its number and by its place in the film: the frame's, counted from 0, and the byte's. */
static const char *frame_name(char out[NAME_ROOM], const struct film *film, uint64_t frame, uint64_t byte)
{
    char place[64] = "";
    if (film->first > 0)
        snprintf(place, sizeof place, "frame %" PRIu64 " of the film, ", frame);
    snprintf(out, NAME_ROOM, "frame %" PRIu64 " (%sat byte %" PRIu64 ")", film->first + frame, place, byte);
    return out;
}

static enum fetched broken_frame(const struct film *film, const char *how)
{
    char name[NAME_ROOM];
    say_failed("%s: %s: %s", film->name, frame_name(name, film, film->frames, film->bytes), how);
    return BROKEN;
}

enum status film_refused(const struct film *film, const char *fault, int64_t answer)
{
    char name[NAME_ROOM];
    return say_refused(answer, "%s: %s: %s", film->name, frame_name(name, film, film->frames - 1, film->begin), fault);
}

/* The line before a frame: FRAME, and perhaps words behind it, which say nothing about luma. */
enum fetched film_begin(struct film *film)
{
    char word[] = "FRAME";
    const size_t length = strlen(word);
    const size_t got = fread(word, 1, length, film->file);

    if (ferror(film->file))
        return broken_frame(film, strerror(errno));
    if (got == 0)
        return END;
    if (strncmp(word, "FRAME", got) != 0)
        return broken_frame(film, "it does not begin with FRAME");
    if (got < length)
        return broken_frame(film, "it is cut short");
    const enum line_read read = line_read(&film->line, film->file);
    const char *fault = line_fault(&film->line, read);
    if (fault == NULL && film->line.length > 0 && film->line.text[0] != ' ')
        fault = "it does not begin with FRAME";
    return fault == NULL ? FRAME : broken_frame(film, fault);
}

/* A frame that ends too early, or cannot be read. */
static enum fetched short_frame(const struct film *film)
{
    return broken_frame(film, ferror(film->file) ? strerror(errno) : "it is cut short");
}

enum fetched film_rows(struct film *film, struct plane *rows)
{
    return plane_read(rows, film->file, LOW_FIRST) == rows->count ? FRAME : short_frame(film);
}

/* Behind luma is chroma. */
enum fetched film_end(struct film *film)
{
    const size_t each = sample_bytes(film->depth), luma = film->width * film->height, chroma = chroma_count(film);

    if (!skip(film->file, chroma * each))
        return short_frame(film);
    film->begin = film->bytes;
    film->bytes += strlen("FRAME") + film->line.length + 1 + (luma + chroma) * each;
    film->frames++;
    return FRAME;
}

static enum fetched next_y4m(struct film *film, struct plane *luma)
{
    enum fetched fetched = film_begin(film);
    if (fetched == FRAME)
        fetched = film_rows(film, luma);
    return fetched == FRAME ? film_end(film) : fetched;
}

enum status film_open_y4m(struct film *film, const char *path)
{
    const bool standard_input = strcmp(path, "-") == 0;
    *film = (struct film){
        .name = standard_input ? "standard input" : path, .depth = 8, .next = next_y4m, .colour = COLOUR_420};
    film->file = standard_input ? stdin : fopen(path, "rb");
    if (film->file == NULL)
        return say_failed("%s: %s", path, strerror(errno));
    const enum status status = read_header(film);
    if (status != DONE)
        film_close(film);
    return status;
}

void film_close(struct film *film)
{
    line_free(&film->line);
    if (film->file != NULL && film->file != stdin)
        fclose(film->file);
    film->file = NULL;
}
