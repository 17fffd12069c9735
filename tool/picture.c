#include "picture.h"

#include <ctype.h>
#include <errno.h>
#include <stdio.h>
#include <string.h>

/* The next byte of a PGM's header; a comment counts as the line end that closes it. */
static int header_byte(FILE *file)
{
    int c = getc(file);
    if (c == '#')
        while (c != '\n' && c != EOF)
            c = getc(file);
    return c;
}

/* One number of the header with the one blank behind it. One that is too large for a number here is the largest there is. */
static bool header_number(FILE *file, size_t *number)
{
    int c = header_byte(file);
    while (c != EOF && isspace(c))
        c = header_byte(file);
    size_t value = 0;
    bool any = false;
    for (; c >= '0' && c <= '9'; c = header_byte(file)) {
        const size_t digit = (size_t)(c - '0');
        value = value > (SIZE_MAX - digit) / 10 ? SIZE_MAX : 10 * value + digit;
        any = true;
    }
    *number = value;
    return any && c != EOF && isspace(c);
}

/* A fault of the file, if it is one that cannot be read. */
static enum status fault(FILE *file, const char *path, const char *how)
{
    return say_failed("%s: %s", path, ferror(file) ? strerror(errno) : how);
}

/* Bits of a sample by the largest value that it may have, or 0 where that is none of the three. */
static uint32_t bits_of(size_t largest)
{
    return largest == 255 ? 8 : largest == 1023 ? 10 : largest == 4095 ? 12 : 0;
}

static enum status read_header(struct plane *picture, FILE *file, const char *path)
{
    size_t largest = 0;
    const int first = getc(file);
    if (first == EOF)
        return fault(file, path, "it is empty");
    if (first != 'P' || getc(file) != '5')
        return fault(file, path, "not a binary PGM picture (it does not begin with P5)");
    if (!header_number(file, &picture->width) || !header_number(file, &picture->height)
        || !header_number(file, &largest))
        return fault(file, path, "its PGM header is not width, height and largest value");
    picture->depth = bits_of(largest);
    if (picture->depth == 0)
        return say_failed("%s: its largest value is %zu, and only 255, 1023 and 4095 are taken", path, largest);
    return DONE;
}

static bool is_side(size_t side)
{
    return side >= 1 && side <= LARGEST_SIDE;
}

bool picture_has_bad_side(const struct plane *picture)
{
    return !is_side(picture->width) || !is_side(picture->height);
}

static enum status read_samples(struct plane *picture, FILE *file, const char *path)
{
    if (picture_has_bad_side(picture))
        return DONE;
    if (!plane_make(picture, picture->width, picture->height, picture->depth))
        return say_failed("%s: not enough memory for its %zu samples", path, picture->count);
    const size_t got = plane_read(picture, file, HIGH_FIRST);
    if (got < picture->count && !ferror(file))
        return say_failed("%s: cut short, %zu of %zu samples", path, got, picture->count);
    if (!ferror(file) && getc(file) != EOF)
        return say_failed("%s: bytes behind the last of its %zu samples", path, picture->count);
    return ferror(file) ? fault(file, path, "") : DONE;
}

enum status picture_read_pgm(struct plane *picture, const char *path)
{
    *picture = (struct plane){0};
    FILE *file = fopen(path, "rb");
    if (file == NULL)
        return say_failed("%s: %s", path, strerror(errno));
    enum status status = read_header(picture, file, path);
    if (status == DONE)
        status = read_samples(picture, file, path);
    fclose(file);
    if (status != DONE)
        plane_free(picture);
    return status;
}

enum status picture_refused(const char *name, size_t width, size_t height, uint32_t depth, int64_t answer)
{
    if (answer == -REFUSED_DEPTH)
        return say_refused(answer, "%s: samples of %u bits, and only 8, 10 and 12 are taken", name, (unsigned)depth);
    const size_t side = is_side(width) ? height : width;
    return say_refused(answer, "%s: a %s of %zu%s, and a side is 1 to %d", name, is_side(width) ? "height" : "width", side,
                       side == SIZE_MAX ? " or more" : "", LARGEST_SIDE);
}

/* The library reduces into another place: lent places must not overlap. */
enum status picture_shrink(struct plane *picture, const char *name, size_t factor)
{
    struct plane reduced;
    if (!plane_make(&reduced, picture->width / factor, picture->height / factor, picture->depth))
        return say_failed("%s: not enough memory for its %zu samples, reduced", name, reduced.count);
    const int64_t answer = plane_reduce(picture, factor, &reduced);
    if (answer < 0) {
        plane_free(&reduced);
        return say_refused(answer, "%s: it cannot be reduced by %zu", name, factor);
    }
    plane_free(picture);
    *picture = reduced;
    return DONE;
}
