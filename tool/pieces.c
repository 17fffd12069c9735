#include "pieces.h"

#include <errno.h>
#include <inttypes.h>
#include <string.h>
#include <sys/stat.h>
#include <unistd.h>

/* How many bytes there are to read. While a regular file is read another command may append to it, over its rest: bytes of the
   old rest and of the new record would look like one record. So its length is taken once, and what is a rest then stays one. */
static uint64_t bytes_left(int file)
{
    struct stat about;
    const off_t at = lseek(file, 0, SEEK_CUR);

    if (at < 0 || fstat(file, &about) != 0 || !S_ISREG(about.st_mode))
        return UINT64_MAX;
    return about.st_size > at ? (uint64_t)(about.st_size - at) : 0;
}

void pieces_start(struct pieces *pieces, const char *name, int file)
{
    memset(pieces, 0, sizeof *pieces);
    pieces->name = name;
    pieces->file = file;
    pieces->left = bytes_left(file);
}

/* The last record comes first in the next piece: so the library sees that numbers rise from one piece to the next. */
static void carry_over(struct pieces *pieces)
{
    if (pieces->records == 0)
        return;
    pieces->before += pieces->records - 1;
    pieces->shared = 1;
    pieces->used = BRINE_RECORD_BYTES;
    memmove(pieces->bytes, pieces->bytes + (pieces->records - 1) * BRINE_RECORD_BYTES, BRINE_RECORD_BYTES);
}

static enum status fill(struct pieces *pieces)
{
    while (pieces->used < sizeof pieces->bytes && !pieces->ended) {
        const size_t room = sizeof pieces->bytes - pieces->used;
        const size_t count = pieces->left < room ? (size_t)pieces->left : room;
        const ssize_t got = read(pieces->file, pieces->bytes + pieces->used, count);
        if (got < 0 && errno != EINTR)
            return say_failed("%s: %s", pieces->name, strerror(errno));
        const size_t part = got > 0 ? (size_t)got : 0;
        pieces->ended = got == 0;
        pieces->used += part;
        pieces->left -= part;
    }
    return DONE;
}

static const char *fault(int64_t answer)
{
    switch (-answer) {
    case REFUSED_MARK:
        return "it does not begin with the mark SC";
    case REFUSED_CUT:
        return "its cut is above 1";
    case REFUSED_ORDER:
        return "its number is not above that of the record before";
    default:
        return "it is refused";
    }
}

/* The record at fault is the one behind the longest beginning that the library accepts. */
static enum status refused(const struct pieces *pieces, int64_t answer)
{
    uint64_t torn = 0;
    size_t good = 0;

    while (brine_log_scan(pieces->bytes, (good + 1) * BRINE_RECORD_BYTES, &torn) >= 0)
        good++;
    const uint64_t record = pieces->before + good;
    return say_refused(answer, "%s: record %" PRIu64 " at byte %" PRIu64 ": %s", pieces->name, record,
                       record * BRINE_RECORD_BYTES, fault(answer));
}

enum status pieces_next(struct pieces *pieces)
{
    uint64_t torn = 0;

    carry_over(pieces);
    const enum status status = fill(pieces);
    if (status != DONE)
        return status;
    const int64_t answer = brine_log_scan(pieces->bytes, pieces->used, &torn);
    if (answer < 0)
        return refused(pieces, answer);
    pieces->records = (size_t)answer;
    return DONE;
}
