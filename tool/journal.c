#define _XOPEN_SOURCE 700 /* realpath */

#include "journal.h"

#include "pieces.h"

#include <errno.h>
#include <fcntl.h>
#include <inttypes.h>
#include <signal.h>
#include <stdio.h>
#include <stdlib.h>
#include <string.h>
#include <sys/stat.h>
#include <unistd.h>

static enum status fault(const struct journal *journal)
{
    return say_failed("%s: %s", journal->path, strerror(errno));
}

/* A file that was just made outlives a power cut once its folder is on the card too. One that has bytes was made earlier. */
static enum status sync_folder(const struct journal *journal, off_t size)
{
    if (size > 0)
        return DONE;
    char *path = realpath(journal->path, NULL);
    if (path == NULL)
        return fault(journal);
    strrchr(path, '/')[1] = '\0';
    const int folder = open(path, O_RDONLY | O_DIRECTORY | O_CLOEXEC);
    const enum status status = folder < 0 || fsync(folder) != 0 ? fault(journal) : DONE;
    if (folder >= 0)
        close(folder);
    free(path);
    return status;
}

/* Two commands that append to one log would write over each other's records. */
static enum status take_lock(const struct journal *journal)
{
    struct flock whole = {.l_type = F_WRLCK, .l_whence = SEEK_SET};
    if (fcntl(journal->file, F_SETLK, &whole) == 0)
        return DONE;
    if (errno == EACCES || errno == EAGAIN)
        return say_failed("%s: this log is in use: another command appends to it", journal->path);
    return fault(journal);
}

/* Whether `other` is open on the same file. Names do not tell: a file can have several. */
static bool is_same(const struct stat *log, int other)
{
    struct stat about;
    return fstat(other, &about) == 0 && about.st_dev == log->st_dev && about.st_ino == log->st_ino;
}

/* A record would go over what is read, and the answer, or a message, over the records. */
static enum status stands_apart(const struct journal *journal, const struct stat *log, const struct film *film,
                                const struct costs *costs)
{
    const char *what = NULL;
    /* A word about it would go into the log. */
    if (is_same(log, STDERR_FILENO))
        return FAILED;
    if (is_same(log, fileno(film->file)))
        what = "film";
    else if (costs->file != NULL && is_same(log, fileno(costs->file)))
        what = "file of inter costs";
    else if (is_same(log, STDOUT_FILENO))
        what = "standard output";
    if (what == NULL)
        return DONE;
    return say_failed("%s: a log must be a file of its own, and this is the %s", journal->path, what);
}

static enum status open_file(struct journal *journal, const struct film *film, const struct costs *costs)
{
    struct stat about;

    /* A pipe or a terminal must not hold the command up: it is told apart once it is open. */
    journal->file = open(journal->path, O_RDWR | O_CREAT | O_CLOEXEC | O_NONBLOCK | O_NOCTTY, 0666);
    if (journal->file < 0 || fstat(journal->file, &about) != 0)
        return fault(journal);
    if (!S_ISREG(about.st_mode))
        return say_failed("%s: a log must be a regular file", journal->path);
    enum status status = stands_apart(journal, &about, film, costs);
    if (status == DONE)
        status = take_lock(journal);
    return status == DONE ? sync_folder(journal, about.st_size) : status;
}

/* Has the whole log checked, and keeps its end. */
static enum status check(struct journal *journal)
{
    struct pieces pieces;

    pieces_start(&pieces, journal->path, journal->file);
    while (!pieces.ended) {
        const enum status status = pieces_next(&pieces);
        if (status != DONE)
            return status;
    }
    const size_t last = pieces.records > 0 ? (pieces.records - 1) * BRINE_RECORD_BYTES : 0;
    journal->records = pieces.before + pieces.records;
    journal->used = pieces.used - last;
    memcpy(journal->end, pieces.bytes + last, journal->used);
    return DONE;
}

/* Whether the number can follow: the library says so, by an append to a copy. */
static enum status try_number(const struct journal *journal, uint32_t number)
{
    struct journal copy = *journal;
    uint32_t last = 0;
    uint64_t bits[BRINE_SCORE_DOUBLES], torn = 0;
    uint8_t cut = 0;

    const int64_t answer = brine_log_append(copy.end, sizeof copy.end, copy.used, number, 0, 0, 0, 0, 0, 0);
    if (answer >= 0)
        return DONE;
    brine_log_read(journal->end, journal->used, &last, 1, bits, BRINE_SCORE_DOUBLES, &cut, 1, &torn);
    return say_refused(answer, "%s: frame %" PRIu32 " cannot follow its last record, frame %" PRIu32, journal->path, number,
                       last);
}

enum status journal_open(struct journal *journal, const char *path, uint64_t number, const struct film *film,
                         const struct costs *costs)
{
    *journal = (struct journal){.path = path, .file = -1};
    /* No call may have such a number. The step refuses it with 7 before there is anything to append. */
    if (number == 0 || number > UINT32_MAX)
        return DONE;
    /* A limit on the size of files is then a fault like a full disk, and does not end the command unheard. */
    signal(SIGXFSZ, SIG_IGN);
    enum status status = open_file(journal, film, costs);
    if (status == DONE)
        status = check(journal);
    if (status == DONE)
        status = try_number(journal, (uint32_t)number);
    if (status == DONE)
        say_rest(path, journal->used % BRINE_RECORD_BYTES, journal->records, ": the next record goes over it");
    return status;
}

/* Writes all the bytes at that place of the file and has them on the card. */
static bool write_down(int file, const uint8_t *bytes, size_t count, uint64_t at)
{
    while (count > 0) {
        const ssize_t wrote = pwrite(file, bytes, count, (off_t)at);
        if (wrote < 0 && errno != EINTR)
            return false;
        const size_t part = wrote > 0 ? (size_t)wrote : 0;
        bytes += part;
        count -= part;
        at += part;
    }
    while (fdatasync(file) != 0)
        if (errno != EINTR)
            return false;
    return true;
}

enum status journal_add(struct journal *journal, const struct verdict *verdict)
{
    const double *s = verdict->score;
    const uint64_t at = journal->records * BRINE_RECORD_BYTES;

    /* The step takes no number past 32 bits. */
    const int64_t used =
        brine_log_append(journal->end, sizeof journal->end, journal->used, (uint32_t)verdict->frame, s[BRINE_INTER],
                         s[BRINE_IMPORTANCE], s[BRINE_BACKWARD], s[BRINE_FORWARD], s[BRINE_THRESHOLD], verdict->cut);
    if (used < 0)
        return say_refused(used, "%s: frame %" PRIu64 " cannot follow its last record", journal->path, verdict->frame);
    const uint8_t *record = journal->end + used - BRINE_RECORD_BYTES;
    if (!write_down(journal->file, record, BRINE_RECORD_BYTES, at))
        return say_failed("%s: record %" PRIu64 " at byte %" PRIu64 ", frame %" PRIu64 ": cannot be written: %s",
                          journal->path, journal->records, at, verdict->frame, strerror(errno));
    memmove(journal->end, record, BRINE_RECORD_BYTES);
    journal->used = BRINE_RECORD_BYTES;
    journal->records++;
    return DONE;
}

void journal_close(struct journal *journal)
{
    if (journal->file >= 0)
        close(journal->file);
    journal->file = -1;
}
