#define _GNU_SOURCE /* memfd_create */

#include "fuzz_room.h"

#include "brinepulley.h"

#include <dirent.h>
#include <fcntl.h>
#include <stdarg.h>
#include <stdio.h>
#include <stdlib.h>
#include <string.h>
#include <sys/mman.h>
#include <unistd.h>

/* The command's own main, by the name that fuzz.sh gives it. */
int command_main(int count, char **words);

enum { OUT = 1, ERR = 2 };

static int report = ERR; /* where findings are told */
static char *help;       /* what --help says */

void room_found(const char *format, ...)
{
    va_list words;
    va_start(words, format);
    dprintf(report, "FOUND: ");
    vdprintf(report, format, words);
    dprintf(report, "\n");
    va_end(words);
    abort();
}

/* Files are removed there, so it is a folder that was not there before. */
void room_enter(void)
{
    const char *above = getenv("FUZZ_ROOM");
    char folder[4096];
    report = dup(ERR);
    snprintf(folder, sizeof folder, "%s/brinepulley-fuzz-XXXXXX", above == NULL ? "/tmp" : above);
    if (report < 0 || mkdtemp(folder) == NULL || chdir(folder) != 0)
        room_found("no folder can be made in %s", folder);
}

/* The standard output and the standard error, kept in memory. The fuzzer has moved its own to another place by the first run. */
static void take_streams(void)
{
    static bool taken;
    for (int stream = OUT; !taken && stream <= ERR; stream++) {
        const int memory = memfd_create("said", MFD_CLOEXEC);
        if (memory < 0 || dup2(memory, stream) < 0 || fcntl(stream, F_SETFL, O_APPEND) != 0)
            room_found("no memory for what the command says");
        close(memory);
    }
    taken = true;
}

static struct bytes read_all(int file)
{
    const off_t length = lseek(file, 0, SEEK_END);
    uint8_t *at = calloc((size_t)(length > 0 ? length : 0) + 1, 1);
    if (at == NULL || length < 0 || pread(file, at, (size_t)length, 0) != length)
        room_found("a file cannot be read back");
    return (struct bytes){at, (size_t)length};
}

void room_put(const char *name, struct bytes bytes)
{
    const int file = open(name, O_WRONLY | O_CREAT | O_TRUNC, 0666);
    if (file < 0 || write(file, bytes.at, bytes.count) != (ssize_t)bytes.count)
        room_found("%s cannot be written", name);
    close(file);
}

struct bytes room_get(const char *name)
{
    const int file = open(name, O_RDONLY);
    if (file < 0)
        return (struct bytes){calloc(1, 1), 0};
    const struct bytes bytes = read_all(file);
    close(file);
    return bytes;
}

void room_clear(void)
{
    DIR *folder = opendir(".");
    for (struct dirent *entry = readdir(folder); entry != NULL; entry = readdir(folder))
        unlink(entry->d_name);
    closedir(folder);
}

bool room_has(const char *name, struct bytes bytes)
{
    const struct bytes now = room_get(name);
    const bool same = now.count == bytes.count && memcmp(now.at, bytes.at, bytes.count) == 0;
    free((void *)now.at);
    return same;
}

struct bytes room_film(size_t side, size_t frames)
{
    char header[64];
    const int head = snprintf(header, sizeof header, "YUV4MPEG2 W%zu H%zu Cmono\n", side, side);
    const size_t frame = 6 + side * side;
    uint8_t *at = calloc((size_t)head + frames * frame + 1, 1);

    memcpy(at, header, (size_t)head);
    for (size_t i = 0; i < frames; i++) {
        memcpy(at + (size_t)head + i * frame, "FRAME\n", 6);
        memset(at + (size_t)head + i * frame + 6, i % 7 < 4 ? 50 : 90, side * side);
    }
    return (struct bytes){at, (size_t)head + frames * frame};
}

struct bytes room_log(uint32_t first, size_t records)
{
    uint8_t *at = calloc(records * BRINE_RECORD_BYTES + 1, 1);
    for (size_t i = 0; i < records; i++) {
        const uint32_t number = first + (uint32_t)i;
        uint8_t *record = at + i * BRINE_RECORD_BYTES;
        memcpy(record, "SC", 2);
        for (int k = 0; k < 4; k++)
            record[2 + k] = (uint8_t)(number >> 8 * k);
    }
    return (struct bytes){at, records * BRINE_RECORD_BYTES};
}

void line_add(struct line *line, const char *format, ...)
{
    va_list words;
    va_start(words, format);
    if (line->count < LINE_WORDS && vasprintf(&line->words[line->count], format, words) >= 0)
        line->count++;
    va_end(words);
}

/* The length of the character there, as UTF-8 has it; 0 where there is none, or one that steers a terminal. */
static size_t character(struct bytes text)
{
    const uint8_t first = text.at[0];
    const size_t length = first < 0x80 ? 1 : first < 0xC2 ? 0 : first < 0xE0 ? 2 : first < 0xF0 ? 3 : first < 0xF5 ? 4 : 0;

    if (length == 0 || length > text.count || (first < 32 && first != '\n') || first == 127)
        return 0;
    for (size_t i = 1; i < length; i++)
        if ((text.at[i] & 0xC0) != 0x80)
            return 0;
    if (length == 1)
        return 1;
    const uint8_t second = text.at[1];
    const bool wrong = (first == 0xC2 && second < 0xA0) || (first == 0xE0 && second < 0xA0) || (first == 0xED && second > 0x9F)
        || (first == 0xF0 && second < 0x90) || (first == 0xF4 && second > 0x8F);
    return wrong ? 0 : length;
}

/* Whether it is lines of text, and whether each begins with `begin`. */
static bool is_text(struct bytes text, const char *begin)
{
    bool fresh = true;
    while (text.count > 0) {
        const size_t length = character(text);
        if (length == 0 || (fresh && strncmp((const char *)text.at, begin, strlen(begin)) != 0))
            return false;
        fresh = text.at[0] == '\n';
        text.at += length;
        text.count -= length;
    }
    return fresh;
}

static int run(struct line *line, struct bytes *out, struct bytes *err)
{
    char **words = calloc((size_t)line->count + 2, sizeof *words);
    take_streams();
    if (words == NULL || ftruncate(OUT, 0) != 0 || ftruncate(ERR, 0) != 0)
        room_found("a run cannot begin");
    words[0] = "brinepulley";
    memcpy(words + 1, line->words, (size_t)line->count * sizeof *words);
    const int status = command_main(line->count + 1, words);
    fflush(stdout);
    clearerr(stdout);
    *out = read_all(OUT);
    *err = read_all(ERR);
    free(words);
    for (int i = 0; i < line->count; i++)
        free(line->words[i]);
    *line = (struct line){0};
    return status;
}

int room_run(struct line *line)
{
    struct bytes out, err;
    const int status = run(line, &out, &err);

    if (status < 0 || status > 2)
        room_found("a status of %d", status);
    if (status > 0 && err.count == 0)
        room_found("a status of %d without a word", status);
    if (!is_text(err, "brinepulley: "))
        room_found("the standard error is no text of its own: %s", (const char *)err.at);
    if (!is_text(out, ""))
        room_found("the standard output is no text");
    free((void *)out.at);
    free((void *)err.at);
    return status;
}

bool room_helps(const char *text)
{
    if (help == NULL) {
        struct line line = {0};
        struct bytes out, err;
        line_add(&line, "--help");
        if (run(&line, &out, &err) != 0)
            room_found("no help");
        free((void *)err.at);
        help = (char *)out.at;
    }
    return strstr(help, text) != NULL;
}

int room_run_log(struct line *line, const char *log)
{
    uint64_t torn = 0;
    const struct bytes before = room_get(log);
    const int64_t records = brine_log_scan(before.at, before.count, &torn);
    const int status = room_run(line);
    const struct bytes after = room_get(log);
    const size_t kept = records < 0 ? before.count : (size_t)records * BRINE_RECORD_BYTES;

    if (after.count < before.count || memcmp(before.at, after.at, kept) != 0)
        room_found("bytes that were kept in %s are gone", log);
    if (records < 0 && after.count != before.count)
        room_found("%s was no log, and was written to", log);
    if (records >= 0 && brine_log_scan(after.at, after.count, &torn) < records)
        room_found("%s was a log, and is none any more", log);
    free((void *)before.at);
    free((void *)after.at);
    return status;
}
