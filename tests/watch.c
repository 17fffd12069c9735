/* Calls that the linker leads here instead of to libc (--wrap, in the Makefile). They are made as asked, save for:
     WATCH_CALLS=FILE   each call of pwrite, fdatasync and fsync is written to FILE, with the inode of the file that it is for
     WATCH_FAULT=NAME   the first call that has a fault of this name below has it
     WATCH_LATER=FILE   the first read is short, and before the second the bytes of FILE go over the file that is read
     WATCH_BROKEN=NAME  a file that is opened by this name cannot be read further than the first WATCH_BYTES bytes */
#define _GNU_SOURCE /* fopencookie */
#include <errno.h>
#include <stdarg.h>
#include <stdbool.h>
#include <stdio.h>
#include <stdlib.h>
#include <string.h>
#include <sys/stat.h>
#include <unistd.h>

enum { SHORT_WRITE = 20, SHORT_READ = 50 };

ssize_t __real_pwrite(int file, const void *bytes, size_t count, off_t at);
ssize_t __wrap_pwrite(int file, const void *bytes, size_t count, off_t at);
int __real_fdatasync(int file);
int __wrap_fdatasync(int file);
int __real_fsync(int file);
int __wrap_fsync(int file);
ssize_t __real_read(int file, void *bytes, size_t count);
ssize_t __wrap_read(int file, void *bytes, size_t count);
FILE *__real_fopen(const char *path, const char *mode);
FILE *__wrap_fopen(const char *path, const char *mode);

static void note(const char *call, int file, const char *format, ...)
{
    const char *path = getenv("WATCH_CALLS");
    FILE *calls = path == NULL ? NULL : fopen(path, "a");
    struct stat about = {0};
    va_list words;

    if (calls == NULL)
        return;
    fstat(file, &about);
    fprintf(calls, "%s %llu", call, (unsigned long long)about.st_ino);
    va_start(words, format);
    vfprintf(calls, format, words);
    va_end(words);
    fputc('\n', calls);
    fclose(calls);
}

/* Whether this fault is due: it comes once. */
static bool due(const char *fault)
{
    static bool done = false;
    const char *wanted = getenv("WATCH_FAULT");
    if (done || wanted == NULL || strcmp(wanted, fault) != 0)
        return false;
    done = true;
    return true;
}

static int failed(int number)
{
    errno = number;
    return -1;
}

ssize_t __wrap_pwrite(int file, const void *bytes, size_t count, off_t at)
{
    note("pwrite", file, " %lld %zu", (long long)at, count);
    if (due("pwrite interrupted"))
        return failed(EINTR);
    return __real_pwrite(file, bytes, due("pwrite short") ? SHORT_WRITE : count, at);
}

int __wrap_fdatasync(int file)
{
    note("fdatasync", file, "");
    if (due("fdatasync interrupted"))
        return failed(EINTR);
    return due("fdatasync fails") ? failed(EIO) : __real_fdatasync(file);
}

int __wrap_fsync(int file)
{
    note("fsync", file, "");
    return due("fsync fails") ? failed(EIO) : __real_fsync(file);
}

/* Stands for another command that appends. A test that cannot be set up must not pass. */
static void put_over(int file, const char *later)
{
    char bytes[4096];
    FILE *from = fopen(later, "rb");
    const size_t count = from == NULL ? 0 : fread(bytes, 1, sizeof bytes, from);
    if (count == 0 || __real_pwrite(file, bytes, count, 0) != (ssize_t)count)
        abort();
    fclose(from);
}

ssize_t __wrap_read(int file, void *bytes, size_t count)
{
    static int reads = 0;
    const char *later = getenv("WATCH_LATER");

    if (due("read interrupted"))
        return failed(EINTR);
    if (later == NULL)
        return __real_read(file, bytes, count);
    reads++;
    if (reads == 2)
        put_over(file, later);
    return __real_read(file, bytes, reads == 1 && count > SHORT_READ ? SHORT_READ : count);
}

/* A file on a card that goes bad: behind so many bytes each read fails. */
struct broken {
    FILE *file;
    size_t left;
};

static ssize_t broken_read(void *cookie, char *bytes, size_t count)
{
    struct broken *broken = cookie;
    const size_t part = count < broken->left ? count : broken->left;
    const size_t got = fread(bytes, 1, part, broken->file);
    broken->left -= got;
    return got == 0 && part == 0 ? failed(EIO) : (ssize_t)got;
}

static int broken_close(void *cookie)
{
    struct broken *broken = cookie;
    const int closed = fclose(broken->file);
    free(broken);
    return closed;
}

FILE *__wrap_fopen(const char *path, const char *mode)
{
    const char *name = getenv("WATCH_BROKEN"), *bytes = getenv("WATCH_BYTES");
    FILE *file = __real_fopen(path, mode);
    if (file == NULL || name == NULL || bytes == NULL || strcmp(name, path) != 0)
        return file;
    struct broken *broken = malloc(sizeof *broken);
    if (broken == NULL)
        abort();
    *broken = (struct broken){file, strtoul(bytes, NULL, 10)};
    return fopencookie(broken, mode, (cookie_io_functions_t){.read = broken_read, .close = broken_close});
}
