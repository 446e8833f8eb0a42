/* Lets one call of a program fail, for .ci/sweeps, which loads it before the C library by LD_PRELOAD.
 *
 * REFUSE names what fails, and the number of the call, counted from 1: "alloc 7" is the seventh call of
 * malloc, calloc or realloc, which gives no memory; "io 7" the seventh read, write, sync or new length of a
 * file, which does nothing and answers EIO; "short 7" the seventh read or write of two bytes or more, which
 * moves one; "open 7" the seventh opening, second number, lock or look at the metadata of a file, which answers
 * EIO; "disk 7" the seventh read or write at a place, or sync, which does nothing and answers EIO. With a plus,
 * "io 7+", each later one fails too. No write to standard error is counted: what failed is told there.
 * REFUSE_COUNT names a file into which the number of calls of each kind goes at the end, and behind these how many
 * writes at a place, bytes of them and syncs there were. Threads count as one.
 * For stops, REFUSE_STOP names a file: with the ending ".synced" it has what the last sync that succeeded left, and
 * with ".places" a line for each write since, its place and its length, also for one that failed; with ".folders" it
 * has the number of each folder that was synced.
 * REFUSE_LENGTH is a length that a file has once its lock is taken, as if another program had held the lock and given
 * the file that length. With REFUSE_TWINS all files have one number, each on a device of its own.
 */
#define _GNU_SOURCE
#include <dlfcn.h>
#include <errno.h>
#include <fcntl.h>
#include <stdarg.h>
#include <stdatomic.h>
#include <stdio.h>
#include <stdlib.h>
#include <string.h>
#include <sys/file.h>
#include <sys/stat.h>
#include <sys/syscall.h>
#include <unistd.h>

enum { ALLOC, IO, SHORT, OPEN, DISK, KINDS };

static const char *const names[KINDS] = {"alloc", "io", "short", "open", "disk"};
static atomic_ulong calls[KINDS];
static unsigned long chosen[KINDS];
static int and_later[KINDS];
static atomic_int counting;
static atomic_ulong writes, bytes_written, syncs;

/* The functions of the C library. While dlsym looks them up it may itself ask for memory. */
static void *(*real_malloc)(size_t);
static void *(*real_calloc)(size_t, size_t);
static void *(*real_realloc)(void *, size_t);
static ssize_t (*real_read)(int, void *, size_t);
static ssize_t (*real_write)(int, const void *, size_t);
static ssize_t (*real_pread)(int, void *, size_t, off_t);
static ssize_t (*real_pwrite)(int, const void *, size_t, off_t);
static int (*real_fsync)(int);
static int (*real_ftruncate)(int, off_t);
static int (*real_open)(const char *, int, ...);
static int (*real_fcntl)(int, int, ...);
static int (*real_flock)(int, int);
static int (*real_statx)(int, const char *, int, unsigned, struct statx *);

static char early[65536];
static size_t early_used;

static void find(void *function, const char *name)
{
    void *found = dlsym(RTLD_NEXT, name);
    memcpy(function, &found, sizeof found);
}

__attribute__((constructor)) static void begin(void)
{
    find(&real_calloc, "calloc");
    find(&real_malloc, "malloc");
    find(&real_realloc, "realloc");
    find(&real_read, "read");
    find(&real_write, "write");
    find(&real_pread, "pread");
    find(&real_pwrite, "pwrite");
    find(&real_fsync, "fsync");
    find(&real_ftruncate, "ftruncate");
    find(&real_open, "open");
    find(&real_fcntl, "fcntl");
    find(&real_flock, "flock");
    find(&real_statx, "statx");
    const char *said = getenv("REFUSE");
    for (int kind = 0; said && kind < KINDS; kind++) {
        size_t length = strlen(names[kind]);
        char *rest;
        if (!strncmp(said, names[kind], length) && said[length] == ' ') {
            chosen[kind] = strtoul(said + length, &rest, 10);
            and_later[kind] = *rest == '+';
        }
    }
    counting = 1;
}

__attribute__((destructor)) static void end(void)
{
    counting = 0;
    const char *path = getenv("REFUSE_COUNT");
    int file = path ? real_open(path, O_WRONLY | O_CREAT | O_TRUNC, 0600) : -1;
    if (file < 0)
        return;
    char line[256];
    int length = snprintf(line, sizeof line, "%lu %lu %lu %lu %lu %lu %lu %lu\n", calls[ALLOC], calls[IO],
                          calls[SHORT], calls[OPEN], calls[DISK], writes, bytes_written, syncs);
    if (real_write(file, line, (size_t)length) != length)
        abort();
    close(file);
}

/* (A program that has threads leaves without its destructors.) */
__attribute__((noreturn)) void _exit(int status)
{
    end();
    for (;;)
        syscall(SYS_exit_group, status);
}

/* Whether this call is the one that was chosen. */
static int is_chosen(int kind)
{
    if (!counting)
        return 0;
    unsigned long number = atomic_fetch_add(&calls[kind], 1) + 1;
    return number == chosen[kind] || (and_later[kind] && number > chosen[kind]);
}

void *malloc(size_t size)
{
    if (!real_malloc) {
        size_t at = (early_used + 15) / 16 * 16;
        if (size > sizeof early - at)
            return NULL;
        early_used = at + size;
        return early + at;
    }
    if (is_chosen(ALLOC)) {
        errno = ENOMEM;
        return NULL;
    }
    return real_malloc(size);
}

void *calloc(size_t count, size_t size)
{
    if (!real_calloc)
        return malloc(count * size);
    if (is_chosen(ALLOC)) {
        errno = ENOMEM;
        return NULL;
    }
    return real_calloc(count, size);
}

void *realloc(void *old, size_t size)
{
    if (is_chosen(ALLOC)) {
        errno = ENOMEM;
        return NULL;
    }
    return real_realloc(old, size);
}

static int fails_as(int kind)
{
    if (!is_chosen(kind))
        return 0;
    errno = EIO;
    return 1;
}

static int fails(int file)
{
    return file != 2 && fails_as(IO);
}

static int fails_at(int file)
{
    int disk = fails_as(DISK);
    return fails(file) || disk;
}

static int stop_file(const char *ending, int flags)
{
    char name[4096];
    const char *path = getenv("REFUSE_STOP");
    if (!path || snprintf(name, sizeof name, "%s%s", path, ending) >= (int)sizeof name)
        return -1;
    return real_open(name, O_WRONLY | O_CREAT | flags, 0600);
}

static void note_write(size_t size, off_t at)
{
    char line[64];
    int to = stop_file(".places", O_APPEND), length = snprintf(line, sizeof line, "%ld %zu\n", (long)at, size);
    if (to < 0)
        return;
    if (real_write(to, line, (size_t)length) != length)
        abort();
    close(to);
}

static void note_folder(ino_t number)
{
    char line[32];
    int to = stop_file(".folders", O_APPEND), length = snprintf(line, sizeof line, "%lu\n", (unsigned long)number);
    if (to < 0)
        return;
    if (real_write(to, line, (size_t)length) != length)
        abort();
    close(to);
}

static void note_sync(int file)
{
    char bytes[65536];
    ssize_t count;
    struct stat it;
    if (!fstat(file, &it) && S_ISDIR(it.st_mode)) {
        note_folder(it.st_ino);
        return;
    }
    int to = stop_file(".synced", O_TRUNC), places = stop_file(".places", O_TRUNC);
    if (to < 0)
        return;
    for (off_t at = 0; (count = real_pread(file, bytes, sizeof bytes, at)) > 0; at += count)
        if (real_write(to, bytes, (size_t)count) != count)
            abort();
    close(to);
    close(places);
}

static size_t moved(int file, size_t size)
{
    return file != 2 && size > 1 && is_chosen(SHORT) ? 1 : size;
}

ssize_t read(int file, void *to, size_t size)
{
    return fails(file) ? -1 : real_read(file, to, moved(file, size));
}

ssize_t write(int file, const void *from, size_t size)
{
    return fails(file) ? -1 : real_write(file, from, moved(file, size));
}

ssize_t pread(int file, void *to, size_t size, off_t at)
{
    return fails_at(file) ? -1 : real_pread(file, to, moved(file, size), at);
}

ssize_t pwrite(int file, const void *from, size_t size, off_t at)
{
    note_write(size, at);
    writes++;
    bytes_written += size;
    return fails_at(file) ? -1 : real_pwrite(file, from, moved(file, size), at);
}

int fsync(int file)
{
    syncs++;
    if (fails_at(file) || real_fsync(file))
        return -1;
    note_sync(file);
    return 0;
}

/* It need not keep a file's length, so it is no fsync: a program that takes it for one fails here. */
int fdatasync(int file)
{
    (void)file;
    errno = ENOSYS;
    return -1;
}

int ftruncate(int file, off_t length)
{
    return fails(file) ? -1 : real_ftruncate(file, length);
}

int open(const char *path, int flags, ...)
{
    va_list more;
    va_start(more, flags);
    unsigned mode = va_arg(more, unsigned);
    va_end(more);
    return fails_as(OPEN) ? -1 : real_open(path, flags, mode);
}

int fcntl(int file, int command, ...)
{
    va_list more;
    va_start(more, command);
    long value = va_arg(more, long);
    va_end(more);
    return fails_as(OPEN) ? -1 : real_fcntl(file, command, value);
}

int flock(int file, int operation)
{
    const char *length = getenv("REFUSE_LENGTH");
    if (fails_as(OPEN) || real_flock(file, operation))
        return -1;
    if (length && real_ftruncate(file, atol(length)))
        abort();
    return 0;
}

int statx(int folder, const char *path, int flags, unsigned mask, struct statx *found)
{
    if (fails_as(OPEN) || real_statx(folder, path, flags, mask, found))
        return -1;
    if (getenv("REFUSE_TWINS")) {
        found->stx_dev_major = found->stx_dev_minor;
        found->stx_dev_minor = (unsigned)found->stx_ino;
        found->stx_ino = 1;
    }
    return 0;
}
