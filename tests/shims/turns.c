// Preloaded to a server with --rotate: counts the calls by which it begins a new piece of its file, makes them move few bytes, fails some,
// notes them, and kills the server at one.
//
// These calls unlink FILE.new or FILE.N, open FILE.new, lock, write and fdatasync it, link FILE.N and rename FILE.new. The lines that are
// written to it once it is FILE count, too, as kind `line`. NOTES names a file that gets a line for each call: its kind, and what it gave, or
// minus its error. MOST is the most bytes that a write of a head moves, if it isn't 0. FAILS has a kind, the number of its first call that
// fails, from 1, that of the last one, and their error, and perhaps more such groups, with a comma between two.
//
// DIES has a word and the number of a call, from 1, whatever its kind. The server dies `before` that call, `after` it, or after `half` of its
// bytes: only writes have a half.
#define _GNU_SOURCE
#include <errno.h>
#include <fcntl.h>
#include <signal.h>
#include <stdarg.h>
#include <stdio.h>
#include <stdlib.h>
#include <string.h>
#include <sys/syscall.h>
#include <unistd.h>

enum kind { UNLINK, OPEN, FLOCK, WRITE, FDATASYNC, LINK, RENAME, LINE, KINDS };
enum death { NEVER, BEFORE, HALF, AFTER };

struct calling {
    enum kind kind;
    enum death death;
    int error;
};

static const char *const names[KINDS] = {"unlink", "open", "flock", "write", "fdatasync", "link", "rename", "line"};
static const char *fails;
static unsigned long made[KINDS], all, last;
static size_t most;
static int notes = -1;
static enum death death;
// The new piece, and whether it has the name FILE by now.
static int piece = -1, is_file;

__attribute__((constructor)) static void begin(void)
{
    const char *path = getenv("NOTES"), *dies = getenv("DIES"), *bytes = getenv("MOST");
    char word[8];
    fails = getenv("FAILS");
    most = bytes ? strtoul(bytes, NULL, 10) : 0;
    if (path)
        notes = (int)syscall(SYS_openat, AT_FDCWD, path, O_WRONLY | O_CREAT | O_APPEND | O_CLOEXEC, 0600);
    if (dies && sscanf(dies, "%7s %lu", word, &last) == 2)
        death = !strcmp(word, "before") ? BEFORE : !strcmp(word, "half") ? HALF : AFTER;
}

static void die(void)
{
    syscall(SYS_kill, getpid(), SIGKILL);
}

// The error of a call of this kind and number, or 0 if it doesn't fail.
static int error_of(enum kind kind, unsigned long number)
{
    char name[12];
    unsigned long first, end;
    int error;
    for (const char *at = fails; at; at = strchr(at, ',')) {
        at += *at == ',';
        if (sscanf(at, "%11s %lu %lu %d", name, &first, &end, &error) == 4 && !strcmp(name, names[kind]) && first <= number && number <= end)
            return error;
    }
    return 0;
}

static struct calling called(enum kind kind)
{
    struct calling it = {kind, ++all == last ? death : NEVER, error_of(kind, ++made[kind])};
    if (it.death == BEFORE)
        die();
    errno = it.error;
    return it;
}

static long ended(struct calling it, long result)
{
    char line[40];
    int error = errno;
    if (notes >= 0)
        (void)!syscall(SYS_write, notes, line, (size_t)sprintf(line, "%s %ld\n", names[it.kind], result < 0 ? -(long)error : result));
    if (it.death != NEVER)
        die();
    errno = error;
    return result;
}

// Whether it is FILE.new, or FILE.N.
static int is_piece(const char *path)
{
    const char *end = strrchr(path, '.');
    return end && (!strcmp(end, ".new") || (end[1] && end[1 + strspn(end + 1, "0123456789")] == 0));
}

int unlink(const char *path)
{
    if (!is_piece(path))
        return (int)syscall(SYS_unlinkat, AT_FDCWD, path, 0);
    struct calling it = called(UNLINK);
    return (int)ended(it, it.error ? -1 : syscall(SYS_unlinkat, AT_FDCWD, path, 0));
}

int open(const char *path, int flags, ...)
{
    va_list more;
    va_start(more, flags);
    int mode = flags & O_CREAT ? va_arg(more, int) : 0;
    va_end(more);
    if (!(flags & O_CREAT) || !is_piece(path))
        return (int)syscall(SYS_openat, AT_FDCWD, path, flags, mode);
    struct calling it = called(OPEN);
    piece = it.error ? -1 : (int)syscall(SYS_openat, AT_FDCWD, path, flags, mode);
    is_file = 0;
    return (int)ended(it, piece);
}

int close(int fd)
{
    if (fd == piece)
        piece = -1;
    return (int)syscall(SYS_close, fd);
}

int flock(int fd, int operation)
{
    if (fd != piece)
        return (int)syscall(SYS_flock, fd, operation);
    struct calling it = called(FLOCK);
    return (int)ended(it, it.error ? -1 : syscall(SYS_flock, fd, operation));
}

ssize_t write(int fd, const void *bytes, size_t count)
{
    if (fd < 0 || fd != piece)
        return syscall(SYS_write, fd, bytes, count);
    struct calling it = called(is_file ? LINE : WRITE);
    size_t moved = it.death == HALF ? count / 2 : !is_file && most && most < count ? most : count;
    return ended(it, it.error ? -1 : syscall(SYS_write, fd, bytes, moved));
}

int fdatasync(int fd)
{
    if (fd != piece)
        return (int)syscall(SYS_fdatasync, fd);
    struct calling it = called(FDATASYNC);
    return (int)ended(it, it.error ? -1 : syscall(SYS_fdatasync, fd));
}

int link(const char *from, const char *to)
{
    struct calling it = called(LINK);
    return (int)ended(it, it.error ? -1 : syscall(SYS_linkat, AT_FDCWD, from, AT_FDCWD, to, 0));
}

int rename(const char *from, const char *to)
{
    struct calling it = called(RENAME);
    long result = it.error ? -1 : syscall(SYS_renameat2, AT_FDCWD, from, AT_FDCWD, to, 0);
    is_file |= !result;
    return (int)ended(it, result);
}
