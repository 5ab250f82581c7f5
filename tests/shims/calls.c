// Preloaded to a program: counts its calls of some kinds, makes them move fewer bytes, fails some, notes them, and kills the program at one.
//
// The variable that has the name of a kind (recv, send, read, write, allocate) begins with the most bytes that a call moves, or 0 for any
// number. Behind it may stand the number of the first call that fails, from 1, that of the last one, and their error, or 0 if they move no
// byte. A kind without a variable isn't counted. The file that NOTES names gets a line for each call that counts: its kind, and how many
// bytes it moved, or minus its error. The file that COUNTS names gets a line for each kind that is counted, when the program ends: how many
// calls there were. A read of a socket at which nothing waits never counts, nor does what goes to standard error.
//
// DIES has a word and the number of a call, from 1. The program dies `before` that call, `after` it, or after `half` of its bytes. These calls
// read, write or cut off a regular file, or read or write a socket, other than the standard streams; by `half` only writes count.
#define _GNU_SOURCE
#include <errno.h>
#include <fcntl.h>
#include <signal.h>
#include <stdio.h>
#include <stdlib.h>
#include <string.h>
#include <sys/socket.h>
#include <sys/stat.h>
#include <sys/syscall.h>
#include <unistd.h>

void *__libc_malloc(size_t size);
void *__libc_realloc(void *old, size_t size);

struct calls {
    const char *name;
    int counts;
    size_t most;
    unsigned long made, first, last;
    int error;
};

enum kind { RECV, SEND, READ, WRITE, ALLOCATE, KINDS };
enum death { NEVER, BEFORE, HALF, AFTER };

static struct calls calls[KINDS] = {{.name = "recv"}, {.name = "send"}, {.name = "read"}, {.name = "write"}, {.name = "allocate"}};
static int notes = -1;
static enum death death;
static unsigned long last, calls_of_files;

__attribute__((constructor)) static void begin(void)
{
    const char *path = getenv("NOTES"), *dies = getenv("DIES");
    char word[8];
    if (path)
        notes = open(path, O_WRONLY | O_CREAT | O_APPEND | O_CLOEXEC, 0600);
    if (dies && sscanf(dies, "%7s %lu", word, &last) == 2)
        death = !strcmp(word, "before") ? BEFORE : !strcmp(word, "half") ? HALF : AFTER;
    for (struct calls *it = calls; it < calls + KINDS; it++) {
        const char *text = getenv(it->name);
        it->counts = text && sscanf(text, "%zu %lu %lu %d", &it->most, &it->first, &it->last, &it->error) > 0;
    }
}

// No file of the C library is used here, since that takes memory.
static void put(int file, const char *name, ssize_t number)
{
    char line[40];
    int length = sprintf(line, "%s %zd\n", name, number);
    (void)!syscall(SYS_write, file, line, (size_t)length);
}

static void note(const struct calls *of, ssize_t moved)
{
    if (notes >= 0)
        put(notes, of->name, moved);
}

// Some programs end by a return from their `main`.
__attribute__((destructor)) static void end(void)
{
    const char *path = getenv("COUNTS");
    int file = path ? open(path, O_WRONLY | O_CREAT | O_TRUNC | O_CLOEXEC, 0600) : -1;
    for (struct calls *it = calls; file >= 0 && it < calls + KINDS; it++)
        if (it->counts)
            put(file, it->name, (ssize_t)it->made);
}

// A program with threads ends by this call, and runs no destructors.
void _exit(int status)
{
    end();
    syscall(SYS_exit_group, status);
    __builtin_unreachable();
}

// Counts a call, and says whether it fails.
static int fails(struct calls *of)
{
    unsigned long number = __atomic_add_fetch(&of->made, 1, __ATOMIC_SEQ_CST);
    return of->first <= number && number <= of->last;
}

static void die(void)
{
    syscall(SYS_kill, getpid(), SIGKILL);
}

// Says how the call that begins is to end the program, and ends it if that is before the call.
static enum death death_of(int fd, int writes)
{
    struct stat found;
    if (death == NEVER || fd <= STDERR_FILENO || fstat(fd, &found) || !(S_ISSOCK(found.st_mode) || S_ISREG(found.st_mode)))
        return NEVER;
    if ((death == HALF && !writes) || ++calls_of_files != last)
        return NEVER;
    if (death == BEFORE)
        die();
    return death;
}

static long outlived(enum death by, long result)
{
    if (by != NEVER)
        die();
    return result;
}

static ssize_t move(enum kind kind, long call, int fd, void *bytes, size_t count, int flags)
{
    struct calls *of = &calls[kind];
    enum death by = death_of(fd, kind == SEND || kind == WRITE);
    if (!of->counts || fd == STDERR_FILENO)
        return outlived(by, syscall(call, fd, bytes, by == HALF ? count / 2 : count, flags, NULL, NULL));
    ssize_t moved = of->error ? -1 : 0;
    if (fails(of))
        errno = of->error;
    else
        moved = syscall(call, fd, bytes, of->most && of->most < count ? of->most : count, flags, NULL, NULL);
    int error = errno;
    note(of, moved < 0 ? -error : moved);
    errno = error;
    return outlived(by, moved);
}

ssize_t recv(int fd, void *to, size_t room, int flags)
{
    char first;
    if (syscall(SYS_recvfrom, fd, &first, (size_t)1, flags | MSG_PEEK, NULL, NULL) < 0)
        return -1;
    return move(RECV, SYS_recvfrom, fd, to, room, flags);
}

ssize_t send(int fd, const void *bytes, size_t count, int flags)
{
    return move(SEND, SYS_sendto, fd, (void *)bytes, count, flags);
}

ssize_t read(int fd, void *to, size_t room)
{
    return move(READ, SYS_read, fd, to, room, 0);
}

ssize_t write(int fd, const void *bytes, size_t count)
{
    return move(WRITE, SYS_write, fd, (void *)bytes, count, 0);
}

int ftruncate(int fd, off_t length)
{
    enum death by = death_of(fd, 0);
    return (int)outlived(by, syscall(SYS_ftruncate, fd, length));
}

// Whether an allocation fails.
static int is_refused(size_t size)
{
    struct calls *of = &calls[ALLOCATE];
    if (!of->counts)
        return 0;
    int refused = fails(of);
    note(of, refused ? -ENOMEM : (ssize_t)size);
    return refused;
}

void *malloc(size_t size)
{
    return is_refused(size) ? NULL : __libc_malloc(size);
}

void *realloc(void *old, size_t size)
{
    return is_refused(size) ? NULL : __libc_realloc(old, size);
}
