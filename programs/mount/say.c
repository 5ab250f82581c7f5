// What the program says: to a person on standard error, and to the service manager.
#include "mount.h"

#include <errno.h>
#include <fcntl.h>
#include <poll.h>
#include <stdarg.h>
#include <stdio.h>
#include <stdlib.h>
#include <string.h>
#include <sys/socket.h>
#include <sys/stat.h>
#include <sys/un.h>
#include <unistd.h>

enum { LINE = 4096 + 512 };
enum { PATIENCE = 1000, TRIES = 64 }; // PATIENCE: milliseconds

// Where lines go. A pipe or a terminal is opened once more, since all who have one open share whether its writes wait.
static int errors = STDERR_FILENO;

void say_without_waiting(void)
{
    struct stat at;
    if (fstat(STDERR_FILENO, &at) || (!S_ISFIFO(at.st_mode) && !isatty(STDERR_FILENO)))
        return;
    int opened = open("/proc/self/fd/2", O_WRONLY | O_NONBLOCK | O_NOCTTY | O_CLOEXEC);
    if (opened >= 0)
        errors = opened;
}

// A socket can be told with each write that it isn't to wait.
static ssize_t write_some(const char *line, size_t size)
{
    ssize_t sent = send(errors, line, size, MSG_DONTWAIT);
    return sent < 0 && errno == ENOTSOCK ? write(errors, line, size) : sent;
}

static int milliseconds_until(double end)
{
    double left = (end - seconds()) * 1000;
    return left > 0 ? (int)left : 0;
}

// One write where there is room, so that lines of two threads don't mix. It leaves errno as it was.
void say_line(const char *line, size_t size)
{
    static atomic_int patience = PATIENCE;
    int error = errno;
    double end = seconds() + patience / 1000.0;
    struct pollfd to = {.fd = errors, .events = POLLOUT};
    for (int tries = 0; size && tries < TRIES && poll(&to, 1, milliseconds_until(end)) > 0; tries++) {
        ssize_t written = write_some(line, size);
        if (written < 0 && errno != EAGAIN && errno != EINTR)
            break;
        line += written > 0 ? written : 0;
        size -= written > 0 ? (size_t)written : 0;
    }
    patience = size ? 0 : PATIENCE;
    errno = error;
}

static void say_with(int error, const char *what, va_list words)
{
    char line[LINE];
    int size = snprintf(line, sizeof line, "lockd_mount: ");
    size += vsnprintf(line + size, sizeof line - (size_t)size, what, words);
    if (error && size < LINE)
        size += snprintf(line + size, sizeof line - (size_t)size, ": %s", strerror(error));
    if (size > LINE - 2)
        size = LINE - 2;
    line[size++] = '\n';
    say_line(line, (size_t)size);
}

void say(const char *what, ...)
{
    va_list words;
    va_start(words, what);
    say_with(0, what, words);
    va_end(words);
}

void fail(const char *what, ...)
{
    int error = errno;
    va_list words;
    va_start(words, what);
    say_with(error, what, words);
    va_end(words);
    exit(STATUS_NOT_MOUNTED);
}

void notify(const char *what, ...)
{
    struct sockaddr_un address = {.sun_family = AF_UNIX};
    const char *path = getenv("NOTIFY_SOCKET");
    size_t length = path ? strlen(path) : 0;
    if (!length || length >= sizeof address.sun_path || (*path != '/' && *path != '@'))
        return;
    char line[LINE];
    va_list words;
    va_start(words, what);
    int size = vsnprintf(line, sizeof line, what, words);
    va_end(words);
    memcpy(address.sun_path, path, length);
    // An abstract address begins with a zero byte.
    if (*path == '@')
        address.sun_path[0] = 0;
    int to = socket(AF_UNIX, SOCK_DGRAM | SOCK_CLOEXEC, 0);
    socklen_t room = (socklen_t)(offsetof(struct sockaddr_un, sun_path) + length);
    if (to >= 0 && size > 0)
        sendto(to, line, (size_t)(size < LINE ? size : LINE - 1), MSG_NOSIGNAL, (struct sockaddr *)&address, room);
    if (to >= 0)
        close(to);
}

double seconds(void)
{
    struct timespec at;
    clock_gettime(CLOCK_MONOTONIC, &at);
    return (double)at.tv_sec + (double)at.tv_nsec / 1e9;
}
