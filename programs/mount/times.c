// When messages went to the server, and when its replies came: a line for each, for
// programs/lockd_report. docs/TRACE.md has the form.
#include "mount.h"

#include <errno.h>
#include <fcntl.h>
#include <inttypes.h>
#include <pthread.h>
#include <stdio.h>
#include <string.h>
#include <unistd.h>

enum { LINE = 64 };

static struct {
    const char *path;
    atomic_int file; // -1: nothing is written
    pthread_mutex_t lock;
} times = {.file = -1, .lock = PTHREAD_MUTEX_INITIALIZER};

void times_start(const char *path)
{
    if (!path)
        return;
    int file = open(path, O_WRONLY | O_CREAT | O_EXCL | O_CLOEXEC, 0644);
    if (file < 0)
        fail("cannot make %s for the times", path);
    times.path = path;
    atomic_store(&times.file, file);
}

void times_drop(void)
{
    if (times.path)
        unlink(times.path);
}

// A line that is written in part is the last one: what came after it couldn't be read.
static void write_line(const char *line, size_t size)
{
    pthread_mutex_lock(&times.lock);
    int file = atomic_load(&times.file);
    errno = 0;
    if (file >= 0 && write(file, line, size) != (ssize_t)size) {
        say("times are no longer written to %s: %s", times.path, strerror(errno ? errno : ENOSPC));
        atomic_store(&times.file, -1);
    }
    pthread_mutex_unlock(&times.lock);
}

void times_note(const char *kind, uint64_t unique)
{
    struct timespec at;
    char line[LINE];
    if (atomic_load_explicit(&times.file, memory_order_relaxed) < 0)
        return;
    clock_gettime(CLOCK_MONOTONIC, &at);
    uint64_t time = (uint64_t)at.tv_sec * 1000000000 + (uint64_t)at.tv_nsec;
    int size = snprintf(line, sizeof line, "%s %" PRIu64 " %" PRIu64 "\n", kind, unique, time);
    write_line(line, (size_t)size);
}
