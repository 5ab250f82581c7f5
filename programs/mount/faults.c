// What the server says on standard error: it goes on to that of this program. Of the trace's file it is noted why it
// couldn't be written.
#include "mount.h"

#include <errno.h>
#include <fcntl.h>
#include <poll.h>
#include <pthread.h>
#include <stdatomic.h>
#include <stdio.h>
#include <string.h>
#include <sys/eventfd.h>
#include <unistd.h>

enum { LINE = PATH_MAX + 512 };

static struct {
    pthread_t thread;
    bool is_heard;
    int pipe, ended;
    const char *trace;
    char why[256]; // the thread's, as the next one, until it has ended
    bool failed;
    atomic_bool put_back;
} faults;

// What follows this word at the front of a text, or NULL.
static const char *behind(const char *text, const char *word)
{
    size_t size = strlen(word);
    return text && !strncmp(text, word, size) ? text + size : NULL;
}

// A line, without its newline.
static void note(const char *line)
{
    const char *why = behind(behind(behind(line, "cannot write "), faults.trace), ": ");
    const char *again = behind(behind(line, faults.trace), " is written again");
    if (why || again)
        snprintf(faults.why, sizeof faults.why, "%s", why ? why : "");
    faults.failed |= !strcmp(line, "trace failed");
    const char *became = behind(line, faults.trace);
    if (became && strstr(became, ", and is there again"))
        atomic_store(&faults.put_back, true);
    else if (became && strstr(became, ", and can't be put back"))
        atomic_store(&faults.put_back, false);
}

static void pass_on(char *line, size_t size)
{
    say_line(line, size);
    line[size - 1] = 0;
    note(line);
}

// Waits for what is to be read. False at the end: a process that the server has started may have the pipe for longer.
static bool waits_for_more(void)
{
    struct pollfd events[] = {{.fd = faults.pipe, .events = POLLIN}, {.fd = faults.ended, .events = POLLIN}};
    while (poll(events, 2, -1) < 0)
        ;
    return events[0].revents;
}

// A line that has no room, or no newline at the end, goes on in parts.
static void *hear(void *unused)
{
    char line[LINE];
    size_t held = 0;
    ssize_t got;
    (void)unused;
    while (waits_for_more() && (got = read(faults.pipe, line + held, sizeof line - held)) > 0) {
        held += (size_t)got;
        for (char *end; (end = memchr(line, '\n', held)) || held == sizeof line;) {
            size_t size = end ? (size_t)(end - line) + 1 : held;
            pass_on(line, size);
            held -= size;
            memmove(line, line + size, held);
        }
    }
    if (held)
        pass_on(line, held);
    // Nobody hears the server any more: its writes fail, and don't wait.
    close(faults.pipe);
    return NULL;
}

int faults_open(const char *trace)
{
    int ends[2];
    if (pipe2(ends, O_CLOEXEC) < 0)
        return -1;
    faults.pipe = ends[0];
    faults.ended = eventfd(0, EFD_CLOEXEC);
    faults.trace = trace;
    faults.failed = false;
    faults.why[0] = 0;
    atomic_store(&faults.put_back, false);
    if (faults.ended >= 0)
        errno = pthread_create(&faults.thread, NULL, hear, NULL);
    faults.is_heard = faults.ended >= 0 && !errno;
    if (faults.is_heard)
        return ends[1];
    close(ends[0]);
    close(ends[1]);
    if (faults.ended >= 0)
        close(faults.ended);
    return -1;
}

void faults_end(void)
{
    uint64_t one = 1;
    if (!faults.is_heard || write(faults.ended, &one, sizeof one) < 0)
        return;
    pthread_join(faults.thread, NULL);
    close(faults.ended);
    faults.is_heard = false;
}

bool faults_put_back(void)
{
    return atomic_exchange(&faults.put_back, false);
}

bool faults_of_trace(char *said, size_t room)
{
    if (faults.failed && faults.why[0])
        snprintf(said, room, ": %s lacks lines, since it couldn't be written: %s", faults.trace, faults.why);
    else if (faults.failed)
        snprintf(said, room, ": %s lacks lines, is spoilt, or is gone", faults.trace);
    return faults.failed;
}
