// The head of a trace that a server may go on with: FILE names its rules from the first line on. `lockd state` prints it.
#include "mount.h"

#include <errno.h>
#include <fcntl.h>
#include <signal.h>
#include <string.h>
#include <sys/file.h>
#include <sys/mman.h>
#include <sys/wait.h>
#include <unistd.h>

enum { STEP = 1000 }; // microseconds between two looks
enum { PATIENCE = 30 }; // seconds until a program that doesn't end is killed
enum { ROOM = 256 }; // bytes for a head of two lines

// Becomes `lockd state` of a trace without lines.
static void run_state(const struct server *server, const struct options *options, int to)
{
    const char *words[MOST_RULES + 3] = {server->program, "state"};
    for (int i = 0; i < options->rule_count; i++)
        words[2 + i] = options->rules[i];
    sigset_t none;
    sigemptyset(&none);
    sigprocmask(SIG_SETMASK, &none, NULL);
    int nothing = open("/dev/null", O_RDONLY);
    if (dup2(nothing, STDIN_FILENO) < 0 || dup2(to, STDOUT_FILENO) < 0)
        _exit(127);
    execv(server->program, (char *const *)(uintptr_t)words);
    _exit(127);
}

// Waits for the end of the process, and gives its status.
static int status_of(pid_t child, const struct server *server, bool (*stops)(void))
{
    double last = seconds() + PATIENCE;
    int status;
    while (waitpid(child, &status, WNOHANG) != child) {
        bool is_stopped = stops();
        if (is_stopped || seconds() > last) {
            kill(child, SIGKILL);
            waitpid(child, &status, 0);
            errno = 0;
            fail(is_stopped ? "ended before anything was mounted" : "`%s state` doesn't end; nothing is mounted", server->program);
        }
        usleep(STEP);
    }
    return status;
}

// Puts the head of an empty directory by these rules, and gives its size.
static size_t put_head(char *head, const struct server *server, const struct options *options, bool (*stops)(void))
{
    int to = memfd_create("head", MFD_CLOEXEC);
    pid_t child = to < 0 ? -1 : fork();
    if (!child)
        run_state(server, options, to);
    if (child < 0)
        fail("cannot start %s", server->program);
    int status = status_of(child, server, stops);
    ssize_t size = pread(to, head, ROOM, 0);
    close(to);
    errno = 0;
    if (!WIFEXITED(status) || WEXITSTATUS(status))
        fail("`%s state` ended with status %d; nothing is mounted", server->program,
             WIFEXITED(status) ? WEXITSTATUS(status) : 128 + WTERMSIG(status));
    if (size < 9 || size == ROOM || memcmp(head, "state 0 ", 8) || memcmp(head + size - 4, "\ngo\n", 4))
        fail("`%s state` prints no head: is it older than this lockd_mount? Nothing is mounted", server->program);
    return (size_t)size;
}

// Whether the file has these bytes alone.
static bool has_only(int file, const char *bytes, size_t size)
{
    char found[ROOM];
    return pread(file, found, sizeof found, 0) == (ssize_t)size && !memcmp(found, bytes, size);
}

void head_begin(struct server *server, const struct options *options, bool (*stops)(void))
{
    char head[ROOM];
    const char *path = server->trace.path;
    size_t size = put_head(head, server, options, stops);
    int file = open(path, O_RDWR | O_APPEND | O_CREAT | O_NOFOLLOW | O_CLOEXEC, 0666);
    if (file < 0)
        fail("cannot make %s", path);
    if (flock(file, LOCK_EX | LOCK_NB)) {
        errno = errno == EWOULDBLOCK ? 0 : errno;
        fail("%s is in use by another server: name a new one", path);
    }
    struct stat at;
    bool is_empty = !fstat(file, &at) && S_ISREG(at.st_mode) && !at.st_size;
    errno = 0;
    if (!is_empty && !has_only(file, head, size))
        fail("%s isn't an empty file: name a new one, since the processes that held its locks are gone", path);
    server->head = size;
    // One write of so few bytes is whole, also if this program is killed.
    ssize_t written = is_empty ? write(file, head, size) : (ssize_t)size;
    int error = written < 0 ? errno : ENOSPC;
    close(file);
    errno = error;
    if (written != (ssize_t)size)
        fail("cannot write %s", path);
}

void head_drop(const struct server *server, bool may_have_served)
{
    const char *path = server->trace.path;
    struct stat at;
    int file = open(path, O_RDWR | O_NOFOLLOW | O_CLOEXEC);
    // Another carrier may have begun with it at the same time: then its server has it.
    bool is_ours = file >= 0 && !flock(file, LOCK_EX | LOCK_NB) && !fstat(file, &at) && (may_have_served || (size_t)at.st_size <= server->head);
    if (is_ours && !server->was_there)
        unlink(path);
    else if (is_ours && ftruncate(file, 0))
        say("%s isn't empty any more", path);
    if (file >= 0)
        close(file);
}
