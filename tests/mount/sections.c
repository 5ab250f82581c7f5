// Has processes take locks on the same files until the standard input ends, each for a section of its
// own, and looks whether others are in it: sections FOLDER PROCESSES SEED. Counters in shared
// memory say who is in a section. Some processes hold a lock for long, some give up at a signal, some
// are killed while they wait. Prints how many sections, interrupted calls and refusals there were. The
// status is 1 if two were in one section, or at an error that has no reason, which is named.
#define _GNU_SOURCE
#include <errno.h>
#include <fcntl.h>
#include <poll.h>
#include <signal.h>
#include <stdatomic.h>
#include <stdbool.h>
#include <stdio.h>
#include <stdlib.h>
#include <string.h>
#include <sys/file.h>
#include <sys/mman.h>
#include <sys/stat.h>
#include <sys/time.h>
#include <sys/wait.h>
#include <time.h>
#include <unistd.h>

// A lock of a process and one of an open file description are of one kind: they exclude each other.
enum { FILES = 4, RECORD = 0, WHOLE = 1, ALONE = 1 << 16 };

static struct {
    atomic_int inside[FILES][2]; // one for who shares it, ALONE for who doesn't
    atomic_bool ends;
    atomic_ulong sections, interrupted, refused;
} *all;

static const char *folder;
static int files[FILES];

static unsigned below(unsigned most)
{
    return (unsigned)rand() % most;
}

static void wrong(const char *what)
{
    fprintf(stderr, "%d: %s: %s\n", (int)getpid(), what, strerror(errno));
    exit(1);
}

static void well(int result, const char *what)
{
    if (result < 0)
        wrong(what);
}

static void wait_for(unsigned microseconds)
{
    struct timespec time = {.tv_sec = microseconds / 1000000, .tv_nsec = microseconds % 1000000 * 1000};
    nanosleep(&time, NULL);
}

// A call that waits ends with EINTR at the signal.
static void on_alarm(int signal)
{
    (void)signal;
}

static void alarm_in(unsigned microseconds)
{
    const struct itimerval timer = {.it_value = {.tv_usec = (int)microseconds}};
    setitimer(ITIMER_REAL, &timer, NULL);
}

static int record(int file, bool of_description, int type, bool waits)
{
    struct flock lock = {.l_type = (short)type, .l_whence = SEEK_SET, .l_start = 7, .l_len = 3};
    if (of_description)
        return fcntl(files[file], waits ? F_OFD_SETLKW : F_OFD_SETLK, &lock);
    return fcntl(files[file], waits ? F_SETLKW : F_SETLK, &lock);
}

static int take(int file, int kind, bool of_description, bool alone, bool waits)
{
    if (kind == RECORD)
        return record(file, of_description, alone ? F_WRLCK : F_RDLCK, waits);
    return flock(files[file], (alone ? LOCK_EX : LOCK_SH) | (waits ? 0 : LOCK_NB));
}

static void open_file(int file)
{
    char path[4096];
    snprintf(path, sizeof path, "%s/file%d", folder, file);
    files[file] = open(path, O_RDWR | O_CREAT, 0600);
    well(files[file], "open");
}

static void let_go(int file, int kind, bool of_description)
{
    if (!below(8)) {
        well(close(files[file]), "close");
        open_file(file);
    } else {
        well(kind == RECORD ? record(file, of_description, F_UNLCK, false) : flock(files[file], LOCK_UN), "unlock");
    }
}

static void in_section(int file, int kind, bool alone)
{
    int before = atomic_fetch_add(&all->inside[file][kind], alone ? ALONE : 1);
    errno = 0;
    if (alone ? before : before >= ALONE)
        wrong("another one is in the section");
    wait_for(below(40) ? below(300) : 20000 + below(100000));
    atomic_fetch_sub(&all->inside[file][kind], alone ? ALONE : 1);
    atomic_fetch_add(&all->sections, 1);
}

static void section(void)
{
    int file = (int)below(FILES), kind = (int)below(2);
    bool of_description = below(2), alone = below(3), waits = below(4), gives_up = waits && !below(4);
    if (gives_up)
        alarm_in(1 + below(30000));
    int result = take(file, kind, of_description, alone, waits), error = errno;
    alarm_in(0);
    if (!result) {
        in_section(file, kind, alone);
        let_go(file, kind, of_description);
    } else if (gives_up && error == EINTR) {
        atomic_fetch_add(&all->interrupted, 1);
    } else if (!waits && (error == EAGAIN || error == EACCES)) {
        atomic_fetch_add(&all->refused, 1);
    } else {
        errno = error;
        wrong("lock");
    }
}

// One that waits for a lock, or holds it, is killed.
static void killed(void)
{
    pid_t child = fork();
    well(child, "fork");
    if (!child) {
        int file = (int)below(FILES);
        // A file of its own: the parent's locks are the parent's.
        open_file(file);
        take(file, (int)below(2), below(2), true, true);
        pause();
    }
    wait_for(below(20000));
    kill(child, SIGKILL);
    well(waitpid(child, NULL, 0), "waitpid");
}

static void make_and_remove(void)
{
    char path[4096];
    snprintf(path, sizeof path, "%s/made%d", folder, (int)getpid());
    int fd = open(path, O_RDWR | O_CREAT | O_EXCL, 0600);
    well(fd, "create");
    well(flock(fd, LOCK_EX), "flock");
    well(unlink(path), "unlink");
    well(close(fd), "close");
    well(mkdir(path, 0700), "mkdir");
    well(rmdir(path), "rmdir");
}

static void work(unsigned seed)
{
    const struct sigaction action = {.sa_handler = on_alarm};
    srand(seed);
    sigaction(SIGALRM, &action, NULL);
    for (int file = 0; file < FILES; file++)
        open_file(file);
    while (!atomic_load(&all->ends)) {
        section();
        if (!below(50))
            killed();
        if (!below(20))
            make_and_remove();
    }
    for (int file = 0; file < FILES; file++)
        well(close(files[file]), "close");
    exit(0);
}

// Whether all ended well. The first one that didn't ends the others.
static bool wait_for_all(int count)
{
    bool ended_well = true;
    int status;
    struct pollfd input = {.fd = STDIN_FILENO, .events = POLLIN};
    while (count) {
        if (!atomic_load(&all->ends) && poll(&input, 1, 20) > 0)
            atomic_store(&all->ends, true);
        pid_t ended = waitpid(-1, &status, atomic_load(&all->ends) ? 0 : WNOHANG);
        if (ended <= 0)
            continue;
        count--;
        ended_well = ended_well && !status;
        atomic_store(&all->ends, atomic_load(&all->ends) || status);
    }
    return ended_well;
}

int main(int argc, char **argv)
{
    if (argc != 4)
        return 2;
    folder = argv[1];
    int processes = atoi(argv[2]);
    all = mmap(NULL, sizeof *all, PROT_READ | PROT_WRITE, MAP_SHARED | MAP_ANONYMOUS, -1, 0);
    if (all == MAP_FAILED)
        wrong("mmap");
    for (int at = 0; at < processes; at++) {
        pid_t child = fork();
        well(child, "fork");
        if (!child)
            work((unsigned)atoi(argv[3]) + (unsigned)at);
    }
    bool ended_well = wait_for_all(processes);
    printf("%lu %lu %lu\n", atomic_load(&all->sections), atomic_load(&all->interrupted), atomic_load(&all->refused));
    return !ended_well;
}
