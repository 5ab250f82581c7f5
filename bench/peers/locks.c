// The locks of bench/programs/locks_bench, set and asked for by `fcntl` on a file in memory: each owner is an open file of its own
// (F_OFD_SETLK). It takes the same four arguments, and prints the same line.
//
//     locks OWNERS RUNS anew|more|look|turns ORDERS

#define _GNU_SOURCE
#include <fcntl.h>
#include <stdint.h>
#include <stdio.h>
#include <stdlib.h>
#include <string.h>
#include <sys/resource.h>
#include <unistd.h>

static uint64_t owners, runs;
static int *files;

static void fail(const char *what)
{
    perror(what);
    exit(2);
}

// One owner more than hold locks, each with the file open for itself.
static void open_files(void)
{
    struct rlimit limit;
    char name[64];
    if (getrlimit(RLIMIT_NOFILE, &limit))
        fail("getrlimit");
    limit.rlim_cur = limit.rlim_max;
    if (setrlimit(RLIMIT_NOFILE, &limit))
        fail("setrlimit");
    int file = open("/dev/shm", O_TMPFILE | O_RDWR, 0600);
    files = calloc(owners + 1, sizeof *files);
    if (file < 0 || !files)
        fail("/dev/shm");
    snprintf(name, sizeof name, "/proc/self/fd/%d", file);
    for (uint64_t owner = 0; owner <= owners; owner++)
        if ((files[owner] = open(name, O_RDWR)) < 0)
            fail("open");
}

// The three bytes of a run, asked for by an owner, who is numbered from 0 on here. Returns whether it is as it should be.
static int ask(uint64_t owner, uint64_t run, int command, short kind)
{
    struct flock lock = {.l_type = kind, .l_whence = SEEK_SET, .l_start = (off_t)(4 * run), .l_len = 3};
    if (fcntl(files[owner], command, &lock))
        return 0;
    return command != F_OFD_GETLK || lock.l_type == F_UNLCK;
}

static int asked(const char *what, uint64_t place)
{
    uint64_t all = owners * runs;
    if (!strcmp(what, "anew"))
        return ask(place % all / runs, place % all, F_OFD_SETLK, place / all % 2 ? F_RDLCK : F_WRLCK);
    if (!strcmp(what, "more"))
        return ask(owners, all, F_OFD_SETLK, place % 2 ? F_UNLCK : F_WRLCK);
    if (!strcmp(what, "look"))
        return ask(owners, all, F_OFD_GETLK, F_WRLCK);
    if (!strcmp(what, "turns"))
        return ask(place % owners, place % owners * runs, F_OFD_SETLK, place / owners % 2 ? F_RDLCK : F_UNLCK);
    fputs("locks: wants anew, more, look or turns\n", stderr);
    exit(2);
}

int main(int argc, char **argv)
{
    if (argc != 5 || !(owners = strtoull(argv[1], NULL, 10)) || !(runs = strtoull(argv[2], NULL, 10))) {
        fputs("locks: wants OWNERS RUNS anew|more|look|turns ORDERS\n", stderr);
        return 2;
    }
    open_files();
    uint64_t set = 0, done = 0, orders = strtoull(argv[4], NULL, 10);
    for (uint64_t run = 0; run < owners * runs; run++)
        set += (uint64_t)ask(run / runs, run, F_OFD_SETLK, F_RDLCK);
    for (uint64_t place = 0; place < orders; place++)
        done += (uint64_t)asked(argv[3], place);
    printf("%llu held, %llu done\n", (unsigned long long)set, (unsigned long long)done);
    return 0;
}
