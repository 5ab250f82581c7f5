// Sets and drops a record lock by `fcntl`, again and again, on FILE, or on a file in memory. Prints pairs a second, and
// p50 and p99 of one call in nanoseconds, of CALLS calls each; a tenth as many go before them and don't count.
//
//     fcntl CALLS [FILE]

#define _GNU_SOURCE
#include <fcntl.h>
#include <stdint.h>
#include <stdio.h>
#include <stdlib.h>
#include <time.h>
#include <unistd.h>

static uint64_t nanoseconds(void)
{
    struct timespec now;
    clock_gettime(CLOCK_MONOTONIC, &now);
    return (uint64_t)now.tv_sec * 1000000000 + (uint64_t)now.tv_nsec;
}

// The lock is set in even calls and dropped in odd ones.
static void call(int fd, uint64_t number)
{
    struct flock lock = {.l_type = number % 2 ? F_UNLCK : F_WRLCK, .l_whence = SEEK_SET, .l_len = 10};
    if (fcntl(fd, F_SETLK, &lock) < 0) {
        perror("fcntl");
        exit(2);
    }
}

static int by_size(const void *left, const void *right)
{
    uint64_t a = *(const uint64_t *)left, b = *(const uint64_t *)right;
    return (a > b) - (a < b);
}

int main(int argc, char **argv)
{
    uint64_t calls = argc == 2 || argc == 3 ? strtoull(argv[1], NULL, 10) : 0;
    uint64_t *times = calloc(calls + 1, sizeof *times);
    int fd = argc == 3 ? open(argv[2], O_CREAT | O_RDWR, 0600) : open("/dev/shm", O_TMPFILE | O_RDWR, 0600);
    if (!calls || !times || fd < 0) {
        fputs("fcntl: wants a number of calls, and a file, or /dev/shm\n", stderr);
        return 2;
    }
    for (uint64_t i = 0; i < calls / 10; i++)
        call(fd, i);
    uint64_t begun = nanoseconds();
    for (uint64_t i = 0; i < calls; i++)
        call(fd, i);
    double seconds = (double)(nanoseconds() - begun) / 1e9;
    for (uint64_t i = 0; i < calls; i++) {
        uint64_t from = nanoseconds();
        call(fd, i);
        times[i] = nanoseconds() - from;
    }
    qsort(times, calls, sizeof *times, by_size);
    printf("%.0f %llu %llu\n", (double)calls / 2 / seconds, (unsigned long long)times[calls / 2],
           (unsigned long long)times[calls * 99 / 100]);
    return 0;
}
