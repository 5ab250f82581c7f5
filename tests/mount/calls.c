// Makes calls of all kinds in a folder, most of them fcntl, so many or as long: calls
// FOLDER NAME CALLS SECONDS. Prints how many, or ends with status 1 at one that fails.
#define _GNU_SOURCE
#include <dirent.h>
#include <fcntl.h>
#include <stdio.h>
#include <stdlib.h>
#include <sys/file.h>
#include <sys/stat.h>
#include <sys/statvfs.h>
#include <time.h>
#include <unistd.h>

static long calls;

static void well(int result, const char *what)
{
    calls++;
    if (result < 0) {
        perror(what);
        exit(1);
    }
}

static void list(const char *folder)
{
    DIR *entries = opendir(folder);
    well(entries ? 0 : -1, "opendir");
    while (readdir(entries))
        ;
    well(closedir(entries), "closedir");
}

static void once(const char *folder, const char *file, const char *made)
{
    struct stat about;
    struct statvfs system;
    struct flock lock = {.l_type = F_WRLCK, .l_len = 10};
    int fd = open(file, O_RDWR | O_CREAT | O_TRUNC, 0600), other = open(file, O_RDWR);
    well(fd, "open");
    well(other, "open");
    well(flock(fd, LOCK_EX), "flock");
    for (int i = 0; i < 64; i++) {
        lock.l_type = i % 2 ? F_UNLCK : F_WRLCK;
        well(fcntl(fd, F_SETLK, &lock), "F_SETLK");
    }
    lock.l_type = F_WRLCK;
    well(fcntl(other, F_OFD_SETLK, &lock), "F_OFD_SETLK");
    well(fcntl(fd, F_GETLK, &lock), "F_GETLK");
    well((int)write(fd, "12345", 5), "write");
    well(ftruncate(fd, 0), "ftruncate");
    well(fchmod(fd, 0640), "fchmod");
    well(futimens(fd, NULL), "futimens");
    well(fstat(fd, &about), "fstat");
    well(stat(file, &about), "stat");
    well(statvfs(folder, &system), "statvfs");
    well(mkdir(made, 0700), "mkdir");
    list(folder);
    list(made);
    well(rmdir(made), "rmdir");
    well(unlink(file), "unlink");
    well(close(other), "close");
    well(close(fd), "close");
}

int main(int argc, char **argv)
{
    char file[4096], made[4096];
    if (argc != 5)
        return 2;
    time_t last = time(NULL) + atol(argv[4]);
    snprintf(file, sizeof file, "%s/file%s", argv[1], argv[2]);
    snprintf(made, sizeof made, "%s/made%s.d", argv[1], argv[2]);
    while (calls < atol(argv[3]) && time(NULL) < last)
        once(argv[1], file, made);
    printf("%ld\n", calls);
    return 0;
}
