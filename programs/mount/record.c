// The record of a mount, in /run/lockd_mount or $XDG_RUNTIME_DIR/lockd_mount. It outlives a carrier
// that was killed, and tells the next one by which number the kernel had the mount, and when. A
// carrier that runs has its record locked.
#include "mount.h"

#include <dirent.h>
#include <errno.h>
#include <fcntl.h>
#include <libgen.h>
#include <math.h>
#include <stdio.h>
#include <stdlib.h>
#include <string.h>
#include <sys/file.h>
#include <sys/sysmacros.h>
#include <unistd.h>

static int record = -1;
static char record_path[PATH_MAX];

static bool place_record(const char *path)
{
    const char *base = geteuid() ? getenv("XDG_RUNTIME_DIR") : "/run";
    if (!base || !*base)
        return false;
    if (snprintf(record_path, sizeof record_path, "%s/lockd_mount", base) >= (int)sizeof record_path - 32)
        return false;
    if (mkdir(record_path, 0700) && errno != EEXIST)
        return false;
    snprintf(record_path + strlen(record_path), 32, "/%016llx", (unsigned long long)hash_of(path));
    return true;
}

// Whether the file that is locked still is the one at the path.
static bool is_the_record(void)
{
    struct stat here, there;
    return !fstat(record, &here) && !stat(record_path, &there) && here.st_ino == there.st_ino && here.st_dev == there.st_dev;
}

enum record record_take(const char *path)
{
    if (!place_record(path))
        return RECORD_NONE;
    for (;;) {
        record = open(record_path, O_RDWR | O_CREAT | O_CLOEXEC | O_NOFOLLOW, 0600);
        if (record < 0)
            return RECORD_NONE;
        bool locked = !flock(record, LOCK_EX | LOCK_NB);
        if (locked && is_the_record())
            return RECORD_FREE;
        close(record);
        record = -1;
        if (!locked)
            return RECORD_TAKEN;
    }
}

static void read_boot(char *boot, size_t size)
{
    int file = open("/proc/sys/kernel/random/boot_id", O_RDONLY | O_CLOEXEC);
    ssize_t got = file < 0 ? 0 : read(file, boot, size - 1);
    boot[got > 0 ? got : 0] = 0;
    boot[strcspn(boot, "\n")] = 0;
    if (file >= 0)
        close(file);
}

// How far this namespace's clock is ahead of the machine's, by which records say when.
static double ahead(void)
{
    char text[128] = "";
    long long whole = 0;
    long rest = 0;
    int file = open("/proc/self/timens_offsets", O_RDONLY | O_CLOEXEC);
    if (file >= 0 && read(file, text, sizeof text - 1) > 0)
        sscanf(text, "monotonic %lld %ld", &whole, &rest);
    if (file >= 0)
        close(file);
    return (double)whole + (double)rest / 1e9;
}

// What a record says: the number of the mount, or 0, and when the mount had it. One of an older program has no time, which is
// neither earlier nor later than any, and one that is cut off says nothing.
struct told {
    dev_t device;
    double when;
};

static struct told told_by(int file)
{
    char text[PATH_MAX + 256], boot[64], then[64] = "";
    unsigned major, minor;
    struct told told = {.when = NAN};
    ssize_t size = file < 0 ? -1 : pread(file, text, sizeof text - 1, 0);
    if (size <= 0 || text[size - 1] != '\n')
        return told;
    text[size] = 0;
    read_boot(boot, sizeof boot);
    if (sscanf(text, "connection %u:%u boot %63s pid %*d at %lf", &major, &minor, then, &told.when) >= 3 && !strcmp(boot, then))
        told.device = makedev(major, minor);
    return told;
}

dev_t record_read(void)
{
    return told_by(record).device;
}

void record_write(const char *path, dev_t device, double when)
{
    char text[PATH_MAX + 256], boot[64];
    if (record < 0)
        return;
    read_boot(boot, sizeof boot);
    int size = snprintf(text, sizeof text, "connection %u:%u boot %s pid %d at %.6f folder %s\n", major(device), minor(device), boot,
                        (int)getpid(), when - ahead(), path);
    if (ftruncate(record, 0) || pwrite(record, text, (size_t)size, 0) != size)
        say("cannot write %s: a later mount won't know of this one if it is killed", record_path);
}

// The kernel gives a number again only once its mount is gone. A carrier may see that late, or be killed, and its record stays.
// So of two records with one number the later one is true.
bool record_has_later(dev_t device)
{
    bool found = false;
    char folder[PATH_MAX];
    struct told ours = told_by(record);
    snprintf(folder, sizeof folder, "%s", record_path);
    DIR *list = ours.device != device ? NULL : opendir(dirname(folder));
    for (struct dirent *entry; list && !found && (entry = readdir(list));) {
        int other = openat(dirfd(list), entry->d_name, O_RDONLY | O_NONBLOCK | O_CLOEXEC | O_NOFOLLOW);
        struct told told = told_by(other);
        found = told.device == device && told.when > ours.when;
        if (other >= 0)
            close(other);
    }
    if (list)
        closedir(list);
    return found;
}

static void close_record(bool removes)
{
    if (record < 0)
        return;
    if (removes)
        unlink(record_path);
    close(record);
    record = -1;
}

void record_release(void)
{
    struct stat at;
    close_record(record >= 0 && !fstat(record, &at) && !at.st_size);
}

void record_remove(void)
{
    close_record(true);
}
