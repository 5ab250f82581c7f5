// Who still uses a mount, and what is mounted.
#include "mount.h"

#include <ctype.h>
#include <dirent.h>
#include <errno.h>
#include <fcntl.h>
#include <stdio.h>
#include <stdlib.h>
#include <string.h>
#include <sys/sysmacros.h>
#include <unistd.h>

// Whether the path leads into the file system. No server is asked: it may be gone, or stand still.
static bool leads_into(int folder, const char *path, dev_t device)
{
    struct statx at;
    if (statx(folder, path, AT_STATX_DONT_SYNC | AT_NO_AUTOMOUNT, 0, &at))
        return false;
    return makedev(at.stx_dev_major, at.stx_dev_minor) == device;
}

static bool holds_a_file(int process, dev_t device)
{
    int fds = openat(process, "fd", O_RDONLY | O_DIRECTORY | O_CLOEXEC);
    DIR *list = fds < 0 ? NULL : fdopendir(fds);
    bool found = false;
    if (!list) {
        if (fds >= 0)
            close(fds);
        return false;
    }
    for (struct dirent *entry; !found && (entry = readdir(list));)
        found = isdigit((unsigned char)*entry->d_name) && leads_into(fds, entry->d_name, device);
    closedir(list);
    return found;
}

void find_holders(dev_t device, struct holders *holders)
{
    *holders = (struct holders){0};
    DIR *list = opendir("/proc");
    if (!list)
        return;
    for (struct dirent *entry; (entry = readdir(list));) {
        pid_t pid = (pid_t)atoi(entry->d_name);
        int process = pid > 0 && pid != getpid() ? openat(dirfd(list), entry->d_name, O_RDONLY | O_DIRECTORY | O_CLOEXEC) : -1;
        if (process < 0)
            continue;
        if (leads_into(process, "cwd", device) || leads_into(process, "root", device) || holds_a_file(process, device)) {
            if (holders->count < MOST_HOLDERS)
                holders->pids[holders->count] = pid;
            holders->count++;
        }
        close(process);
    }
    closedir(list);
}

const char *holders_text(const struct holders *holders)
{
    static char text[MOST_HOLDERS * 12 + 32];
    int size = 0, shown = holders->count < MOST_HOLDERS ? holders->count : MOST_HOLDERS;
    snprintf(text, sizeof text, "that can't be seen");
    for (int i = 0; i < shown; i++)
        size += snprintf(text + size, sizeof text - (size_t)size, i ? " %d" : "%d", holders->pids[i]);
    if (holders->count > MOST_HOLDERS)
        snprintf(text + size, sizeof text - (size_t)size, " and %d more", holders->count - MOST_HOLDERS);
    return text;
}

// ---- Mounts that are there ----

// Undoes the \040 of /proc/self/mountinfo.
static void unescape(char *path)
{
    char *to = path;
    for (char *from = path; *from; to++) {
        unsigned byte;
        if (*from == '\\' && sscanf(from + 1, "%3o", &byte) == 1) {
            *to = (char)byte;
            from += 4;
        } else {
            *to = *from++;
        }
    }
    *to = 0;
}

// What one line of a mountinfo says of the device number.
static void see_line(char *line, dev_t device, const char *path, struct mounts *found)
{
    unsigned major, minor;
    int begin = 0, end = 0;
    const char *kind = strstr(line, " - ");
    if (sscanf(line, "%*d %*d %u:%u %*s %n%*s%n", &major, &minor, &begin, &end) != 2 || !end || !kind)
        return;
    if (makedev(major, minor) != device)
        return;
    bool is_lockd = !strncmp(kind, " - fuse.lockd ", 14);
    line[end] = 0;
    unescape(line + begin);
    bool is_here = is_lockd && !strcmp(line + begin, path);
    found->here = found->here || is_here;
    found->elsewhere = found->elsewhere || (is_lockd && !is_here);
    found->others = found->others || !is_lockd;
}

struct mounts find_mounts(pid_t pid, dev_t device, const char *path)
{
    char *line = NULL, name[64];
    size_t room = 0;
    struct mounts found = {0};
    snprintf(name, sizeof name, "/proc/%d/mountinfo", pid);
    FILE *mounts = fopen(name, "re");
    while (mounts && getline(&line, &room, mounts) > 0)
        see_line(line, device, path, &found);
    if (mounts)
        fclose(mounts);
    free(line);
    return found;
}

// Whether the number is that of another file system by now: the kernel gives numbers again. A
// lockd's that is seen at another path may be the one that is asked for, in a container.
static bool is_given_again(dev_t device, const struct holders *holders)
{
    if (record_has_later(device))
        return true;
    for (int i = -1; i < holders->count && i < MOST_HOLDERS; i++)
        if (find_mounts(i < 0 ? getpid() : holders->pids[i], device, "").others)
            return true;
    return false;
}

// Whether some process sees a lockd's mount of this number.
static bool is_mounted(dev_t device)
{
    bool found = false;
    DIR *list = opendir("/proc");
    for (struct dirent *entry; list && !found && (entry = readdir(list));) {
        pid_t pid = (pid_t)atoi(entry->d_name);
        found = pid > 0 && find_mounts(pid, device, "").elsewhere;
    }
    if (list)
        closedir(list);
    return found;
}

bool is_connected(dev_t device)
{
    char connection[64];
    snprintf(connection, sizeof connection, "/sys/fs/fuse/connections/%u", minor(device));
    return !access(connection, F_OK);
}

bool connection_lives(dev_t device, struct holders *holders)
{
    find_holders(device, holders);
    // Files under way in a socket have no holder. But the kernel may tell that it has the
    // connection, and it isn't mounted.
    bool lives = holders->count || (is_connected(device) && !is_mounted(device));
    return lives && !is_given_again(device, holders);
}
