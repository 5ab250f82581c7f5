// The folder: opens it, refuses what can't be mounted at, mounts and unmounts.
#include "mount.h"

#include <dirent.h>
#include <errno.h>
#include <fcntl.h>
#include <signal.h>
#include <stdio.h>
#include <stdlib.h>
#include <string.h>
#include <sys/file.h>
#include <sys/mount.h>
#include <sys/socket.h>
#include <sys/syscall.h>
#include <sys/sysmacros.h>
#include <sys/wait.h>
#include <unistd.h>

enum { STEP = 50000 }; // microseconds between two tries
enum { PATIENCE = 10 }; // seconds until a lookup has to be answered
enum { GLANCE = 500 }; // milliseconds for a lookup that a dead mount refuses at once
enum { MOMENT = 2 }; // seconds that an earlier mount may take to end, also without a grace

// ---- fusermount3 ----

// A child that has become `fusermount3` with these words; its channel is the socket that it sends
// the device through.
static pid_t fusermount(int channel, const char *const words[], bool silent)
{
    pid_t child = fork();
    if (child)
        return child;
    if (channel >= 0) {
        char number[16];
        snprintf(number, sizeof number, "%d", channel);
        setenv("_FUSE_COMMFD", number, 1);
        fcntl(channel, F_SETFD, 0);
    }
    sigset_t none;
    sigemptyset(&none);
    sigprocmask(SIG_SETMASK, &none, NULL);
    if (silent)
        dup2(open("/dev/null", O_WRONLY), STDERR_FILENO);
    execvp("fusermount3", (char *const *)(uintptr_t)words);
    say("who isn't root needs fusermount3, of the package fuse3");
    _exit(127);
}

// The open file that came through the channel with one byte, or -1.
static int received(int channel)
{
    char byte;
    union {
        char room[CMSG_SPACE(sizeof(int))];
        struct cmsghdr head;
    } control;
    struct iovec one = {&byte, 1};
    struct msghdr message = {.msg_iov = &one, .msg_iovlen = 1};
    message.msg_control = control.room;
    message.msg_controllen = sizeof control.room;
    int device = -1;
    ssize_t got;
    while ((got = recvmsg(channel, &message, MSG_CMSG_CLOEXEC)) < 0 && errno == EINTR)
        ;
    struct cmsghdr *head = got > 0 ? CMSG_FIRSTHDR(&message) : NULL;
    if (head && head->cmsg_level == SOL_SOCKET && head->cmsg_type == SCM_RIGHTS)
        memcpy(&device, CMSG_DATA(head), sizeof device);
    return device;
}

// Writes the options of fusermount3, where a backslash stands before each comma and backslash of the source.
static void put_words(char *to, size_t room, const struct options *options)
{
    const char *others = options->allow_other ? ",allow_other" : "";
    size_t size = (size_t)snprintf(to, room, "nosuid,nodev,default_permissions,subtype=lockd%s,fsname=", others);
    for (const char *from = options->source; *from && size + 3 < room; from++) {
        if (*from == ',' || *from == '\\')
            to[size++] = '\\';
        to[size++] = *from;
    }
    to[size] = 0;
}

static int mounted_by_fusermount(const struct place *place, const struct options *options)
{
    int channel[2];
    char given[2 * PATH_MAX + 128];
    const char *const words[] = {"fusermount3", "-o", given, "--", place->path, NULL};
    put_words(given, sizeof given, options);
    if (socketpair(AF_UNIX, SOCK_STREAM | SOCK_CLOEXEC, 0, channel))
        return -1;
    pid_t child = fusermount(channel[0], words, false);
    close(channel[0]);
    int device = child < 0 ? -1 : received(channel[1]);
    close(channel[1]);
    if (child > 0)
        waitpid(child, NULL, 0);
    errno = 0;
    return device;
}

// ---- Mounting and unmounting ----

static int mounted_by_root(const struct place *place, const struct options *options)
{
    char words[160], target[64];
    int device = open("/dev/fuse", O_RDWR | O_CLOEXEC);
    if (device < 0)
        return -1;
    snprintf(words, sizeof words, "fd=%d,rootmode=40000,user_id=%u,group_id=%u,default_permissions%s", device,
             (unsigned)getuid(), (unsigned)getgid(), options->allow_other ? ",allow_other" : "");
    // Through the descriptor: what stands at the path by now doesn't count.
    snprintf(target, sizeof target, "/proc/self/fd/%d", place->folder);
    if (!mount(options->source, target, "fuse.lockd", MS_NOSUID | MS_NODEV, words))
        return device;
    int error = errno;
    close(device);
    errno = error;
    return -1;
}

// The number of the file system at the path, asked of the kernel alone, or 0.
static dev_t device_at(const char *path)
{
    struct statx at;
    if (statx(AT_FDCWD, path, AT_STATX_DONT_SYNC | AT_NO_AUTOMOUNT | AT_SYMLINK_NOFOLLOW, 0, &at))
        return 0;
    return makedev(at.stx_dev_major, at.stx_dev_minor);
}

// The folder was moved before it was mounted at, and the mount is where it is by now.
static void unmount_moved(const struct place *place)
{
    char link[64], path[PATH_MAX];
    snprintf(link, sizeof link, "/proc/self/fd/%d", place->folder);
    ssize_t size = readlink(link, path, sizeof path - 1);
    if (size > 0) {
        path[size] = 0;
        umount2(path, UMOUNT_NOFOLLOW | MNT_DETACH);
    }
}

int place_mount(struct place *place, const struct options *options)
{
    int device = place->is_root ? mounted_by_root(place, options) : mounted_by_fusermount(place, options);
    if (device < 0) {
        int error = errno;
        say("cannot mount %s%s%s", place->path, error ? ": " : "", error ? strerror(error) : "");
        return -1;
    }
    place->mounted = device_at(place->path);
    double when = seconds();
    if (place->mounted == place->below.st_dev || !find_mounts(getpid(), place->mounted, place->path).here) {
        say("%s isn't where it was, and nothing stays mounted", place->path);
        unmount_moved(place);
        close(device);
        return -1;
    }
    record_write(place->path, place->mounted, when);
    return device;
}

// The kernel gives the number again at once, perhaps to what was mounted there after this.
bool place_is_mounted(const struct place *place)
{
    return place->mounted && device_at(place->path) == place->mounted && find_mounts(getpid(), place->mounted, place->path).here;
}

static bool unmount(const char *path, bool is_root, bool force)
{
    if (is_root)
        return !umount2(path, UMOUNT_NOFOLLOW | (force ? MNT_FORCE | MNT_DETACH : 0));
    const char *const plain[] = {"fusermount3", "-u", "--", path, NULL};
    const char *const lazy[] = {"fusermount3", "-u", "-z", "--", path, NULL};
    int status = 1;
    pid_t child = fusermount(-1, force ? lazy : plain, true);
    bool well = child > 0 && waitpid(child, &status, 0) == child && !status;
    errno = well ? 0 : EBUSY;
    return well;
}

bool place_unmount(const struct place *place, bool force)
{
    return !place_is_mounted(place) || unmount(place->path, place->is_root, force);
}

void place_leave(struct place *place)
{
    close(place->folder);
    place->folder = -1;
}

// ---- Whether it answers ----

static void close_others(void)
{
    if (!syscall(SYS_close_range, 3u, ~0u, 0u))
        return;
    for (int fd = 3; fd < 1024; fd++)
        close(fd);
}

// What a lookup of a name gives: 0, its error, or -1 if no answer comes in time. A child looks, since a
// server that stands still would keep it for ever.
static int looked_up(const struct place *place, bool (*stops)(void), double patience)
{
    char path[PATH_MAX + 32];
    struct stat at;
    int status = -1;
    snprintf(path, sizeof path, "%s/.lockd_mount", place->path);
    pid_t child = fork();
    if (!child) {
        // A child that waits for ever must not keep the device open.
        close_others();
        _exit(lstat(path, &at) ? errno : 0);
    }
    double last = seconds() + patience;
    pid_t ended;
    while (child > 0 && !(ended = waitpid(child, &status, WNOHANG)) && !stops() && seconds() < last)
        usleep(1000);
    if (child > 0 && !ended)
        kill(child, SIGKILL);
    return WIFEXITED(status) ? WEXITSTATUS(status) : -1;
}

bool place_answers(const struct place *place, bool (*stops)(void))
{
    int found = looked_up(place, stops, PATIENCE);
    return !found || found == ENOENT || found == EACCES;
}

static bool never(void)
{
    return false;
}

static bool is_dead(const struct place *place)
{
    return looked_up(place, never, GLANCE / 1000.0) == ENOTCONN;
}

// ---- Before it is mounted ----

static void refuse_nonempty(const struct place *place)
{
    DIR *list = fdopendir(dup(place->folder));
    if (!list)
        fail("cannot read %s", place->path);
    rewinddir(list);
    for (struct dirent *entry; (entry = readdir(list));)
        if (strcmp(entry->d_name, ".") != 0 && strcmp(entry->d_name, "..") != 0) {
            errno = 0;
            fail("%s isn't empty, and a mount hides what is in it; --nonempty allows that", place->path);
        }
    closedir(list);
}

// Opens what is at the path. Gives the number of its file system.
static dev_t open_folder(struct place *place, const char *path)
{
    char link[64];
    int folder = open(path, O_PATH | O_DIRECTORY | O_CLOEXEC);
    if (folder < 0)
        fail("no folder at %s", path);
    snprintf(link, sizeof link, "/proc/self/fd/%d", folder);
    ssize_t size = readlink(link, place->path, sizeof place->path - 1);
    if (size <= 0)
        fail("cannot find the path of %s; is /proc mounted", path);
    place->path[size] = 0;
    dev_t device = device_at(place->path);
    close(folder);
    return device;
}

// What is in the way: nothing, a mount at the folder, a carrier that has the folder, or open files of a
// mount whose carrier is gone.
enum earlier { NONE, MOUNTED, SERVING, OPEN };

// Looks for a mount at the folder. One whose carrier was killed is no hindrance if nobody is left in it: `place_clear` takes it away. If
// that came before it wrote its record, or if this is a copy of its mount, there is no record, and only a lookup tells.
static enum earlier at_folder(struct place *place, const struct options *options, enum record record, struct holders *holders)
{
    dev_t device = open_folder(place, options->folder);
    struct mounts found = find_mounts(getpid(), device, place->path);
    errno = 0;
    if (!found.here && record == RECORD_TAKEN)
        return SERVING;
    if (!found.here && found.elsewhere)
        fail("%s is in a folder that is mounted by lockd_mount", place->path);
    if (!found.here)
        return NONE;
    if (record == RECORD_TAKEN || (record_read() != device && !is_dead(place)))
        return MOUNTED;
    find_holders(device, holders);
    place->dead = device;
    return holders->count ? OPEN : NONE;
}

static bool has_earlier_mount(struct holders *holders)
{
    dev_t device = record_read();
    return device && connection_lives(device, holders);
}

// Opens the folder below. A carrier of it that still runs, perhaps after `umount -l`, has it
// locked.
static bool take_folder(struct place *place)
{
    struct stat at;
    if (place->folder >= 0)
        close(place->folder);
    place->folder = open(place->path, O_RDONLY | O_DIRECTORY | O_NOFOLLOW | O_CLOEXEC);
    if (place->folder < 0 || fstat(place->folder, &at))
        fail("cannot open %s", place->path);
    place->below = at;
    return !flock(place->folder, LOCK_EX | LOCK_NB) || errno != EWOULDBLOCK;
}

// Takes the record and the folder, if no earlier mount is in the way. A dead one stays above the folder.
static enum earlier find_earlier(struct place *place, const struct options *options, struct holders *holders)
{
    place->dead = 0;
    open_folder(place, options->folder);
    enum earlier found = at_folder(place, options, record_take(place->path), holders);
    if (found == NONE && !place->dead && !take_folder(place))
        found = SERVING;
    if (found == NONE && has_earlier_mount(holders))
        found = OPEN;
    if (found != NONE)
        record_release();
    return found;
}

// Takes dead mounts away, and then the folder. The record is taken. What has no holder may keep a mount busy: files under way in a socket.
static enum earlier take_dead_away(struct place *place, const struct options *options, struct holders *holders)
{
    enum earlier found;
    do {
        place->dead = 0;
        found = at_folder(place, options, RECORD_FREE, holders);
        if (found == NONE && place->dead && !unmount(place->path, place->is_root, false)) {
            if (errno != EBUSY)
                fail("cannot take the dead mount at %s away", place->path);
            return OPEN;
        }
    } while (found == NONE && place->dead);
    if (found == NONE && !take_folder(place))
        found = SERVING;
    // To look for holders once more takes long.
    if (found == NONE && is_connected(record_read()) && has_earlier_mount(holders))
        found = OPEN;
    return found;
}

static const char *why_not(const struct place *place, enum earlier found, const struct holders *holders)
{
    static char text[PATH_MAX + 512];
    if (found == MOUNTED)
        snprintf(text, sizeof text, "%s is mounted by lockd_mount already", place->path);
    else if (found == SERVING)
        snprintf(text, sizeof text, "another lockd_mount has %s: it starts, serves it at another path, or serves open files of a mount that was taken away",
                 place->path);
    else
        snprintf(text, sizeof text,
                 "an earlier mount of %s isn't over: files are still open there, and who has them thinks that he holds his locks; processes %s",
                 place->path, holders_text(holders));
    return text;
}

// A file in the folder lies below the mount, so a carrier that looks at it would wait for itself.
static void refuse_inside(const struct place *place, const char *path)
{
    char parent[PATH_MAX + 2];
    struct stat at, below = {0};
    snprintf(parent, PATH_MAX, "%s", path);
    char *slash = strrchr(parent, '/');
    snprintf(slash ? slash + 1 : parent, 2, ".");
    int folder = open(parent, O_PATH | O_DIRECTORY | O_CLOEXEC);
    while (folder >= 0 && !fstat(folder, &at) && (at.st_dev != below.st_dev || at.st_ino != below.st_ino)) {
        errno = 0;
        if (at.st_dev == place->below.st_dev && at.st_ino == place->below.st_ino)
            fail("%s is in %s, where the mount would hide it", path, place->path);
        below = at;
        int above = openat(folder, "..", O_PATH | O_DIRECTORY | O_CLOEXEC);
        close(folder);
        folder = above;
    }
    if (folder >= 0)
        close(folder);
}

static void refuse_all_inside(const struct place *place, const struct options *options)
{
    char temporary[PATH_MAX];
    const char *where = getenv("TMPDIR");
    snprintf(temporary, sizeof temporary, "%s/", where && *where ? where : "/tmp");
    const char *const paths[] = {options->resume, options->trace, options->times, temporary};
    for (size_t at = 0; at < sizeof paths / sizeof *paths; at++)
        if (paths[at] && strcmp(paths[at], "none") != 0)
            refuse_inside(place, paths[at]);
}

static void refuse_folder(const struct place *place, const struct options *options)
{
    refuse_all_inside(place, options);
    if (!options->nonempty)
        refuse_nonempty(place);
}

typedef enum earlier look(struct place *place, const struct options *options, struct holders *holders);

// Waits until nothing is in the way.
static void wait_for(look *look, struct place *place, const struct options *options, bool (*stops)(void))
{
    enum earlier found, before = NONE;
    double begun = seconds(), since = begun;
    bool said = false;
    for (struct holders holders = {0}; (found = look(place, options, &holders)) != NONE; holders.count = 0) {
        // One that is mounted may be about to end. It may also be dead, and another carrier looks at it for now.
        if (found != before)
            since = seconds();
        before = found;
        double last = found == MOUNTED ? since + MOMENT : begun + (double)(options->grace > MOMENT ? options->grace : MOMENT);
        const char *why = why_not(place, found, &holders);
        errno = 0;
        if (seconds() >= last)
            fail("%s", why);
        if (found != MOUNTED && options->grace && !said) {
            say("%s; waiting %ld seconds at most", why, options->grace);
            said = true;
        }
        if (stops())
            fail("ended before anything was mounted");
        usleep(STEP);
    }
}

void place_open(struct place *place, const struct options *options, bool (*stops)(void))
{
    *place = (struct place){.folder = -1, .is_root = !geteuid()};
    wait_for(find_earlier, place, options, stops);
    if (!place->dead)
        refuse_folder(place, options);
}

void place_clear(struct place *place, const struct options *options, bool (*stops)(void))
{
    if (!place->dead)
        return;
    wait_for(take_dead_away, place, options, stops);
    refuse_folder(place, options);
}
