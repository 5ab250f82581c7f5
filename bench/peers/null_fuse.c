// The least that a FUSE file system can do: mounts FOLDER as root, and answers each message with 0 and zeros, with one
// thread, until the folder is unmounted. Each name is the same empty file. Prints `mounted` once it is.
//
//     null_fuse FOLDER

#include <errno.h>
#include <fcntl.h>
#include <linux/fuse.h>
#include <stdio.h>
#include <string.h>
#include <sys/mount.h>
#include <sys/stat.h>
#include <sys/uio.h>
#include <unistd.h>

static union {
    struct fuse_init_out init;
    struct fuse_attr_out attr;
    struct { struct fuse_entry_out entry; struct fuse_open_out open; } made;
    struct fuse_open_out open;
    struct fuse_lk_out lock;
} body;

static void describe(struct fuse_attr *attr, uint64_t node)
{
    attr->ino = node;
    attr->mode = node == 1 ? S_IFDIR | 0755 : S_IFREG | 0644;
    attr->nlink = 1;
}

// Fills in the body of the reply to a message, and gives its size, or -1 where none is owed.
static int answer(const struct fuse_in_header *head)
{
    memset(&body, 0, sizeof body);
    switch (head->opcode) {
    case FUSE_INIT:
        body.init.major = 7;
        body.init.minor = 31;
        body.init.flags = FUSE_POSIX_LOCKS | FUSE_FLOCK_LOCKS;
        body.init.max_write = 4096;
        return sizeof body.init;
    case FUSE_LOOKUP:
    case FUSE_CREATE:
        body.made.entry.nodeid = 2;
        describe(&body.made.entry.attr, 2);
        return head->opcode == FUSE_CREATE ? sizeof body.made : sizeof body.made.entry;
    case FUSE_GETATTR:
        describe(&body.attr.attr, head->nodeid);
        return sizeof body.attr;
    case FUSE_OPEN:
        return sizeof body.open;
    case FUSE_GETLK:
        return sizeof body.lock;
    case FUSE_FORGET:
    case FUSE_BATCH_FORGET:
    case FUSE_INTERRUPT:
        return -1;
    default:
        return 0;
    }
}

int main(int argc, char **argv)
{
    static char message[FUSE_MIN_READ_BUFFER];
    char options[80];
    int device = open("/dev/fuse", O_RDWR | O_CLOEXEC);
    snprintf(options, sizeof options, "fd=%d,rootmode=40000,user_id=0,group_id=0", device);
    if (argc != 2 || device < 0 || mount("null", argv[1], "fuse", MS_NOSUID | MS_NODEV, options)) {
        perror("null_fuse");
        return 2;
    }
    puts("mounted");
    fflush(stdout);
    for (;;) {
        struct fuse_in_header head;
        ssize_t got = read(device, message, sizeof message);
        if (got < 0 && errno == ENODEV)
            return 0;
        if (got < (ssize_t)sizeof head)
            continue;
        memcpy(&head, message, sizeof head);
        int size = answer(&head);
        if (size < 0)
            continue;
        struct fuse_out_header out = {.len = (uint32_t)(sizeof out + (size_t)size), .unique = head.unique};
        struct iovec parts[] = {{&out, sizeof out}, {&body, (size_t)size}};
        if (writev(device, parts, 2) < 0 && errno == ENODEV)
            return 0;
    }
}
