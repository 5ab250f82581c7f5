// A library for LD_PRELOAD: what lockd_mount reads of /dev/fuse is a kernel's that speaks FUSE
// 7.27.
#define _GNU_SOURCE
#include <linux/fuse.h>
#include <sys/syscall.h>
#include <unistd.h>

struct message {
    struct fuse_in_header head;
    struct fuse_init_in init;
};

ssize_t read(int fd, void *to, size_t size)
{
    ssize_t got = syscall(SYS_read, fd, to, size);
    struct message *message = to;
    if (got >= (ssize_t)sizeof *message && message->head.opcode == FUSE_INIT)
        message->init.minor = 27;
    return got;
}
