// A library by which a carrier is killed as soon as it has mounted, before it writes its record.
#define _GNU_SOURCE
#include <signal.h>
#include <sys/mount.h>
#include <sys/syscall.h>
#include <unistd.h>

int mount(const char *source, const char *target, const char *kind, unsigned long flags, const void *words)
{
    syscall(SYS_mount, source, target, kind, flags, words);
    return raise(SIGKILL);
}
