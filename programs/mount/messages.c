// What is changed in messages on their way from the kernel to the server.
//
// - The owner of a whole-file lock becomes the number of the open file.
// - Before a RELEASE the owners of record locks who didn't flush are flushed: these are locks of
//   open file descriptions.
// - MKDIR and MKNOD become CREATE and RELEASE, and RMDIR becomes UNLINK.
// - What the server has no message for is answered by answers.c.
#include "mount.h"

#include <errno.h>
#include <fcntl.h>
#include <stdlib.h>
#include <string.h>

struct session session;

static uint64_t own_number(void)
{
    static uint64_t counter;
    counter += 2;
    return OURS | counter;
}

// The first bytes of a body as a struct; false where it is shorter.
static bool read_body(void *to, size_t want, const char *body, size_t size)
{
    if (size < want)
        return false;
    memcpy(to, body, want);
    return true;
}

// The name that stands at the end of a body, behind so many bytes, or NULL where there is none, or
// an empty one.
static const char *name_in(const char *body, size_t size, size_t before)
{
    return size > before && !body[size - 1] && body[before] ? body + before : NULL;
}

static void remember_init(const struct fuse_in_header *head, const char *body, size_t size)
{
    struct fuse_init_in init;
    if (!read_body(&init, offsetof(struct fuse_init_in, flags) + sizeof init.flags, body, size))
        return;
    session.minor = init.minor;
    session.offers_truncation = init.major == FUSE_KERNEL_VERSION && (init.flags & FUSE_ATOMIC_O_TRUNC);
    atomic_store(&session.init, head->unique);
}

// ---- Locks ----

// Whole-file locks belong to an open file, and its number is never given twice. The kernel says a
// hash of where the open file stands in memory, where the next one may stand soon.
static void change_lock(const struct fuse_in_header *head, char *body, size_t size)
{
    struct fuse_lk_in lock;
    if (!read_body(&lock, sizeof lock, body, size))
        return;
    if (lock.lk_flags & FUSE_LK_FLOCK) {
#ifndef KERNELS_OWNERS
        lock.owner = lock.fh;
        memcpy(body, &lock, sizeof lock);
#endif
    } else if (head->opcode != FUSE_GETLK && lock.lk.type != F_UNLCK) {
        table_lock();
        open_owner_asks(lock.fh, lock.owner);
        table_unlock();
    }
}

static void see_flush(const char *body, size_t size)
{
    struct fuse_flush_in flush;
    if (!read_body(&flush, sizeof flush, body, size))
        return;
    table_lock();
    open_owner_flushes(flush.fh, flush.lock_owner);
    table_unlock();
}

// A FLUSH of this owner. The thread that carries messages sends no other one before its reply.
static void flush_for(const struct fuse_in_header *release, uint64_t fh, uint64_t owner)
{
    struct {
        struct fuse_in_header head;
        struct fuse_flush_in body;
    } flush = {.head = *release, .body = {.fh = fh, .lock_owner = owner}};
    flush.head.len = sizeof flush;
    flush.head.opcode = FUSE_FLUSH;
    flush.head.unique = own_number();
    if (!asked_new(flush.head.unique, FUSE_FLUSH, ""))
        return;
    atomic_fetch_add(&session.flushes, 1);
    send_later(&flush, sizeof flush);
}

// Locks of an open file description go with its last close, which the kernel tells by RELEASE
// alone. A process flushes before that, so who didn't is such a description.
static void flush_owners(const struct fuse_in_header *release, uint64_t fh)
{
    table_lock();
    struct owner *owners = open_closed(fh);
    for (const struct owner *owner = owners; owner; owner = owner->next)
        flush_for(release, fh, owner->id);
    owners_end(owners);
    table_unlock();
}

static size_t change_release(char *message, size_t size, const struct fuse_in_header *head)
{
    struct fuse_release_in release;
    char *body = message + sizeof *head;
    if (size != sizeof *head + sizeof release)
        return size;
    memcpy(&release, body, sizeof release);
#ifndef KERNELS_OWNERS
    release.lock_owner = release.fh;
    memcpy(body, &release, sizeof release);
#endif
    flush_owners(head, release.fh);
    return size;
}

void release_now(const struct asked *asked, uint64_t node, uint64_t fh)
{
    struct {
        struct fuse_in_header head;
        struct fuse_release_in body;
    } release = {
        .head = {.len = sizeof release, .opcode = FUSE_RELEASE, .unique = own_number(), .nodeid = node,
                 .uid = asked->uid, .gid = asked->gid, .pid = asked->pid},
        .body = {.fh = fh, .lock_owner = fh},
    };
    if (asked_new(release.head.unique, FUSE_RELEASE, ""))
        send_later(&release, sizeof release);
}

// ---- Files ----

static struct asked *remember(const struct fuse_in_header *head, const char *name)
{
    struct asked *asked = asked_new(head->unique, head->opcode, name);
    if (asked) {
        asked->node = head->nodeid;
        asked->uid = head->uid;
        asked->gid = head->gid;
        asked->pid = head->pid;
    }
    return asked;
}

static size_t refused(const struct fuse_in_header *head, int error)
{
    answer(head->unique, error, NULL, 0);
    return 0;
}

static size_t remembered(const struct fuse_in_header *head, const struct asked *asked, size_t size)
{
    return asked ? size : refused(head, ENOMEM);
}

static size_t change_create(const struct fuse_in_header *head, const char *body, size_t size)
{
    struct fuse_create_in create;
    const char *name = name_in(body, size, sizeof create);
    if (!name || !read_body(&create, sizeof create, body, size))
        return size + sizeof *head;
    if (strlen(name) > NAME_MAX)
        return refused(head, ENAMETOOLONG);
    struct node *node = node_named(name);
    if (node && is_folder(node))
        return refused(head, (create.flags & O_EXCL) ? EEXIST : EISDIR);
    struct asked *asked = remember(head, name);
    if (asked)
        asked->mode = S_IFREG | (create.mode & 07777);
    return remembered(head, asked, size + sizeof *head);
}

// MKDIR and MKNOD as the CREATE of a new file, which is closed at once.
static size_t become_create(char *message, size_t size, const struct fuse_in_header *head, size_t before, uint32_t mode)
{
    char name[NAME_MAX + 1];
    struct fuse_create_in create = {.flags = O_CREAT | O_EXCL | O_RDWR, .mode = mode & 07777};
    struct fuse_in_header changed = *head;
    const char *found = name_in(message + sizeof *head, size - sizeof *head, before);
    if (!found)
        return refused(head, EINVAL);
    size_t length = strlen(found) + 1;
    if (length > NAME_MAX + 1)
        return refused(head, ENAMETOOLONG);
    memcpy(name, found, length);
    struct asked *asked = remember(head, name);
    if (!asked)
        return refused(head, ENOMEM);
    asked->mode = mode;
    changed.len = (uint32_t)(sizeof changed + sizeof create + length);
    changed.opcode = FUSE_CREATE;
    memcpy(message, &changed, sizeof changed);
    memcpy(message + sizeof changed, &create, sizeof create);
    memcpy(message + sizeof changed + sizeof create, name, length);
    return changed.len;
}

static size_t change_mkdir(char *message, size_t size, const struct fuse_in_header *head)
{
    struct fuse_mkdir_in mkdir;
    if (!read_body(&mkdir, sizeof mkdir, message + sizeof *head, size - sizeof *head))
        return refused(head, EINVAL);
    return become_create(message, size, head, sizeof mkdir, S_IFDIR | (mkdir.mode & 07777));
}

static size_t change_mknod(char *message, size_t size, const struct fuse_in_header *head)
{
    struct fuse_mknod_in mknod;
    if (!read_body(&mknod, sizeof mknod, message + sizeof *head, size - sizeof *head))
        return refused(head, EINVAL);
    if (!S_ISREG(mknod.mode))
        return refused(head, EPERM);
    return become_create(message, size, head, sizeof mknod, mknod.mode);
}

static size_t change_unlink(char *message, size_t size, const struct fuse_in_header *head)
{
    const char *name = name_in(message + sizeof *head, size - sizeof *head, 0);
    struct node *node = name ? node_named(name) : NULL;
    if (node && is_folder(node) != (head->opcode == FUSE_RMDIR))
        return refused(head, is_folder(node) ? EISDIR : ENOTDIR);
    if (!name)
        return size;
    size_t kept = remembered(head, remember(head, name), size);
    struct fuse_in_header changed = *head;
    changed.opcode = FUSE_UNLINK;
    memcpy(message, &changed, sizeof changed);
    return kept;
}

static size_t see_open(const struct fuse_in_header *head, const char *body, size_t size)
{
    struct fuse_open_in open = {0};
    read_body(&open, sizeof open, body, size);
    struct asked *asked = remember(head, "");
    if (asked)
        asked->flags = open.flags;
    return remembered(head, asked, size + sizeof *head);
}

static void see_forgets(const struct fuse_in_header *head, const char *body, size_t size)
{
    struct fuse_forget_in forget;
    struct fuse_batch_forget_in batch;
    struct fuse_forget_one one;
    table_lock();
    if (head->opcode == FUSE_FORGET) {
        if (read_body(&forget, sizeof forget, body, size))
            node_forgotten(head->nodeid, forget.nlookup);
    } else if (read_body(&batch, sizeof batch, body, size)) {
        size_t at = sizeof batch;
        for (; batch.count && read_body(&one, sizeof one, body + at, size - at); batch.count--, at += sizeof one)
            node_forgotten(one.nodeid, one.nlookup);
    }
    table_unlock();
}

// Nothing can be made in a folder that is a lock, and nothing is there.
static bool is_inside_a_lock(const struct fuse_in_header *head)
{
    struct node *node = head->nodeid == ROOT ? NULL : node_of(head->nodeid);
    return node && is_folder(node);
}

// The messages that make and unlink names, under the lock of the table.
static size_t change_names(char *message, size_t size, const struct fuse_in_header *head)
{
    const char *body = message + sizeof *head;
    bool looks = head->opcode == FUSE_LOOKUP || head->opcode == FUSE_UNLINK || head->opcode == FUSE_RMDIR;
    if (head->opcode != FUSE_OPEN && is_inside_a_lock(head))
        return refused(head, looks ? ENOENT : EPERM);
    switch (head->opcode) {
    case FUSE_CREATE:
        return change_create(head, body, size - sizeof *head);
    case FUSE_MKDIR:
        return change_mkdir(message, size, head);
    case FUSE_MKNOD:
        return change_mknod(message, size, head);
    case FUSE_UNLINK:
    case FUSE_RMDIR:
        return change_unlink(message, size, head);
    case FUSE_OPEN:
        return see_open(head, body, size - sizeof *head);
    default:
        return size;
    }
}

size_t change_message(char *message, size_t size)
{
    struct fuse_in_header head;
    char *body = message + sizeof head;
    memcpy(&head, message, sizeof head);
    size_t length = size - sizeof head;
    switch (head.opcode) {
    case FUSE_GETLK:
    case FUSE_SETLK:
    case FUSE_SETLKW:
        change_lock(&head, body, length);
        return size;
    case FUSE_FLUSH:
        see_flush(body, length);
        return size;
    case FUSE_RELEASE:
        return change_release(message, size, &head);
    case FUSE_FORGET:
    case FUSE_BATCH_FORGET:
        see_forgets(&head, body, length);
        return size;
    case FUSE_INIT:
        remember_init(&head, body, length);
        return size;
    case FUSE_LOOKUP:
    case FUSE_CREATE:
    case FUSE_MKDIR:
    case FUSE_MKNOD:
    case FUSE_UNLINK:
    case FUSE_RMDIR:
    case FUSE_OPEN:
        table_lock();
        size = change_names(message, size, &head);
        table_unlock();
        return size;
    default:
        return answer_here(&head, body, length) ? 0 : size;
    }
}
