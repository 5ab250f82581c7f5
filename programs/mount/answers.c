// Answers to messages that the server never sees: those for the folder's list, attributes, sizes,
// and what isn't done.
#include "mount.h"

#include <errno.h>
#include <string.h>

#ifndef FUSE_TMPFILE
#define FUSE_TMPFILE 51
#endif
enum { NAME_LENGTH = 255, BLOCK = 4096 };

static bool read_body(void *to, size_t want, const char *body, size_t size)
{
    if (size < want)
        return false;
    memcpy(to, body, want);
    return true;
}

// ---- The list of names ----

struct list {
    char bytes[MOST - sizeof(struct fuse_out_header)];
    size_t size, most;
};

// Appends a name, unless the list is full.
static bool append(struct list *list, uint64_t number, uint64_t cookie, uint32_t mode, const char *name)
{
    struct fuse_dirent entry = {.ino = number, .off = cookie, .namelen = (uint32_t)strlen(name), .type = (mode & S_IFMT) >> 12};
    size_t size = FUSE_DIRENT_ALIGN(FUSE_NAME_OFFSET + entry.namelen);
    if (list->size + size > list->most)
        return false;
    memset(list->bytes + list->size, 0, size);
    memcpy(list->bytes + list->size, &entry, FUSE_NAME_OFFSET);
    memcpy(list->bytes + list->size + FUSE_NAME_OFFSET, name, entry.namelen);
    list->size += size;
    return true;
}

// A name's cookie is its place in the order of making, so it stays right while files come and go.
static bool read_folder(const struct fuse_in_header *head, const char *body, size_t size)
{
    static struct list list;
    struct fuse_read_in read;
    if (!read_body(&read, sizeof read, body, size))
        return answer(head->unique, EINVAL, NULL, 0);
    list.size = 0;
    list.most = read.size < sizeof list.bytes ? read.size : sizeof list.bytes;
    table_lock();
    struct node *folder = node_of(head->nodeid);
    bool room = folder != NULL;
    if (room && read.offset < 1)
        room = append(&list, head->nodeid, 1, S_IFDIR, ".");
    if (room && read.offset < 2)
        room = append(&list, ROOT, 2, S_IFDIR, "..");
    if (head->nodeid == ROOT)
        for (struct node *node = node_after(read.offset); room && node; node = node_after(node->cookie))
            room = append(&list, node->number, node->cookie, node->mode, node->name);
    table_unlock();
    return answer(head->unique, 0, list.bytes, list.size);
}

// ---- Attributes ----

static struct timespec time_of(uint64_t second, uint32_t nanosecond, bool is_now)
{
    return is_now ? now() : (struct timespec){.tv_sec = (time_t)second, .tv_nsec = (long)nanosecond};
}

static void set_attributes(struct node *node, const struct fuse_setattr_in *in)
{
    if (in->valid & FATTR_MODE)
        node->mode = (node->mode & S_IFMT) | (in->mode & 07777);
    if (in->valid & FATTR_UID)
        node->uid = in->uid;
    if (in->valid & FATTR_GID)
        node->gid = in->gid;
    if (in->valid & FATTR_SIZE)
        node->mtime = now();
    if (in->valid & FATTR_ATIME)
        node->atime = time_of(in->atime, in->atimensec, in->valid & FATTR_ATIME_NOW);
    if (in->valid & FATTR_MTIME)
        node->mtime = time_of(in->mtime, in->mtimensec, in->valid & FATTR_MTIME_NOW);
    node->ctime = now();
}

// The kernel has checked who may. A file has no data, so its size is 0, also where one is to be
// thrown away.
static bool change_attributes(const struct fuse_in_header *head, const char *body, size_t size)
{
    struct fuse_setattr_in in;
    struct fuse_attr_out out = {0};
    if (!read_body(&in, sizeof in, body, size))
        return answer(head->unique, EINVAL, NULL, 0);
    if ((in.valid & FATTR_SIZE) && in.size && !session.discards)
        return answer(head->unique, EFBIG, NULL, 0);
    table_lock();
    struct node *node = node_of(head->nodeid);
    if (node) {
        set_attributes(node, &in);
        describe(&out.attr, node);
        out.attr_valid = ATTRIBUTES_HOLD;
    }
    table_unlock();
    return answer(head->unique, node ? 0 : ENOENT, &out, sizeof out);
}

// ---- Data ----

static bool write_nothing(const struct fuse_in_header *head, const char *body, size_t size)
{
    struct fuse_write_in in;
    if (!session.discards)
        return answer(head->unique, EFBIG, NULL, 0);
    if (!read_body(&in, sizeof in, body, size))
        return answer(head->unique, EINVAL, NULL, 0);
    table_lock();
    struct node *node = node_of(head->nodeid);
    if (node)
        node->mtime = node->ctime = now();
    table_unlock();
    struct fuse_write_out out = {.size = in.size};
    return answer(head->unique, 0, &out, sizeof out);
}

static bool file_system(const struct fuse_in_header *head)
{
    table_lock();
    unsigned files = nodes_count(), most = nodes_most();
    table_unlock();
    struct fuse_statfs_out out = {.st = {.files = most, .ffree = files < most ? most - files : 0, .bsize = BLOCK,
                                         .frsize = BLOCK, .namelen = NAME_LENGTH}};
    return answer(head->unique, 0, &out, sizeof out);
}

bool answer_here(const struct fuse_in_header *head, const char *body, size_t size)
{
    const struct fuse_open_out folder = {0};
    switch (head->opcode) {
    case FUSE_OPENDIR:
        return answer(head->unique, 0, &folder, sizeof folder), true;
    case FUSE_READDIR:
        return read_folder(head, body, size), true;
    case FUSE_SETATTR:
        return change_attributes(head, body, size), true;
    case FUSE_STATFS:
        return file_system(head), true;
    case FUSE_WRITE:
        return write_nothing(head, body, size), true;
    case FUSE_READ:
    case FUSE_FSYNC:
    case FUSE_FSYNCDIR:
    case FUSE_RELEASEDIR:
        return answer(head->unique, 0, NULL, 0), true;
    case FUSE_LINK:
    case FUSE_SYMLINK:
        return answer(head->unique, EPERM, NULL, 0), true;
    case FUSE_RENAME:
    case FUSE_RENAME2:
    case FUSE_TMPFILE:
    case FUSE_FALLOCATE:
        return answer(head->unique, EOPNOTSUPP, NULL, 0), true;
    default:
        return false;
    }
}
