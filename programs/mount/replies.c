// What is changed in replies on their way from the server to the kernel.
//
// - In the reply to INIT the flag FUSE_ATOMIC_O_TRUNC is set where the kernel offers it.
// - Attributes are those that the carrier keeps.
// - A reply to one of the carrier's own messages ends here, and one to an INIT that was sent again.
#include "mount.h"

#include <errno.h>
#include <fcntl.h>
#include <stdlib.h>
#include <string.h>

enum { KERNELS_MINOR = 31 };

static size_t change_init(char *reply, size_t size, int error)
{
    struct fuse_init_out init;
    atomic_store(&session.init, 0);
    if (error) {
        carrier_refused_init(-error);
    } else if (size != sizeof(struct fuse_out_header) + sizeof init) {
        carrier_refused_init(EPROTO);
    } else {
        memcpy(&init, reply + sizeof(struct fuse_out_header), sizeof init);
#ifndef KERNELS_TRUNCATION
        if (session.offers_truncation)
            init.flags |= FUSE_ATOMIC_O_TRUNC;
#endif
        memcpy(reply + sizeof(struct fuse_out_header), &init, sizeof init);
        if (init.major == FUSE_KERNEL_VERSION && init.minor >= KERNELS_MINOR)
            carrier_agreed();
    }
    return size;
}

static void change_attributes(char *body)
{
    struct fuse_attr_out out;
    memcpy(&out, body, sizeof out);
    struct node *node = node_of(out.attr.ino);
    if (node) {
        describe(&out.attr, node);
        out.attr_valid = ATTRIBUTES_HOLD;
        memcpy(body, &out, sizeof out);
    }
}

static void change_entry(char *body)
{
    struct fuse_entry_out out;
    memcpy(&out, body, sizeof out);
    struct node *node = node_looked_up(&out.attr);
    if (node) {
        describe(&out.attr, node);
        out.attr_valid = ATTRIBUTES_HOLD;
        memcpy(body, &out, sizeof out);
    }
}

// The file that a CREATE made: its open file, too, unless it was asked for by MKDIR or MKNOD.
static size_t change_made(char *reply, size_t size, const struct asked *asked)
{
    struct fuse_entry_out entry;
    struct fuse_open_out open;
    char *body = reply + sizeof(struct fuse_out_header);
    memcpy(&entry, body, sizeof entry);
    memcpy(&open, body + sizeof entry, sizeof open);
    node_made(entry.nodeid, asked->name, asked->mode, asked->uid, asked->gid);
    change_entry(body);
    if (asked->opcode == FUSE_CREATE) {
        open_made(open.fh, entry.nodeid, asked->pid);
        if (session.discards)
            open.open_flags |= FOPEN_DIRECT_IO;
        memcpy(body + sizeof entry, &open, sizeof open);
        return size;
    }
    release_now(asked, entry.nodeid, open.fh);
    struct fuse_out_header head;
    memcpy(&head, reply, sizeof head);
    head.len = (uint32_t)(sizeof head + sizeof entry);
    memcpy(reply, &head, sizeof head);
    return head.len;
}

static void change_opened(char *body, const struct asked *asked)
{
    struct fuse_open_out open;
    memcpy(&open, body, sizeof open);
    open_made(open.fh, asked->node, asked->pid);
    struct node *node = node_of(asked->node);
    if (node && (asked->flags & O_TRUNC))
        node->mtime = node->ctime = now();
    if (session.discards)
        open.open_flags |= FOPEN_DIRECT_IO;
    memcpy(body, &open, sizeof open);
}

static size_t change_awaited(char *reply, size_t size, const struct asked *asked, int error)
{
    size_t length = size - sizeof(struct fuse_out_header);
    bool makes = asked->opcode == FUSE_CREATE || asked->opcode == FUSE_MKDIR || asked->opcode == FUSE_MKNOD;
    bool made = makes && length == sizeof(struct fuse_entry_out) + sizeof(struct fuse_open_out);
    if (asked->unique & OURS) {
        if (asked->opcode == FUSE_FLUSH && atomic_fetch_sub(&session.flushes, 1) == 1)
            carrier_answered();
        return 0;
    }
    if (error)
        return size;
    if (made)
        return change_made(reply, size, asked);
    if (asked->opcode == FUSE_OPEN && length == sizeof(struct fuse_open_out))
        change_opened(reply + sizeof(struct fuse_out_header), asked);
    else if (asked->opcode == FUSE_UNLINK || asked->opcode == FUSE_RMDIR)
        node_unlinked(asked->name);
    return size;
}

// The kernel has its answer already: the INIT was sent again, to a server that came after another one.
static size_t end_init(int error)
{
    if (error)
        carrier_refused_init(-error);
    atomic_store(&session.init, 0);
    carrier_answered();
    return 0;
}

size_t change_reply(char *reply, size_t size)
{
    struct fuse_out_header head;
    char *body = reply + sizeof head;
    memcpy(&head, reply, sizeof head);
    if (head.unique == atomic_load(&session.init))
        return carrier_is_agreed() ? end_init(head.error) : change_init(reply, size, head.error);
    if (size == sizeof head && !asked_any())
        return size;
    table_lock();
    struct asked *asked = asked_any() ? asked_taken(head.unique) : NULL;
    if (asked)
        size = change_awaited(reply, size, asked, head.error);
    else if (!head.error && size == sizeof head + sizeof(struct fuse_attr_out))
        change_attributes(body);
    else if (!head.error && size == sizeof head + sizeof(struct fuse_entry_out))
        change_entry(body);
    table_unlock();
    free(asked);
    return size;
}
