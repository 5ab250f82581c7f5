"""Messages and replies as bytes: the layouts and the numbers of Linux's `fuse.h` (protocol 7.31; a message that is sent again is marked by 7.40).

A message's header is packed in `message` alone, and a lock's body in `lock_body`. A function with an opcode's name gives a whole message, one that
ends with `_body` what stands behind its header, and one that ends with `_reply` a whole reply. `who` is the user, the group and the process of a
message: `uid`, `gid`, `pid`. A message is of node 2 and fh 1 by default, which the first file of a session has.
"""
import struct
from errno import (  # noqa: F401: tests take them from here, beside the opcodes.
    EAGAIN, EBADF, EDEADLK, EEXIST, EFBIG, EINTR, EINVAL, EISDIR, ENAMETOOLONG, ENFILE, ENOENT, ENOLCK, ENOMEM, ENOSPC, ENOSYS, ENOTDIR, EOPNOTSUPP, EPERM,
    EPROTO)

LOOKUP, FORGET, GETATTR, SETATTR, UNLINK, OPEN, READ, RELEASE, FLUSH, INIT = 1, 2, 3, 4, 10, 14, 15, 18, 25, 26
SYMLINK, MKNOD, MKDIR, RMDIR, RENAME, LINK, WRITE, STATFS, READDIR, RENAME2 = 6, 8, 9, 11, 12, 13, 16, 17, 28, 45
GETLK, SETLK, SETLKW, CREATE, INTERRUPT, DESTROY, BATCH_FORGET = 31, 32, 33, 35, 36, 38, 42
# How long the body of each order is before its name, and whether a name follows. The pairs of a BATCH_FORGET follow, too.
BODIES = {LOOKUP: (0, True), FORGET: (8, False), GETATTR: (16, False), UNLINK: (0, True), OPEN: (8, False), RELEASE: (24, False), FLUSH: (24, False),
          GETLK: (48, False), SETLK: (48, False), SETLKW: (48, False), CREATE: (16, True), INTERRUPT: (8, False), BATCH_FORGET: (8, False)}
# The same of those that whole sessions alone take as orders.
WHOLE_BODIES = {MKNOD: (16, True), MKDIR: (8, True), RMDIR: (0, True)}
# The messages that get no reply of their own. An INTERRUPT gets one only if no request of that unique waits.
NO_REPLY = FORGET, BATCH_FORGET
MAJOR, MINOR = 7, 31
# Bytes of the longest message and the longest reply, of a message's header, and of a reply's.
LONGEST, HEADER, REPLY_HEADER = 8192, 40, 16
# `F_RDLCK`, `F_WRLCK` and `F_UNLCK`.
READ_LOCK, WRITE_LOCK, NO_LOCK = 0, 1, 2
# The last byte that a lock can have, and the greatest number of 64 bits.
LAST_BYTE, LAST = 2**63 - 1, 2**64 - 1
# A flag of a lock's body: it is one of flock(2). A flag of a RELEASE: it drops that of its owner. `O_EXCL` is a flag of a CREATE.
LK_FLOCK, RELEASE_FLOCK_UNLOCK, O_EXCL = 1, 2, 0o200
# The bits of a mode that say the file type, and two of these types.
S_IFMT, S_IFREG, S_IFDIR = 0o170000, 0o100000, 0o40000
# What a server says in its reply to an INIT: it has locks of both classes.
POSIX_LOCKS, FLOCK_LOCKS = 1 << 1, 1 << 10
# The bit of a unique that marks a message as sent again.
UNIQUE_RESEND = 1 << 63


# ---- messages

def message(opcode, unique, node, body=b"", uid=0, gid=0, pid=0):
    """`struct fuse_in_header`, and the body."""
    return struct.pack("<IIQQIIII", HEADER + len(body), opcode, unique, node, uid, gid, pid, 0) + body


def init_body(major=MAJOR, minor=MINOR, readahead=0, flags=0):
    return struct.pack("<IIII", major, minor, readahead, flags)


def name_body(name):
    return name + b"\0"


def create_body(name, mode=0o644, flags=0):
    return struct.pack("<IIII", flags, mode, 0, 0) + name_body(name)


def mknod_body(name, mode=S_IFREG | 0o644):
    """`struct fuse_mknod_in`, with a umask, and the name."""
    return struct.pack("<IIII", mode, 0, 0o22, 0) + name_body(name)


def mkdir_body(name, mode=0o755):
    """`struct fuse_mkdir_in`, with a umask, and the name."""
    return struct.pack("<II", mode, 0o22) + name_body(name)


def open_body():
    return bytes(8)


def getattr_body():
    return bytes(16)


def release_body(fh, owner=0, flags=0):
    return struct.pack("<QIIQ", fh, 0, flags, owner)


def flush_body(fh, owner):
    return struct.pack("<QIIQ", fh, 0, 0, owner)


def forget_body(count):
    return struct.pack("<Q", count)


def batch_forget_body(*pairs):
    """Pairs of a node and a count of lookups."""
    return struct.pack("<II", len(pairs), 0) + b"".join(struct.pack("<QQ", *it) for it in pairs)


def interrupt_body(other):
    return struct.pack("<Q", other)


def lock_body(fh, owner, start, end, kind, pid=11, flags=0):
    """`struct fuse_lk_in`, of GETLK, SETLK and SETLKW."""
    return struct.pack("<QQQQIIII", fh, owner, start, end, kind, pid, flags, 0)


def read_body(fh=0, offset=0, size=4096):
    """`struct fuse_read_in`, of READ and READDIR, and `struct fuse_write_in`, of WRITE. Of a READDIR the offset is the cookie of an entry."""
    return struct.pack("<QQI20x", fh, offset, size)


def rename_body(old, new, to=1):
    return struct.pack("<Q", to) + name_body(old) + name_body(new)


def rename2_body(old, new, flags=0, to=1):
    return struct.pack("<QII", to, flags, 0) + name_body(old) + name_body(new)


def init(unique=1, major=MAJOR, minor=MINOR, readahead=0, flags=0, more=b""):
    return message(INIT, unique, 0, init_body(major, minor, readahead, flags) + more)


def create(unique, name=b"a", mode=0o644, flags=0, **who):
    return message(CREATE, unique, 1, create_body(name, mode, flags), **who)


def lookup(unique, name=b"a", **who):
    return message(LOOKUP, unique, 1, name_body(name), **who)


def unlink(unique, name=b"a", **who):
    return message(UNLINK, unique, 1, name_body(name), **who)


def mknod(unique, name=b"a", mode=S_IFREG | 0o644, node=1, **who):
    return message(MKNOD, unique, node, mknod_body(name, mode), **who)


def mkdir(unique, name=b"a", mode=0o755, node=1, **who):
    return message(MKDIR, unique, node, mkdir_body(name, mode), **who)


def rmdir(unique, name=b"a", node=1, **who):
    return message(RMDIR, unique, node, name_body(name), **who)


def open_(unique, node=2, **who):
    return message(OPEN, unique, node, open_body(), **who)


def getattr_(unique, node=2, **who):
    return message(GETATTR, unique, node, getattr_body(), **who)


def release(unique, node=2, fh=1, owner=0, flags=0, **who):
    return message(RELEASE, unique, node, release_body(fh, owner, flags), **who)


def flush(unique, node=2, fh=1, owner=0, **who):
    return message(FLUSH, unique, node, flush_body(fh, owner), **who)


def forget(unique, node=2, count=1, **who):
    return message(FORGET, unique, node, forget_body(count), **who)


def batch_forget(unique, *pairs, **who):
    return message(BATCH_FORGET, unique, 0, batch_forget_body(*pairs), **who)


def lock(opcode, unique, owner, start, end, kind, node=2, fh=1, pid=11, flags=0, **who):
    """GETLK, SETLK or SETLKW of these bytes. The `pid` here is that of the lock."""
    return message(opcode, unique, node, lock_body(fh, owner, start, end, kind, pid, flags), **who)


def whole_file(opcode, unique, owner, kind, node=2, fh=1, pid=11, **who):
    """The same of a whole file, as flock(2) asks."""
    return lock(opcode, unique, owner, 0, LAST_BYTE, kind, node, fh, pid, LK_FLOCK, **who)


def interrupt(unique, other):
    return message(INTERRUPT, unique, 0, interrupt_body(other))


def readdir(unique, cookie=0, size=4096, node=1, **who):
    """Asks for the entries behind the one with this cookie."""
    return message(READDIR, unique, node, read_body(0, cookie, size), **who)


def statfs(unique, node=1, **who):
    return message(STATFS, unique, node, **who)


def destroy(unique, body=b""):
    return message(DESTROY, unique, 0, body)


# ---- replies

def reply(unique, error=0, body=b""):
    """`struct fuse_out_header`, which has minus the error, and the body."""
    return struct.pack("<IiQ", REPLY_HEADER + len(body), -error, unique) + body


def init_reply(unique=1, readahead=0, flags=0):
    return reply(unique, body=struct.pack("<IIIIHHII36x", MAJOR, MINOR, readahead, flags, 16, 12, 4096, 1))


def version_reply(unique):
    """To an INIT of a later major version."""
    return reply(unique, body=struct.pack("<II56x", MAJOR, MINOR))


def attributes(node, mode, links, uid, gid):
    """`struct fuse_attr`."""
    return struct.pack("<Q52xIIII4xI4x", node, mode, links, uid, gid, 4096)


def entry_body(node, *what):
    """`struct fuse_entry_out`. After the node stand its mode, links, uid and gid, as in `attributes`."""
    return struct.pack("<Q32x", node) + attributes(node, *what)


def opened_body(fh):
    """`struct fuse_open_out`."""
    return struct.pack("<Q8x", fh)


def entry_reply(unique, node, *what):
    """To a LOOKUP, a MKNOD or a MKDIR."""
    return reply(unique, body=entry_body(node, *what))


def attr_reply(unique, node, *what):
    """To a GETATTR."""
    return reply(unique, body=bytes(16) + attributes(node, *what))


def open_reply(unique, fh):
    return reply(unique, body=opened_body(fh))


def create_reply(unique, node, mode, links, uid, gid, fh):
    return reply(unique, body=entry_body(node, mode, links, uid, gid) + opened_body(fh))


def lock_reply(unique, start, end, kind, pid):
    """To a GETLK."""
    return reply(unique, body=struct.pack("<QQII", start, end, kind, pid))


def dirent(node, cookie, name, mode=S_IFREG):
    """`struct fuse_dirent`, the name, and zeros up to a multiple of 8."""
    entry = struct.pack("<QQII", node, cookie, len(name), mode >> 12) + name
    return entry + bytes(-len(entry) % 8)


def room_reply(unique, files, free):
    """To a STATFS: `struct fuse_kstatfs`, by which no block is there."""
    return reply(unique, body=struct.pack("<24xQQIIII24x", files, free, 4096, 255, 4096, 0))


# How long replies are.
INIT_SIZE, CREATE_SIZE, ENTRY_SIZE, ATTR_SIZE, OPEN_SIZE, BARE_SIZE = 80, 160, 144, 120, 32, REPLY_HEADER


# ---- what stands in bytes

def length_of(bytes_):
    """The length that a message or a reply says."""
    return struct.unpack_from("<I", bytes_)[0]


def opcode_of(message_):
    return struct.unpack_from("<I", message_, 4)[0]


def unique_of(bytes_):
    """The unique of a message or a reply, which has it at the same place."""
    return struct.unpack_from("<Q", bytes_, 8)[0]


def node_of(message_):
    return struct.unpack_from("<Q", message_, 16)[0]


def error_of(reply_):
    return -struct.unpack_from("<i", reply_, 4)[0]


def made_of(reply_):
    """The node and the fh of a reply to a CREATE."""
    return struct.unpack_from("<Q120xQ", reply_, REPLY_HEADER)


def lock_of(reply_):
    """The start, the end, the kind and the pid of a reply to a GETLK."""
    return struct.unpack_from("<QQII", reply_, REPLY_HEADER)


def entries_of(reply_):
    """The node, the cookie, the type and the name of each entry of a reply to a READDIR."""
    found, at = [], REPLY_HEADER
    while at < len(reply_):
        node, cookie, length, kind = struct.unpack_from("<QQII", reply_, at)
        found.append((node, cookie, kind, reply_[at + 24:at + 24 + length]))
        at += 24 + length + -length % 8
    assert at == len(reply_), "a cut entry"
    return found


def with_length(bytes_, length):
    """The same message or reply, with a header that says another length."""
    return struct.pack("<I", length) + bytes_[4:]


def with_unique(bytes_, unique):
    """The same message or reply with another unique."""
    return bytes_[:8] + struct.pack("<Q", unique) + bytes_[16:]


def sent_again(message_):
    """The message, as it is sent again to another server."""
    return with_unique(message_, unique_of(message_) | UNIQUE_RESEND)


def cut(bytes_):
    """The whole replies of a stream, in their order, and what is left behind them."""
    found, at = [], 0
    while at + REPLY_HEADER <= len(bytes_):
        size = struct.unpack_from("<I", bytes_, at)[0]
        assert REPLY_HEADER <= size <= LONGEST, size
        if at + size > len(bytes_):
            break
        found.append(bytes_[at:at + size])
        at += size
    return found, bytes_[at:]


def errors(bytes_):
    """The uniques and error numbers of whole replies, in their order. A rest that is no whole reply is refused."""
    found, rest = cut(bytes_)
    assert not rest, "a cut reply"
    return [(unique_of(it), error_of(it)) for it in found]
