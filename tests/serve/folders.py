"""Tries folders in whole sessions of the built `lockd`: what MKNOD, MKDIR and RMDIR make and take away, their errors, and lists of folders. And what comes of
these messages in other sessions, of servers that are killed, and of traces in pieces.

Replies are laid out here by hand, or are those of the plain directory in `tests/serve/whole.py`, which also tries random sessions with folders.
`tests/shims/calls.c` makes servers send a few bytes at a time, and kills them; it wants a C compiler. `tries.py` says how it ends.
"""
import contextlib
import itertools
import random
import sys
from concurrent.futures import ThreadPoolExecutor

from tests import calls, fuse, tries
from tests.commands.states import said
from tests.fuse import (
    CREATE, EBADF, EEXIST, EINVAL, EISDIR, ENAMETOOLONG, ENFILE, ENOENT, ENOSPC, ENOSYS, ENOTDIR, EPERM, EPROTO, LOOKUP, MKDIR, MKNOD, O_EXCL, READDIR, RMDIR,
    S_IFDIR, S_IFMT, S_IFREG, SETLK, STATFS, UNLINK, WHOLE_BODIES, WRITE_LOCK, attr_reply, create, create_reply, dirent, entry_reply, error_of, forget,
    getattr_, lookup, message, mkdir, mknod, opcode_of, open_, readdir, release, reply, rmdir, room_reply, sent_again, statfs, unique_of, unlink)
from tests.locks.directory import ROOT, Directory, Refused
from tests.resume import kit
from tests.resume.kit import KILLED, Gone, resuming
from tests.resume.long import LEAST, behind_head, exchange, paths_of, read
from tests.serve.kit import Client
from tests.serve.whole import FILES, LEAST as LEAST_LIST, MOST, RESUME, Listed, is_answered, random_talk, restart
from tests.tries import INIT, INIT_REPLY, Server, each, judged, run

FOLDER, FILE = (S_IFDIR | 0o755, 2, 0, 0), (S_IFREG | 0o644, 1, 0, 0)
LIMITS = "--files", "65536"
# The types of a mode, by their number.
TYPES = [it << 12 for it in range(16)]


def is_served(talk, lines, *options):
    """`bytes --whole` and `serve --whole` give to these messages, behind an INIT, the replies beside them. The trace has these lines, and is legal."""
    is_answered(talk, *options)
    server = Server("--whole", "--trace", "{file}", *options, workers=None)
    came = exchange(server, INIT + b"".join(sent for sent, _ in talk))
    assert came == INIT_REPLY + b"".join(told for _, told in talk)
    assert server.ended() == (b"", "", 0)
    assert server.traced().decode() == "".join(f"{it}\n" for it in lines), server.traced()
    assert judged(server.traced(), *options) == judged(server.traced(), "--whole", *options) == "legal\n"


# ---- what is made and taken away

def try_a_folder_comes_and_goes():
    """It has two links while it has a name. The root has two all the time. A node stays while it is looked up, and its number never comes again."""
    root, gone = (0o40755, 2, 0, 0), (S_IFDIR | 0o755, 0, 1001, 2002)
    who = {"uid": 1001, "gid": 2002, "pid": 3}
    mine = S_IFDIR | 0o755, 2, 1001, 2002
    is_served([
        (getattr_(10, ROOT), attr_reply(10, ROOT, *root)),
        (mkdir(11, b"d", **who), entry_reply(11, 2, *mine)),
        (getattr_(12, ROOT), attr_reply(12, ROOT, *root)),
        (getattr_(13, 2), attr_reply(13, 2, *mine)),
        (lookup(14, b"d"), entry_reply(14, 2, *mine)),
        (rmdir(15, b"d"), reply(15)),
        (getattr_(16, 2), attr_reply(16, 2, *gone)),
        (lookup(17, b"d"), reply(17, ENOENT)),
        (rmdir(18, b"d"), reply(18, ENOENT)),
        (mkdir(19, b"d", 0o700), entry_reply(19, 3, S_IFDIR | 0o700, 2, 0, 0)),
        (forget(20, 2, 1), b""),
        (getattr_(21, 2), attr_reply(21, 2, *gone)),
        (forget(22, 2, 1), b""),
        (getattr_(23, 2), reply(23, ENOENT)),
        (forget(24, 3, 1), b""),
        (getattr_(25, 3), attr_reply(25, 3, S_IFDIR | 0o700, 2, 0, 0)),
        (rmdir(26, b"d"), reply(26)),
        (getattr_(27, 3), reply(27, ENOENT)),
        (mknod(28, b"d", 0o600), entry_reply(28, 4, S_IFREG | 0o600, 1, 0, 0)),
        (unlink(29, b"d"), reply(29)),
        (getattr_(30, 4), attr_reply(30, 4, S_IFREG | 0o600, 0, 0, 0)),
        (forget(31, 4, 2**64 - 1), b""),
        (getattr_(32, 4), reply(32, ENOENT)),
    ], [
        "ask 0 10 1 0 0 0 getattr", "tell 10 attr 1 16877 2 0 0", "ask 0 11 1 1001 2002 3 mkdir 493 64", "tell 11 entry 2 16877 2 1001 2002",
        "ask 0 12 1 0 0 0 getattr", "tell 12 attr 1 16877 2 0 0", "ask 0 13 2 0 0 0 getattr", "tell 13 attr 2 16877 2 1001 2002",
        "ask 0 14 1 0 0 0 lookup 64", "tell 14 entry 2 16877 2 1001 2002", "ask 0 15 1 0 0 0 rmdir 64", "tell 15 ok",
        "ask 0 16 2 0 0 0 getattr", "tell 16 attr 2 16877 0 1001 2002", "ask 0 17 1 0 0 0 lookup 64", "tell 17 err 2",
        "ask 0 18 1 0 0 0 rmdir 64", "tell 18 err 2", "ask 0 19 1 0 0 0 mkdir 448 64", "tell 19 entry 3 16832 2 0 0", "ask 0 20 2 0 0 0 forget 1",
        "ask 0 21 2 0 0 0 getattr", "tell 21 attr 2 16877 0 1001 2002",
        "ask 0 22 2 0 0 0 forget 1", "ask 0 23 2 0 0 0 getattr", "tell 23 err 2", "ask 0 24 3 0 0 0 forget 1", "ask 0 25 3 0 0 0 getattr",
        "tell 25 attr 3 16832 2 0 0", "ask 0 26 1 0 0 0 rmdir 64", "tell 26 ok", "ask 0 27 3 0 0 0 getattr", "tell 27 err 2",
        "ask 0 28 1 0 0 0 mknod 384 64", "tell 28 entry 4 33152 1 0 0", "ask 0 29 1 0 0 0 unlink 64", "tell 29 ok", "ask 0 30 4 0 0 0 getattr",
        "tell 30 attr 4 33152 0 0 0", "ask 0 31 4 0 0 0 forget 18446744073709551615", "ask 0 32 4 0 0 0 getattr", "tell 32 err 2"])


def try_types_of_files():
    """A MKNOD makes regular files alone, whose type may be left out. A MKDIR makes a folder, whatever type is sent. The permissions stay, and the bits for
    S_ISUID, S_ISGID and S_ISVTX, and nothing else. A line has the mode as it was sent."""
    talk, lines, node = [], [], 2
    modes = [type_ | bits | more for type_ in TYPES for bits in (0, 0o644, 0o7777) for more in (0, 1 << 16, 1 << 31, 0xFFFF0000)]
    modes += [S_IFREG | 1 << it for it in range(12)]
    for unique, (mode, make) in enumerate(itertools.product(modes, (mknod, mkdir)), 10):
        name, kind = b"%d" % unique, "mknod" if make is mknod else "mkdir"
        is_made = make is mkdir or mode & S_IFMT in (0, S_IFREG)
        given, links = (0o40000, 2) if make is mkdir else (0o100000, 1)
        talk.append((make(unique, name, mode), entry_reply(unique, node, given | mode & 0o7777, links, 0, 0) if is_made else reply(unique, EPERM)))
        lines.append(f"ask 0 {unique} 1 0 0 0 {kind} {mode} {name.hex()}")
        lines.append(f"tell {unique} entry {node} {given | mode & 0o7777} {links} 0 0" if is_made else f"tell {unique} err 1")
        node += is_made
    is_served(talk, lines, *LIMITS)
    return f"{len(modes)} modes"


def try_bodies_that_are_not_read():
    """Of a MKNOD `rdev` and `umask`, of a MKDIR `umask`."""
    talk = [(message(MKNOD, 10, ROOT, b"\xa4\x81\0\0" + b"\xff" * 12 + b"a\0"), entry_reply(10, 2, *FILE)),
            (message(MKDIR, 11, ROOT, b"\xed\1\0\0" + b"\xff" * 4 + b"b\0"), entry_reply(11, 3, *FOLDER))]
    is_served(talk, ["ask 0 10 1 0 0 0 mknod 33188 61", "tell 10 entry 2 33188 1 0 0", "ask 0 11 1 0 0 0 mkdir 493 62", "tell 11 entry 3 16877 2 0 0"])


def try_bodies_that_are_refused():
    """One that is too short, or whose name has no zero byte at its end or one before: EINVAL, and ENAMETOOLONG for a name of over 255 bytes. They have no
    line. Before an INIT all are EPROTO."""
    talk = []
    for opcode, (size, _) in WHOLE_BODIES.items():
        fields = bytes(size)
        for body in (b"", bytes(1)[:size], fields[:-1], fields, *(fields + it for it in (b"a", b"a\0b\0", b"a\0\0", b"\0\0", b"a" * 257))):
            talk.append((opcode, body, EINVAL))
        talk += [(opcode, fields + b"a" * it + b"\0", ENAMETOOLONG) for it in (256, 257, 8151 - size)]
    is_served([(message(opcode, at, ROOT, body), reply(at, error)) for at, (opcode, body, error) in enumerate(talk, 10)], [])
    longest = b"n" * 255
    is_served([(mkdir(10, longest), entry_reply(10, 2, *FOLDER)), (rmdir(11, longest), reply(11)), (mknod(12, longest), entry_reply(12, 3, *FILE)),
               (readdir(13, 3), reply(13, body=dirent(3, 4, longest)))],
              [f"ask 0 10 1 0 0 0 mkdir 493 {longest.hex()}", "tell 10 entry 2 16877 2 0 0", f"ask 0 11 1 0 0 0 rmdir {longest.hex()}", "tell 11 ok",
               f"ask 0 12 1 0 0 0 mknod 33188 {longest.hex()}", "tell 12 entry 3 33188 1 0 0"])
    early = [(message(opcode, at, ROOT, body), reply(at, EPROTO)) for at, (opcode, body, _) in enumerate(talk, 10)]
    early += [(mkdir(500), reply(500, EPROTO)), (mknod(501), reply(501, EPROTO)), (rmdir(502), reply(502, EPROTO)), (INIT, INIT_REPLY)]
    for whole in ["--whole"], []:
        ran = run("bytes", *whole, text=b"".join(sent for sent, _ in early).hex().encode() + b"\n")
        assert ran.stdout.decode().split() == [it.hex() for _, it in early], (whole, ran)
    return f"{len(talk)} bodies"


# ---- errors

NAMED = {"lookup": LOOKUP, "unlink": UNLINK, "rmdir": RMDIR, "create": CREATE, "opens": CREATE, "mknod": MKNOD, "fifo": MKNOD, "mkdir": MKDIR}
MAKES = "create", "opens", "mknod", "fifo", "mkdir"
RESERVED = b"", b".", b"..", b"a/b", b"/"
# What is answered in the root, by the order and what has the name.
IN_ROOT = {
    ("lookup", "none"): ENOENT, ("lookup", "reserved"): ENOENT,
    ("unlink", "none"): ENOENT, ("unlink", "reserved"): ENOENT, ("unlink", "folder"): EISDIR,
    ("rmdir", "none"): ENOENT, ("rmdir", "reserved"): ENOENT, ("rmdir", "file"): ENOTDIR,
    ("create", "reserved"): EINVAL, ("create", "folder"): EEXIST, ("create", "file"): EEXIST,
    ("opens", "reserved"): EINVAL, ("opens", "folder"): EISDIR,
    ("mknod", "reserved"): EINVAL, ("mknod", "folder"): EEXIST, ("mknod", "file"): EEXIST,
    ("fifo", "reserved"): EINVAL, ("fifo", "folder"): EEXIST, ("fifo", "file"): EEXIST, ("fifo", "none"): EPERM,
    ("mkdir", "reserved"): EINVAL, ("mkdir", "folder"): EEXIST, ("mkdir", "file"): EEXIST,
}
WHERE = {ROOT: "root", 2: "folder", 3: "file", 4: "folder", 99: "nothing", 0: "nothing", fuse.LAST: "nothing"}
NAMES = {b"d": "folder", b"f": "file", b"gone": "none", b"new": "none", **dict.fromkeys(RESERVED, "reserved")}


def body_of(order, name):
    if order in ("create", "opens"):
        return fuse.create_body(name, 0o644, O_EXCL if order == "create" else 0)
    if order in ("mknod", "fifo"):
        return fuse.mknod_body(name, (0o10000 if order == "fifo" else S_IFREG) | 0o644)
    return fuse.mkdir_body(name) if order == "mkdir" else fuse.name_body(name)


def error_in(where, order, what):
    """The error of an order of a name in this, or 0."""
    if where == "nothing":
        return ENOENT
    if where == "folder":
        return EPERM if order in MAKES else ENOENT
    return ENOTDIR if where == "file" else IN_ROOT.get((order, what), 0)


def errors_of_names(is_full):
    """Each order in each place of each name, that has an error: with room for more, or without."""
    for node, order, name in itertools.product(WHERE, NAMED, NAMES):
        error = error_in(WHERE[node], order, NAMES[name])
        if is_full and not error and order in MAKES and NAMES[name] == "none":
            error = ENOSPC
        if error:
            yield NAMED[order], node, body_of(order, name), error


def try_errors_of_names():
    """The first test that fails gives the error, and nothing is changed. With room for more files, and without; one of the folders has no name."""
    counts = []
    for limits, is_full in (LIMITS, False), (("--files", "3"), True):
        talk = [(mkdir(10, b"d"), entry_reply(10, 2, *FOLDER)), (create(11, b"f"), create_reply(11, 3, *FILE, 1)),
                (mkdir(12, b"gone"), entry_reply(12, 4, *FOLDER)), (rmdir(13, b"gone"), reply(13))]
        left = reply(0, body=dirent(2, 3, b"d", FOLDER[0]) + dirent(3, 4, b"f"))
        rows = [*errors_of_names(is_full)]
        for at, (opcode, node, body, error) in enumerate(rows, 1000):
            talk.append((message(opcode, at, node, body), reply(at, error)))
        talk.append((readdir(15, 2), fuse.with_unique(left, 15)))
        talk += [(getattr_(16, 2), attr_reply(16, 2, *FOLDER)), (getattr_(17, 3), attr_reply(17, 3, *FILE)),
                 (getattr_(18, 4), attr_reply(18, 4, FOLDER[0], 0, 0, 0))]
        if not is_full:
            talk += [(mkdir(19, b"new"), entry_reply(19, 5, *FOLDER)), (open_(20, 3), fuse.open_reply(20, 2))]
        is_answered(talk, *limits)
        counts.append(len(rows))
    return f"{counts[0]} and {counts[1]} messages"


def try_folders_are_not_opened():
    """An OPEN is EISDIR, also of one without a name, and no fh leads to one."""
    talk = [(mkdir(10, b"d"), entry_reply(10, 2, *FOLDER)), (open_(11, 2), reply(11, EISDIR)), (open_(12, ROOT), reply(12, EISDIR)),
            (create(13, b"d"), reply(13, EISDIR)), (create(14, b"d", flags=O_EXCL), reply(14, EEXIST)), (create(15, b"f"), create_reply(15, 3, *FILE, 1))]
    for fh in 0, 1, 2:
        talk += [(message(opcode, 20 + 10 * fh + at, 2, fuse.lock_body(fh, 7, 0, 9, WRITE_LOCK)), reply(20 + 10 * fh + at, EBADF))
                 for at, opcode in enumerate((fuse.GETLK, SETLK, fuse.SETLKW))]
        talk += [(fuse.flush(25 + 10 * fh, 2, fh), reply(25 + 10 * fh, EBADF)), (release(26 + 10 * fh, 2, fh), reply(26 + 10 * fh, EBADF))]
    talk += [(rmdir(60, b"d"), reply(60)), (open_(61, 2), reply(61, EISDIR)), (mkdir(62, b"d"), entry_reply(62, 4, *FOLDER)), (open_(63, 4), reply(63, EISDIR)),
             (open_(64, 3), fuse.open_reply(64, 2)), (forget(65, 2, 1), b""), (open_(66, 2), reply(66, ENOENT))]
    is_answered(talk)


def try_room_for_files_and_folders():
    """Both count by --files, until they have neither a name nor a lookup. How many files may be open has no part in it."""
    def room(unique, free):
        return statfs(unique), room_reply(unique, 3, free)

    talk = [room(10, 3), (mkdir(11, b"a"), entry_reply(11, 2, *FOLDER)), room(12, 2), (create(13, b"b"), create_reply(13, 3, *FILE, 1)), room(14, 1),
            (create(15, b"c"), reply(15, ENFILE)), (mknod(16, b"c"), entry_reply(16, 4, *FILE)), room(17, 0), (mkdir(18, b"d"), reply(18, ENOSPC)),
            (mknod(19, b"d"), reply(19, ENOSPC)), (create(20, b"d"), reply(20, ENOSPC)), (mknod(21, b"d", 0o20644), reply(21, EPERM)),
            (mkdir(22, b"a"), reply(22, EEXIST)), (rmdir(23, b"a"), reply(23)), room(24, 0), (mkdir(25, b"a"), reply(25, ENOSPC)), (forget(26, 2, 1), b""),
            room(27, 1), (mkdir(28, b"a"), entry_reply(28, 5, *FOLDER)), room(29, 0), (forget(30, 5, 1), b""), room(31, 0), (rmdir(32, b"a"), reply(32)),
            room(33, 1)]
    is_answered(talk, "--files", "3", "--open", "1")


# ---- lists

def try_lists_of_folders():
    """A folder has `.`, which is itself, and `..`, which is the root, by each cookie and each buffer; also one without a name. In the root's list it has the
    type of a directory."""
    mode = S_IFDIR | 0o1711
    own, root, unique = dirent(2, 1, b".", mode), dirent(ROOT, 2, b"..", 0o40755), itertools.count(1000)
    talk = [(mkdir(10, b"d", 0o1711), entry_reply(10, 2, mode, 2, 0, 0)), (mknod(11, b"f"), entry_reply(11, 3, *FILE))]

    def lists():
        for cookie, body in (0, own + root), (1, root), *((it, b"") for it in (2, 3, 4, 1000, 2**63, fuse.LAST)):
            for size in LEAST_LIST, LEAST_LIST + 1, 4096, 2**32 - 1:
                yield readdir(it := next(unique), cookie, size, 2), reply(it, body=body)
        yield message(READDIR, it := next(unique), 2, fuse.read_body(99, 1, 4096)), reply(it, body=root)
        yield from ((readdir(it := next(unique), 0, size, node), reply(it, error)) for size in (0, 64, 279) for node, error in
                    ((2, EINVAL), (3, ENOTDIR), (4, ENOENT)))
        yield from ((message(READDIR, it := next(unique), node, bytes(size)), reply(it, EINVAL)) for node in (2, 3, 4) for size in (0, 16, 24, 39, 41, 80))

    talk += lists()
    talk.append((readdir(20), reply(20, body=dirent(1, 1, b".", 0o40755) + root + dirent(2, 3, b"d", mode) + dirent(3, 4, b"f"))))
    talk.append((rmdir(21, b"d"), reply(21)))
    talk += lists()
    talk += [(readdir(22, 2), reply(22, body=dirent(3, 4, b"f"))), (forget(23, 2, 1), b""), (readdir(24, 0, 4096, 2), reply(24, ENOENT)),
             (mkdir(25, b"d", 0o1711), entry_reply(25, 4, mode, 2, 0, 0)),
             (readdir(26, 2), reply(26, body=dirent(3, 4, b"f") + dirent(4, 5, b"d", mode))),
             (readdir(27, 0, 4096, 4), reply(27, body=dirent(4, 1, b".", mode) + root))]
    is_answered(talk)
    assert own[16:24] == bytes([1, 0, 0, 0, 4, 0, 0, 0]), own


# ---- other sessions

ORDERS = {MKNOD: "mknod", MKDIR: "mkdir", RMDIR: "rmdir"}


def try_sessions_that_are_not_whole():
    """MKNOD, MKDIR and RMDIR are ENOSYS, well-formed and malformed, wherever they are sent, and have no line. Nothing comes of them."""
    talk, orders = [(create(10, b"f"), create_reply(10, 2, *FILE, 1))], ["ask 10 1 0 0 0 create 0 420 66"]
    unique = itertools.count(1000)
    for opcode, (size, _) in WHOLE_BODIES.items():
        fields = bytes(size)
        names = b"\0", b"a\0", b"f\0", b"a", b"a\0b\0", b"a" * 255 + b"\0", b"a" * 256 + b"\0", b"a" * 8000
        for body in b"", bytes(1), fields[:-1], fields, *(fields + it for it in names), body_of(ORDERS[opcode], b"a"):
            talk += [(message(opcode, it := next(unique), node, body), reply(it, ENOSYS)) for node in (ROOT, 2, 99)]
            talk.append((lookup(it := next(unique), b"a"), reply(it, ENOENT)))
            orders.append(f"ask {it} 1 0 0 0 lookup 61")
    ran = run("bytes", text=(INIT + b"".join(sent for sent, _ in talk)).hex().encode() + b"\n")
    assert ran.stdout.decode().split() == [it.hex() for it in (INIT_REPLY, *(told for _, told in talk))], ran
    ways = [(["--trace", "{file}"], 1), (["--trace", "{file}"], 2), (["--trace", "{file}"], 4), (["--resume", "{file}"], None)]
    for options, workers in ways:
        server = Server(*options, workers=workers)
        with Client(server) as client:
            client.gets(INIT, INIT_REPLY)
            for sent, told in talk:
                client.gets(sent, told)
            client.closes()
            assert client.rest() == []
        assert server.ended() == (b"", "", 0)
        asked = [" ".join([it.split()[0], *it.split()[2:]]) for it in server.traced().decode().splitlines() if it.startswith("ask ")]
        assert asked == orders, (options, workers, asked)
        assert judged(server.traced()) == "legal\n"
    return f"{len(talk)} messages, {len(ways)} servers"


def try_folders_are_there_without_whole():
    """A FILE with folders goes on without --whole: they are found and known, and can't be opened, but nothing makes or removes one. With --whole again it
    can be removed."""
    server = resuming("--whole")
    assert server.talk(INIT + mkdir(10, b"d") + create(11, b"f")) == INIT_REPLY + entry_reply(10, 2, *FOLDER) + create_reply(11, 3, *FILE, 1)
    assert server.ended() == (b"", "", 0)
    restart(server, *RESUME)
    talk = [(lookup(20, b"d"), entry_reply(20, 2, *FOLDER)), (getattr_(21, 2), attr_reply(21, 2, *FOLDER)), (open_(22, 2), reply(22, EISDIR)),
            (create(23, b"d"), reply(23, EISDIR)), (unlink(24, b"d"), reply(24, EISDIR)), (rmdir(25, b"d"), reply(25, ENOSYS)),
            (mkdir(26, b"e"), reply(26, ENOSYS)), (mknod(27, b"e"), reply(27, ENOSYS)), (readdir(28), reply(28, ENOSYS)),
            (message(CREATE, 29, 2, fuse.create_body(b"e")), reply(29, EPERM)), (message(LOOKUP, 30, 2, b"f\0"), reply(30, ENOENT))]
    assert server.talk(INIT + b"".join(sent for sent, _ in talk)) == INIT_REPLY + b"".join(told for _, told in talk)
    assert server.ended() == (b"", "", 0)
    restart(server, *RESUME, "--whole")
    assert server.talk(INIT + rmdir(40, b"d")) == INIT_REPLY + reply(40)
    assert server.ended() == (b"", "", 0)
    ops = [it.split()[7] for it in server.traced().decode().splitlines() if it.startswith("ask ")]
    assert ops == ["mkdir", "create", "lookup", "getattr", "open", "create", "unlink", "create", "lookup", "rmdir"], ops
    assert judged(server.traced()) == "legal\n"


# ---- traces with folders

def state_of(directory, lines):
    """What a head has to say of a plain directory behind so many lines: its words, and the parts in whichever order. A node without a name has lost it."""
    nodes = (f"node {number} {lookups} {int(name is not None)} {mode} {uid} {gid} {(name or b'').hex()}"
             for number, (lookups, name, mode, uid, gid) in directory.nodes.items())
    files = (f"file {fh} {node}" for fh, node in directory.files.items())
    return f"state {lines} 0 4096 256 {directory.most_nodes} {directory.most_files} {directory.next_node} {directory.next_fh}", sorted([*nodes, *files])


def state_in(head):
    """The same of a head."""
    first, *parts, last = head.decode().splitlines()
    assert last == "go", head
    return first, sorted(it[:it.rindex(" ") + 1] if it.startswith("node ") and it.split()[3] == "0" else it for it in parts)


def replayed(lines, most_nodes, most_files):
    """The plain directory behind the orders of these lines."""
    directory = Directory(most_nodes, most_files)
    for line in lines:
        if line.startswith(b"ask "):
            _, _, _, node, uid, gid, _, op, *words = line.decode().split()
            name = [b"" if words[-1] == "-" else bytes.fromhex(words[-1])] if op in ("lookup", "create", "mknod", "mkdir", "unlink", "rmdir") else []
            with contextlib.suppress(Refused):
                getattr(directory, op)(int(node), (int(uid), int(gid)), *map(int, words[:len(words) - len(name)]), *name)
    return directory


def trace_goes_on(seed):
    """The random trace of a session with folders is legal; `script` gives it; the head behind a part of it tells what the plain directory has there; the
    other part is legal behind that head; and no lock is listed."""
    numbers, limits = random.Random(seed), ["--files", "40", "--open", "60"]
    _, lines = random_talk(seed, 900, 40, 60)
    assert said("check", *limits, text=lines) == said("check", "--whole", *limits, text=lines) == b"legal\n"
    rows = lines.splitlines(True)
    assert said("script", *limits, text=b"".join(it for it in rows if it.startswith(b"ask "))) == lines
    places = [at for at, it in enumerate(rows) if it.startswith(b"ask ")]
    folders = 0
    for at in [*numbers.sample(places, 3), len(rows)]:
        head = said("state", *limits, text=b"".join(rows[:at]))
        wanted = state_of(replayed(rows[:at], 40, 60), at)
        assert state_in(head) == wanted, (seed, at, state_in(head), wanted)
        piece = head + b"".join(rows[at:])
        assert said("check", text=piece) == b"legal\n", (seed, at)
        assert said("locks", "--json", text=piece) == said("locks", "--json", *limits, text=lines) == b"[]\n"
        folders += sum(it.startswith(b"node ") and int(it.split()[4]) & S_IFMT == S_IFDIR for it in head.splitlines())
    return folders


def try_random_traces_with_folders():
    return f"{sum(each(trace_goes_on, zip(range(100, 116))))} folders in heads"


def try_a_wrong_reply_is_found():
    """Of each order of folders, with each wrong reply."""
    good = ["mkdir 493 64", "entry 2 16877 2 0 0"], ["mknod 33188 66", "entry 3 33188 1 0 0"], ["rmdir 64", "ok"], ["rmdir 66", "err 20"], ["unlink 66", "ok"]
    wrong = [["entry 2 16877 1 0 0", "entry 2 493 2 0 0", "entry 3 16877 2 0 0", "entry 2 33261 2 0 0", "entry 2 16876 2 0 0", "made 2 16877 2 0 0 1", "ok",
              "err 38", "err 17"],
             ["entry 3 33188 2 0 0", "entry 3 420 1 0 0", "entry 3 16804 1 0 0", "made 3 33188 1 0 0 1", "err 1", "err 17"],
             ["err 2", "err 39", "err 20", "err 1"], ["ok", "err 21", "err 2"], ["err 21", "err 2", "err 20"]]
    lines = [it for at, (asked, told) in enumerate(good, 1) for it in (f"ask 0 {at} 1 0 0 0 {asked}", f"tell {at} {told}")]
    assert said("check", text=text(lines)) == b"legal\n"
    for place, others in enumerate(wrong):
        for told in others:
            changed = [*lines[:2 * place + 1], f"tell {place + 1} {told}", *lines[2 * place + 2:]]
            ran = run("check", text=text(changed))
            # ENOTEMPTY is no error of any reply, so the line is bad.
            assert (ran.stdout, ran.returncode) == ((b"", 2) if told == "err 39" else (b"differs %d\n" % (2 * place + 2), 1)), (told, ran)


def text(lines):
    return "".join(f"{it}\n" for it in lines).encode()


# ---- servers that are killed

# A trace of 150 files with long names, behind which a session goes on. A page of the list has 4,096 bytes then, or nearly.
MANY = 150


def many():
    """The plain directory with these files, and its lines."""
    directory = Listed(FILES, 1_024)
    for number in range(MANY):
        directory.takes(10 + number, ROOT, "mknod", 0o644, b"n" * 200 + b"%03d" % number)
    return directory, "".join(directory.lines).encode()


def cut_session():
    """A short session of folders behind such a trace: messages and their replies, and all lines."""
    directory, before = many()
    talk, unique = [], itertools.count(1000)

    def takes(*order):
        talk.append(directory.takes(next(unique), ROOT, *order))

    def lists(*words):
        talk.append((readdir(it := next(unique), *(words[1:]), node=words[0]), directory.readdir(it, words[0], *(words[1:] or [0, MOST]))))

    takes("mkdir", 0o755, b"d")
    lists(ROOT, 0, MOST)
    takes("mkdir", 0o755, b"d")
    takes("mknod", 0o100600, b"f")
    lists(ROOT, 100, MOST)
    takes("mknod", 0o10600, b"p")
    takes("rmdir", b"f")
    takes("unlink", b"d")
    takes("rmdir", b"d")
    lists(2 + MANY, 0, MOST)
    takes("rmdir", b"d")
    takes("mkdir", 0o700, b"d")
    takes("unlink", b"f")
    takes("create", 0, 0o644, b"f")
    talk.append((statfs(it := next(unique)), directory.statfs(it)))
    takes("lookup", b"d")
    lists(ROOT, 100, MOST)
    return talk, before, "".join(directory.lines).encode()


def is_cut(session, how, number):
    """The session, with a server that dies so at its call of this number, and one that goes on. Says whether it died. Each reply comes once, and each order
    has its lines once."""
    talk, before, lines = session
    server = resuming("--whole", traced=before, env=calls.dying(how, number))
    client, died = kit.Client(server), False
    rows = [[(sent, [(unique_of(sent), error_of(told))])] for sent, told in talk]
    while True:
        try:
            client.meet()
            client.send_again()
            while rows:
                client.ask(rows.pop(0))
            client.finish()
            ended = server.ended()
            if ended[2] == KILLED:
                raise Gone
            assert ended == (b"", "", 0), (how, number, ended)
            break
        except Gone:
            client.close()
            assert server.ended() == (b"", "", KILLED) and not died, (how, number)
            died = True
            server.start()
    assert server.traced() == lines, (how, number)
    assert client.found == {unique_of(told): [told] for _, told in talk}, (how, number)
    return died


def try_each_death_amid_folders():
    """A server dies at each of its calls, or amid each of its writes: also within the bytes of a list. The next one goes on as if nothing was."""
    session, said_of = cut_session(), []
    assert max(len(told) for _, told in session[0]) > 3_800
    for how in "before", "half", "after":
        with ThreadPoolExecutor(4) as pool:
            count = 0
            for first in range(1, 1_000, 12):
                died = [*pool.map(lambda it: is_cut(session, how, it), range(first, first + 12))]
                count += sum(died)
                if not all(died):
                    break
        assert count > len(session[0]), (how, count)
        said_of.append(f"{count} {how}")
    return ", ".join(said_of)


def try_marked_orders_are_taken_once():
    """A MKDIR, a MKNOD and a RMDIR that had their replies get them again, if they are sent again, and aren't taken again: by the server that took them, and
    by the next one. Unmarked they are taken."""
    talk = [(mkdir(10, b"d"), entry_reply(10, 2, *FOLDER)), (mknod(11, b"f"), entry_reply(11, 3, *FILE)), (rmdir(12, b"d"), reply(12)),
            (mknod(13, b"p", 0o60600), reply(13, EPERM)), (mkdir(14, b"f"), reply(14, EEXIST))]
    server = resuming("--whole")
    with Client(server) as client:
        client.gets(INIT, INIT_REPLY)
        for sent, told in talk:
            client.gets(sent, told)
        for sent, told in talk:
            client.gets(sent_again(sent), told)
        server.serving.kill()
    assert server.ended() == (b"", "", KILLED)
    lines = server.traced()
    assert lines.count(b"\n") == 2 * len(talk), lines
    restart(server, *RESUME, "--whole")
    with Client(server) as client:
        client.gets(INIT, INIT_REPLY)
        for sent, told in [*talk, *talk[::-1]]:
            client.gets(sent_again(sent), told)
        # What was never taken is taken, marked or not.
        client.gets(sent_again(mkdir(15, b"e")), entry_reply(15, 4, *FOLDER))
        client.gets(sent_again(mkdir(15, b"e")), entry_reply(15, 4, *FOLDER))
        client.gets(mkdir(16, b"e"), reply(16, EEXIST))
        client.gets(rmdir(17, b"d"), reply(17, ENOENT))
        client.closes()
        assert client.rest() == []
    assert server.ended() == (b"", "", 0)
    assert server.traced().startswith(lines) and server.traced().count(b"\n") == 2 * (len(talk) + 3), server.traced()
    assert judged(server.traced()) == "legal\n"


def try_pages_in_a_few_bytes():
    """A server whose calls send, read and write so many bytes gives the same lists."""
    talk, before, lines = cut_session()
    for size in 1, 7, 100, 4095, 4096, 4111:
        server = resuming("--whole", traced=before, env=calls.environment(send=[size], recv=[size], write=[size]))
        came = server.talk(INIT + b"".join(sent for sent, _ in talk))
        assert came == INIT_REPLY + b"".join(told for _, told in talk), size
        assert server.ended() == (b"", "", 0) and server.traced() == lines, size


# ---- traces in pieces

def try_new_pieces_amid_lists():
    """A whole session whose trace begins a new piece while lists go on: each reply is as if there was one piece, and the head tells files and folders. The
    server is killed, and goes on behind its pieces."""
    (talk, lines), limits = random_talk(7, 76_000, FILES, 1_024), ["--files", str(FILES), "--open", "1024"]
    options = *RESUME, "--whole", "--rotate", "1", *limits
    server, sent = Server(*options, workers=None), INIT + b"".join(sent for sent, _ in talk)
    wanted = INIT_REPLY + b"".join(told for _, told in talk)
    assert exchange(server, sent) == wanted
    assert server.ended() == (b"", "", 0)
    is_row(server, lines)
    killed, most = Server(*options, workers=None), len(wanted) * 19 // 20
    came = exchange(killed, sent, most)
    assert killed.ended() == (b"", "", KILLED)
    replies, _ = fuse.cut(came)
    had = {unique_of(it) for it in replies}
    last = max(at for at, (message_, _) in enumerate(talk) if unique_of(message_) in had)
    assert b"".join(replies) == INIT_REPLY + b"".join(told for _, told in talk[:last + 1]), "other replies"
    restart(killed, *options)
    rest = talk[last + 1:]
    found, _ = fuse.cut(exchange(killed, INIT + b"".join(sent_again(it) for it, _ in rest)))
    due = [(it, told) for it, told in rest if told]
    assert killed.ended() == (b"", "", 0) and found[0] == INIT_REPLY and len(found) == 1 + len(due)
    # What isn't an order is answered from what is there now: so it may be answered otherwise as long as orders behind it were taken before.
    for at, (it, (message_, told)) in enumerate(zip(found[1:], due)):
        late = at < 4_000 and opcode_of(message_) in (READDIR, STATFS)
        assert it == told or late and unique_of(it) == unique_of(told), (at, message_.hex(), it.hex(), told.hex())
    is_row(killed, lines)
    return f"{lines.count(10)} lines, killed behind {len(replies)} replies"


def is_row(server, lines):
    """Its two pieces have these lines, and the second one's head tells what is there behind the first."""
    paths = paths_of(server)
    texts = [read(it) for it in paths]
    assert b"".join(map(behind_head, texts)) == lines and len(texts) == 2, (len(texts), len(lines))
    first = texts[0].count(b"\n")
    assert first >= LEAST
    head = texts[1][:texts[1].index(b"\ngo\n") + 4]
    wanted = state_of(replayed(texts[0].splitlines(), FILES, 1_024), first)
    assert state_in(head) == wanted, (state_in(head)[0], wanted[0])
    assert any(it.startswith("node ") and int(it.split()[4]) & S_IFMT == S_IFDIR for it in wanted[1])
    ran = run("check", *paths)
    assert (ran.stdout, ran.stderr, ran.returncode) == (b"legal\n", b"", 0), ran


if __name__ == "__main__":
    sys.exit(calls.main("serve/folders", globals()))
