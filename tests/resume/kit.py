"""What `tests/resume/kills.py` and `tests/resume/files.py` try with: a worked session, and a client whose server may die, who sends again what has no reply."""
import collections
import contextlib
import functools
import os
import signal
import socket
import time

from tests import fuse, tries
from tests.fuse import (EAGAIN, EBADF, EDEADLK, EEXIST, EINTR, EINVAL, ENOENT, ENOSYS, GETLK, INTERRUPT, LAST_BYTE, SETATTR, SETLK, SETLKW, batch_forget,
                        create, flush, forget, interrupt, lookup, message, open_, sent_again, unique_of, unlink)
from tests.tries import CREATE, INIT, INIT_REPLY, Server, judged

# The messages that may have no reply, though no request of theirs waits.
SILENT = {*fuse.NO_REPLY, INTERRUPT}
READ, WRITE, UNLOCK = fuse.READ_LOCK, fuse.WRITE_LOCK, fuse.NO_LOCK
KILLED = -signal.SIGKILL


# ---- messages

def release(unique, node, fh, owner):
    """A RELEASE that drops the owner's whole-file lock."""
    return fuse.release(unique, node, fh, owner, fuse.RELEASE_FLOCK_UNLOCK)


def locks(opcode, unique, owner, start, end, kind, node=2, fh=1):
    """GETLK, SETLK or SETLKW of these bytes. The pid is the owner's number."""
    return fuse.lock(opcode, unique, owner, start, end, kind, node, fh, owner)


def whole(opcode, unique, owner, kind, fh):
    """The same of the whole file, as flock(2) asks."""
    return fuse.whole_file(opcode, unique, owner, kind, fh=fh, pid=owner)


# ---- a worked session

# Rows of messages. Beside each stand the replies that come of it, by unique and error. The last of a row has a reply of its own.
WORKED = [
    [
        (create(2, b"a"), [(2, 0)]),
        (create(3, b"b"), [(3, 0)]),
        (locks(SETLK, 4, 7, 0, 9, WRITE), [(4, 0)]),
        (locks(SETLK, 5, 8, 5, 5, READ), [(5, EAGAIN)]),
    ], [
        (locks(SETLKW, 6, 8, 0, 0, WRITE), []),
        (locks(SETLKW, 7, 9, 9, 9, READ), []),
        (locks(SETLKW, 8, 10, 0, 4, READ), []),
        (locks(GETLK, 9, 8, 3, 3, WRITE), [(9, 0)]),
    ], [
        (lookup(10, b"a"), [(10, 0)]),
        (lookup(11, b"b"), [(11, 0)]),
        (forget(12, 3, 1), []),
        (fuse.getattr_(13), [(13, 0)]),
    ], [
        (interrupt(14, 7), [(7, EINTR)]),
        (interrupt(15, 7), [(15, EAGAIN)]),
        (locks(SETLK, 16, 8, 0, 0, WRITE, node=3, fh=2), [(16, 0)]),
        # Owner 8 waits for owner 7, who would wait for it.
        (locks(SETLKW, 17, 7, 0, 0, WRITE, node=3, fh=2), [(17, EDEADLK)]),
    ], [
        # Of the two that wait here, the younger conflicts with what the older gets.
        (locks(SETLK, 18, 7, 0, 9, UNLOCK), [(18, 0), (6, 0)]),
        (locks(SETLK, 19, 8, 0, 0, UNLOCK), [(19, 0), (8, 0)]),
        (locks(SETLK, 20, 10, 0, 4, UNLOCK), [(20, 0)]),
    ], [
        (locks(SETLK, 21, 7, 10, 19, WRITE), [(21, 0)]),
        (locks(SETLK, 22, 7, 30, 39, READ), [(22, 0)]),
        (locks(SETLKW, 23, 8, 10, 10, READ), []),
        (locks(SETLKW, 24, 9, 11, 12, WRITE), []),
        (locks(SETLKW, 25, 10, 30, 30, WRITE), []),
        (locks(SETLKW, 26, 11, 11, 11, READ), []),
        (flush(27, 2, 1, 7), [(27, 0), (23, 0), (24, 0), (25, 0)]),
    ], [
        (lookup(28, b"a"), [(28, 0)]),
        (batch_forget(29, (2, 2), (3, 1), (99, 1), (2, 1)), []),
        (unlink(30, b"b"), [(30, 0)]),
        (fuse.getattr_(31, 3), [(31, 0)]),
        (batch_forget(32), []),
        (lookup(33, b"b"), [(33, ENOENT)]),
    ], [
        (open_(34, 2), [(34, 0)]),
        (open_(35, 2), [(35, 0)]),
        (whole(SETLK, 36, 21, WRITE, fh=3), [(36, 0)]),
        (whole(SETLKW, 37, 22, WRITE, fh=4), []),
        (whole(SETLKW, 38, 23, READ, fh=1), []),
        (release(39, 2, 3, 21), [(39, 0), (37, 0)]),
    ], [
        # One request is of the open file that goes, another waits for its lock.
        (whole(SETLKW, 40, 24, WRITE, fh=4), []),
        (release(41, 2, 4, 22), [(41, 0), (40, EBADF), (38, 0)]),
        (locks(SETLKW, 42, 7, 0, 0, WRITE, fh=4), [(42, EBADF)]),
    ], [
        (locks(SETLK, 43, 12, 50, 59, READ), [(43, 0)]),
        (locks(SETLK, 44, 13, 50, 59, READ), [(44, 0)]),
        (locks(SETLKW, 45, 12, 50, 54, WRITE), []),
        (locks(SETLKW, 46, 13, 50, 51, WRITE), [(46, EDEADLK)]),
        # No orders: a request that the server doesn't know, and one without its body.
        (message(SETATTR, 47, 2, bytes(88)), [(47, ENOSYS)]),
        (message(SETLK, 48, 2), [(48, EINVAL)]),
        (locks(SETLK, 49, 13, 50, 59, UNLOCK), [(49, 0), (45, 0)]),
    ], [
        (interrupt(50, 26), [(26, EINTR)]),
        (forget(51, 99, 3), []),
        (create(52, b"a", flags=fuse.O_EXCL), [(52, EEXIST)]),
        (open_(53, 99), [(53, ENOENT)]),
        (lookup(54, b"a"), [(54, 0)]),
    ], [
        (locks(SETLK, 55, 7, 100, LAST_BYTE, WRITE), [(55, 0)]),
        (locks(SETLKW, 56, 8, 150, 150, READ), []),
        (locks(SETLKW, 57, 9, 160, 160, READ), []),
        (locks(SETLKW, 58, 10, 170, 170, WRITE), []),
        (locks(SETLK, 59, 7, 100, 165, UNLOCK), [(59, 0), (56, 0), (57, 0)]),
        (locks(GETLK, 60, 8, 170, 170, READ), [(60, 0)]),
        # This one waits to the end.
        (locks(SETLKW, 61, 14, 200, 200, READ), []),
        (locks(SETLK, 62, 7, 166, 180, UNLOCK), [(62, 0), (58, 0)]),
    ],
]
# Those that are no orders, since the server doesn't know them, or nothing is in them.
NO_ORDERS = {32, 47, 48}
# The same, one message at a time.
SINGLY = [[it] for row in WORKED for it in row]
TOLD = {unique: error for row in WORKED for _, told in row for unique, error in told}


# ---- a short one

# Orders, and the replies that come of them. Two wait.
FEW = [
    (CREATE, [(2, 0)]),
    (locks(SETLK, 3, 7, 0, 9, WRITE), [(3, 0)]),
    (locks(SETLKW, 4, 8, 0, 0, WRITE), []),
    (locks(SETLKW, 5, 9, 9, 9, WRITE), []),
    (locks(SETLK, 6, 7, 0, 9, UNLOCK), [(6, 0), (4, 0), (5, 0)]),
    (locks(SETLK, 7, 9, 0, 0, WRITE), [(7, EAGAIN)]),
]
LINES = b"""\
ask 0 2 1 0 0 0 create 0 420 61
tell 2 made 2 33188 1 0 0 1
ask 0 3 2 0 0 0 setlk 1 7 0 9 1 7 0
tell 3 ok
ask 0 4 2 0 0 0 setlkw 1 8 0 0 1 8 0
ask 0 5 2 0 0 0 setlkw 1 9 9 9 1 9 0
ask 0 6 2 0 0 0 setlk 1 7 0 9 2 7 0
tell 6 ok
tell 4 ok
tell 5 ok
ask 0 7 2 0 0 0 setlk 1 9 0 0 1 9 0
tell 7 err 11
"""


# ---- lines

def lines_of(text):
    """The whole lines."""
    return text[:text.rfind(b"\n") + 1].splitlines(True)


def asked(text):
    """The uniques of the orders, in their order."""
    return [int(it.split()[2]) for it in lines_of(text) if it.startswith(b"ask ")]


def told(text):
    return [int(it.split()[1]) for it in lines_of(text) if it.startswith(b"tell ")]


def completed(text, uncut):
    """What a server has made of a beginning of a trace when it goes on: whole lines, with all replies of the last order."""
    lines = uncut.splitlines(True)
    at = len(lines_of(text))
    while at < len(lines) and lines[at].startswith(b"tell "):
        at += 1
    return b"".join(lines[:at])


# ---- a client

class Gone(Exception):
    """The server is gone."""


class Client:
    """Sends messages to a server, and to the next one again what has no reply. What may get none at all it keeps until there is a reply to
    a later message, since one worker answers in order."""

    def __init__(self, server):
        self.server, self.socket, self.bytes = server, None, b""
        self.sent, self.due, self.lines, self.found = [], set(), set(), collections.defaultdict(list)

    def kept(self):
        """What is to be sent again, in its order."""
        last = max((at for at, it in enumerate(self.sent) if unique_of(it) in self.found), default=-1)
        return [it for at, it in enumerate(self.sent) if unique_of(it) not in self.found and (at > last or fuse.opcode_of(it) not in SILENT)]

    def meet(self):
        """Connects, and begins a session."""
        try:
            self.socket, self.bytes = self.server.connect(), b""
        except (FileNotFoundError, ConnectionError) as error:
            raise Gone from error
        self.send(INIT)
        while unique_of(INIT) not in self.found:
            self.hear()
        assert self.found.pop(unique_of(INIT)) == [INIT_REPLY]

    def send_again(self):
        self.send(b"".join(map(sent_again, self.kept())))
        self.wait()

    def ask(self, row):
        """Sends these messages together, and waits for the replies that come of them. If none comes of the last, it waits for its line."""
        self.sent += [it for it, _ in row]
        self.due |= {unique for _, told in row for unique, _ in told}
        last, told = row[-1]
        self.lines = {unique_of(last)} - NO_ORDERS if not told else set()
        self.send(b"".join(it for it, _ in row))
        self.wait()

    def send(self, bytes_):
        try:
            self.socket.sendall(bytes_)
        except ConnectionError as error:
            raise Gone from error

    def hear(self):
        """Takes what comes. Half a reply waits for its other half, and goes with its server."""
        try:
            more = self.socket.recv(1 << 16)
        except ConnectionError as error:
            raise Gone from error
        if not more:
            raise Gone
        replies, self.bytes = fuse.cut(self.bytes + more)
        for it in replies:
            self.found[unique_of(it)].append(it)

    def wait(self):
        while not self.due <= {*self.found}:
            self.hear()
        last = time.monotonic() + tries.PATIENCE
        while self.lines and not self.lines <= {*asked(self.server.traced())}:
            if self.server.serving.poll() is not None:
                raise Gone
            assert time.monotonic() < last, f"no line of {self.lines}"
            time.sleep(0.0005)

    def errors(self):
        """The unique and the error number of each reply so far."""
        return {it for found in self.found.values() for it in tries.replies(b"".join(found))}

    def finish(self):
        """Closes its side, and takes what comes until the server's end."""
        with contextlib.suppress(Gone, OSError):
            self.socket.shutdown(socket.SHUT_WR)
            while True:
                self.hear()
        self.close()

    def close(self):
        if self.socket:
            self.socket.close()


# ---- servers

def resuming(*options, **how):
    return Server("--resume", "{file}", *options, workers=None, **how)


@functools.cache
def uncut():
    """The trace of the worked session, and its replies by their uniques. This server doesn't resume."""
    server = Server("--trace", "{file}")
    client = Client(server)
    client.meet()
    for row in WORKED:
        client.ask(row)
    client.finish()
    assert server.ended() == (b"", "", 0)
    assert judged(server.traced()) == "legal\n"
    return server.traced(), dict(client.found)


def text_of(server):
    """The text of its file, if there is one."""
    return server.traced() if os.path.exists(server.file) else b""


def is_stored(client):
    """The file has a beginning of the uncut trace, and in it each reply that the client has."""
    trace, _ = uncut()
    text = text_of(client.server)
    assert trace.startswith(text), (len(text), text[-100:])
    lacking = {*client.found} - NO_ORDERS - {*told(text)}
    assert not lacking, f"replies without lines: {lacking}"


def asks(client, rows):
    """The rest of a session with these rows. Before more is sent, the file has all replies that were owed. Each row is taken out when it is sent."""
    text = text_of(client.server)
    client.meet()
    assert client.server.traced() == completed(text, uncut()[0]), "not the whole lines with what the last order owed"
    client.send_again()
    while rows:
        client.ask(rows.pop(0))
    client.finish()


def goes_on(client, rows):
    """The same, to the end of the server."""
    asks(client, rows)
    ended = client.server.ended()
    if ended[2] == KILLED:
        raise Gone
    assert ended == (b"", "", 0), ended


def is_whole(client):
    """The trace and the replies are those of the uncut session, each reply once."""
    trace, found = uncut()
    assert client.server.traced() == trace, "another trace"
    assert client.found == found, {it: (client.found[it], found.get(it)) for it in client.found if client.found[it] != found.get(it)}
