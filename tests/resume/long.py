"""A long session of random orders, and its trace in pieces: what `tests/resume/pieces.py` tries with. Each message of it is one order."""
import bisect
import collections
import contextlib
import functools
import glob
import os
import random
import re
import socket
import threading

from tests import fuse, tries
from tests.fuse import GETLK, NO_LOCK, READ_LOCK, SETLK, SETLKW, WRITE_LOCK
from tests.tries import INIT, INIT_REPLY, Server, run

# The unique of the first order, which counts up from there.
ORDERS, FIRST = 115_000, 2
# So many orders and replies a piece has at the least before the next one begins, and by so many last ones messages that are sent again are known.
LEAST = 65_536

# Its messages; its replies and the lines of its trace, one after another; and the line of each order, from 0, with the number of all lines at the end.
Long = collections.namedtuple("Long", "messages replies lines starts")


# ---- orders

class Orders:
    """Random orders. Eight files stay open, and others come and go. Where no limit is reached, all numbers of files and open files are right."""

    def __init__(self):
        self.numbers, self.unique, self.node, self.fh = random.Random(7), FIRST, 2, 1
        self.stay, self.files, self.open, self.waited = [], [], [], [FIRST]
        self.first = [self.create(it) for it in range(8)]
        self.stay, self.files = self.files, []

    def number(self, least, end):
        return least + int(self.numbers.random() * (end - least))

    def next(self):
        """The next order's message."""
        kind = self.numbers.random()
        for share, order in self.SHARES:
            if kind < share:
                return order(self)
            kind -= share
        return self.lock(SETLK)

    def new(self):
        self.unique += 1
        return self.unique - 1

    def create(self, name=None):
        unique = self.new()
        name = b"%d" % (unique if name is None else name)
        self.files.append((self.node, self.fh, name))
        self.node, self.fh = self.node + 1, self.fh + 1
        return fuse.create(unique, name)

    def come_or_go(self):
        """A file is made, or one is unlinked, or closed after that, or forgotten after that."""
        if len(self.files) < 30:
            return self.create()
        node, fh, name = self.files[0]
        if name is not None:
            self.files[0] = (node, fh, None)
            return fuse.unlink(self.new(), name)
        if fh is not None:
            self.files[0] = (node, None, None)
            return fuse.release(self.new(), node, fh, 0, 0)
        del self.files[0]
        return fuse.forget(self.new(), node, 1)

    def open_or_close(self):
        if len(self.open) < 20:
            node = self.stay[self.number(0, 8)][0]
            self.open.append((node, self.fh))
            self.fh += 1
            return fuse.open_(self.new(), node)
        node, fh = self.open.pop(self.number(0, 20))
        return fuse.release(self.new(), node, fh, self.number(30, 36), fuse.RELEASE_FLOCK_UNLOCK)

    def lock(self, opcode):
        node, fh, _ = self.stay[self.number(0, 8)]
        kind = (READ_LOCK, WRITE_LOCK, NO_LOCK, NO_LOCK)[self.number(0, 4 if opcode == SETLK else 2)]
        start, owner = self.number(0, 60), self.number(1, 16)
        return fuse.lock(opcode, self.new(), owner, start, start + self.number(0, 6), kind, node, fh, owner)

    def wait(self):
        self.waited.append(self.unique)
        return self.lock(SETLKW)

    def look(self):
        return self.lock(GETLK)

    def whole_file(self):
        node, fh = self.open[-1] if self.open else self.stay[0][:2]
        kind, owner = self.number(0, 3), self.number(30, 36)
        return fuse.whole_file(SETLKW if kind < NO_LOCK and self.number(0, 3) == 0 else SETLK, self.new(), owner, kind, node, fh, owner)

    def interrupt(self):
        return fuse.interrupt(self.new(), self.waited[-1 - self.number(0, min(len(self.waited), 12))])

    def name(self):
        """A LOOKUP, or the FORGET of one."""
        node, _, name = self.stay[self.number(0, 8)]
        return fuse.lookup(self.new(), name) if self.number(0, 2) else fuse.forget(self.new(), node, 1)

    def attributes(self):
        return fuse.getattr_(self.new(), self.stay[self.number(0, 8)][0])

    def close_owner(self):
        node, fh, _ = self.stay[self.number(0, 8)]
        return fuse.flush(self.new(), node, fh, self.number(1, 16))

    SHARES = [(0.05, wait), (0.1, look), (0.03, whole_file), (0.03, interrupt), (0.02, name), (0.02, attributes), (0.02, close_owner),
              (0.02, open_or_close), (0.04, come_or_go)]


# ---- a session

@contextlib.contextmanager
def sending(client, sent, closing=False):
    """Sends these bytes meanwhile, and then closes its side, if that is so. The server may be gone."""
    def send():
        with contextlib.suppress(OSError):
            client.sendall(sent)
            if closing:
                client.shutdown(socket.SHUT_WR)

    thread = threading.Thread(target=send)
    thread.start()
    yield
    thread.join()


def exchange(server, sent, most=None):
    """Sends these bytes, closes its side, and gives all that comes, up to the end of the server or of its connection. Once that many bytes came, the
    server is killed."""
    came = bytearray()
    with server.connect() as client, sending(client, sent, closing=True), contextlib.suppress(ConnectionError):
        while more := client.recv(1 << 18):
            came += more
            if most is not None and len(came) >= most:
                server.serving.kill()
    return bytes(came)


@functools.cache
def long():
    """The session at a server whose trace is one piece."""
    orders = Orders()
    messages = orders.first + [orders.next() for _ in range(ORDERS - len(orders.first))]
    server = Server("--resume", "{file}", workers=None)
    came = exchange(server, INIT + b"".join(messages))
    assert server.ended() == (b"", "", 0)
    assert came.startswith(INIT_REPLY)
    replies, rest = fuse.cut(came[len(INIT_REPLY):])
    lines = server.traced().splitlines(True)
    starts = [at for at, it in enumerate(lines) if it.startswith(b"ask ")]
    assert (rest, len(starts), len(lines)) == (b"", ORDERS, ORDERS + len(replies))
    return Long(messages, replies, lines, [*starts, len(lines)])


def order_at(line):
    """The first order at this line or behind it."""
    return bisect.bisect_left(long().starts, line)


def text_of(begin, end):
    """The lines of these orders and of their replies."""
    return b"".join(long().lines[long().starts[begin]:long().starts[end]])


def replies_to(begin, end):
    """The replies that come of these orders, also those to orders before."""
    return long().replies[long().starts[begin] - begin:long().starts[end] - end]


@functools.cache
def head_at(order):
    """The head of a piece that begins with this order."""
    return state_of(text_of(0, order)) if order else b""


def state_of(text, *rules):
    ran = run("state", *rules, text=text)
    assert (ran.stderr, ran.returncode) == (b"", 0), ran.stderr
    return ran.stdout


@functools.lru_cache(maxsize=12)
def piece(begin, end):
    """The piece that has these orders."""
    return head_at(begin) + text_of(begin, end)


# ---- the pieces of a server

def names_of(server):
    """The numbers of its older pieces, and then what stands behind the name of its file in other names, so "" for FILE itself."""
    ends = [it[len(server.file):] for it in glob.glob(f"{glob.escape(server.file)}*")]
    numbers = [it for it in ends if re.fullmatch(r"\.[1-9]\d*", it)]
    return [*sorted(int(it[1:]) for it in numbers), *sorted({*ends} - {*numbers})]


def paths_of(server):
    """The paths of its pieces, the oldest first. Nothing else is there, and FILE is no piece twice."""
    *numbers, last = names_of(server)
    assert last == "", names_of(server)
    return [*(f"{server.file}.{it}" for it in numbers), server.file]


def read(path):
    with open(path, "rb") as file:
        return file.read()


def snapshot(server):
    """All that stands in its folder, by its names: the text of a file, and something else for others."""
    folder = server.folder.name
    paths = {it: os.path.join(folder, it) for it in os.listdir(folder)}
    return {name: read(path) if os.path.isfile(path) else os.lstat(path).st_mode for name, path in paths.items()}


def behind_head(text):
    return text[text.index(b"\ngo\n") + 4:] if text.startswith(b"state ") else text


def lines_before(text):
    """LINES of a piece's head, or 0 if it has none."""
    return int(text.split(maxsplit=2)[1]) if text.startswith(b"state ") else 0


def is_row(server, begin, end):
    """Its pieces are legal in a row, have these orders and nothing else, and all but the last are as long as they have to be. Gives their texts."""
    paths = paths_of(server)
    texts = [read(it) for it in paths]
    found = b"".join(map(behind_head, texts))
    assert found == text_of(begin, end), (len(found), len(text_of(begin, end)))
    at = long().starts[begin]
    for number, it in enumerate(texts):
        count = behind_head(it).count(b"\n")
        assert lines_before(it) == at and (count >= LEAST or number == len(texts) - 1), (number, lines_before(it), at, count)
        at += count
    ran = run("check", *paths)
    assert (ran.stdout, ran.stderr, ran.returncode) == (b"legal\n", b"", 0), ran
    return texts
