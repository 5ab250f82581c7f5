#!/bin/sh
# What an order costs `lockd serve` by how many files there are: 16, 256, 4,096 and 60,000, each open once and locked. One worker, no trace, and the
# greatest rules for all sizes. One file is asked for far from the next, and some 1,000 messages are under way, so that the server seldom waits. Counts
# the server's processor time, with its reads and writes. The sizes take turns. Prints nanoseconds an order with 16 files, the least of five runs, and
# the ratios of the others to it; 1.5 at most is aimed at. `bench/directory_by_size.sh` times the same orders with no server.
#
#     bench/served_by_files.sh [ORDERS]
set -eu
. "$(dirname "$0")/../dev/built_lockd.sh"
LOCKD=$program python3 - "${1:-100000}" <<'END'
import itertools, sys, threading

sys.dont_write_bytecode = True
sys.path.insert(0, ".")
from tests import fuse
from tests.tries import INIT, Server, replies, take

ORDERS, RUNS, UNDER_WAY = int(sys.argv[1]), 5, 1_000
SIZES = 16, 256, 4_096, 60_000
UNIQUES = itertools.count(2)
STEP = 7_919

# A message, and how many bytes its reply has.
def create(number):
    return fuse.create(next(UNIQUES), b"%d" % number), fuse.CREATE_SIZE

def lookup(number):
    return fuse.lookup(next(UNIQUES), b"%d" % number), fuse.ENTRY_SIZE

def unlink(number):
    return fuse.unlink(next(UNIQUES), b"%d" % number), fuse.BARE_SIZE

def getattr_(node):
    return fuse.getattr_(next(UNIQUES), node), fuse.ATTR_SIZE

def open_(node):
    return fuse.open_(next(UNIQUES), node), fuse.OPEN_SIZE

def setlk(node, fh, owner, first):
    return fuse.lock(fuse.SETLK, next(UNIQUES), owner, first, first + 9, fuse.WRITE_LOCK, node, fh), fuse.BARE_SIZE

def flush(node, fh, owner):
    return fuse.flush(next(UNIQUES), node, fh, owner), fuse.BARE_SIZE

def release(node, fh):
    return fuse.release(next(UNIQUES), node, fh), fuse.BARE_SIZE

def forget(node):
    return fuse.forget(next(UNIQUES), node), 0

class Served:
    """A server with so many files. Nodes and fhs are given in turn, so each is known before."""

    def __init__(self, size):
        self.size, self.file, self.node, self.fh = size, 0, 2 + size, 1 + size
        self.server = Server("--trace", "none", "--files", "65536", "--open", "65536", "--runs", "65536", workers=1)
        self.client = self.server.connect()
        self.ask([(INIT, fuse.INIT_SIZE), *map(create, range(size)), *(setlk(2 + it, 1 + it, 7, 0) for it in range(size))])

    def ask(self, messages):
        """Sends them, and takes the replies, which are all good."""
        for first in range(0, len(messages), UNDER_WAY):
            few = messages[first:first + UNDER_WAY]
            sending = threading.Thread(target=self.client.sendall, args=[b"".join(it for it, _ in few)])
            sending.start()
            told = take(self.client, sum(size for _, size in few))
            sending.join()
            assert not any(error for _, error in replies(told)), replies(told)

    def files(self, count):
        for _ in range(count):
            self.file = (self.file + STEP) % self.size
            yield self.file

    def opened(self, count):
        self.fh += count
        return range(self.fh - count, self.fh)

    def lookups(self):
        return [*map(lookup, self.files(UNDER_WAY))]

    def getattrs(self):
        return [getattr_(2 + it) for it in self.files(UNDER_WAY)]

    def opens(self):
        files = [*self.files(UNDER_WAY // 2)]
        return [open_(2 + it) for it in files] + [release(2 + it, fh) for it, fh in zip(files, self.opened(len(files)))]

    def locks(self):
        return [it for file in self.files(UNDER_WAY // 2) for it in (setlk(2 + file, 1 + file, 8, 20), flush(2 + file, 1 + file, 8))]

    def creates(self):
        found = []
        for number, fh in enumerate(self.opened(UNDER_WAY // 5), self.size):
            found += [create(number), setlk(self.node, fh, 7, 0), release(self.node, fh), unlink(number), forget(self.node)]
            self.node += 1
        return found

    def nanos(self):
        """The processor time that it took so far."""
        with open(f"/proc/{self.server.serving.pid}/schedstat", encoding="ascii") as it:
            return int(it.read().split()[0])

    def cost(self, kind):
        """Nanoseconds of an order of this kind."""
        before = self.nanos()
        for _ in range(ORDERS // UNDER_WAY):
            self.ask(kind(self))
        return (self.nanos() - before) / (ORDERS // UNDER_WAY * UNDER_WAY)

    def end(self):
        self.client.close()
        self.server.ended()

KINDS = {"LOOKUP": Served.lookups, "GETATTR": Served.getattrs, "OPEN and RELEASE": Served.opens, "SETLK and FLUSH": Served.locks,
         "CREATE, SETLK, RELEASE, UNLINK and FORGET": Served.creates}
least = {}
servers = [Served(size) for size in SIZES]
for _ in range(RUNS):
    for served in servers:
        for what, kind in KINDS.items():
            nanos = served.cost(kind)
            least[what, served.size] = min(nanos, least.get((what, served.size), nanos))
for served in servers:
    served.end()
for what in KINDS:
    few, *more = (least[what, size] for size in SIZES)
    print(f"{what:<42}{few:>6.0f} ns with 16 files, " + ", ".join(f"{size}: {it / few:.2f}" for size, it in zip(SIZES[1:], more)), flush=True)
END
