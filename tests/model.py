"""The one model of locks and waiting that tests compare with: what each order replies, which locks are held, and who waits for whom.

It is written from POSIX's `fcntl`, from `flock(2)`, from docs/DECISIONS.md and from docs/PROTOCOL.md, and takes nothing from what the program prints.
It is as plain as it can be: a set of bytes is the bits of a number, and waiting requests stand in a list. Orders are those of a trace, by their words.
"""
import bisect
import collections

from tests.fuse import EAGAIN, EBADF, EDEADLK, EINTR, EINVAL, ENOENT, ENOLCK, LAST_BYTE, LK_FLOCK, NO_LOCK, READ_LOCK, WRITE_LOCK

READ, WRITE, UNLOCK = READ_LOCK, WRITE_LOCK, NO_LOCK
RECORD, WHOLE_FILE = 0, LK_FLOCK
LAST = LAST_BYTE

# A lock that is held, on bytes that are as many side by side as have its owner, kind and pid. Locks are listed in this order.
Lock = collections.namedtuple("Lock", "node flags start owner end kind pid")


class Request:
    """What is asked for a lock. Its node and class are its place: requests and locks of two places have nothing to do with each other."""

    def __init__(self, unique, node, fh, owner, start, end, kind, pid, flags):
        self.unique, self.node, self.fh, self.owner, self.kind, self.pid, self.flags = unique, node, fh, owner, kind, pid, flags
        self.start, self.end = (0, LAST) if flags == WHOLE_FILE else (start, end)
        self.place, self.bytes = (node, flags), 0

    def is_malformed(self):
        return self.flags > WHOLE_FILE or self.kind > UNLOCK or self.start > self.end or self.end > LAST


def conflict(kind, other):
    """Whether locks of two owners exclude each other where they share a byte."""
    return WRITE in (kind, other) and UNLOCK not in (kind, other)


def firsts_of(ranges):
    """The first bytes of the cells by which a model can tell these ranges apart."""
    edges = {edge for start, end in ranges for edge in (start, end + 1)}
    return sorted({0} | {it for it in edges if 0 <= it <= LAST})


def order_of(line):
    """The unique, the node, the words and the user and group of an ask line, as `Model.lines` takes them. A name stays in hex."""
    _, _, unique, node, uid, gid, _, op, *words = line.split()
    numbers = words[:-1] if op in ("create", "lookup", "unlink") else words
    return (int(unique), int(node), op, *map(int, numbers), *words[len(numbers):]), (int(uid), int(gid))


class Model:
    """Bytes are told apart by cells. A cell is a bit of a number, and stands for the bytes from its first one to the next cell's, or to the last byte
    of all. No lock begins or ends within a cell. Files serve to have locks; they are known from their CREATE on, and never go."""

    def __init__(self, firsts, fair=False, runs=4_096, parked=256):
        self.firsts, self.fair, self.most_runs, self.most_parked = [*firsts], fair, runs, parked
        self.lasts = [*(it - 1 for it in self.firsts[1:]), LAST]
        # A file's name, its attributes and whether it is linked, by its node. The nodes of open files by their numbers.
        self.names, self.made, self.unlinked, self.files, self.next_fh = {}, {}, set(), {}, 1
        # By place: the bytes that are locked, by owner, kind and pid.
        self.held = collections.defaultdict(dict)
        self.parked, self.told = [], []
        # How often some things happened, so that a test sees whether it tries them.
        self.counts = collections.Counter()

    # ---- orders

    def take(self, unique, node, op, *words, who=(0, 0)):
        """Carries out an order of a user and a group. Gives the uniques and the replies that come of it, in their order."""
        self.told = []
        if self.is_parked(unique):
            return [] if op == "forget" else [(unique, f"err {EINVAL}")]
        if op == "create":
            self.create(unique, who, *words)
        else:
            getattr(self, op)(unique, node, *words)
        # What only reads frees nobody.
        granted = 0 if op in ("getattr", "getlk") else self.settle()
        self.counts["freed by interrupts"] += granted if op == "interrupt" else 0
        return self.told

    def lines(self, unique, node, op, *words, who=(0, 0)):
        """The lines of an order and of the replies that come of it."""
        asked = " ".join(map(str, ["ask 0", unique, node, *who, 0, op, *words]))
        return [f"{asked}\n", *(f"tell {other} {reply}\n" for other, reply in self.take(unique, node, op, *words, who=who))]

    def tell(self, unique, reply):
        self.told.append((unique, f"err {reply}" if isinstance(reply, int) else reply))

    def is_parked(self, unique):
        return any(it.unique == unique for it in self.parked)

    # ---- files

    def attributes(self, node):
        return "1 16877 2 0 0" if node == 1 else "{} {} {} {} {}".format(node, self.made[node][0], int(node not in self.unlinked), *self.made[node][1])

    def opened(self, node):
        fh, self.next_fh = self.next_fh, self.next_fh + 1
        self.files[fh] = node
        return fh

    def create(self, unique, who, _, mode, name):
        """Of a name that no file has yet."""
        node = 2 + len(self.names)
        self.names[node], self.made[node] = name, (0o100000 | mode, who)
        self.tell(unique, f"made {self.attributes(node)} {self.opened(node)}")

    def unlink(self, unique, _, name):
        """A file without its name stays as it is, since somebody still knows it or has it open."""
        found = {node for node, other in self.names.items() if other == name} - self.unlinked
        self.unlinked |= found
        self.tell(unique, "ok" if found else ENOENT)

    def getattr(self, unique, node):
        self.tell(unique, f"attr {self.attributes(node)}")

    def open(self, unique, node):
        self.tell(unique, f"open {self.opened(node)}")

    def forget(self, *_):
        """It has no reply."""

    def flush(self, unique, node, fh, owner):
        if self.files.get(fh) != node:
            return self.tell(unique, EBADF)
        self.drop(node, RECORD, owner)
        return self.tell(unique, "ok")

    def release(self, unique, node, fh, drop, owner):
        """With the last open file of a node all its locks go."""
        if self.files.get(fh) != node:
            return self.tell(unique, EBADF)
        self.tell(unique, "ok")
        if drop:
            self.drop(node, WHOLE_FILE, owner)
        del self.files[fh]
        self.end([it for it in self.parked if it.fh == fh], EBADF, "closed")
        if node not in self.files.values():
            self.held[node, RECORD], self.held[node, WHOLE_FILE] = {}, {}
        return None

    # ---- bytes

    def bytes_of(self, start, end):
        """These bytes, as a set."""
        first, after = bisect.bisect_left(self.firsts, start), bisect.bisect_left(self.firsts, end + 1)
        assert self.firsts[first] == start and (end == LAST or self.firsts[after] == end + 1), (start, end)
        return (1 << after) - (1 << first)

    def runs_of(self, bytes_):
        """The first and the last byte of each run: a run begins where the byte before isn't in the set, and ends where the next one isn't."""
        begins, ends, cells = bytes_ & ~(bytes_ << 1), bytes_ & ~(bytes_ >> 1), range(bytes_.bit_length())
        return [*zip((self.firsts[it] for it in cells if begins >> it & 1), (self.lasts[it] for it in cells if ends >> it & 1))]

    # ---- locks

    def drop(self, node, flags, owner):
        """The owner loses all its locks of this class on the node."""
        self.held[node, flags] = {key: bytes_ for key, bytes_ in self.held[node, flags].items() if key[0] != owner}

    def locks_of(self, place, keys):
        return [Lock(*place, start, owner, end, kind, pid) for owner, kind, pid in keys for start, end in self.runs_of(self.held[place][owner, kind, pid])]

    def locks(self):
        """All that are held."""
        return sorted(lock for place, held in self.held.items() for lock in self.locks_of(place, held))

    def runs(self):
        """How many locks there are."""
        return sum(bin(bytes_ & ~(bytes_ << 1)).count("1") for held in self.held.values() for bytes_ in held.values())

    def keys_in_the_way(self, it):
        """The owners, kinds and pids of the locks of others that conflict with a request."""
        return [key for key, bytes_ in self.held[it.place].items() if key[0] != it.owner and bytes_ & it.bytes and conflict(key[1], it.kind)]

    def in_the_way(self, it):
        """The locks of others that conflict with a request, each whole, the first ones first."""
        return sorted(lock for lock in self.locks_of(it.place, self.keys_in_the_way(it)) if lock.start <= it.end and it.start <= lock.end)

    def request(self, *words):
        """What is asked, and the first test that it fails which locks count nothing for, or 0."""
        it = Request(*words)
        error = EBADF if self.files.get(it.fh) != it.node else EINVAL if it.is_malformed() else 0
        it.bytes = 0 if error else self.bytes_of(it.start, it.end)
        return it, error

    def set(self, it):
        """Sets a lock in the place of the owner's on the same bytes, or takes these away, if there is room for the runs that are there then."""
        before = self.held[it.place]
        after = {key: bytes_ & ~it.bytes if key[0] == it.owner else bytes_ for key, bytes_ in before.items()}
        if it.kind != UNLOCK:
            key = it.owner, it.kind, it.pid
            after[key] = after.get(key, 0) | it.bytes
        self.held[it.place] = {key: bytes_ for key, bytes_ in after.items() if bytes_}
        if self.runs() <= self.most_runs:
            return self.tell(it.unique, "ok")
        self.held[it.place] = before
        self.counts["no room for a run"] += 1
        return self.tell(it.unique, ENOLCK)

    def getlk(self, *words):
        it, error = self.request(*words)
        if error or it.flags == WHOLE_FILE or it.kind == UNLOCK:
            self.tell(it.unique, error or EINVAL)
        elif lock := self.named(it):
            self.tell(it.unique, f"lock {lock.start} {lock.end} {lock.kind} {lock.pid}")
        else:
            self.tell(it.unique, f"lock {it.start} {it.end} {UNLOCK} {it.pid}")

    def named(self, it):
        """Of the locks that are in the way the one with the least byte of the request, and there that of the least owner. It is told whole."""
        return min(self.in_the_way(it), key=lambda lock: (max(lock.start, it.start), lock.owner), default=None)

    def setlk(self, *words):
        it, error = self.request(*words)
        if error:
            self.tell(it.unique, error)
        elif self.keys_in_the_way(it):
            self.tell(it.unique, EAGAIN)
        else:
            self.set(it)

    # ---- waiting

    def setlkw(self, *words):
        it, error = self.request(*words)
        if error:
            self.tell(it.unique, error)
        elif not self.is_blocked(it, len(self.parked)):
            self.set(it)
        elif self.closes_circle(it):
            self.counts["circles"] += 1
            self.tell(it.unique, EDEADLK)
        elif len(self.parked) == self.most_parked:
            self.counts["no place to wait"] += 1
            self.tell(it.unique, ENOLCK)
        else:
            self.counts["parked"] += 1
            self.counts["parked behind others alone"] += not self.keys_in_the_way(it)
            self.parked.append(it)
            self.counts["most parked"] = max(self.counts["most parked"], len(self.parked))

    def interrupt(self, unique, _, other):
        if not self.is_parked(other):
            return self.tell(unique, EAGAIN)
        return self.end([it for it in self.parked if it.unique == other], EINTR, "interrupted")

    def end(self, requests, error, what):
        """These wait no more, and get an error."""
        self.parked = [it for it in self.parked if it not in requests]
        for it in requests:
            self.counts[what] += 1
            self.tell(it.unique, error)

    def older_in_the_way(self, it, count):
        """Those that keep a request waiting by the fair rule, of so many that are older."""
        if not self.fair or it.flags == WHOLE_FILE:
            return []
        older = (other for other in self.parked[:count] if other.place == it.place and other.owner != it.owner)
        return [other for other in older if other.bytes & it.bytes and conflict(other.kind, it.kind)]

    def is_blocked(self, it, count):
        return bool(self.keys_in_the_way(it) or self.older_in_the_way(it, count))

    def owners_in_the_way(self, it, count):
        """Who keeps a request waiting that so many others are older than."""
        return {key[0] for key in self.keys_in_the_way(it)} | {other.owner for other in self.older_in_the_way(it, count)}

    def blockers(self, it, count):
        """The same, each owner once and with a pid: that of its first lock in the way, or else of its oldest request."""
        found = {}
        for owner, pid in [(lock.owner, lock.pid) for lock in self.in_the_way(it)] + [(other.owner, other.pid) for other in self.older_in_the_way(it, count)]:
            found.setdefault(owner, pid)
        return sorted(found.items())

    def closes_circle(self, it):
        """Whether an owner who would keep the request waiting waits for the one who asks, through others or not. Record locks alone count."""
        if it.flags == WHOLE_FILE:
            return False
        waits = collections.defaultdict(set)
        for count, parked in enumerate(self.parked):
            if parked.flags == RECORD:
                waits[parked.owner] |= self.owners_in_the_way(parked, count)
        first = reached = self.owners_in_the_way(it, len(self.parked))
        while more := set().union(*(waits[owner] for owner in reached)) - reached:
            reached = reached | more
        closes = it.owner in reached
        self.counts["long circles"] += closes and not any(it.owner in waits[owner] for owner in first)
        return closes

    def settle(self):
        """Grants waiting requests, the oldest first, until all that are left are blocked. Says how many."""
        granted, last = 0, 0
        while (at := next((at for at, it in enumerate(self.parked) if not self.is_blocked(it, at)), None)) is not None:
            self.set(self.parked.pop(at))
            granted += 1
            self.counts["freed by grants"] += at < last
            last = at
        self.counts["granted"] += granted
        return granted
