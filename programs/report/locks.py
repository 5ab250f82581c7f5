"""The locks of one owner on one file, as runs of bytes, and which of them are in another's way (POSIX.1-2017 `fcntl`; Linux `flock(2)`)."""
from bisect import bisect_left
from collections import namedtuple

LAST_BYTE = (1 << 63) - 1
READ, WRITE = 0, 1

# Whose locks: `flock` tells whole-file locks from record locks.
Key = namedtuple("Key", "flock node owner")
# Bytes from start to end, both included, that are locked alike.
Run = namedtuple("Run", "start end kind pid")
# A lock that is asked for, or an unlock, if `kind` is neither READ nor WRITE.
Wish = namedtuple("Wish", "key start end kind pid")


def wish_of(order):
    """What a SETLK, SETLKW or GETLK asks for. A lock of the whole file covers all bytes, whatever its range says."""
    _, owner, start, end, kind, pid, flags = order.body
    flock = bool(flags & 1)
    return Wish(Key(flock, order.node, owner), 0 if flock else start, LAST_BYTE if flock else end, kind, pid)


def joined(runs):
    """The same bytes in as few runs as can be: adjoining ones of one kind and process are one."""
    found = []
    for run in runs:
        if found and found[-1].end + 1 == run.start and found[-1][2:] == run[2:]:
            run = found.pop()._replace(end=run.end)
        found.append(run)
    return found


class Runs:
    """The runs of one key, in order: no two share a byte."""

    def __init__(self):
        self.runs = []

    def reach(self, start, end):
        """The slice of the runs that have a byte from start to end."""
        first = bisect_left(self.runs, (start,))
        if first and self.runs[first - 1].end >= start:
            first -= 1
        return first, bisect_left(self.runs, (end + 1,), first)

    def change(self, start, end, mark):
        """The bytes from start to end get this kind and pid, or lose their lock if it is None. Gives the runs that are gone, and the new ones."""
        first, last = self.reach(max(start - 1, 0), end + 1)
        before = self.runs[first:last]
        left = [run._replace(end=min(run.end, start - 1)) for run in before if run.start < start]
        right = [run._replace(start=max(run.start, end + 1)) for run in before if run.end > end]
        middle = [Run(start, end, *mark)] if mark else []
        after = joined(left + middle + right)
        self.runs[first:last] = after
        return [it for it in before if it not in after], [it for it in after if it not in before]


class Table:
    """All locks that are held."""

    def __init__(self):
        self.files = {}  # (flock, node): {owner: Runs}
        self.count = 0

    def change(self, key, start, end, mark):
        if end < start:
            return [], []
        owners = self.files.setdefault(key[:2], {})
        runs = owners.setdefault(key.owner, Runs())
        gone, new = runs.change(start, end, mark)
        self.count += len(new) - len(gone)
        if not runs.runs:
            del owners[key.owner]
        return gone, new

    def keys_of(self, node):
        return [Key(flock, node, owner) for flock in (False, True) for owner in self.files.get((flock, node), ())]

    def in_the_way(self, wish):
        """The owners whose locks conflict with this one, each with the first such run."""
        for owner, held in self.files.get(wish.key[:2], {}).items():
            if owner != wish.key.owner:
                first, last = held.reach(wish.start, wish.end)
                run = next((it for it in held.runs[first:last] if WRITE in (it.kind, wish.kind)), None)
                if run:
                    yield owner, run


def wishes_conflict(one, other):
    """Whether two requests for record locks conflict: of two owners, with a byte in common, and one of them for writing."""
    return (not one.key.flock and one.key[:2] == other.key[:2] and one.key.owner != other.key.owner
            and one.start <= other.end and other.start <= one.end and WRITE in (one.kind, other.kind))
