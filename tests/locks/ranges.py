"""Tries the locks of the built `lockd` beside the model of tests/model.py: which are set and refused, which one a GETLK names, how many fit, and which
are held then.

By cases written by hand, by random orders of few and many owners of several files, and by full tables. `tries.py` says how it ends.
"""
import collections
import itertools
import json
import random
import re
import sys

from tests import tries
from tests.fuse import EAGAIN, ENOLCK
from tests.model import LAST, READ, RECORD, UNLOCK, WRITE, Model, order_of
from tests.tries import judged, run

NO_ROOM, IN_THE_WAY = f"err {ENOLCK}", f"err {EAGAIN}"
# A grid has a column for each of these bytes, which stands for those up to the next one too.
FIRSTS = [*range(10), 1_000, 2**32, LAST - 3, LAST - 2, LAST - 1, LAST]
ENDS = [*(it - 1 for it in FIRSTS[1:]), LAST]
COLUMNS = range(len(FIRSTS))
STRANGER = 1_000_000


def name_of(node):
    """The name of a file is its number, in hex."""
    return str(node).encode().hex()


class Orders:
    """Orders and the replies that they have to get, as lines, and the open file of each node."""

    def __init__(self, room):
        self.room, self.lines, self.unique, self.counts = room, [], 0, collections.Counter()
        self.fhs, self.next_fh, self.next_node = {}, 1, 2

    def order(self, node, op, reply="ok"):
        self.unique += 1
        self.lines += [f"ask 0 {self.unique} {node} 0 0 0 {op}\n", *([f"tell {self.unique} {reply}\n"] if reply else [])]
        self.counts[reply] += 1

    def setlk(self, node, owner, start, end, kind, pid, reply="ok", flock=0):
        self.order(node, f"setlk {self.fhs[node]} {owner} {start} {end} {kind} {pid} {flock}", reply)

    def getlk(self, node, owner, start, end, kind, named=None):
        """It is told this lock, or none."""
        start_, end_, kind_, pid = named or (start, end, UNLOCK, 9)
        self.order(node, f"getlk {self.fhs[node]} {owner} {start} {end} {kind} 9 0", f"lock {start_} {end_} {kind_} {pid}")

    def open(self, node):
        self.order(node, "open", f"open {self.next_fh}")
        self.next_fh += 1
        return self.next_fh - 1

    def make(self):
        """A new file."""
        node, fh = self.next_node, self.next_fh
        self.order(1, f"create 0 420 {name_of(node)}", f"made {node} 33188 1 0 0 {fh}")
        self.fhs[node], self.next_node, self.next_fh = fh, node + 1, fh + 1
        return node

    def make_on_one_chain(self, count, files):
        """So many files of which the locks stand on one chain, where so many files may be there: others come and go in between."""
        nodes = [self.make()]
        while len(nodes) < count:
            for _ in range(files - 1):
                node = self.make()
                self.order(1, f"unlink {name_of(node)}")
                self.order(node, f"release {self.fhs[node]} 0 0")
                self.order(node, "forget 1", None)
            nodes.append(self.make())
        return nodes

    def is_told(self, held, *rules):
        """The program gives these replies and finds them right. At last these locks are held, listed in this order."""
        rules = ["--runs", str(self.room), *rules]
        ran = run("script", *rules, text="".join(it for it in self.lines if it.startswith("ask ")).encode())
        assert (ran.stderr, ran.returncode) == (b"", 0), ran.stderr
        for at, (said, wanted) in enumerate(itertools.zip_longest(ran.stdout.decode().splitlines(True), self.lines), 1):
            assert said == wanted, (at, said, wanted)
        assert judged(ran.stdout, *rules) == "legal\n"
        assert held_after(ran.stdout, *rules) == held, (held_after(ran.stdout, *rules), held)


def held_after(trace, *words):
    """The locks that are held after a trace: node, whether it is of the whole file, first byte, owner, last byte, kind and pid."""
    ran = run("locks", "--json", *words, text=trace)
    assert (ran.stderr, ran.returncode) == (b"", 0), ran
    return [(it["node"], it["type"] == "FLOCK", it["start"], it["owner"], it["end"], ("READ", "WRITE").index(it["mode"]), it["pid"])
            for it in json.loads(ran.stdout)]


# ---- the grid ----

class Grid(Orders):
    """Orders whose replies the model says, of locks that begin and end with a column."""

    def __init__(self, room):
        super().__init__(room)
        self.model = Model(FIRSTS, runs=room)

    def order(self, node, op, *_):
        self.unique += 1
        words, who = order_of(f"ask 0 {self.unique} {node} 0 0 0 {op}")
        self.lines += self.model.lines(*words, who=who)
        self.counts.update(reply for _, reply in self.model.told)

    def set(self, node, flock, owner, columns, mark):
        """The columns get the mark, which is a kind and a pid, or lose theirs."""
        self.setlk(node, owner, FIRSTS[columns[0]], ENDS[columns[-1]], *(mark or (UNLOCK, 0)), flock=flock)

    def get(self, node, owner, columns, kind):
        self.getlk(node, owner, FIRSTS[columns[0]], ENDS[columns[-1]], kind)

    def flush(self, node, owner):
        self.order(node, f"flush {self.fhs[node]} {owner}")

    def unlock_file(self, node, owner):
        """Through another open file, which is closed."""
        self.order(node, f"release {self.open(node)} 1 {owner}")

    def close(self, node):
        """The only open file goes, and with it all locks. Another one is opened."""
        self.order(node, f"release {self.fhs[node]} 0 0")
        self.fhs[node] = self.open(node)

    def refused(self):
        return f"{self.counts['ok']} orders done, {self.counts[IN_THE_WAY]} with a lock in the way, {self.counts[NO_ROOM]} without room"


def random_columns(numbers):
    start = numbers.choice(COLUMNS)
    return range(start, min(start + numbers.randrange(16), COLUMNS[-1]) + 1)


def random_mark(numbers, pid):
    """Of one of two processes of the owner."""
    return numbers.choice([None, None, (READ, pid), (READ, pid), (WRITE, pid), (READ, pid + 1), (WRITE, pid + 1)])


def random_step(numbers, grid, node, owners, in_500):
    """In so many of 500 steps all locks of an owner or of the file go. `owners` has their pids."""
    owner = numbers.choice([*owners])
    flock, step = int(numbers.randrange(8) == 0), numbers.randrange(500)
    if step == 0:
        grid.close(node)
    elif step < in_500:
        (grid.unlock_file if flock else grid.flush)(node, owner)
    else:
        grid.set(node, flock, owner, COLUMNS if flock else random_columns(numbers), random_mark(numbers, owners[owner]))


def try_what_is_in_the_way():
    """After each random lock or unlock each owner asks for each range of bytes from one of them on, the least and the greatest owner too."""
    grid, numbers = Grid(64), random.Random(2026)
    node, owners = grid.make(), {0: 10, 1: 20, 2**64 - 2: 30, 2**64 - 1: 40}
    for step in range(400):
        owner = numbers.choice([*owners])
        grid.set(node, 0, owner, random_columns(numbers), random_mark(numbers, owners[owner]))
        for end, asker, kind in itertools.product(COLUMNS[step % 16:], owners, (READ, WRITE)):
            grid.get(node, asker, range(step % 16, end + 1), kind)
    grid.is_told(grid.model.locks())
    return f"{grid.unique - 401} answers"


def try_random_locks_of_both_classes():
    """Of two owners of three files whose locks stand on one chain, in little room. One that asks finds what the others hold."""
    total = collections.Counter()
    for room, seed in itertools.product((1, 7, 8, 4_096), range(4)):
        grid, numbers = Grid(room), random.Random(room + seed)
        nodes = grid.make_on_one_chain(3, 3)
        for step in range(1_500):
            random_step(numbers, grid, numbers.choice(nodes), {1: 10, 2: 20}, 12)
            if step % 5 == 0:
                for node, kind, owner in itertools.product(nodes, (READ, WRITE), (1, 2, STRANGER)):
                    grid.get(node, owner, random_columns(numbers), kind)
        grid.is_told(grid.model.locks(), "--files", "3")
        assert (grid.counts[NO_ROOM] > 0) == (room < 4_096) and grid.counts[IN_THE_WAY] > 0, grid.refused()
        total += grid.counts
        if room < 4_096:
            assert judged("".join(grid.lines).encode(), "--files", "3", "--runs", "4096").startswith("differs "), room
    return f"{total['ok']} orders done, {total[IN_THE_WAY]} with a lock in the way, {total[NO_ROOM]} without room"


def take_all(grid, node):
    """At each column the lock that keeps a stranger from writing is named, and goes, until none is left."""
    for column in COLUMNS:
        grid.get(node, STRANGER, [column], WRITE)
        while named := next((it for it in grid.model.locks() if it.flags == RECORD and it.start <= FIRSTS[column] <= it.end), None):
            grid.setlk(node, named.owner, FIRSTS[column], named.end, UNLOCK, 0)
            grid.get(node, STRANGER, [column], WRITE)


def try_few_and_many_owners():
    """With room for two locks an owner. Each asks at last, and their locks are taken one after another."""
    total = collections.Counter()
    for count in 1, 2, 3, 10, 100, 256, 300:
        grid, numbers = Grid(2 * count), random.Random(count)
        node, owners = grid.make(), {it: 10 * it + 1 for it in range(count)}
        for _ in range(1_500):
            random_step(numbers, grid, node, owners, 25)
        for owner in range(max(count, 16)):
            for last, kind in itertools.product((owner % 16, 15), (READ, WRITE)):
                grid.get(node, owner, range(owner % 16, last + 1), kind)
        grid.is_told(grid.model.locks())
        take_all(grid, node)
        assert all(lock.flags != RECORD for lock in grid.model.locks())
        grid.is_told(grid.model.locks())
        total += grid.counts
    assert total[IN_THE_WAY] > 500 and total[NO_ROOM] > 50, total
    return f"{total['ok']} orders done, {total[IN_THE_WAY]} with a lock in the way, {total[NO_ROOM]} without room"


# ---- full tables ----

def in_turn(count):
    """The places of so many locks upward, downward, and each between those that came before."""
    bits = (count - 1).bit_length()
    between = sorted(range(count), key=lambda it: int(f"{it:0{bits}b}"[::-1], 2))
    return [*range(count)], [*range(count)][::-1], between


def all_set(table, node, places, kind, reply="ok"):
    """Of owner 7 three bytes at each place, and one free between two places."""
    for place in places:
        table.setlk(node, 7, 4 * place, 4 * place + 2, kind, 11, reply)


def is_full(table, node, other):
    """No lock more, no part of one that parts it, and none of another file, owner or class."""
    start = 4 * table.room
    table.setlk(node, 7, start, start, READ, 11, NO_ROOM)
    table.setlk(node, 8, LAST, LAST, READ, 12, NO_ROOM)
    table.setlk(other, 7, 0, 2, READ, 11, NO_ROOM)
    table.setlk(node, 7, 0, 0, READ, 11, NO_ROOM, flock=1)
    table.setlk(node, 7, 1, 1, UNLOCK, 0, NO_ROOM)
    table.setlk(node, 7, start - 3, start - 3, WRITE, 11, NO_ROOM)
    table.setlk(node, 7, start - 3, start - 3, READ, 13, NO_ROOM)
    # What takes no more room is set: the same again, an unlock where nothing is, and the end of a lock that goes and comes.
    table.setlk(node, 7, 0, 2, READ, 11)
    table.setlk(node, 7, start, LAST, UNLOCK, 0)
    table.setlk(node, 7, start - 2, start, UNLOCK, 0)
    table.setlk(node, 7, start - 2, start - 2, READ, 11)


def others_fit(table, node, other, count):
    """One lock takes the place of all of owner 7, and so many of another owner and file fit beside it. They go with the open file."""
    table.setlk(node, 7, 0, LAST, READ, 11)
    for it in range(count):
        table.setlk(other, 8, 2 * it, 2 * it, WRITE, 12)
    table.setlk(other, 8, LAST, LAST, WRITE, 12, NO_ROOM)
    table.order(other, f"release {table.fhs[other]} 0 0")
    table.order(node, f"flush {table.fhs[node]} 7")
    table.fhs[other] = table.open(other)


def room_comes_back(room, places):
    """Locks fill the room, become write locks, become one, come again, and go."""
    table = Orders(room)
    node, other = table.make(), table.make()
    all_set(table, node, places, READ)
    is_full(table, node, other)
    table.is_told([(node, 0, 4 * it, 7, 4 * it + 2, READ, 11) for it in range(room)])
    all_set(table, node, places, WRITE)
    others_fit(table, node, other, room - 1)
    all_set(table, node, places, READ)
    is_full(table, node, other)
    all_set(table, node, places, UNLOCK)
    table.is_told([])


def try_room_for_1_7_and_4096_locks_comes_back():
    for room in 1, 7, 4_096:
        for places in in_turn(room):
            room_comes_back(room, places)


def try_room_for_many_owners_comes_back():
    """Each of so many owners writes the byte of its number in one of the files, twice, and there is room for no more."""
    for files, owners in (1, 256), (1, 4_096), (64, 4_096):
        table = Orders(owners)
        nodes = [table.make() for _ in range(files)]
        for _ in range(2):
            for it in range(owners):
                table.setlk(nodes[it % files], it, it, it, WRITE, it)
            table.setlk(nodes[0], owners, owners, owners, WRITE, 1, NO_ROOM)
            full = sorted((nodes[it % files], 0, it, it, it, WRITE, it) for it in range(owners))
            table.is_told(full)
            for it in range(owners):
                table.order(nodes[it % files], f"flush {table.fhs[nodes[it % files]]} {it}")
        table.is_told([])


def try_touching_locks_of_one_owner_are_one():
    """Two bytes each, which come upward, downward and in between, of one kind, then of the other, and go."""
    for places in in_turn(100):
        table = Orders(200)
        node = table.make()
        for kind in READ, WRITE, UNLOCK:
            for it in places:
                table.setlk(node, 7, 2 * it, 2 * it + 1, kind, 11)
            table.is_told([(node, 0, 0, 7, 199, kind, 11)] if kind != UNLOCK else [])


def try_a_file_goes_with_all_owners_of_both_classes():
    """The locks of another file on the same one of so many chains stay."""
    for files in 2, 256, 4_096:
        table = Orders(1_200)
        node, other = table.make_on_one_chain(2, files)
        for it, owner in itertools.product((node, other), range(300)):
            table.setlk(it, owner, owner, owner, WRITE, owner)
            table.setlk(it, owner, 0, 0, READ, owner, flock=1)
        table.setlk(node, STRANGER, LAST, LAST, READ, 1, NO_ROOM)
        table.order(node, f"release {table.fhs[node]} 0 0")
        table.fhs[node] = table.open(node)
        table.getlk(node, STRANGER, 0, LAST, WRITE)
        table.setlk(node, STRANGER, 0, 0, WRITE, 1, flock=1)
        table.setlk(node, STRANGER, 0, 0, UNLOCK, 1, flock=1)
        for owner in range(300):
            table.getlk(other, STRANGER, owner, LAST, READ, (owner, owner, WRITE, owner))
        table.setlk(other, STRANGER, 0, 0, WRITE, 1, IN_THE_WAY, flock=1)
        table.is_told([*((other, 0, it, it, it, WRITE, it) for it in range(300)), *((other, 1, 0, it, LAST, READ, it) for it in range(300))],
                      "--files", str(files))


def try_one_file_and_one_lock():
    """A file that has lost its name and its lookup is there, and takes up all room, while it is open. Its lock goes with it."""
    table = Orders(1)
    node = table.make()
    table.setlk(node, 7, 0, 9, WRITE, 11)
    table.setlk(node, 7, 4, 4, UNLOCK, 0, NO_ROOM)
    table.order(1, "create 0 420 62", "err 28")
    table.order(node, "open", "err 23")
    table.order(1, f"unlink {name_of(node)}")
    table.order(node, "forget 1", None)
    table.order(1, "create 0 420 62", "err 28")
    table.getlk(node, 8, 9, LAST, READ, (0, 9, WRITE, 11))
    table.order(node, f"release {table.fhs[node]} 0 0")
    table.order(node, "getattr", "err 2")
    node = table.make()
    table.setlk(node, 8, 5, 5, READ, 12)
    table.is_told([(3, 0, 5, 8, 5, READ, 12)], "--files", "1", "--open", "1")


def try_the_most_files_and_locks():
    """65,536 files, each open and with a lock. Each is found, there is room for no other, and for one once one goes."""
    most = 65_536
    table = Orders(most)
    nodes = [table.make() for _ in range(most)]
    for node in nodes:
        table.setlk(node, node, node, node, WRITE, node)
    for node in nodes[::4_369]:
        table.order(1, f"lookup {name_of(node)}", f"entry {node} 33188 1 0 0")
        table.getlk(node, STRANGER, 0, LAST, READ, (node, node, WRITE, node))
    table.order(1, "create 0 420 6d6f7265", "err 28")
    table.order(2, "open", "err 23")
    table.setlk(2, STRANGER, 0, 0, READ, 1, NO_ROOM)
    table.order(1, f"unlink {name_of(4_662)}")
    table.order(4_662, "forget 1", None)
    table.order(4_662, f"release {table.fhs[4_662]} 0 0")
    table.order(4_662, "getattr", "err 2")
    assert table.make() == most + 2
    table.setlk(most + 2, 1, 0, 0, READ, 1)
    held = [(it, 0, it, it, it, WRITE, it) for it in nodes if it != 4_662]
    table.is_told([*held, (most + 2, 0, 0, 1, 0, READ, 1)], "--files", str(most), "--open", str(most))


# ---- by hand ----

LOCK = re.compile(r"(\??)(\d+)(\*?) ([rwu]) (?:(f)|(\S+)-(\S+))(?: (\d+))?")
KINDS = {"r": READ, "w": WRITE, "u": UNLOCK}


def byte(word):
    return LAST if word == "last" else int(word)


def lock_of(text):
    """Whether it is asked for, and the lock as it is listed."""
    asked, owner, star, kind, flock, start, end, pid = LOCK.fullmatch(text).groups()
    return asked, (3 if star else 2, bool(flock), byte(start or "0"), int(owner), byte(end or "last"), KINDS[kind], int(pid or 9))


def named_of(text):
    bytes_, kind, pid = text.split()
    return *map(byte, bytes_.split("-")), KINDS[kind], int(pid)


def does(table, call, told):
    asked, (node, flock, start, owner, end, kind, pid) = lock_of(call)
    if asked:
        table.getlk(node, owner, start, end, kind, None if told == "none" else named_of(told))
    else:
        table.setlk(node, owner, start, end, kind, pid, {"ok": "ok", "full": NO_ROOM, "in the way": IN_THE_WAY}[told], int(flock))


def try_locks_by_hand():
    cases = tries.cases(tries.text_of("tests/cases/ranges.txt"))
    for _, lines in cases:
        table = Orders(4)
        table.make(), table.make()
        for line in lines.splitlines():
            call, told = re.fullmatch(r"(.*) =(?: (.*))?", line).groups()
            if call == "all":
                table.is_told([lock_of(it)[1] for it in told.split(", ")] if told else [])
            else:
                does(table, call, told)
        assert call == "all", call
    assert len(cases) == 13, len(cases)


HELD = f"""\
ask 0 1 1 0 0 0 create 0 420 612062ff
ask 0 2 1 0 0 0 create 0 420 5c
ask 0 3 1 0 0 0 create 0 420 6f6c64
ask 0 4 2 0 0 0 setlk 1 7 0 {LAST} 1 100 0
ask 0 6 3 0 0 0 setlk 2 7 1000000 1000000 1 100 0
ask 0 7 3 0 0 0 setlk 2 9 1000002 1000002 1 300 0
ask 0 5 3 0 0 0 setlkw 2 8 1000000 {LAST - 1} 0 200 0
ask 0 8 4 0 0 0 setlk 3 11 0 0 0 42 1
ask 0 90 4 0 0 0 setlkw 3 12 0 0 1 43 1
ask 0 91 1 0 0 0 unlink 6f6c64
"""

TABLE = rb"""TYPE  MODE     START                 END PID OWNER UNIQUE BLOCKER FILE
POSIX WRITE        0                 EOF 100     7      - -       a\x20b\xff
POSIX WRITE  1000000             1000000 100     7      - -       \x5c
POSIX WRITE  1000002             1000002 300     9      - -       \x5c
POSIX READ*  1000000 9223372036854775806 200     8      5 100,300 \x5c
FLOCK READ         0                 EOF  42    11      - -       old (deleted)
FLOCK WRITE*       0                 EOF  43    12     90 42      old (deleted)
"""


def try_names_and_far_bytes_in_a_list():
    """Names with bytes that are spelled, the last byte but one, and a file that was unlinked."""
    ran = run("locks", text=run("script", text=HELD.encode()).stdout)
    assert ran.stdout == TABLE, ran


if __name__ == "__main__":
    sys.exit(tries.main("locks/ranges", globals()))
