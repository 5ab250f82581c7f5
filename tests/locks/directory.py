"""Tries names, nodes, folders and open files of the built `lockd` at several limits, beside a plain directory, by random orders.

The directory has no locks, so it is no part of tests/model.py: there files never go, and here a FLUSH and a RELEASE only look at the open file.
Its rules are those of docs/PROTOCOL.md, with the errors in the order of the tests there.

Half of the names collide: their hashes share one chain, whatever the limits. `tries.py` says how it ends.
"""
import collections
import itertools
import random
import sys
from errno import EBADF, EEXIST, EINVAL, EISDIR, ENFILE, ENOENT, ENOSPC, ENOTDIR, EPERM

from tests import tries
from tests.fuse import S_IFDIR, S_IFMT, S_IFREG
from tests.tries import run

ROOT, ORDERS = 1, 24_000
# The bits of a mode that a MKNOD and a MKDIR keep: the permissions, and those for S_ISUID, S_ISGID and S_ISVTX.
KEPT = 0o7777


class Refused(Exception):
    """An order gets this error."""


def refuse(if_so, error):
    if if_so:
        raise Refused(error)


class Directory:
    """A directory by dictionaries. A node is a list of its lookups, name, mode, user and group. Folders are nodes like files: all names are in the root."""

    def __init__(self, most_nodes, most_files):
        self.most_nodes, self.most_files = most_nodes, most_files
        self.nodes, self.names, self.files = {}, {}, {}
        self.opens = collections.Counter()
        self.next_node, self.next_fh = 2, 1

    def attributes(self, number):
        if number == ROOT:
            return "1 16877 2 0 0"
        _, name, mode, uid, gid = self.nodes[number]
        links = 0 if name is None else 2 if self.is_folder(number) else 1
        return f"{number} {mode} {links} {uid} {gid}"

    def is_known(self, number):
        return number == ROOT or number in self.nodes

    def is_folder(self, number):
        """Whether it is one beside the root."""
        return number in self.nodes and self.nodes[number][2] & S_IFMT == S_IFDIR

    def sweep(self, number):
        """Takes the node away, if neither a name nor a lookup nor an open file keeps it."""
        lookups, name, *_ = self.nodes.get(number, [1, None])
        if not lookups and name is None and not self.opens[number]:
            del self.nodes[number]

    def is_in(self, directory, of_folder):
        """Whether names are in it: in the root. For another folder there is this error."""
        refuse(not self.is_known(directory), ENOENT)
        refuse(self.is_folder(directory), of_folder)
        refuse(directory != ROOT, ENOTDIR)

    def found(self, directory, name):
        self.is_in(directory, ENOENT)
        refuse(name not in self.names, ENOENT)
        return self.names[name]

    def can_be_made(self, directory, name):
        self.is_in(directory, EPERM)
        refuse(name in (b"", b".", b"..") or b"/" in name, EINVAL)

    def made(self, lookups, name, mode, user):
        number, self.next_node = self.next_node, self.next_node + 1
        self.names[name] = number
        self.nodes[number] = [lookups, name, mode, *user]
        return number

    def opened(self, node):
        fh, self.next_fh = self.next_fh, self.next_fh + 1
        self.files[fh] = node
        self.opens[node] += 1
        return fh

    def lookup(self, node, _, name):
        number = self.found(node, name)
        self.nodes[number][0] += 1
        return f"entry {self.attributes(number)}"

    def create(self, node, user, excl, mode, name):
        self.can_be_made(node, name)
        refuse(name in self.names and excl, EEXIST)
        refuse(name in self.names and self.is_folder(self.names[name]), EISDIR)
        refuse(name not in self.names and len(self.nodes) == self.most_nodes, ENOSPC)
        refuse(len(self.files) == self.most_files, ENFILE)
        number = self.names[name] if name in self.names else self.made(0, name, S_IFREG | mode, user)
        self.nodes[number][0] += 1
        return f"made {self.attributes(number)} {self.opened(number)}"

    def make(self, node, user, mode, name, can=True):
        """What isn't opened, if its file type can be made."""
        self.can_be_made(node, name)
        refuse(name in self.names, EEXIST)
        refuse(not can, EPERM)
        refuse(len(self.nodes) == self.most_nodes, ENOSPC)
        return f"entry {self.attributes(self.made(1, name, mode, user))}"

    def mknod(self, node, user, mode, name):
        return self.make(node, user, S_IFREG | mode & KEPT, name, mode & S_IFMT in (S_IFREG, 0))

    def mkdir(self, node, user, mode, name):
        return self.make(node, user, S_IFDIR | mode & KEPT, name)

    def open(self, node, _):
        refuse(not self.is_known(node), ENOENT)
        refuse(node == ROOT or self.is_folder(node), EISDIR)
        refuse(len(self.files) == self.most_files, ENFILE)
        return f"open {self.opened(node)}"

    def getattr(self, node, _):
        refuse(not self.is_known(node), ENOENT)
        return f"attr {self.attributes(node)}"

    def unlink(self, node, _, name):
        refuse(self.is_folder(self.found(node, name)), EISDIR)
        return self.without(name)

    def rmdir(self, node, _, name):
        refuse(not self.is_folder(self.found(node, name)), ENOTDIR)
        return self.without(name)

    def without(self, name):
        number = self.names.pop(name)
        self.nodes[number][1] = None
        self.sweep(number)
        return "ok"

    def forget(self, node, _, count):
        if node in self.nodes:
            self.nodes[node][0] = max(0, self.nodes[node][0] - count)
            self.sweep(node)

    def flush(self, node, _, fh, owner):
        del owner
        refuse(self.files.get(fh) != node, EBADF)
        return "ok"

    def release(self, node, _, fh, drop, owner):
        del drop, owner
        refuse(self.files.get(fh) != node, EBADF)
        del self.files[fh]
        self.opens[node] -= 1
        self.sweep(node)
        return "ok"


def spelled(word):
    """A word of an order as a trace has it: a name in hex."""
    return word.hex() or "-" if isinstance(word, bytes) else str(word)


def traced(directory, unique, node, user, op, *words):
    """An order and what the plain directory replies, as lines."""
    asked = " ".join(map(spelled, ["ask 0", unique, node, *user, 0, op, *words]))
    try:
        reply = getattr(directory, op)(node, user, *words)
    except Refused as error:
        reply = f"err {error}"
    return asked + "\n", f"tell {unique} {reply}\n" if reply else ""


def hash_of(name):
    """The hash by which a name is found: FNV-1a of 32 bits."""
    it = 0x811C9DC5
    for byte in name:
        it = (it ^ byte) * 0x01000193 % 2**32
    return it


def colliding(count):
    """So many names of one chain, however many chains there are: words that lead the hash back to where it began, one after another."""
    words = map(bytes, itertools.product(b"abcdefghijklmnopqrstuvwxyz", repeat=4))
    back = (it for it in words if (hash_of(it) ^ hash_of(b"")) % 2**16 == 0)
    pair = [*itertools.islice(back, 2)]
    return [b"".join(it) for it in itertools.islice(itertools.product(pair, repeat=14), count)]


def random_mode(numbers, op):
    """Of a MKNOD mostly that of a regular file, and seldom of a type that can't be made. Sometimes bits that nothing means are set."""
    types = [S_IFREG] * 6 + [0] * 3 + [numbers.randrange(16) << 12] if op == "mknod" else [0] * 6 + [S_IFDIR, S_IFREG, numbers.randrange(16) << 12]
    return numbers.choice(types) | numbers.choice([0, 0, 0, 1 << 16, 1 << 31]) | numbers.randrange(KEPT + 1)


def with_name(numbers, node, op, name):
    """An order of this kind and name, with words that are drawn."""
    words = [numbers.randrange(2), numbers.randrange(0o1000)] if op == "create" else [random_mode(numbers, op)] if op in ("mknod", "mkdir") else []
    return node, op, *words, name


def any_node(numbers, directory):
    """One that is there, or the one that comes next."""
    return numbers.choice([*directory.nodes] or [ROOT]) if numbers.random() < 0.9 else directory.next_node


def of_names(numbers, directory, names):
    """An order of a name, mostly in the root."""
    node = ROOT if numbers.random() < 0.95 else any_node(numbers, directory)
    op = numbers.choice(["create"] * 8 + ["mknod"] * 2 + ["mkdir"] * 2 + ["lookup", "unlink", "rmdir"])
    return with_name(numbers, node, op, numbers.choice(names))


def of_nodes(numbers, directory, _):
    """An order of a node, mostly of one that is there."""
    node = any_node(numbers, directory) if numbers.random() < 0.95 else ROOT
    op = numbers.choice(["getattr", "open", "open", "forget", "forget"])
    return (node, op, numbers.randrange(4)) if op == "forget" else (node, op)


def of_files(numbers, directory, _):
    """An order of an open file, mostly of one that is open, and of its node."""
    fh = numbers.choice([*directory.files, directory.next_fh])
    node = directory.files.get(fh, ROOT) if numbers.random() < 0.9 else numbers.choice([*directory.nodes, ROOT])
    op = numbers.choice(["flush", "release", "release"])
    return (node, op, fh, *([0] if op == "release" else []), 7)


def random_lines(numbers, most_nodes, most_files, names):
    """The lines of random orders, which fill the directory first and empty it at last."""
    directory = Directory(most_nodes, most_files)
    for unique in range(1, ORDERS + 1):
        kinds = [of_names] if unique < ORDERS / 3 else [of_names, of_nodes, of_files] if unique < ORDERS * 3 / 4 else [of_nodes, of_files, of_files]
        node, op, *words = numbers.choice(kinds)(numbers, directory, names)
        yield from traced(directory, unique, node, (numbers.randrange(3), numbers.randrange(3)), op, *words)


def are_given(lines, *limits):
    """`script` gives these lines from the orders in them, and the trace of them is legal."""
    ran = run("script", *limits, text="".join(it for it in lines if it.startswith("ask ")).encode())
    assert (ran.stderr, ran.returncode) == (b"", 0), ran.stderr
    for at, (said, wanted) in enumerate(itertools.zip_longest(ran.stdout.decode().splitlines(True), filter(None, lines)), 1):
        assert said == wanted, (at, said, wanted)
    assert run("check", *limits, text=ran.stdout).stdout == b"legal\n"


# The errors of each order.
IN_NAMES = {ENOENT, ENOTDIR}
IN_MAKING = {*IN_NAMES, EPERM, EINVAL, EEXIST, ENOSPC}
ERRORS = {
    "lookup": IN_NAMES, "unlink": {*IN_NAMES, EISDIR}, "rmdir": IN_NAMES, "create": {*IN_MAKING, EISDIR, ENFILE}, "mknod": IN_MAKING, "mkdir": IN_MAKING,
    "open": {ENOENT, EISDIR, ENFILE}, "getattr": {ENOENT}, "flush": {EBADF}, "release": {EBADF},
}


def errors_of(lines):
    """How often each order got each error, by the lines of orders and of their replies in turn."""
    told = ((asked.split()[7], reply.split()) for asked, reply in zip(lines[::2], lines[1::2]))
    return collections.Counter((op, int(reply[3])) for op, reply in told if reply[2:3] == ["err"])


def answers(most_nodes, most_files):
    """Says how many orders were refused for each limit. Each order got each of its errors. The trace is legal under the limits that it was made by, and under
    no others."""
    names = [*[b"", b".", b"..", b"a/b"] * (1 + most_nodes // 100), *colliding(2 * most_nodes), *(b"%d" % it for it in range(2 * most_nodes))]
    lines = [*random_lines(random.Random(most_nodes), most_nodes, most_files, names)]
    are_given(lines, "--files", str(most_nodes), "--open", str(most_files))
    counts = errors_of(lines)
    assert {*counts} == {(op, error) for op, errors in ERRORS.items() for error in errors}, counts
    full = [sum(counts[op, error] for op in ERRORS) for error in (ENOSPC, ENFILE)]
    assert all(full) and run("check", text="".join(lines).encode()).stdout.startswith(b"differs "), full
    return f"{full[0]} orders found no room for a file, and {full[1]} for an open file"


NAMED = ["lookup", "lookup", "unlink", "unlink", "rmdir", "create", "create", "create", "mknod", "mkdir"]


def near(numbers, following):
    """The number that is given next, or one of the nine before it."""
    return max(0, following - numbers.randrange(10))


def of_late_numbers(numbers, directory):
    """An order of numbers that were given late, whether they are still there or not, through its own node mostly."""
    node, fh, often = near(numbers, directory.next_node), near(numbers, directory.next_fh), numbers.randrange(8)
    op = numbers.choice([NAMED, ["getattr", "open", "open", "forget", "forget", "forget"], ["flush", "release", "release"]][numbers.randrange(3)])
    if op in NAMED:
        return with_name(numbers, ROOT if often else node, op, numbers.choice([b"a", b"b", b"c", b"", b".."]))
    if op in ("flush", "release"):
        node = directory.files.get(fh, node) if often else node
        return node, op, fh, *([numbers.randrange(2)] if op == "release" else []), numbers.randrange(2)
    return node, op, *([numbers.randrange(4)] if op == "forget" else [])


def try_numbers_that_are_gone():
    """At last each number that was given, and the next one, is asked for as a node, and as an open file on each node."""
    nodes, files, folders = 0, 0, 0
    for seed in range(60):
        numbers, directory, lines = random.Random(seed), Directory(256, 1_024), []
        for _ in range(500):
            node, op, *words = of_late_numbers(numbers, directory)
            lines += traced(directory, numbers.randrange(1_000), node, (numbers.randrange(3), numbers.randrange(3)), op, *words)
            folders += op == "rmdir" and lines[-1].endswith(" ok\n")
        for node in range(directory.next_node + 1):
            lines += traced(directory, 0, node, (5, 6), "getattr")
            for fh in range(directory.next_fh + 1):
                lines += traced(directory, 0, node, (5, 6), "flush", fh, 0)
        are_given(lines)
        nodes, files = nodes + directory.next_node - 2 - len(directory.nodes), files + directory.next_fh - 1 - len(directory.files)
    assert nodes > 200 and files > 1_500 and folders > 100, (nodes, files, folders)
    return f"{nodes} nodes were gone, {folders} of them folders, and {files} open files"


def try_three_files():
    return answers(3, 5)


def try_300_files():
    return answers(300, 400)


def try_5000_files():
    return answers(5_000, 3_500)


if __name__ == "__main__":
    sys.exit(tries.main("locks/directory", globals()))
