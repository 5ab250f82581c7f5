"""Tries what `lockd check` says of 300 random traces and of changes of each: 28 kinds, beside the legal trace of the same orders.

`tries.py` says how it ends.
"""
import random
import subprocess
import sys
import tempfile

from tests import tries

LAST = 2**63 - 1


# ---- random traces

def random_lock(numbers):
    """The owner, range, type, pid and flags of one of few bytes or of those from one on, sometimes of no byte or of the whole file."""
    below = numbers.randrange
    start = below(6)
    end = {0: LAST, 1: max(0, start - 1)}.get(below(8), start + below(3))
    return [below(4), start, end, int(below(5) > 1), below(3), int(below(6) == 0)]


class Files:
    """The files of a random script: where each name leads, and four that were opened last. It guesses what the program says."""

    def __init__(self, numbers):
        self.numbers, self.nodes, self.names, self.fh, self.opened, self.made = numbers, 1, {}, 0, [(1, 2)] * 4, None

    def open(self, node):
        self.fh += 1
        self.opened[self.fh % 4] = self.fh, node
        return node, "open"

    def create(self, name, excl):
        if name not in self.names:
            self.nodes += 1
            self.names[name] = self.nodes
        elif excl:
            return 1, f"create 1 420 {name}"
        self.open(self.names[name])
        return 1, f"create {excl} 420 {name}"

    def of_folder(self):
        """A folder of a third name comes or goes, or a file that isn't opened."""
        kind = self.numbers.choice(["mkdir", "mkdir", "mknod", "rmdir", "rmdir", "unlink"])
        if kind in ("mkdir", "mknod"):
            if "63" not in self.names:
                self.nodes += 1
                self.names["63"], self.made = self.nodes, kind
            return 1, f"mkdir {self.numbers.choice([493, 33188, 4516])} 63" if kind == "mkdir" else "mknod 33188 63"
        if "63" in self.names and (self.made == "mkdir") == (kind == "rmdir"):
            del self.names["63"]
        return 1, f"{kind} 63"

    def of_name(self):
        below = self.numbers.randrange
        if below(4) == 0:
            return self.of_folder()
        name, kind = ("61", "62")[below(2)], below(8)
        if kind == 0:
            self.names.pop(name, None)
            return 1, f"unlink {name}"
        return (1, f"lookup {name}") if kind < 5 else self.create(name, int(below(4) == 0))

    def of_node(self, node):
        kind = self.numbers.randrange(5)
        return self.open(node) if kind in (1, 2) else (node, "getattr" if kind else "forget 1")

    def of_file(self, fh, turn):
        below = self.numbers.randrange
        kind, owner = below(14), below(4)
        return (f"flush {fh} {owner}" if kind < 3 else f"release {fh} {below(2)} {owner}" if kind == 3
                else f"interrupt {max(0, turn - below(12))}" if kind < 9 else self.lock("getlk", fh))

    def lock(self, op, fh):
        return " ".join(map(str, [op, fh, *random_lock(self.numbers)]))

    def unlock(self, fh):
        """Often of all bytes, so that many who wait are granted."""
        owner, start, end, _, pid, flags = random_lock(self.numbers)
        op = self.numbers.choice(["setlk", "setlkw", "all", "all"])
        start, end = (0, LAST) if op == "all" else (start, end)
        return f"{op.replace('all', 'setlk')} {fh} {owner} {start} {end} 2 {pid} {flags}"

    def order(self, turn):
        """What a turn asks, and of which node."""
        kind, (fh, node) = self.numbers.randrange(100), self.numbers.choice(self.opened)
        if kind < 10:
            return self.of_name() if kind < 4 else self.of_node(node)
        if kind < 28:
            return node, self.of_file(fh, turn)
        return node, self.unlock(fh) if kind < 56 else self.lock("setlk" if kind < 65 else "setlkw", fh)


def random_script(seed):
    """Two files are made, and then come 60 to 99 orders of all kinds, many of which wait for locks. An order has a unique of its own, but
    seldom that of a late one, which perhaps still waits."""
    numbers = random.Random(seed)
    files = Files(numbers)
    orders = [files.create("61", 1), files.create("62", 1)]
    orders += [files.order(turn) for turn in range(2, 62 + numbers.randrange(40))]
    uniques = [max(0, turn - numbers.randrange(8)) if turn > 1 and numbers.randrange(30) == 0 else turn for turn in range(len(orders))]
    return "".join(f"ask {numbers.randrange(4)} {unique} {node} 0 0 0 {op}\n" for unique, (node, op) in zip(uniques, orders))


def seen(trace):
    """How many requests wait, were granted later, would have closed a circle, and were interrupted, and how many locks a GETLK found."""
    lines = [line.split() for line in trace]
    asked, found = None, dict.fromkeys(("waits", "grants", "circles", "interrupts", "locks"), 0)
    for line, behind in zip(lines, lines[1:] + [["ask"]]):
        if line[0] == "ask":
            asked = line[2]
            found["waits"] += line[7] == "setlkw" and behind[0] == "ask"
            continue
        found["grants"] += line[2] == "ok" and line[1] != asked
        found["circles"] += line[2:] == ["err", "35"]
        found["interrupts"] += line[2:] == ["err", "4"]
        found["locks"] += line[2] == "lock" and line[5] != "2"
    return found


# ---- their changes

LOCKS = "getlk", "setlk", "setlkw"


def word(place, change, *ops):
    """Changes a number of a line, if that has one of these ops or results there."""
    def changed(words):
        at = 7 if words[0] == "ask" else 2
        if (words[at] in ops) if ops else words[0] == "ask":
            return [*words[:place], str(change(int(words[place]))), *words[place + 1:]]
        return None
    return changed


def reply(change):
    """Changes what a reply says, if that can be."""
    def changed(words):
        said = change(words[2:]) if words[0] == "tell" else None
        return [*words[:2], *said] if said else None
    return changed


def more(number):
    return number + 1


def other(number):
    return number ^ 1


def attributes(said):
    """Another node if this one's number is a multiple of 3, and else one link more."""
    if said[0] not in ("attr", "entry", "made"):
        return None
    place = 1 if int(said[1]) % 3 == 0 else 3
    return [*said[:place], str(int(said[place]) + 1), *said[place + 1:]]


def from_0(words):
    """A lock order of the bytes from 0 to the one behind its first."""
    return [*words[:10], "0", str(int(words[10]) + 1), *words[12:]] if words[0] == "ask" and words[7] in LOCKS else None


def first(change):
    """Changes the first line from a place on that can be."""
    def changed(lines, at, _):
        for place in range(at, len(lines)):
            if words := change(lines[place].split()):
                return [*lines[:place], " ".join(words), *lines[place + 1:]]
        return lines
    return changed


def moved(which, how):
    """Changes lines at the first from a place on that is one of these: `how` gives them, by those before it, itself and those behind."""
    def changed(lines, at, _):
        place = next((it for it in range(at, len(lines)) if which(lines, it)), None)
        return lines if place is None else how(lines[:place], lines[place], lines[place + 1:])
    return changed


def tells(lines, at):
    return lines[at].startswith("tell ")


def asks(lines, at):
    return not tells(lines, at)


def tells_twice(lines, at):
    return at + 1 < len(lines) and tells(lines, at) and tells(lines, at + 1)


def grants_exchanged(lines, _, numbers):
    """Two replies that lock requests are granted, which differ in their uniques alone."""
    asked, places = None, []
    for place, line in enumerate(lines):
        words = line.split()
        asked = words[2] if words[0] == "ask" else asked
        if words[0] == "tell" and words[2] == "ok" and words[1] != asked:
            places.append(place)
    lines = [*lines]
    if places:
        one, two = numbers.choice(places), numbers.choice(places)
        lines[one], lines[two] = lines[two], lines[one]
    return lines


def swapped(before, line, behind):
    return [*before, *behind[:1], line, *behind[1:]]


def dropped(before, _, behind):
    return before + behind


def doubled(before, line, behind):
    return [*before, line, line, *behind]


def at_the_end(before, line, behind):
    return [*before, *behind, line]


def to_a_stranger(before, line, behind):
    """It also stands at the end, to an order that was never asked."""
    return [*before, line, *behind, " ".join(["tell", "1000000", *line.split()[2:]])]


# What is to be said of a legal trace that was changed: that it differs, as its orders stay the same; that it is legal, as no reply depends
# on what was changed; or either, as its orders change: it is then legal at least so often.
DIFFERS, LEGAL = "differs", "legal"
CHANGES = {
    "a reply dropped": (moved(tells, dropped), DIFFERS),
    "a reply doubled": (moved(tells, doubled), DIFFERS),
    "a reply later": (moved(tells, swapped), DIFFERS),
    "a reply to the end": (moved(tells, at_the_end), DIFFERS),
    "a reply's unique": (first(lambda it: [it[0], str(int(it[1]) + 1), *it[2:]] if it[0] == "tell" else None), DIFFERS),
    "an error": (first(reply(lambda it: ["err", "35" if it[1] == "11" else "11"] if it[0] == "err" else None)), DIFFERS),
    "an answer to an error": (first(reply(lambda it: ["err", "11"] if it[0] != "err" else None)), DIFFERS),
    "an error to an answer": (first(reply(lambda it: ["ok"] if it[0] == "err" else None)), DIFFERS),
    "a lock's start": (first(word(3, more, "lock")), DIFFERS),
    "a lock's end": (first(word(4, more, "lock")), DIFFERS),
    "a lock's type": (first(word(5, lambda it: (it + 1) % 3, "lock")), DIFFERS),
    "a lock's pid": (first(word(6, more, "lock")), DIFFERS),
    "an open file": (first(reply(lambda it: [*it[:-1], str(int(it[-1]) + 1)] if it[0] in ("open", "made") else None)), DIFFERS),
    "attributes": (first(reply(attributes)), DIFFERS),
    "grants exchanged": (grants_exchanged, DIFFERS),
    "replies swapped": (moved(tells_twice, swapped), DIFFERS),
    "neighbours swapped": (moved(lambda lines, at: True, swapped), 0),
    "an order dropped": (moved(asks, dropped), 3),
    "an order doubled": (moved(asks, doubled), 0),
    "an order's unique": (first(word(2, more)), 2),
    "an order's worker": (first(word(1, other)), LEGAL),
    "an order's owner": (first(word(9, other, *LOCKS, "flush")), 60),
    "an order's range": (first(from_0), 60),
    "an order's type": (first(word(12, other, *LOCKS)), 40),
    "the last dropped": (lambda lines, at, _: lines[:-1], 15),
    "the end dropped": (lambda lines, at, _: lines[:at], 50),
    "all replies dropped": (lambda lines, at, _: [it for it in lines if it.startswith("ask ")], DIFFERS),
    "a stranger answered": (moved(tells, to_a_stranger), DIFFERS),
}


def beside(lines, legal):
    """What has to be said of lines, beside the legal ones with the same orders: that they differ at the first that the two don't have in
    common, which may be the one after the last of either. For a legal trace is determined by its orders: it has each with its replies
    behind it, which depend on the lines before alone. So what both have is a beginning of a legal trace, and with a line more it is none:
    - If the legal one has a reply there, an order before is owed it, in every legal trace that begins so.
    - If it has an order there, or ends, no order before is owed a reply, and the other has a reply there: its next order is the same."""
    same = next((at for at, (one, two) in enumerate(zip(lines, legal)) if one != two), min(len(lines), len(legal)))
    return LEGAL if same == len(lines) == len(legal) else f"{DIFFERS} {same + 1}"


def each(command, texts):
    """The lines that the command prints for each of these texts, by a shell that runs it once for each, and prints `=` behind."""
    with tempfile.TemporaryDirectory(prefix="try-changes-") as folder:
        for number, it in enumerate(texts):
            with open(f"{folder}/{number:06}", "w", encoding="ascii") as file:
                file.write(it)
        loop = ["sh", "-c", 'for it in *; do "$0" "$1" < $it || :; echo =; done', tries.PROGRAM, command]
        ran = subprocess.run(loop, cwd=folder, stdout=subprocess.PIPE, encoding="ascii", check=True)
    found = [it.splitlines() for it in ran.stdout.split("=\n")[:-1]]
    assert len(found) == len(texts), (len(found), len(texts))
    return found


def text(lines):
    return "".join(f"{line}\n" for line in lines)


def changed_traces(traces, numbers):
    """Each change of each trace at a random place, or the first after it where it can be made: the trace, the change and the lines."""
    for lines in traces:
        for name, (change, _) in CHANGES.items():
            found = change(lines, numbers.randrange(100), numbers)
            if found != lines:
                yield lines, name, found


def judged(changes):
    """What has to be said of each change. The legal trace of its orders is the one that was changed, if the orders are the same."""
    moved_orders = [found for _, name, found in changes if isinstance(CHANGES[name][1], int)]
    legal = iter(each("script", [text(it for it in lines if it.startswith("ask ")) for lines in moved_orders]))
    for lines, name, found in changes:
        effect = CHANGES[name][1]
        yield LEGAL if effect == LEGAL else beside(found, lines if effect == DIFFERS else next(legal))


def try_changes_of_300_random_traces():
    """Each change is judged as it is beside the legal trace of its orders. It was made often. One that keeps the orders always made the
    trace differ, one of a worker never did, and the others did often, and left it legal as often as is said of them."""
    traces = each("script", [random_script(seed) for seed in range(300)])
    assert each("check", [text(it) for it in traces]) == [[LEGAL]] * 300
    counts = {name: sum(seen(it)[name] for it in traces) for name in seen([])}
    often = {"waits": 1500, "grants": 500, "circles": 150, "interrupts": 40, "locks": 300}
    assert all(counts[name] > least for name, least in often.items()), counts
    changes = [*changed_traces(traces, random.Random(1))]
    wanted = [*judged(changes)]
    for (_, name, lines), said, found in zip(changes, wanted, each("check", [text(lines) for _, _, lines in changes])):
        assert found == [said], (name, lines, said, found)
    for name, (_, effect) in CHANGES.items():
        said = [it for (_, it_name, _), it in zip(changes, wanted) if it_name == name]
        differs = len(said) - said.count(LEGAL)
        least, most = {DIFFERS: (len(said), len(said)), LEGAL: (0, 0)}.get(effect) or (40, len(said) - effect)
        assert len(said) >= 100 and least <= differs <= most, (name, len(said), differs)
    return f"{len(changes)} changes, {counts}"


if __name__ == "__main__":
    sys.exit(tries.main("commands/changes", globals()))
