"""The tables of a page, of what `session.follow` found."""
from collections import Counter, defaultdict, namedtuple

from report.locks import LAST_BYTE, WRITE
from report.session import GRANTED, STILL

MOST_ROWS = 20
MOST_DEADLOCKS = 50

# `rows` are lists of cells: a text, a number, or a `Place`. `count` is how many rows there would be. `nothing` stands there if there are none.
Table = namedtuple("Table", "title about heads rows count nothing")
# A text that leads to an order.
Place = namedtuple("Place", "text at")


def range_text(it, flock):
    """The range of a lock that is held or asked for, in words."""
    if flock:
        return "whole file"
    if it.end >= LAST_BYTE:
        return "all bytes" if it.start == 0 else f"bytes {it.start} to the end"
    return f"byte {it.start}" if it.start == it.end else f"bytes {it.start} to {it.end}"


def kind_text(wish):
    return ("unlock" if wish.kind > WRITE else "write" if wish.kind == WRITE else "read") + (", flock" if wish.key.flock else "")


def owner_text(owner, pid):
    return f"{owner} (pid {pid})"


class Lengths:
    """How long requests waited: in orders, or in milliseconds if there is a clock."""

    def __init__(self, clock):
        self.clock = clock
        self.unit = "ms" if clock else "orders"

    def took(self, wait):
        """From its request to its reply, if there is a clock that knows both."""
        return self.clock.took(wait.order, wait.end_line) if self.clock and wait.end_line else None

    def of(self, wait):
        """How long it waited, or, if that isn't known of one from before the trace, how long it did so in the trace."""
        if not self.clock:
            return wait.last - wait.first
        took = self.took(wait)
        if took is None:
            places = self.clock.places + self.clock.places[-1:]
            took = places[wait.last] - places[wait.first]
        return took / 1_000_000

    def is_known(self, wait):
        return not wait.order.is_before or self.took(wait) is not None

    def text(self, length, is_known=True):
        return ("" if is_known else "at least ") + (f"{length:,.3f}" if self.clock else f"{length:,}")

    def longest(self, waits):
        """The text of the longest of these waits."""
        return self.text(max(map(self.of, waits), default=0), all(map(self.is_known, waits)))


def asked_at(order):
    """Where an order was asked."""
    return Place("before the trace" if order.is_before else f"line {order.line}", order.at)


def contended_files(session, lengths):
    waited, refused, deadlocks, total, unknown = Counter(), Counter(), Counter(), defaultdict(int), set()
    for wait in session.waits:
        waited[wait.wish.key.node] += 1
        total[wait.wish.key.node] += lengths.of(wait)
        if not lengths.is_known(wait):
            unknown.add(wait.wish.key.node)
    for it in session.refused:
        if it.wish and it.error in ("EAGAIN", "EDEADLK"):
            (refused if it.error == "EAGAIN" else deadlocks)[it.wish.key.node] += 1
    nodes = sorted({*waited, *refused, *deadlocks}, key=lambda it: (-waited[it] - refused[it] - deadlocks[it], it))
    rows = [[session.files.label(it), f"{session.asked[it]:,}", f"{waited[it]:,}", f"{refused[it]:,}", f"{deadlocks[it]:,}",
             lengths.text(total[it], it not in unknown)] for it in nodes[:MOST_ROWS]]
    heads = "File", "Requests for a lock", "Waited", "EAGAIN", "EDEADLK", f"Waited in all, {lengths.unit}"
    return Table("Most contended files", "By requests that waited, or got EAGAIN or EDEADLK.", heads, rows, len(nodes), "No request met another's lock.")


def wait_cells(session, it):
    ended = Place(it.ended, it.last) if it.ended != STILL else it.ended
    return [session.files.label(it.wish.key.node), owner_text(it.wish.key.owner, it.wish.pid), kind_text(it.wish),
            range_text(it.wish, it.wish.key.flock), asked_at(it.order), ended, blockers_text(it)]


def longest_waits(session, lengths):
    found = sorted(((lengths.of(it), it) for it in session.waits), key=lambda it: (-it[0], it[1].first))
    rows = [[lengths.text(length, lengths.is_known(it)), *wait_cells(session, it)] for length, it in found[:MOST_ROWS]]
    heads = f"How long, {lengths.unit}", "File", "Owner", "Kind", "Range", "Asked", "Ended", "It waited for"
    return Table("Longest waits", "", heads, rows, len(found), "No request waited.")


def blockers_text(wait):
    if not wait.blockers:
        return "nothing that the trace shows"
    owners = ", ".join(str(it) for it in wait.blockers) + (" and more" if wait.more_blockers else "")
    return f"owner{'s' if len(wait.blockers) > 1 else ''} {owners}" + (", who asked before" if wait.is_behind_older else "")


def longest_queues(session):
    found = sorted(session.longest.items(), key=lambda it: (-it[1][0], it[0]))
    rows = [[session.files.label(node), f"{length:,}", asked_at(order)] for node, (length, order) in found[:MOST_ROWS]]
    heads = "File", "Requests that waited at once", "First at"
    return Table("Longest queue of each file", "", heads, rows, len(found), "No request waited.")


def step_text(session, step):
    what = f"holds {'a write' if step.run.kind == WRITE else 'a read'} lock on {range_text(step.run, False)}" if step.run else "asked before"
    return (f"owner {owner_text(step.wish.key.owner, step.wish.pid)}, line {step.line}, wants {range_text(step.wish, False)} of "
            f"{session.files.label(step.wish.key.node)}, where owner {step.owner} {what}")


def deadlocks(session):
    rows = [[asked_at(it.order), owner_text(it.wish.key.owner, it.wish.pid), session.files.label(it.wish.key.node),
             [step_text(session, step) for step in it.steps] or "the trace shows none"] for it in session.deadlocks[:MOST_DEADLOCKS]]
    about = "Requests that got EDEADLK. Each step of the cycle waits for the next one's owner, and the last for the first."
    return Table("Deadlocks", about, ("Asked", "Owner", "File", "Cycle"), rows, len(session.deadlocks), "No request got EDEADLK.")


def refusals(session):
    first, counts = {}, Counter()
    ended = [(it.ended, "setlkw, after a wait", it.order) for it in session.waits if it.ended not in (GRANTED, STILL)]
    for error, op, order in [(it.error, it.order.op, it.order) for it in session.refused] + ended:
        counts[error, op] += 1
        first.setdefault((error, op), order)
    rows = [[error, op, f"{count:,}", asked_at(first[error, op])]
            for (error, op), count in sorted(counts.items(), key=lambda it: (-it[1], it[0]))]
    return Table("Refused requests by error", "", ("Error", "Request", "How many", "First"), rows, len(rows), "No request got an error.")


def tables(session, clock):
    lengths = Lengths(clock)
    return [contended_files(session, lengths), longest_waits(session, lengths), longest_queues(session), deadlocks(session), refusals(session)]
