"""Follows the locks of a session by its orders and their replies alone. Nothing is judged: a reply is taken as it stands."""
from collections import Counter, namedtuple
from itertools import islice

from report.circle import find_circle
from report.files import Files
from report.locks import LAST_BYTE, READ, WRITE, Key, Table, wish_of, wishes_conflict

MOST_CIRCLES = 200
MOST_BLOCKERS = 3
STILL = "still waiting"
GRANTED = "granted"

# A lock that was held from one order up to another; `last` is the place behind all orders if nothing ended it.
Held = namedtuple("Held", "key run first last")
# An order that got an error. `wish` is None if it asked for no lock.
Refused = namedtuple("Refused", "order error wish line")
# A request that got EDEADLK. `steps` is the circle, empty if none was looked for or found.
Deadlock = namedtuple("Deadlock", "order wish steps")


class Wait:
    """A SETLKW that waited: from its order up to the one that ended it."""

    __slots__ = "order", "wish", "first", "line", "last", "end_line", "ended", "blockers", "more_blockers", "is_behind_older"

    def __init__(self, order, wish):
        self.order, self.wish, self.first, self.line = order, wish, order.at, order.line
        self.last = self.end_line = None
        self.ended, self.blockers, self.more_blockers, self.is_behind_older = STILL, [], False, False


class Session:
    def __init__(self):
        self.files, self.table, self.parked = Files(), Table(), {}
        self.since = {}
        self.held, self.waits, self.refused, self.deadlocks = [], [], [], []
        self.counts = []  # after the head, if there is one, and each order: how many locks were held, and how many requests waited
        self.asked = Counter()  # requests to set a lock, by file
        self.queue, self.longest = Counter(), {}
        self.strays = 0  # replies that belong to no request

    # ---- Locks

    def strike(self, at, key, start, end, mark):
        gone, new = self.table.change(key, start, end, mark)
        for run in gone:
            first = self.since.pop((key, run))
            if first < at:
                self.held.append(Held(key, run, first, at))
        for run in new:
            self.since[key, run] = at

    def grant(self, at, wish):
        self.strike(at, wish.key, wish.start, wish.end, (wish.kind, wish.pid) if wish.kind in (READ, WRITE) else None)

    def clear(self, at, key):
        self.strike(at, key, 0, LAST_BYTE, None)

    def release(self, order):
        fh, drops, owner = order.body
        if drops:
            self.clear(order.at, Key(True, order.node, owner))
        self.files.close(fh)
        if not self.files.opened[order.node]:
            for key in self.table.keys_of(order.node):
                self.clear(order.at, key)

    # ---- Requests that wait

    def park(self, order):
        wish, node = wish_of(order), order.node
        wait = Wait(order, wish)
        found = [owner for owner, _ in islice(self.table.in_the_way(wish), MOST_BLOCKERS + 1)]
        if not found:
            found = [it.wish.key.owner for it in self.parked.values() if wishes_conflict(wish, it.wish)]
            wait.is_behind_older = bool(found)
        wait.blockers, wait.more_blockers = found[:MOST_BLOCKERS], len(found) > MOST_BLOCKERS
        self.parked[order.unique] = wait
        self.waits.append(wait)
        self.queue[node] += 1
        if self.queue[node] > self.longest.get(node, (0,))[0]:
            self.longest[node] = self.queue[node], order

    def end_wait(self, at, reply):
        wait = self.parked.pop(reply.unique, None)
        if wait is None:
            self.strays += 1
            return
        self.queue[wait.wish.key.node] -= 1
        wait.last, wait.end_line, wait.ended = at, reply.line, reply.error() or GRANTED
        if wait.ended == GRANTED:
            self.grant(at, wait.wish)

    # ---- What is there before the first order

    def begin_with(self, head):
        """Locks and requests of a head are there from its place on. A second request of one unique changes nothing."""
        for node, _, is_linked, _, _, _, name in head.nodes:
            (self.files.name if is_linked else self.files.name_unlinked)(name, node)
        for fh, node in head.files:
            self.files.open_as(fh, node)
        for node, owner, start, end, kind, pid, flock in head.locks:
            self.strike(0, Key(bool(flock), node, owner), start, end, (kind, pid))
        for order in head.waits:
            self.begin(order, None)
        self.count()

    # ---- Orders

    def answered(self, order, reply):
        op, body = order.op, order.body
        if op == "create" and reply.word == "made":
            self.files.name(body[2], reply.values[0])
            self.files.open_as(reply.values[-1], reply.values[0])
        elif op in ("lookup", "mknod", "mkdir") and reply.word == "entry":
            self.files.name(body[-1], reply.values[0])
        elif op == "open" and reply.word == "open":
            self.files.open_as(reply.values[0], order.node)
        elif op in ("unlink", "rmdir"):
            self.files.unlink(body[0])
        elif op in ("setlk", "setlkw"):
            self.grant(order.at, wish_of(order))
        elif op == "flush":
            self.clear(order.at, Key(False, order.node, body[1]))
        elif op == "release":
            self.release(order)

    def refuse(self, order, reply):
        wish = wish_of(order) if order.op in ("setlk", "setlkw") else None
        self.refused.append(Refused(order, reply.error(), wish, reply.line))
        if wish and reply.error() == "EDEADLK":
            is_looked_for = len(self.deadlocks) < MOST_CIRCLES
            steps = find_circle(self.table, self.parked.values(), wish, order.line) if is_looked_for else ()
            self.deadlocks.append(Deadlock(order, wish, steps))

    def begin(self, order, own):
        """What the order does with its own reply, if it has one. With the unique of a request that waits it changes nothing."""
        if order.op in ("setlk", "setlkw") and order.body[4] in (READ, WRITE):
            self.asked[order.node] += 1
        if own and own.error():
            self.refuse(order, own)
        elif order.unique in self.parked:
            return
        elif own:
            self.answered(order, own)
        elif order.op == "setlkw":
            self.park(order)

    def take(self, order):
        own = order.replies[0] if order.replies and order.replies[0].unique == order.unique else None
        self.begin(order, own)
        for reply in order.replies[1 if own else 0:]:
            self.end_wait(order.at, reply)
        self.count()

    def count(self):
        self.counts.append((self.table.count, len(self.parked)))

    def finish(self):
        """What is held or waits at the end of the trace goes on up to it."""
        end = len(self.counts)
        self.held += [Held(key, run, first, end) for (key, run), first in self.since.items()]
        for wait in self.parked.values():
            wait.last = end


def follow(trace):
    session = Session()
    session.strays = len(trace.stray)
    if trace.head:
        session.begin_with(trace.head)
    for order in trace.orders:
        session.take(order)
    session.finish()
    return session
