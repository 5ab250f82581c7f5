#!/usr/bin/env python3
"""Spreads the files of traces over servers by their names, on paper: bench/spread.py TITLE=TRACE[,TRACE..] .. (bench/spread.sh makes traces, and says what they are)

Each trace is one of `lockd`, of a single server. Nothing is served: the script follows a trace and asks where each order would have gone. A name's server is the
one with the greatest hash of its own name and the file's (rendezvous hashing); or that of the next of POINTS points of each server, on a ring of
hashes (consistent hashing); or the hash of the name modulo the number of servers. The figures are means over DRAWS draws, in each of which servers have other
names. It prints, in Markdown:

- how even it gets: the largest share of a server to the mean, by names and by orders on files, with the worst draw by orders in parentheses. 1 is even, and as
  many as there are servers: one has all. Orders on the directory alone don't count;
- which share of EDEADLK replies no server would give, since their circles cross. The waits of a trace, and the locks that they are for, are those before the
  reply. A server sees those on its own files, and replies EDEADLK if they close a circle with the request;
- the three ways of hashing side by side, over the names of all traces: how even, and which share of the names moves when one server more comes.

Where it says `by the part before the dot`, names that are alike before their first dot (`job7.data`, `job7.index`) stay on one server.
"""
import os
import sys
from bisect import bisect
from collections import Counter, defaultdict
from functools import lru_cache
from hashlib import sha256

sys.dont_write_bytecode = True
sys.path.insert(0, f"{os.path.dirname(os.path.dirname(os.path.realpath(__file__)))}/programs")
from report.locks import wish_of
from report.session import Session
from report.trace import read_trace

SERVERS = 2, 4, 8, 16
DRAWS = 20
POINTS = 64
ROOT = 1


# ---- Where a name goes

def hash_of(*words):
    return int.from_bytes(sha256(b"/".join(words)).digest()[:8], "big")


def server_names(draw, count):
    return [b"%d.%d" % (draw, it) for it in range(count)]


@lru_cache(maxsize=None)
def by_rendezvous(name, draw):
    """The server of a name among the first 1, 2, .. of a draw's servers, as a row that begins with one server."""
    row, best, most = [], 0, -1
    for at, server in enumerate(server_names(draw, max(SERVERS) + 1)):
        found = hash_of(server, name)
        if found > most:
            best, most = at, found
        row.append(best)
    return row


def rendezvous(name, draw, count):
    return by_rendezvous(name, draw)[count - 1]


@lru_cache(maxsize=None)
def hashed(name, draw):
    return hash_of(b"%d" % draw, name)


def modulo(name, draw, count):
    return hashed(name, draw) % count


@lru_cache(maxsize=None)
def points_of(draw, count):
    return sorted((hash_of(server, b"%d" % point), at) for at, server in enumerate(server_names(draw, count)) for point in range(POINTS))


def ring(name, draw, count):
    """The server of the first point behind the name's hash, or of the first of all."""
    points = points_of(draw, count)
    return points[bisect(points, (hashed(name, draw),)) % len(points)][1]


def before_dot(name, draw, count):
    return rendezvous(name.partition(b".")[0], draw, count)


# ---- What a trace has

class Spread(Session):
    """Follows a trace, counts the orders on each name, and keeps the waits behind each EDEADLK."""

    def __init__(self):
        super().__init__()
        self.on_names, self.circles = Counter(), []

    def name_of(self, order):
        """The name of the file that an order is about, or None: the directory, or a request that isn't there."""
        if order.op in ("lookup", "create", "unlink"):
            return order.body[-1]
        if order.op == "interrupt":
            wait = self.parked.get(order.body[0])
            return wait and self.files.names.get(wait.wish.key.node)
        return self.files.names.get(order.node) if order.node != ROOT else None

    def take(self, order):
        name = self.name_of(order)
        if name is not None:
            self.on_names[name] += 1
        super().take(order)

    def refuse(self, order, reply):
        if order.op == "setlkw" and reply.error() == "EDEADLK":
            self.circles.append(self.waits_behind(order))

    def waits_behind(self, order):
        """The name that was asked for, its owner, and the waits: of each owner, for whom on which name. Only waits that a circle may go through."""
        wishes = [wish_of(order), *(it.wish for it in self.parked.values() if not it.wish.key.flock)]
        asker = wishes[0].key.owner
        backward = defaultdict(set)
        for wish in wishes:
            for other, _ in self.table.in_the_way(wish):
                backward[other].add((wish.key.owner, wish.key.node))
        reached, left = {asker}, [asker]
        while left:
            for owner, _ in backward[left.pop()]:
                if owner not in reached:
                    reached.add(owner)
                    left.append(owner)
        forward = defaultdict(set)
        for other in reached:
            for owner, node in backward[other]:
                forward[owner].add((other, self.files.names.get(node, b"")))
        return self.files.names.get(order.node, b""), asker, forward


def followed(paths):
    """What several traces have together. Their owners are apart."""
    names, circles = Counter(), []
    for path in paths:
        session = Spread()
        with open(path, "rb") as it:
            trace = read_trace(it.read())
        if trace.head:
            session.begin_with(trace.head)
        for order in trace.orders:
            session.take(order)
        names += session.on_names
        circles += session.circles
    return names, circles


# ---- What comes of it

def largest_to_mean(weights, place, draw, count):
    shares = Counter()
    for name, weight in weights.items():
        shares[place(name, draw, count)] += weight
    return max(shares.values()) * count / sum(weights.values())


def is_seen(circle, at):
    """Whether the server of the name that was asked for sees a circle. `at` gives the server of a name."""
    name, asker, waits = circle
    home, seen = at(name), set()
    left = [other for other, asked in waits[asker] if asked == name]
    while left:
        owner = left.pop()
        if owner == asker:
            return True
        if owner not in seen:
            seen.add(owner)
            left += [other for other, asked in waits[owner] if at(asked) == home]
    return False


def lost(circles, place, draw, count):
    return sum(not is_seen(it, lambda name: place(name, draw, count)) for it in circles) / len(circles)


def moved(names, place, draw, count):
    return sum(place(it, draw, count) != place(it, draw, count + 1) for it in names) / len(names)


def over_draws(figure):
    """For each number of servers the figure of each draw."""
    return [[figure(draw, count) for draw in range(DRAWS)] for count in SERVERS]


def mean(figures):
    return f"{sum(figures) / len(figures):.2f}"


def table(head, rows):
    lines = [head, ("---", *["--:"] * (len(head) - 1)), *rows]
    print("".join(f"| {' | '.join(str(it) for it in line)} |\n" for line in lines))


def of_servers(*first):
    return (*first, *(f"{it} servers" for it in SERVERS))


def ways_of(title, names, circles):
    """How names are hashed, with a title: also by what stands before the dot, where a trace has EDEADLK and such names."""
    yield title, rendezvous
    if circles and any(b"." in it.lstrip(b".") for it in names):
        yield f"{title}, by the part before the dot", before_dot


def evenness(title, names, place):
    by_names, by_orders = (over_draws(lambda draw, count: largest_to_mean(it, place, draw, count)) for it in (dict.fromkeys(names, 1), names))
    cells = (f"{mean(one)} / {mean(other)} ({max(other):.2f})" for one, other in zip(by_names, by_orders))
    return title, f"{sum(names.values()):,}", f"{len(names):,}", *cells


def losses(title, circles, place):
    return title, len(circles), *(mean(it) for it in over_draws(lambda draw, count: lost(circles, place, draw, count)))


def main(words):
    given = [it.partition("=") for it in words]
    if not words or not all(paths for _, _, paths in given):
        sys.exit("bench/spread.py TITLE=TRACE[,TRACE..] ..")
    traces = {title: followed(paths.split(",")) for title, _, paths in given}
    table(of_servers("Largest share to the mean, by names / by orders (worst)", "orders", "names"),
          [evenness(way, names, place) for title, (names, circles) in traces.items() for way, place in ways_of(title, names, circles)])
    table(of_servers("EDEADLK that no server gives", "of"),
          [losses(way, circles, place) for title, (names, circles) in traces.items() if circles for way, place in ways_of(title, names, circles)])
    every = Counter(dict.fromkeys((it for names, _ in traces.values() for it in names), 1))
    table(of_servers(f"{len(every):,} names of all traces"),
          [(f"{what}, {way}", *(mean(it) for it in over_draws(lambda draw, count: figure(every, place, draw, count))))
           for what, figure in (("largest share to the mean", largest_to_mean), ("share that moves when one server comes", moved))
           for way, place in (("rendezvous", rendezvous), (f"a ring with {POINTS} points a server", ring), ("modulo", modulo))])


if __name__ == "__main__":
    main(sys.argv[1:])
