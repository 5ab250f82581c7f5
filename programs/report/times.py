"""Reads a file of times, as docs/TRACE.md describes it, and finds the time of each order and each reply of a trace."""
from collections import defaultdict

from report.trace import BadLine, u64


class Times:
    """The times of one kind of message, in nanoseconds, by unique. If a unique comes again, its times are used one after another."""

    def __init__(self):
        self.found = defaultdict(list)
        self.used = defaultdict(int)

    def add(self, unique, time):
        self.found[unique].append(time)

    def next(self, unique):
        """The next time of this unique, its last one if all were used, or None if it has none."""
        time = self.following(unique)
        self.used[unique] += 1
        return time

    def following(self, unique):
        """The time that would be next."""
        times = self.found.get(unique)
        return times[min(self.used[unique], len(times) - 1)] if times else None


def read_times(text):
    """The times of requests and those of replies in these bytes, up to the last whole line. Raises `BadLine`."""
    times = {b"ask": Times(), b"tell": Times()}
    for count, line in enumerate(text.split(b"\n")[:-1], 1):
        try:
            kind, unique, time = line.split(b" ")
            times[kind].add(u64(unique), u64(time))
        except (ValueError, KeyError):
            raise BadLine(count) from None
    return times[b"ask"], times[b"tell"]


class Clock:
    """When each order was asked (`asked`) and each reply came (`told`), by their lines, in nanoseconds; and where each order stands on the axis (`places`), in
    nanoseconds after the first: at its own reply, or at its request if it has none yet, and never before an earlier order. A head stands at 0."""

    def __init__(self, trace, asks, tells):
        self.asked, self.told, self.places = {}, {}, []
        before = self.asked_before(trace, asks, tells)
        last = None
        for order in trace.orders:
            self.asked[order.line] = place = asks.next(order.unique)
            for reply in order.replies:
                self.told[reply.line] = tells.next(reply.unique)
            if order.replies and order.replies[0].unique == order.unique:
                place = self.told[order.replies[0].line] or place
            last = place if last is None or (place is not None and place > last) else last
            self.places.append(last)
        known = [it for it in self.places if it is not None]
        self.is_empty = not known
        first = min([it for it in self.asked.values() if it is not None] + known[:1], default=0)
        self.places = [0] * trace.first() + [(first if it is None else it) - first for it in self.places]
        self.asked.update(before)

    @staticmethod
    def asked_before(trace, asks, tells):
        """When those were asked that a head tells. A unique that has no such time may come again: then it is asked only after the reply to the first."""
        found = {}
        for order in trace.head.waits if trace.head else ():
            asked, told = asks.following(order.unique), tells.following(order.unique)
            if asked is not None and (told is None or asked <= told):
                found[order.line] = asks.next(order.unique)
        return found

    def took(self, order, line):
        """How long the request of this order waited for the reply on this line, or None if that isn't known."""
        begun, over = self.asked.get(order.line), self.told.get(line)
        return None if begun is None or over is None else max(0, over - begun)
