"""What the script of a page draws: lanes with bars, as columns of numbers, most of them differences to the one before."""
from collections import defaultdict
from itertools import chain

from report.locks import WRITE
from report.session import GRANTED, STILL
from report.tables import Lengths, blockers_text, range_text

MOST_LAYERS = 8
# A trace of more orders than this is shown in part at first, so many of them.
MOST_WHOLE, FIRST_SHOWN = 2000, 1000
# What bars and marks say. data.js has the same list.
HELD, WAITS = 0, {GRANTED: 1, "EINTR": 2, "EBADF": 3, "ENOLCK": 4, STILL: 5}
OTHER_END = 6
MARKS = {"EAGAIN": 7, "EDEADLK": 8, "ENOLCK": 9}
OTHER_MARK = 10


class Words:
    """Each text once, by its place."""

    def __init__(self):
        self.places = {}

    def place(self, text):
        return self.places.setdefault(text, len(self.places))


class Bar:
    """A lock that is held, a request that waits, or one that was refused, whose `last` is its `first`."""

    __slots__ = "first", "last", "what", "kind", "range", "pid", "note", "took", "layer"

    def __init__(self, first, last, what, lock, flock, note="", took=0):
        self.first, self.last, self.what, self.kind, self.pid = first, last, what, lock.kind, lock.pid
        self.range, self.note, self.took, self.layer = range_text(lock, flock), note, took, 0


def bars_by_key(session, clock):
    found, lengths = defaultdict(list), Lengths(clock)
    for it in session.held:
        found[it.key].append(Bar(it.first, it.last, HELD, it.run, it.key.flock))
    for it in session.waits:
        took = lengths.took(it)
        note = blockers_text(it) if it.ended in WAITS else f"{blockers_text(it)}; ended with {it.ended}"
        what = WAITS.get(it.ended, OTHER_END)
        found[it.wish.key].append(Bar(it.first, it.last, what, it.wish, it.wish.key.flock, note, (took or 0) // 1000))
    for it in session.refused:
        if it.wish:
            at, note = it.order.at, it.error + (", to an unlock" if it.wish.kind > WRITE else "")
            found[it.wish.key].append(Bar(at, at, MARKS.get(it.error, OTHER_MARK), it.wish, it.wish.key.flock, note))
    return found


def lay(bars):
    """Bars of one lane that share an order lie in layers. Gives how many there are."""
    ends = []
    bars.sort(key=lambda it: (it.first, it.last))
    for bar in bars:
        layer = next((at for at, end in enumerate(ends) if end <= bar.first), len(ends))
        bar.layer = min(layer, MOST_LAYERS - 1)
        if layer == len(ends) < MOST_LAYERS:
            ends.append(0)
        ends[bar.layer] = max(ends[bar.layer], bar.last, bar.first + 1)
    return len(ends)


def differences(numbers):
    before, found = 0, []
    for it in numbers:
        found.append(it - before)
        before = it
    return found


def files_in_order(session, found):
    """The most contended first, and then as they came. Keys of a file stand as they came."""
    contended = defaultdict(int)
    for key, bars in found.items():
        contended[key.node] += sum(1 for it in bars if it.what != HELD)
    nodes = sorted({it.node for it in found}, key=lambda it: (-contended[it], it))
    keys = defaultdict(list)
    for key in sorted(found, key=lambda it: (found[it][0].first, it)):
        keys[key.node].append(key)
    files = [[session.files.label(it), str(it), int(session.files.is_unlinked(it))] for it in nodes]
    return files, [(at, key) for at, node in enumerate(nodes) for key in keys[node]]


def columns(bars, words, notes):
    noted = [it for it in bars if it.what != HELD]
    return {
        "length": [it.last - it.first for it in bars], "what": [2 * it.what + (it.kind & 1) for it in bars], "layer": [it.layer for it in bars],
        "range": [words.place(it.range) for it in bars], "pid": [it.pid for it in bars],
        "note": [notes.place(it.note) for it in noted], "took": [it.took for it in noted],
    }


def first_window(trace, found, clock):
    """From where to where the page shows a long trace at first: the first orders, or those from the first bar on if none of them has one. Over times, where so
    many bars begin in the least time: for hours before the first orders, or between them, there may be nothing. All bars of a head begin at once."""
    firsts = sorted(bar.first for bars in found.values() for bar in bars)
    begun = [it for it in firsts if it >= trace.first()]
    if clock and begun:
        times = [clock.places[it] for it in begun]
        ends = times[min(FIRST_SHOWN, len(times)) - 1:]
        left, right = min(zip(times, ends), key=lambda it: it[1] - it[0])
        return [left // 1000, right // 1000 + 1]
    if clock:
        return [0, clock.places[FIRST_SHOWN] // 1000 + 1]
    first = firsts[0] if firsts and firsts[0] >= FIRST_SHOWN else 0
    return [first, min(first + FIRST_SHOWN, trace.places())]


def chart(trace, session, clock):
    """All of it, as `JSON.stringify` would write it."""
    found = bars_by_key(session, clock)
    layers = {key: lay(bars) for key, bars in found.items()}
    files, keys = files_in_order(session, found)
    words, notes = Words(), Words()
    lanes = [[file, str(key.owner), int(key.flock), layers[key], len(found[key])] for file, key in keys]
    bars = columns(list(chain.from_iterable(found[key] for _, key in keys)), words, notes)
    bars["first"] = list(chain.from_iterable(differences(it.first for it in found[key]) for _, key in keys))
    places = differences(it // 1000 for it in clock.places + clock.places[-1:]) if clock else None
    lines = [*([trace.head.last] if trace.head else []), *(it.line for it in trace.orders)]
    return {
        "window": first_window(trace, found, clock) if len(trace.orders) > MOST_WHOLE else None,
        "first": 1 - trace.first(), "orders": trace.places(), "lines": differences(lines), "places": places, "files": files, "lanes": lanes,
        "ranges": list(words.places), "notes": list(notes.places), "bars": bars,
    }
