"""Finds the circle of waiting owners that a request would have closed (POSIX.1-2017 `fcntl`, EDEADLK)."""
from collections import deque, namedtuple

from report.locks import wishes_conflict

# In a circle: the request of this wish, asked on this line, waits for that owner, who holds this run, or only asked earlier if it is None.
Step = namedtuple("Step", "wish line owner run")


def steps(table, waits, wish, line, is_fair):
    """Whom a request for a record lock waits for. With `--fair` that is also who asked before."""
    for owner, run in table.in_the_way(wish):
        yield Step(wish, line, owner, run)
    if is_fair:
        for other in waits:
            if other.line < line and wishes_conflict(wish, other.wish):
                yield Step(wish, line, other.wish.key.owner, None)


def circle(table, waits, wish, line, is_fair):
    """The shortest circle through this request, which asks on this line, or None."""
    seen, left = set(), deque([(wish, line, ())])
    while left:
        one, asked, before = left.popleft()
        for step in steps(table, waits, one, asked, is_fair):
            if step.owner == wish.key.owner:
                return before + (step,)
            if step.owner not in seen:
                seen.add(step.owner)
                left.extend((it.wish, it.line, before + (step,)) for it in waits
                            if it.wish.key.owner == step.owner and not it.wish.key.flock)
    return None


def find_circle(table, parked, wish, line):
    """A circle of locks that are held; if there is none, one through requests that asked before, as with `--fair`."""
    waits = list(parked)
    return circle(table, waits, wish, line, False) or circle(table, waits, wish, line, True) or ()
