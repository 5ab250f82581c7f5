"""Tries the worked rows of `tests/cases/rows` by the built `lockd`: `script` gives each trace from its orders alone, and `check` finds it legal.

A case begins with a line of `# ` and a title. Behind `$ ` stand its options, behind `= ` the number of its trace's lines. A line of `+ ` stands
for the lines of the case whose title begins so, up to a colon, and a line of `@ ` for those that a function below makes of these words. What has
no `= ` is but a piece of others. Rows of many sizes are made here alone. `tries.py` says how it ends.
"""
import itertools
import re
import sys

from tests import fuse
from tests import tries
from tests.tries import cases, marked, run, text_of

READ, WRITE = 0, 1


def asked(node, op, unique=1):
    """An order of user 5 and group 6, without a reply."""
    return f"ask 0 {unique} {node} 5 6 0 {op}\n"


def told(reply, unique=1):
    return f"tell {unique} {reply}\n"


def done(node, op, reply="ok", unique=1):
    """An order and its reply."""
    return asked(node, op, unique) + told(reply, unique)


def numbers(first, last):
    """Those from the first to the last, which may be the smaller one."""
    return range(first, last + 1) if first <= last else range(first, last - 1, -1)


def file_made(letters, number, node, fh):
    return done(1, f"create 1 420 {name(letters, number)}", f"made {node} 33188 1 5 6 {fh}")


def file_gone(letters, number, node, fh):
    """A file goes with its name, its lookup and its open file."""
    unlinked = done(1, f"unlink {name(letters, number)}") + asked(node, "forget 1")
    return unlinked + done(node, "getattr", f"attr {node} 33188 0 5 6") + done(node, f"release {fh} 0 0") + done(node, "getattr", "err 2")


def name(letters, number):
    """The hex of the name of so many letters from a to p that stands for a number."""
    return "".join(f"{0x61 + (number >> 4 * it) % 16:x}" for it in reversed(range(letters)))


def files(letters, first, last, node, fh):
    """The files of these numbers. The first gets this node and fh, and the others the next ones."""
    return "".join(file_made(letters, it, node + place, fh + place) for place, it in enumerate(numbers(first, last)))


def gone(letters, first, last, node, fh):
    return "".join(file_gone(letters, it, node + place, fh + place) for place, it in enumerate(numbers(first, last)))


def files_anew(letters, first, last, node, fh, new_node, new_fh):
    """Each of these files, whose nodes and fhs are that far behind the number, goes and is made anew."""
    return "".join(file_gone(letters, it, node + it, fh + it) + file_made(letters, it, new_node + place, new_fh + place)
                   for place, it in enumerate(numbers(first, last)))


def opens(node, first, last):
    return "".join(done(node, "open", f"open {fh}") for fh in numbers(first, last))


def releases(node, first, last):
    return "".join(done(node, f"release {fh} 1 0") for fh in numbers(first, last))


def closes_unlinked(node, first, last):
    """The node is there without a name, until the last is closed."""
    return "".join(done(node, "getattr", f"attr {node} 33188 0 5 6") + done(node, f"release {fh} 0 0") for fh in numbers(first, last))


def setlk(node, fh, owner, byte, kind, unique=1, reply="ok"):
    return done(node, f"setlk {fh} {owner} {byte} {byte} {kind} {owner} 0", reply, unique)


def runs(count):
    """So many runs of owner 7, each of three bytes, with a free byte behind it."""
    return "".join(done(2, f"setlk 1 7 {4 * it} {4 * it + 2} 1 11 0", unique=it + 2) for it in range(count))


def files_with_runs(first, last, count):
    """The files of these nodes, on each of which owner 7 has so many runs."""
    return "".join(file_made(2, node, node, node - 1) + "".join(setlk(node, node - 1, 7, 2 * it, WRITE) for it in range(count))
                   for node in numbers(first, last))


def waits(first, last, kind, more=0):
    """Requests of these uniques wait for byte 0 of node 2, each of the owner of this number or of one that is so much more."""
    return "".join(asked(2, f"setlkw 1 {it + more} 0 0 {kind} {it + more} 0", it) for it in numbers(first, last))


def tells(first, last, *reply):
    return "".join(told(" ".join(map(str, reply)), it) for it in numbers(first, last))


def holders(count):
    """So many files, each locked by the owner of its number."""
    return "".join(file_made(2, it, it + 2, it + 1) + setlk(it + 2, it + 1, it, 0, WRITE) for it in range(count))


def request(owner, other):
    """An owner asks for the file of another one."""
    return asked(other + 2, f"setlkw {other + 1} {owner} 0 0 1 {owner} 0", owner + 10_000)


def refused(owner, other):
    return request(owner, other) + told("err 35", owner + 10_000)


def row(count):
    """Each of so many holders waits for the next one, but the last."""
    return holders(count) + "".join(request(it, it + 1) for it in range(count - 1))


MADE = {it.__name__: it for it in (files, gone, files_anew, opens, releases, closes_unlinked, runs, files_with_runs, waits, tells, row)}


def stored(file):
    """The cases of a file with their titles, and each case by the beginning of its title."""
    found = cases(text_of(f"tests/cases/rows/{file}.txt"))
    return found, {title.split(":")[0]: case for title, case in found}


def lines_of(case, pieces):
    """The trace of a case."""
    found = ""
    for mark, text in (line.split(" ", 1) for line in case.splitlines()):
        if mark == "+":
            found += lines_of(pieces[text], pieces)
        elif mark == "@":
            maker, *words = text.split()
            found += MADE[maker](*(int(it) if it.isdigit() else it for it in words))
        elif mark in ("ask", "tell"):
            found += f"{mark} {text}\n"
    return found


def is_so(trace, *options):
    """The trace's orders give this trace under these options, and it is legal under them."""
    asks = "".join(re.findall("^ask .*\n", trace, re.M))
    ran = run("script", *options, text=asks.encode())
    if ran.stdout != trace.encode():
        both = itertools.zip_longest(ran.stdout.decode().splitlines(), trace.splitlines())
        at, (said, wanted) = next((at, it) for at, it in enumerate(both, 1) if it[0] != it[1])
        raise AssertionError(f"line {at} is {said}, and not {wanted}")
    assert (ran.stderr, ran.returncode) == (b"", 0), ran.stderr
    ran = run("check", *options, text=trace.encode())
    assert (ran.stdout, ran.stderr, ran.returncode) == (b"legal\n", b"", 0), ran


def are_so(file, count):
    """Each case of the file is so, with as many lines as it says, and there are so many."""
    found, pieces = stored(file)
    assert len({title for title, _ in found}) == len(found), "two cases of one title"
    tried, lines = 0, 0
    for title, case in found:
        for wanted in marked(case, "= ").split():
            trace = lines_of(case, pieces)
            assert trace.count("\n") == int(wanted), (title, trace.count("\n"), wanted)
            try:
                is_so(trace, *marked(case, "$ ").split())
            except AssertionError as error:
                raise AssertionError(f"{title}: {error}") from error
            tried, lines = tried + 1, lines + int(wanted)
    assert tried == count, (tried, count)
    return f"{tried} rows of {lines} lines together"


def try_answers():
    return are_so("answers", 2)


def try_errors():
    return are_so("errors", 7)


def try_lives():
    return are_so("lives", 9)


def try_locks():
    return are_so("locks", 15)


def try_waiting():
    return are_so("waiting", 17)


def try_fair():
    return are_so("fair", 12)


def try_circles():
    return are_so("circles", 20)


def try_limits():
    return are_so("limits", 17)


def circles_of(count):
    """A circle of so many owners, whose last request is refused, whoever of the others asked first. And rows that lack the first, a middle and
    the last request of it, which is refused then."""
    last = count - 1
    yield row(count) + refused(last, 0) + request(count, 0)
    yield holders(count) + "".join(request(it, it + 1) for it in reversed(range(last))) + refused(last, 0)
    for gap in 0, last // 2, last - 1:
        yield holders(count) + "".join(request(it, it + 1) for it in range(last) if it != gap) + request(last, 0) + refused(gap, gap + 1)


def try_circles_of_2_to_256_owners():
    for count in 2, 3, 10, 11, 100, 256:
        for trace in circles_of(count):
            is_so(trace)


def asked_and_taken_back(node, fh, owner, kind, flags, reply):
    """A request that gets this reply. One that waits is interrupted."""
    found = asked(node, f"setlkw {fh} {owner} 0 0 {kind} {owner} {flags}", 30_000)
    return found + (told(reply, 30_000) if reply else asked(node, "interrupt 30000", 30_001) + told("err 4", 30_000))


def all_asked(node, fh, holder, owners, closers):
    """Each of the owners asks for what the holder has: record locks and whole-file locks, to read and to write. It is refused if it is a closer
    and asks for a record lock, and else waits."""
    found = done(node, f"setlk {fh} {holder} 0 0 1 {holder} 1")
    for owner, kind, flags in itertools.product(owners, (READ, WRITE), (0, 1)):
        reply = "ok" if owner == holder else "err 35" if owner in closers and not flags else None
        found += asked_and_taken_back(node, fh, owner, kind, flags, reply)
        if owner == holder:
            found += done(node, f"setlk {fh} {holder} 0 0 1 {holder} {flags}")
    return found


def try_each_owner_of_a_row_closes_a_circle_with_those_before():
    is_so(row(20) + "".join(all_asked(it + 2, it + 1, it, range(21), range(it + 1, 20)) for it in range(20)))


def try_who_would_close_a_circle_until_it_is_cut():
    """Of owners 6 to 10 these would, by a request for node 2, 3 or 4. Node 5 isn't there."""
    _, pieces = stored("circles")
    for more, second, third, fourth in (None, [8, 9], [9], []), ("cut", [], [9], []), ("cut and asked", [], [7, 9], [7]):
        trace = "".join(lines_of(pieces[it], pieces) for it in ("with files", "with three", more) if it)
        for node, closers in (2, second), (3, third), (4, fourth):
            trace += all_asked(node, node - 1, node + 5, range(6, 11), closers)
        is_so(trace + "".join(asked_and_taken_back(5, 5, it, WRITE, 0, "err 9") for it in range(6, 11)))


def try_one_of_50_owners_in_the_way_leads_back():
    """50 owners have read locks of a byte. Owner 0 asks to write it, and is interrupted. One of them waits for owner 0, who asks again."""
    for one in 10, 11, 35, 58, 59:
        asks = "setlkw 2 0 9 9 1 0 0"
        readers = holders(2) + "".join(setlk(3, 2, it, 9, READ, 2) for it in range(10, 60))
        interrupted = asked(3, asks, 3) + asked(3, "interrupt 3", 4) + told("err 4", 3)
        is_so(readers + interrupted + asked(2, f"setlkw 1 {one} 0 0 0 {one} 0", 5) + done(3, asks, "err 35", 3))


def try_runs_are_filled_twice():
    """Owner 7 gets each run, the last one first. Then neither it nor another owner gets one more. It gives them back, the first one first."""
    _, pieces = stored("limits")
    for count in 1, 2, 65_536:
        filled = "".join(setlk(2, 1, 7, 2 * it, WRITE) for it in reversed(range(count)))
        full = setlk(2, 1, 7, 2 * count, WRITE, reply="err 37") + setlk(2, 1, 8, 2 * count, READ, reply="err 37")
        emptied = "".join(setlk(2, 1, 7, 2 * it, 2) for it in range(count))
        is_so(pieces["one file"] + (filled + full + emptied) * 2, "--runs", str(count), "--parked", "1")


def try_waiting_requests_are_filled_twice():
    """As many wait as may, are interrupted, and as many wait again, until the lock is given back."""
    _, pieces = stored("limits")
    for count in 1, 2, 257, 1_024:
        last = 999 + count
        filled = waits(1000, last, READ) + pieces["no place to wait"]
        interrupted = "".join(asked(2, f"interrupt {it}", 5) + told("err 4", it) for it in numbers(1000, last))
        freed = setlk(2, 1, 7, 0, 2, 5) + tells(1000, last, "ok")
        is_so(pieces["one file"] + pieces["two holders"] + filled + interrupted + filled + freed, "--parked", str(count))


def try_the_standard_limits():
    """They are 4,096 runs, 256 parked requests, 256 files and 1,024 open files: with these options the full tables give the same traces."""
    found, pieces = stored("limits")
    standard = [lines_of(case, pieces) for _, case in found if "= " in case and "$ " not in case]
    for trace in standard:
        is_so(trace, "--runs", "4096", "--parked", "256", "--files", "256", "--open", "1024")
    assert len(standard) == 11, len(standard)


def try_a_mode_past_the_permissions():
    """Of a CREATE's mode of octal 107777 the permissions count, and the file is of its user and group, who or whoever finds it later."""
    sent = tries.line_of(tries.INIT) + tries.line_of(fuse.create(2, mode=0o107777))
    replies = run("bytes", text=sent.encode()).stdout.decode().splitlines(True)
    assert replies[1:] == [tries.line_of(fuse.create_reply(2, 2, 0o100777, 1, 0, 0, 1))], replies


if __name__ == "__main__":
    sys.exit(tries.main("locks/rows", globals()))
