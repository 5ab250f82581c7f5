"""Tries of programs/lockd_report with traces that begin with a head: such a piece shows what the whole trace shows from there on."""
import random

from report.chart import chart
from report.page import page
from report.session import GRANTED, Session, follow
from report.times import Clock, read_times
from report.trace import BadLine, read_trace
from tests.commands.changes import random_script as script_of_all_kinds
from tests.commands.states import cuts, said
from tests.report.kit import *
from tests.tries import run, text_of

RULE_SETS = (), ("--fair",), ("--runs", "9", "--parked", "4"), ("--fair", "--runs", "12", "--parked", "7")
LAST_BYTE = 2**63 - 1
STATE = "state 0 0 4096 256 256 1024 9 9\n"


def cut(text, at, *rules):
    """The piece of a trace that goes on behind its first lines, with a head."""
    lines = text.splitlines(True)
    return said("state", *rules, text=b"".join(lines[:at])) + b"".join(lines[at:])


def headed(*parts, behind=""):
    """A trace with a head of these parts, and these orders with their replies."""
    return (STATE + "".join(f"{it}\n" for it in parts) + "go\n" + behind).encode()


def of_head(text):
    trace = read_trace(text)
    return trace, follow(trace)


# ---- What a piece shows, and what a whole trace does from its order at the place `at` on, as if that were order 1

def bars_of(held, at):
    return sorted((it.key, it.run, max(it.first - at + 1, 0), it.last - at + 1) for it in held if it.last >= at)


def waits_of(waits, at):
    """A request waits for owners when it was asked, or when a head tells it. Of many, any three are named."""
    def blockers(it):
        return None if it.first < at else "many" if it.more_blockers else (sorted(it.blockers), it.is_behind_older)

    return [(it.order.unique, it.wish, max(it.first - at + 1, 0), it.last - at + 1, it.ended, blockers(it)) for it in waits if it.last >= at]


def errors_of(session, at):
    return ([(it.order.unique, it.error, it.wish) for it in session.refused if it.order.at >= at],
            [(it.order.unique, it.wish, len(it.steps)) for it in session.deadlocks if it.order.at >= at])


def lanes_of(trace, session, at):
    """The lanes that have a bar from there on. A mark ends where it begins."""
    found = chart(trace, session, None)
    lanes, bars = set(), iter(zip(found["bars"]["first"], found["bars"]["length"]))
    for file, owner, flock, _, count in found["lanes"]:
        first = 0
        for more, length in (next(bars) for _ in range(count)):
            first += more
            if first + length >= at:
                lanes.add((*found["files"][file], owner, flock))
    return lanes


def locks_in(session):
    """What is held, and which requests wait, the oldest first."""
    return {(*it, owner): held.runs for it, owners in session.table.files.items() for owner, held in owners.items()}, [*session.parked]


def queues_behind(trace, at):
    """The longest queue of each file from there on."""
    session = Session()
    for order in trace.orders[:at]:
        session.take(order)
    session.longest = {node: (count, None) for node, count in session.queue.items() if count}
    for order in trace.orders[at:]:
        session.take(order)
    return {node: most for node, (most, _) in session.longest.items()}


def agrees(whole, piece, at):
    """What the piece shows is what the whole trace shows from its order at this place on."""
    (trace, session), (rest, later) = ((it, follow(it)) for it in (whole, piece))
    same(len(rest.orders), len(trace.orders) - at)
    same(later.counts, [session.counts[at - 1] if at else (0, 0), *session.counts[at:]])
    same(locks_in(later), locks_in(session))
    same(bars_of(later.held, 1), bars_of(session.held, at))
    same(waits_of(later.waits, 1), waits_of(session.waits, at))
    same(errors_of(later, 1), errors_of(session, at))
    same((later.strays, session.strays), (0, 0))
    same(lanes_of(rest, later, 0), lanes_of(trace, session, at))
    same({node: most for node, (most, _) in later.longest.items()}, queues_behind(trace, at))
    for node in {node for node, *_ in rest.head.nodes} | {it.key.node for it in later.held}:
        same((later.files.label(node), later.files.is_unlinked(node)), (session.files.label(node), session.files.is_unlinked(node)))
    page("", rest, later, None)
    return later


def try_pieces_show_what_a_whole_trace_shows():
    numbers, tried, locked, waited = random.Random(11), 0, 0, 0
    for seed in range(40):
        rules = RULE_SETS[seed % len(RULE_SETS)]
        text = traced(random_script(seed, 120) if seed % 8 < 4 else script_of_all_kinds(seed), *rules)
        places, _ = cuts(text)
        for at in {0, len(places) - 1, *numbers.sample(range(len(places)), 4)}:
            later = agrees(read_trace(text), read_trace(cut(text, places[at], *rules)), at)
            tried, locked, waited = tried + 1, locked + later.counts[0][0], waited + later.counts[0][1]
    assert locked > 300 and waited > 150, (locked, waited)
    return f"passed, {tried} pieces, whose heads tell {locked} locks and {waited} that wait"


def try_a_cut_at_each_order():
    for name, rules in ("a_lock_is_waited_for", ()), ("a_file_lives_while_it_is_open", ()), ("a_writer_among_readers", ()), ("a_writer_among_readers", ("--fair",)):
        text = traced(text_of(f"examples/{name}.txt"), *rules)
        for at, place in enumerate(cuts(text)[0]):
            agrees(read_trace(text), read_trace(cut(text, place, *rules)), at)


# ---- Heads by hand

WAITED_FOR = ("node 2 1 1 33188 0 0 61", "file 1 2", "lock 2 7 0 9 1 11 0", "wait 3 2 1 8 0 0 1 12 0", "wait 5 2 1 10 0 4 0 14 0")
UNLOCKED = "ask 0 6 2 0 0 0 setlk 1 7 0 9 2 11 0\ntell 6 ok\ntell 3 ok\n"


def try_what_a_head_tells_is_there_from_the_beginning():
    """Bars begin at the place of the head, 0. How long a wait from before took isn't known."""
    trace, session = of_head(headed(*WAITED_FOR, behind=UNLOCKED + "ask 0 7 2 0 0 0 setlk 1 8 0 0 2 12 0\ntell 7 ok\ntell 5 ok\n"))
    same([(it.key.owner, it.first, it.last) for it in session.held], [(7, 0, 1), (8, 1, 2), (10, 2, 3)])
    same([(it.wish.key.owner, it.first, it.last, it.ended, it.blockers) for it in session.waits], [(8, 0, 1, GRANTED, [7]), (10, 0, 2, GRANTED, [7])])
    same(session.counts, [(1, 2), (1, 1), (1, 0)])
    same(table(session, "Most contended files"), [["a", "2", "2", "0", "0", "at least 3"]])
    same([(row[0], *row[5:]) for row in table(session, "Longest waits")],
         [("at least 2", "before the trace", "granted", "owner 7"), ("at least 1", "before the trace", "granted", "owner 7")])
    same(table(session, "Longest queue of each file"), [["a", "2", "before the trace"]])
    found = chart(trace, session, None)
    same((found["first"], found["orders"], found["lines"], found["lanes"][0]), (0, 3, [7, 1, 3], [0, "7", 0, 1, 1]))
    made = page("", trace, session, None)
    for words in ("<b>at least 2</b>", '<a href="#at=0">before the trace</a>', '<a href="#at=2">granted</a>', "<span>the head</span><span>order 2</span>",
                  "<li>Orders <b>2</b>", "--runs 4096 --parked 256 --files 256 --open 1024"):
        assert words in made, words


def try_a_head_with_no_orders_behind_it():
    trace, session = of_head(headed(*WAITED_FOR))
    same([(it.key.owner, it.first, it.last) for it in session.held], [(7, 0, 1)])
    same([(it.wish.key.owner, it.first, it.last, it.ended) for it in session.waits], [(8, 0, 1, "still waiting"), (10, 0, 1, "still waiting")])
    same(chart(trace, session, None)["orders"], 1)
    page("", trace, session, None)
    same(chart(*of_head(headed()), None)["lanes"], [])
    page("", *of_head(headed()), None)


def try_files_that_a_head_tells():
    """A name that isn't UTF-8, an empty one, one of two files of which one was unlinked, and a file whose locks go with the last open file."""
    parts = ("node 2 1 1 33188 0 0 610aff", "node 3 1 1 33188 0 0 -", "node 5 0 0 33188 0 0 62", "node 4 1 1 33188 0 0 62", "node 6 0 0 33188 0 0 62",
             "file 1 5", "file 2 5", "file 3 4", f"lock 5 7 0 {LAST_BYTE} 1 11 1", "lock 5 8 3 3 0 12 0", "lock 4 9 0 0 1 13 0")
    closed = "ask 0 1 5 0 0 0 release 1 1 7\ntell 1 ok\nask 0 2 5 0 0 0 release 2 0 0\ntell 2 ok\n"
    unlinked = "ask 0 3 1 0 0 0 unlink 62\ntell 3 ok\nask 0 4 9 0 0 0 setlk 1 7 0 0 1 11 0\ntell 4 ok\n"
    _, session = of_head(headed(*parts, behind=closed))
    same([(session.files.label(it), session.files.is_unlinked(it)) for it in (2, 3, 4, 5, 6, 9)],
         [("a\\n\\xff", False), ("(no name)", False), ("b", False), ("b", True), ("b", True), ("node 9", False)])
    same(held(session), [(7, "flock", "w", 1, 2), (8, "3-3", "r", 1, 3), (9, "0-0", "w", 1, 4)])
    _, session = of_head(headed(*parts, behind=closed + unlinked))
    same((session.files.is_unlinked(4), held(session)[1:]), (True, [(7, "flock", "w", 1, 2), (8, "3-3", "r", 1, 3), (9, "0-0", "w", 1, 6)]))


def try_a_deadlock_with_a_wait_from_before():
    """The cycle names the line of the head that tells the wait."""
    _, session = of_head(headed(
        "node 2 1 1 33188 0 0 61", "file 1 2", "lock 2 7 0 0 1 11 0", "lock 2 8 1 1 1 12 0", "wait 3 2 1 7 1 1 0 11 0",
        behind="ask 0 4 2 0 0 0 setlkw 1 8 0 0 1 12 0\ntell 4 err 35\nask 0 5 2 0 0 0 interrupt 3\ntell 3 err 4\n"))
    (_, _, _, steps), = table(session, "Deadlocks")
    same(steps, ["owner 8 (pid 12), line 8, wants byte 0 of a, where owner 7 holds a write lock on byte 0",
                 "owner 7 (pid 11), line 6, wants byte 1 of a, where owner 8 holds a write lock on byte 1"])
    same(table(session, "Refused requests by error"), [["EDEADLK", "setlkw", "1", "line 8"], ["EINTR", "setlkw, after a wait", "1", "before the trace"]])


def try_a_head_that_tells_what_cannot_be():
    """It is taken as it stands: ranges of no byte, locks that conflict, a lock behind a request, two requests of one unique, which nothing blocks, a file whose
    node isn't told, and numbers at their ends."""
    most = 2**64 - 1
    trace, session = of_head(headed(
        "wait 3 9 1 8 0 0 1 12 0", "wait 3 9 1 9 0 0 1 13 0", f"wait {most} 9 1 9 5 4 2 13 7", "lock 2 7 9 0 1 11 0", "lock 2 7 0 5 1 11 0", "lock 2 8 5 9 1 12 0",
        f"lock 2 7 3 {most} 0 11 0", "file 1 77", "file 1 78", f"node {most} {most} 0 4294967295 0 0 {'ff' * 255}", behind="ask 0 3 9 0 0 0 interrupt 3\ntell 3 err 22\n"))
    same(held(session), [(7, "0-2", "w", 1, 3), (7, f"3-{most}", "r", 1, 3), (8, "5-9", "w", 1, 3)])
    same([(it.wish.key.owner, it.ended) for it in session.waits], [(8, "still waiting"), (9, "still waiting")])
    page("", trace, session, None)


def fault_of_head(text):
    try:
        read_trace(text)
    except BadLine as bad:
        return bad.number
    return 0


def try_lines_that_no_head_has():
    """The first line that can't stand where it does. A head that lacks its end lacks the line behind the last."""
    whole, ask = headed(*WAITED_FOR), b"ask 0 1 1 0 0 0 lookup 61\n"
    for text, number in ((whole + b"go\n", 8), (whole + whole, 8), (whole + b"file 2 2\n", 8), (whole + ask + b"tell 1 err 2\nfile 2 2\n", 10), (b"go\n", 1),
                         (b"file 1 2\n", 1), (b"\n" + whole, 1), (ask + whole, 2), (STATE.encode() * 2, 2), (whole[:-3] + ask, 7), (whole[:-3] + b"tell 3 ok\n", 7)):
        same((text, fault_of_head(text)), (text, number))
        same(reported(text=text).stderr, f"bad line {number}\n".encode())
    lines = whole.splitlines(True)
    for count in range(1, len(lines)):
        for more in b"", lines[count][:-1]:
            same(fault_of_head(b"".join(lines[:count]) + more), count + 1)
    same((fault_of_head(whole), fault_of_head(whole[:5])), (0, 0))


def try_heads_with_a_changed_byte():
    """A head of which one byte is another is read where `lockd check` reads it, and its first bad line is the same."""
    numbers, base, bad = random.Random(2), headed(*WAITED_FOR, f"lock 3 4 0 {LAST_BYTE} 0 11 1", "node 3 0 0 33188 1 2 -", behind=UNLOCKED), 0
    for _ in range(300):
        at = numbers.randrange(base.rindex(b"ask"))
        text = base[:at] + bytes([numbers.choice(b"0123456789 -gonilw\nA\xc3\r")]) + base[at + 1:]
        told = run("check", text=text).stderr.decode()
        number = fault_of_head(text)
        same((f"bad line {number}\n" if number else "", text), (told, text))
        bad += bool(told)
    assert 100 < bad < 300, bad
    return f"passed, {bad} with a bad line"


# ---- Times

def clock_of(trace, times):
    return Clock(trace, *read_times(times))


def try_times_of_waits_from_before():
    """The left edge is the first order's request. A wait of which the request's time is known lasts from there on. A unique that comes again may be asked only
    after its first reply: its time is no time of the wait's."""
    trace, session = of_head(headed(*WAITED_FOR, behind=UNLOCKED + "ask 0 3 2 0 0 0 open\ntell 3 err 2\n"))
    later = b"ask 6 9000000\ntell 6 9250000\ntell 3 9500000\nask 3 9600000\ntell 3 9700000\n"
    for before, longest, took in ((b"", ["at least 0.700", "at least 0.250"], 0), (b"ask 3 4500000\nask 5 4600000\n", ["5.000", "at least 0.700"], 5000)):
        clock = clock_of(trace, before + later)
        same(clock.places, [0, 250_000, 700_000])
        same([row[0] for row in table(session, "Longest waits", clock)], longest)
        found = chart(trace, session, clock)
        same((found["places"], sorted(found["bars"]["took"])), ([0, 250, 450, 0], [0, took]))
    same(table(session, "Most contended files", clock)[0][-1], "at least 5.700")
    assert "at least 5.000" in page("", trace, session, clock)
    # Nothing is known of the waits, and an order stands at its request if it has no reply.
    trace, session = of_head(headed(*WAITED_FOR, behind="ask 0 6 2 0 0 0 setlkw 1 9 0 0 1 13 0\n"))
    same(clock_of(trace, b"ask 6 7000\n").places, [0, 0])
    same(clock_of(*of_head(headed(*WAITED_FOR))[:1], b"ask 3 7000\ntell 3 8000\n").is_empty, True)


def try_times_of_pieces():
    """By the times of a whole session, a wait that a head tells took as long as in the whole trace."""
    known = 0
    for seed in range(8):
        text = traced(random_script(seed, 200))
        whole = read_trace(text)
        ended = [it for it in follow(whole).waits if it.end_line]
        at = max(range(1, len(whole.orders)), key=lambda at, waits=ended: sum(it.first < at <= it.last for it in waits))
        piece, times = read_trace(cut(text, whole.orders[at].line - 1)), times_of(whole)
        clock, later = clock_of(whole, times), clock_of(piece, times)
        more = clock.asked[whole.orders[at].line] - clock.asked[whole.orders[0].line]
        same(later.places[1:], [it - more for it in clock.places[at:]])
        took = {it.order.unique: clock.took(it.order, it.end_line) for it in ended}
        for it in follow(piece).waits:
            if it.end_line:
                same(later.took(it.order, it.end_line), took[it.order.unique])
                known += it.order.is_before
    assert known > 10, known


def try_the_first_window_behind_a_head():
    """Bars of a head all begin at once, and would be the thousand that begin in the least time."""
    locks_told = [f"lock 2 {it} {it} {it} 1 11 0" for it in range(1500)]
    orders = "".join(f"ask 0 {it} 2 0 0 0 setlk 1 7000 7000 7000 {1 + it % 2} 11 0\ntell {it} ok\n" for it in range(1, 3002))
    trace, session = of_head(headed("node 2 1 1 33188 0 0 61", "file 1 2", *locks_told, behind=orders))
    times = b"".join(b"ask %d %d\ntell %d %d\n" % (it, at, it, at) for it, at in ((it, 1_000_000 * it) for it in range(1, 3002)))
    same(chart(trace, session, None)["window"], [0, 1000])
    same(chart(trace, session, clock_of(trace, times))["window"], [1000, 1_999_001])
    trace, session = of_head(headed(*WAITED_FOR, behind="".join(f"ask 0 {it} 1 0 0 0 lookup 62\ntell {it} err 2\n" for it in range(10, 3010))))
    times = b"".join(b"ask %d %d\n" % (it, 1_000_000 * it) for it in range(10, 3010))
    same(chart(trace, session, None)["window"], [0, 1000])
    same(chart(trace, session, clock_of(trace, times))["window"], [0, 999_001])
