"""Tries programs/lockd_report: which bars and waits its model finds in traces that the built `lockd` makes, what it reads, traces with a head (`heads.py`), and
its page (`page.py`). `tries.py` says how it ends; the status is also 77 if there is no Chromium, which Debian has as `chromium`.

tests/report/report.py --pictures makes the pictures of docs/ anew.
"""
import random
import re
import subprocess
import sys
import tempfile

from tests import tries
from report.chart import bars_by_key, chart, lay
from report.locks import wish_of
from report.page import page
from report.session import Session, follow
from report.times import Clock, read_times
from report.trace import BadLine, read_trace
from tests.report.browser import PROGRAM
from tests.report.heads import *
from tests.report.kit import *
from tests.report.page import *
from tests.tries import run, text_of


# ---- The model

def try_a_lock_is_waited_for():
    trace, session = followed(text_of("examples/a_lock_is_waited_for.txt"))
    same(held(session), [(7, "0-9", "w", 2, 7), (8, "0-0", "w", 7, 8), (10, "0-4", "r", 8, 9)])
    same(waits(session), [(8, 3, 7, "granted", [7]), (9, 4, 6, "EINTR", [7]), (10, 5, 8, "granted", [7])])
    same(table(session, "Most contended files"), [["a", "4", "3", "0", "0", "9"]])
    same([row[0] for row in table(session, "Longest waits")], ["4", "3", "2"])
    same(table(session, "Longest queue of each file"), [["a", "3", "line 7"]])
    same(table(session, "Refused requests by error"), [["EINTR", "setlkw, after a wait", "1", "line 6"]])
    same((session.strays, len(trace.orders), session.counts[4]), (0, 8, (1, 3)))
    # A lock that follows on a wait stands beside it, and not below.
    same([it[3] for it in chart(trace, session, None)["lanes"]], [1, 1, 1, 1])


def try_the_most_contended_file_comes_first():
    trace, session = followed(CREATED + "".join(f"ask 0 {row}\n" for row in (
        "2 1 0 0 0 create 0 420 62", "3 2 0 0 0 setlk 1 7 0 0 1 11 0", "4 3 0 0 0 setlk 2 7 0 0 1 11 0", "5 3 0 0 0 setlk 2 8 0 0 1 12 0",
        "6 3 0 0 0 setlkw 2 8 0 0 0 12 0", "7 2 0 0 0 setlkw 1 8 0 0 0 12 0")))
    same(table(session, "Most contended files"), [["b", "3", "1", "1", "0", "2"], ["a", "2", "1", "0", "0", "1"]])
    same([it[0] for it in chart(trace, session, None)["files"]], ["b", "a"])


def try_locks_are_cut_and_joined():
    """POSIX.1-2017 `fcntl`: an unlock in the middle leaves two locks; a lock between them joins them; another kind or pid doesn't."""
    _, session = followed(locks("setlk 1 7 0 9 1 11 0", "setlk 1 7 4 5 2 11 0", "setlk 1 7 4 5 1 11 0", "setlk 1 7 5 9 0 11 0", "setlk 1 7 10 12 0 99 0"))
    same(held(session), [(7, "0-3", "w", 3, 4), (7, "0-4", "w", 5, 7), (7, "0-9", "w", 2, 3), (7, "0-9", "w", 4, 5), (7, "10-12", "r", 6, 7),
                         (7, "5-9", "r", 5, 7), (7, "6-9", "w", 3, 4)])


def try_what_drops_locks():
    """FLUSH drops the record locks of its owner, RELEASE with the flag the whole-file lock, and the last close all that is left on the file."""
    _, session = followed(locks("open", "setlk 1 7 0 0 1 11 0", "setlk 2 7 5 5 1 11 0", "setlk 1 7 0 0 0 11 1", "setlk 2 8 9 9 0 12 0", "flush 1 7",
                                "release 1 1 7", "setlk 2 9 3 3 0 13 1", "release 2 0 0"))
    # A range says nothing of a whole-file lock.
    same(held(followed(locks("setlk 1 7 0 0 1 11 1", "setlk 1 7 5 5 2 11 1"))[1]), [(7, "flock", "w", 2, 3)])
    same(held(session), [(7, "0-0", "w", 3, 7), (7, "5-5", "w", 4, 7), (7, "flock", "r", 5, 8), (8, "9-9", "r", 6, 10), (9, "flock", "r", 9, 10)])


def try_how_waits_end():
    script = locks("open", "setlk 1 7 0 0 1 11 0", "setlkw 2 8 0 0 1 12 0", "setlkw 1 9 0 0 0 13 0", "setlkw 1 10 0 0 0 14 0", "release 2 0 0",
                   "interrupt 6", "setlkw 1 11 0 0 0 15 0", "setlkw 1 12 0 0 0 16 0", "setlkw 1 13 0 0 0 17 0", "setlkw 1 14 0 0 1 18 0",
                   "setlk 1 7 0 0 2 11 0")
    _, session = followed(script, "--runs", "2", "--parked", "5")
    same([(it[0], it[3]) for it in waits(session)],
         [(8, "EBADF"), (9, "granted"), (10, "EINTR"), (11, "granted"), (12, "ENOLCK"), (13, "ENOLCK"), (14, "still waiting")])
    same(session.counts[-1], (2, 1))
    _, session = followed(script, "--parked", "2")
    same([(it.error, it.order.unique) for it in session.refused], [("ENOLCK", 6), ("EAGAIN", 8), ("ENOLCK", 10), ("ENOLCK", 11), ("ENOLCK", 12)])


def try_a_deadlock_and_its_cycle():
    _, session = followed(locks("setlk 1 7 0 0 1 11 0", "setlk 1 8 1 1 1 12 0", "setlk 1 9 2 2 1 13 0", "setlkw 1 7 1 1 0 11 0", "setlkw 1 8 2 2 1 12 0",
                                "setlkw 1 9 0 0 1 13 0"))
    found, = session.deadlocks
    same([(it.wish.key.owner, it.line, it.owner, it.run.start) for it in found.steps], [(9, 11, 7, 0), (7, 9, 8, 1), (8, 10, 9, 2)])
    row, = table(session, "Deadlocks")
    same(row[:3], ["line 11", "9 (pid 13)", "a"])
    same(row[3][0], "owner 9 (pid 13), line 11, wants byte 0 of a, where owner 7 holds a write lock on byte 0")
    same(session.refused[0].error, "EDEADLK")
    # The same, where a request for a whole-file lock would make it shorter.
    _, session = followed(locks("setlk 1 7 0 0 1 11 0", "setlk 1 8 1 1 1 12 0", "setlk 1 9 2 2 1 13 0", "setlk 1 9 0 0 1 13 1", "setlkw 1 7 1 1 0 11 0",
                                "setlkw 1 8 2 2 1 12 0", "setlkw 1 7 0 0 1 11 1", "setlkw 1 9 0 0 1 13 0"))
    same([(it.wish.key.owner, it.owner) for it in session.deadlocks[0].steps], [(9, 7), (7, 8), (8, 9)])


def try_a_fair_deadlock():
    """A circle that goes through a request that asked before, and through no lock alone."""
    script = locks("setlk 1 7 0 0 0 11 0", "setlk 1 8 5 5 1 12 0", "setlkw 1 9 0 0 1 13 0", "setlk 1 9 7 7 1 13 0", "setlkw 1 8 0 0 0 12 0",
                   "setlkw 1 7 5 5 1 11 0")
    _, session = followed(script, "--fair")
    same([(it.wish.key.owner, it.owner, it.run is None) for it in session.deadlocks[0].steps], [(7, 8, False), (8, 9, True), (9, 7, False)])
    same(session.waits[1].is_behind_older, True)
    same(followed(script)[1].deadlocks, [])


def try_names_that_come_again():
    """A name goes with UNLINK and may come again for another node, which is another file."""
    _, session = followed(CREATED + "".join(f"ask 0 {row}\n" for row in (
        "2 2 0 0 0 setlk 1 7 0 0 1 11 0", "3 1 0 0 0 unlink 61", "4 1 0 0 0 create 0 420 61", "5 3 0 0 0 setlk 2 7 0 0 1 11 1",
        "6 1 0 0 0 create 0 420 3c0aff", "7 1 0 0 0 create 0 420 62", "8 1 0 0 0 unlink 62")))
    files = session.files
    same([(files.label(it), files.is_unlinked(it)) for it in (2, 3, 4, 5, 9)],
         [("a", True), ("a", False), ("<\\n\\xff", False), ("b", True), ("node 9", False)])
    same(held(session), [(7, "0-0", "w", 2, 9), (7, "flock", "w", 5, 9)])
    files = Session().files
    trace = read_trace(b"ask 0 1 1 0 0 0 lookup 62\ntell 1 entry 5 33188 1 0 0\n")
    same(follow(trace).files.label(5), "b")


def try_names_of_folders():
    """MKNOD and MKDIR name a node, if they aren't refused, and RMDIR takes a name away. What is refused stands in the table of errors."""
    trace, session = followed("".join(f"ask 0 {row}\n" for row in (
        "1 1 0 0 0 mkdir 493 64", "2 1 0 0 0 mknod 33188 66", "3 1 0 0 0 mkdir 493 66", "4 2 0 0 0 mknod 33188 67", "5 1 0 0 0 mknod 4516 70", "6 1 0 0 0 rmdir 66",
        "7 3 0 0 0 open", "8 3 0 0 0 setlk 1 7 0 9 1 11 0", "9 1 0 0 0 rmdir 64", "10 1 0 0 0 mkdir 448 64")))
    files = session.files
    same([(files.label(it), files.is_unlinked(it)) for it in (2, 3, 4, 5)], [("d", True), ("f", False), ("d", False), ("node 5", False)])
    same([row[:3] for row in table(session, "Refused requests by error")], [["EPERM", "mknod", "2"], ["EEXIST", "mkdir", "1"], ["ENOTDIR", "rmdir", "1"]])
    same(held(session), [(7, "0-9", "w", 8, 11)])
    same([(it.op, it.body) for it in trace.orders[:2]], [("mkdir", [0o755, b"d"]), ("mknod", [0o100644, b"f"])])


def try_an_order_with_the_unique_of_a_waiter():
    waits_as_3 = locks("setlk 1 7 0 0 1 11 0", "setlkw 1 8 0 0 1 12 0")
    _, session = followed(waits_as_3 + "ask 0 3 2 0 0 0 setlk 1 9 5 5 1 13 0\nask 0 4 2 0 0 0 setlk 1 7 0 0 2 11 0\n")
    same(held(session), [(7, "0-0", "w", 2, 5), (8, "0-0", "w", 5, 6)])
    same([it.error for it in session.refused], ["EINVAL"])
    session = follow(read_trace(traced(waits_as_3) + b"ask 0 3 2 0 0 0 setlk 1 9 5 5 1 13 0\ntell 3 ok\n"))
    same((held(session), len(session.parked)), ([(7, "0-0", "w", 2, 5)], 1))


def try_random_locks():
    """Each GETLK is answered with a lock that the model holds, or with none where the model has none in the way; each reply belongs to a request."""
    asked = ended = 0
    for seed, rules in enumerate(((), (), ("--fair",), ("--runs", "9", "--parked", "4"))):
        trace, session = read_trace(traced(random_script(seed, 800), *rules)), Session()
        for order in trace.orders:
            if order.op == "getlk" and not order.replies[0].error():
                start, end, kind, pid = order.replies[0].values
                found = {(run.start, run.end, run.kind, run.pid) for _, run in session.table.in_the_way(wish_of(order))}
                assert (start, end, kind, pid) in found if kind < 2 else not found, (order.line, found)
                asked += 1
            session.take(order)
        same(session.strays, 0)
        session.finish()
        ended += sum(it.ended != "still waiting" for it in session.waits)
        for bars in bars_by_key(session, None).values():
            lay(bars)
            for layer in range(8):
                row = [it for it in bars if it.layer == layer]
                assert layer == 7 or all(one.last <= other.first for one, other in zip(row, row[1:])), row
    assert asked > 500 and ended > 50, (asked, ended)
    return f"passed, {asked} GETLKs and {ended} waits that ended"


# ---- Reading

def fault_of(text):
    try:
        read_trace(text)
    except BadLine as bad:
        return f"bad line {bad.number}\n"
    return ""


def try_traces_with_a_changed_byte():
    """A trace of which one byte is another is read where `lockd check` reads it, and its first bad line is the same."""
    draw, bad = random.Random(1), 0
    base = traced(text_of("examples/a_file_lives_while_it_is_open.txt"))
    base += traced(locks("setlk 1 7 0 9 1 11 0", "getlk 1 8 0 0 0 1 0", "setlkw 1 8 0 0 1 12 0", "flush 1 7"))
    for _ in range(300):
        at = draw.randrange(len(base) - 1)
        text = base[:at] + bytes([draw.choice(b"0123456789 -azksetlkw\nA\xc3\r")]) + base[at + 1:]
        told = run("check", text=text).stderr.decode()
        same((fault_of(text), text), (told, text))
        bad += bool(told)
    assert 150 < bad < 300, bad
    return f"passed, {bad} with a bad line"


def try_numbers_and_names_at_their_ends():
    for line in ("ask 0 18446744073709551616 1 0 0 0 getattr", "ask 16 1 1 0 0 0 getattr", "ask 0 1 1 4294967296 0 0 getattr",
                 "ask 0 1 1 0 0 0 create 2 420 61", "ask 0 1 1 0 0 0 create 0 512 61", f"ask 0 1 1 0 0 0 lookup {'61' * 256}", "ask 0 1 1 0 0 0 lookup 00",
                 "ask 0 1 1 0 0 0 lookup", "tell 1 err 3", "tell 1 err 011", "tell 1", "ask 0 1 1 0 0 0 open 1", "tell 1 lock 0 0 0", "", "ask", f"tell {'1' * 5000} ok"):
        same((line, fault_of(f"{CREATED}{line}\n".encode())), (line, "bad line 2\n"))
        same(run("check", text=f"{CREATED}{line}\n".encode()).stderr, b"bad line 2\n")
    same(fault_of(b"ask 15 18446744073709551615 18446744073709551615 4294967295 0 0 create 1 511 -\n"), "")


def try_how_it_ends():
    trace = traced(text_of("examples/read_lock_conflicts.txt"))
    with tempfile.TemporaryDirectory() as folder:
        at = f"{folder}/page.html"
        ran = reported("-o", at, text=trace)
        same((ran.stdout, ran.stderr, ran.returncode), (b"", b"", 0))
        with open(at, "rb") as file:
            same(file.read(), reported(text=trace).stdout)
        for words, text, told in (
            ((), trace + b"x\n", "bad line 7\n"), ((f"{folder}/none",), b"", "read failed\n"), (("-o", f"{folder}/no/page"), trace, "write failed\n"),
            (("--times", at), trace, f"bad line 1 of {at}\n"), (("--times", "/dev/null"), trace, "no times: /dev/null has none of this trace\n"),
        ):
            ran = reported(*words, text=text)
            same((ran.stdout.decode(), ran.stderr.decode(), ran.returncode), ("", told, 2))
    for closed, told in ("<&-", b"read failed\n"), (">&-", b"write failed\n"):
        ran = subprocess.run(["sh", "-c", f'exec "$0" "$1" {closed}', sys.executable, REPORT], input=trace, capture_output=True, check=False)
        same((ran.stderr, ran.returncode), (told, 2))
    same(reported("--help").returncode, 0)
    same(reported("--none").returncode, 2)
    with open("/dev/full", "wb") as full:
        ran = subprocess.run([sys.executable, REPORT], input=trace, stdout=full, stderr=subprocess.PIPE, check=False)
    same((ran.stderr, ran.returncode), (b"write failed\n", 2))


def try_completions_of_programs_in_python():
    """They have each option that help has, and files or folders for the rest."""
    def completed(program, *words):
        script = f'. {TOP}/dist/lockd.bash; COMP_WORDS=("$@") COMP_CWORD=$(($# - 1)); _{program}; printf "%s\\n" "${{COMPREPLY[@]}}"'
        return subprocess.run(["bash", "-c", script, "bash", program, *words], cwd=TOP, capture_output=True, text=True, check=True, timeout=tries.PATIENCE).stdout.split()

    for program in "lockd_locks", "lockd_report":
        helped = subprocess.run([sys.executable, f"{TOP}/programs/{program}", "--help"], capture_output=True, text=True, check=True, timeout=tries.PATIENCE).stdout
        same((program, sorted(completed(program, "-"))), (program, sorted(re.findall(r"^  (?:-h, )?(--?[a-z]+)", helped, re.M))))
    same([completed("lockd_report", "--times", "VERS"), completed("lockd_report", "-o", "VERS"), completed("lockd_report", "VERS")], [["VERSION"]] * 3)
    same([completed("lockd_locks", "progr"), completed("lockd_locks", "VERS"), completed("lockd_locks", "--file", "progr")], [["programs"], [], []])


def try_a_trace_that_is_cut():
    """It is shown up to its last whole line, and says so."""
    text = traced(text_of("examples/a_lock_is_waited_for.txt"))
    for end in range(len(text) + 1):
        trace = read_trace(text[:end])
        same((trace.lines, trace.is_cut), (text[:end].count(b"\n"), end > 0 and text[end - 1:end] != b"\n"))
        same(follow(trace).strays, 0)
    made = page("", read_trace(text[:-1]), follow(read_trace(text[:-1])), None)
    assert "The last line is cut off" in made and "tables" in made
    assert "2 replies belong to no request" in page("", *(lambda it: (it, follow(it)))(read_trace(b"tell 1 ok\n" + text + b"tell 9 ok\n")), None)


# ---- Times

def try_a_clock_with_times():
    """The axis is time, and a wait lasts from its request to its reply."""
    trace, session = followed(text_of("examples/a_lock_is_waited_for.txt"))
    text = times_of(trace, 250_000)
    clock = Clock(trace, *read_times(text + b"tell 9"))
    same(clock.places[:4], [250_000, 750_000, 1_000_000, 1_250_000])
    same([row[0] for row in table(session, "Longest waits", clock)], ["2.000", "1.750", "0.750"])
    same(table(session, "Most contended files", clock)[0][-1], "4.500")
    found = chart(trace, session, clock)
    same(found["places"][:3], [250, 500, 250])
    same(sorted(found["bars"]["took"]), [750, 1750, 2000])
    assert "3.250 ms" in page("", trace, session, clock)
    same(Clock(trace, *read_times(b"ask 77 5\n")).is_empty, True)
    # Without the last lines the orders that they are about stand where the one before does.
    same(Clock(trace, *read_times(b"".join(text.splitlines(True)[:4]))).places, [250_000] + 7 * [750_000])


def try_the_first_window_has_locks_in_it():
    """Of a long trace: its first orders, those from the first lock on, or with times those where locks follow on one another."""
    def windows(names, times):
        """One lock after another behind LOOKUPs, by orders and by the milliseconds from one order to the next."""
        trace = read_trace((CREATED + "tell 1 made 2 33188 1 0 0 1\n" + "".join(f"ask 0 {it} 1 0 0 0 lookup 62\ntell {it} err 2\n" for it in range(2, names))
                            + "".join(f"ask 0 {it} 2 0 0 0 setlk 1 7 0 0 {1 + it % 2} 11 0\ntell {it} ok\n" for it in range(names, 3001))).encode())
        session, at, lines = follow(trace), 0, []
        for order in trace.orders:
            at += 1_000_000 * times(order.unique)
            lines.append(f"ask {order.unique} {at}\ntell {order.unique} {at}\n")
        clock = Clock(trace, *read_times("".join(lines).encode()))
        return [chart(trace, session, it)["window"] for it in (None, clock)]

    # A lock begins with every second order, so 1000 of them take 1998 milliseconds.
    same(windows(2, lambda unique: 1), [[0, 1000], [1000, 1_999_001]])
    same(windows(1000, lambda unique: 1), [[0, 1000], [999_000, 2_997_001]])
    same(windows(1002, lambda unique: 1), [[1001, 2001], [1_001_000, 2_999_001]])
    same(windows(3001, lambda unique: 1), [[0, 1000], [0, 1_000_001]])
    # An hour after the first order, and another one between the locks.
    hour = 3_600_000
    same(windows(2, lambda unique: hour if unique in (2, 100) else 1), [[0, 1000], [(2 * hour + 97) * 1000, (2 * hour + 97 + 1998) * 1000 + 1]])
    trace, session = followed(text_of("examples/a_lock_is_waited_for.txt"))
    same(chart(trace, session, None)["window"], None)


def try_times_of_a_unique_that_comes_again():
    """The FORGETs of one batch have one time. Requests that use a unique one after another have theirs."""
    trace = read_trace(b"ask 0 4 2 0 0 0 forget 1\nask 0 4 3 0 0 0 forget 1\nask 0 5 2 0 0 0 open\ntell 5 err 2\nask 0 5 2 0 0 0 open\ntell 5 err 2\n")
    clock = Clock(trace, *read_times(b"ask 4 100\nask 5 200\ntell 5 300\nask 5 400\ntell 5 500\n"))
    same(clock.places, [0, 0, 200, 400])
    # Several workers answer in any order. No order stands before an earlier one.
    clock = Clock(trace, *read_times(b"ask 4 100\nask 5 200\nask 5 250\ntell 5 500\ntell 5 300\n"))
    same(clock.places, [0, 0, 400, 400])


if __name__ == "__main__":
    if sys.argv[1:] == ["--pictures"]:
        sys.exit(make_pictures())
    status = tries.main("report/report", globals())
    if not PROGRAM:
        print("report/report: not tried in a browser: there is no chromium", file=sys.stderr)
    sys.exit(status or (0 if PROGRAM else tries.NOT_TRIED))
