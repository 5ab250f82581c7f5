"""Tries `lockd locks` of the built program: lists written by hand, random traces beside a model, and the growing trace of a server under load. And what
programs/lockd_locks prints of a trace with a head.

The model is that of tests/model.py, which carries out the orders of a trace. `tries.py` says how it ends.
"""
import collections
import contextlib
import json
import os
import random
import shlex
import subprocess
import sys
import tempfile
import threading
import time

from tests import fuse
from tests import tries
from tests.model import LAST, READ, RECORD, UNLOCK, WRITE, Lock, Model, firsts_of, order_of
from tests.tries import fails_to_read, fills_up, run

HEADINGS = "TYPE", "MODE", "START", "END", "PID", "OWNER", "UNIQUE", "BLOCKER", "FILE"
RIGHT = {"START", "END", "PID", "OWNER", "UNIQUE"}


# A lock that is held, or a request that waits with its unique and with the owners and pids of those who keep it waiting.
Row = collections.namedtuple("Row", "lock unique blockers")


def rows_of(model):
    """What is listed: of each file the locks that are held, and then the requests that wait, the oldest first."""
    rows = [Row(it, None, []) for it in model.locks()] + [Row(it, it.unique, model.blockers(it, place)) for place, it in enumerate(model.parked)]
    return sorted(rows, key=lambda row: row.lock.node)


def name_of(model, node):
    """The name that a file has, or None if it was unlinked."""
    return None if node in model.unlinked else bytes.fromhex(model.names[node])


def cells(model, row):
    it = row.lock
    shown = "".join(chr(it) if 33 <= it <= 126 and it != 92 else f"\\x{it:02x}" for it in bytes.fromhex(model.names[it.node]))
    shown += " (deleted)" * (it.node in model.unlinked)
    return ["FLOCK" if it.flags else "POSIX", ("READ", "WRITE")[it.kind] + "*" * (row.unique is not None), str(it.start),
            "EOF" if it.end == LAST else str(it.end), str(it.pid), str(it.owner), "-" if row.unique is None else str(row.unique),
            ",".join(str(pid) for _, pid in row.blockers) or "-", shown]


def table(model, rows):
    lines = [HEADINGS, *(cells(model, row) for row in rows)]
    widths = [max(map(len, column)) for column in zip(*lines)]
    aligned = ([it.rjust(width) if head in RIGHT else it.ljust(width) for head, it, width in zip(HEADINGS, line, widths)][:-1] + [line[-1]]
               for line in lines)
    return "".join(" ".join(line) + "\n" for line in aligned)


def objects(model, rows):
    return [{"type": "FLOCK" if it.flags else "POSIX", "mode": ("READ", "WRITE")[it.kind], "waits": unique is not None, "start": it.start, "end": it.end,
             "pid": it.pid, "owner": it.owner, "unique": unique, "blockers": [{"owner": owner, "pid": pid} for owner, pid in blockers], "node": it.node,
             "name": name.hex() if (name := name_of(model, it.node)) is not None else None} for it, unique, blockers in rows]


def line_of(found):
    return json.dumps(found, separators=(",", ":")) + "\n"


def after(lines, at, fair):
    """The model after the orders among the first lines of a trace, which have the replies of the trace."""
    asked = [order_of(line) for line in lines if line.startswith("ask ")]
    model, found = Model(firsts_of((words[5], words[6]) for words, _ in asked if words[2] in ("setlk", "setlkw")), fair), []
    for words, who in asked[:sum(line.startswith("ask ") for line in lines[:at])]:
        found += model.lines(*words, who=who)
    assert found == lines[:len(found)], (found, lines)
    return model


def lists(trace, *words):
    ran = run("locks", *words, text=trace)
    assert (ran.stderr, ran.returncode) == (b"", 0), (words, ran)
    return ran.stdout.decode()


def traced(script, *rules):
    ran = run("script", *rules, text=script.encode())
    assert (ran.stderr, ran.returncode) == (b"", 0), ran
    return ran.stdout.decode()


# ---- by hand ----

WORKED = """\
ask 0 1 1 0 0 0 create 0 420 64622e6c6f636b
ask 0 2 1 0 0 0 create 0 420 6120ff
ask 0 3 2 0 0 0 setlk 1 7 0 9 0 71 0
ask 0 4 2 0 0 0 setlk 1 8 5 99 0 81 0
ask 0 5 2 0 0 0 setlk 1 9 0 9223372036854775807 0 91 1
ask 0 6 3 0 0 0 setlk 2 7 100 9223372036854775807 1 72 0
ask 0 7 2 0 0 0 setlkw 1 9 8 8 1 91 0
ask 0 8 2 0 0 0 setlkw 1 10 0 0 0 101 0
ask 0 9 2 0 0 0 setlkw 1 10 0 8 1 102 0
ask 0 10 2 0 0 0 setlkw 1 11 0 3 0 111 0
"""


def try_a_list_by_hand():
    assert lists(traced(WORKED).encode()) == """\
TYPE  MODE   START END PID OWNER UNIQUE BLOCKER   FILE
POSIX READ       0   9  71     7      - -         db.lock
POSIX READ       0   0 101    10      - -         db.lock
POSIX READ       0   3 111    11      - -         db.lock
POSIX READ       5  99  81     8      - -         db.lock
FLOCK READ       0 EOF  91     9      - -         db.lock
POSIX WRITE*     8   8  91     9      7 71,81     db.lock
POSIX WRITE*     0   8 102    10      9 71,81,111 db.lock
POSIX WRITE    100 EOF  72     7      - -         a\\x20\\xff
"""


# The scripts of examples/, with the rows after each order: `w 0-9 7` is a write lock that owner 7 holds, `r* 0-4 10 <11` a read lock that owner 10 waits for,
# because of pid 11.
EXAMPLES = {
    ("read_lock_conflicts",): [
        "",
        "w 0-9 7",
        "w 0-9 7",
    ],
    ("a_file_lives_while_it_is_open",): [""] * 10,
    ("a_lock_is_waited_for",): [
        "",
        "w 0-9 7",
        "w 0-9 7, w* 0-0 8 <11",
        "w 0-9 7, w* 0-0 8 <11, r* 9-9 9 <11",
        "w 0-9 7, w* 0-0 8 <11, r* 9-9 9 <11, r* 0-4 10 <11",
        "w 0-9 7, w* 0-0 8 <11, r* 0-4 10 <11",
        "w 0-0 8, r* 0-4 10 <12",
        "r 0-4 10",
    ],
    ("a_writer_among_readers",): [
        "",
        "r 0-0 11",
        "r 0-0 11, r 0-0 12",
        "r 0-0 11, r 0-0 12, w* 0-0 7 <21 <22",
        "r 0-0 11, r 0-0 12, r 0-0 13, w* 0-0 7 <21 <22 <23",
        "r 0-0 12, r 0-0 13, w* 0-0 7 <22 <23",
        "r 0-0 12, r 0-0 13, r 0-0 14, w* 0-0 7 <22 <23 <24",
        "r 0-0 13, r 0-0 14, w* 0-0 7 <23 <24",
        "r 0-0 13, r 0-0 14, w* 0-0 7 <23 <24",
        "r 0-0 13, r 0-0 14, r 0-0 15, w* 0-0 7 <23 <24 <25",
        "r 0-0 14, r 0-0 15, w* 0-0 7 <24 <25",
        "r 0-0 14, r 0-0 15, r 0-0 16, w* 0-0 7 <24 <25 <26",
        "r 0-0 15, r 0-0 16, w* 0-0 7 <25 <26",
    ],
    ("a_writer_among_readers", "--fair"): [
        "",
        "r 0-0 11",
        "r 0-0 11, r 0-0 12",
        "r 0-0 11, r 0-0 12, w* 0-0 7 <21 <22",
        "r 0-0 11, r 0-0 12, w* 0-0 7 <21 <22, r* 0-0 13 <17",
        "r 0-0 12, w* 0-0 7 <22, r* 0-0 13 <17",
        "r 0-0 12, w* 0-0 7 <22, r* 0-0 13 <17, r* 0-0 14 <17",
        "w 0-0 7, r* 0-0 13 <17, r* 0-0 14 <17",
        "r 0-0 13, r 0-0 14",
        "r 0-0 13, r 0-0 14, r 0-0 15",
        "r 0-0 14, r 0-0 15",
        "r 0-0 14, r 0-0 15, r 0-0 16",
        "r 0-0 15, r 0-0 16",
    ],
}


def short(row):
    mode = {"READ": "r", "WRITE": "w"}[row["mode"]] + "*" * row["waits"]
    return f"{mode} {row['start']}-{row['end']} {row['owner']}" + "".join(f" <{it['pid']}" for it in row["blockers"])


def try_the_examples():
    for (name, *rules), expected in EXAMPLES.items():
        trace = traced(tries.text_of(f"examples/{name}.txt"), *rules)
        orders = [number for number, line in enumerate(trace.splitlines(), 1) if line.startswith("ask ")]
        assert len(orders) == len(expected), name
        for order, rows in zip(orders, expected):
            found = json.loads(lists(trace.encode(), "--json", "--at", str(order), *rules))
            assert ", ".join(map(short, found)) == rows, (name, rules, order, found)


def try_fair_lists_by_hand():
    """An older request that excludes a younger one is in its way: owner 11 waits for owner 10, who waits for a writer."""
    trace = traced(WORKED, "--fair")
    found = json.loads(lists(trace.encode(), "--fair", "--json"))
    assert [(it["unique"], [by["pid"] for by in it["blockers"]]) for it in found if it["waits"]] == [(7, [71, 81]), (9, [71, 81, 91]), (10, [102])], found


def try_a_file_that_was_unlinked():
    """It keeps the name that it had in the table. A new file of that name is another one, and the one that `--file` finds."""
    script = "ask 0 1 1 0 0 0 create 0 420 61\nask 0 2 2 0 0 0 setlk 1 7 0 0 1 11 0\nask 0 3 1 0 0 0 unlink 61\n"
    trace = traced(script).encode()
    assert lists(trace).splitlines()[1] == "POSIX WRITE     0   0  11     7      - -       a (deleted)", lists(trace)
    assert json.loads(lists(trace, "--json"))[0]["name"] is None
    assert lists(trace, "--file", "a", "--json") == "[]\n"
    trace = traced(script + "ask 0 4 1 0 0 0 create 0 420 61\nask 0 5 3 0 0 0 setlk 2 8 0 0 1 12 0\n").encode()
    assert [line.split()[4:] for line in lists(trace).splitlines()[1:]] == [["11", "7", "-", "-", "a", "(deleted)"], ["12", "8", "-", "-", "a"]], lists(trace)
    assert [(it["owner"], it["name"]) for it in json.loads(lists(trace, "--json"))] == [(7, None), (8, "61")]
    assert [it["owner"] for it in json.loads(lists(trace, "--file", "a", "--json"))] == [8]


def try_nothing():
    assert lists(b"") == "TYPE MODE START END PID OWNER UNIQUE BLOCKER FILE\n" and lists(b"", "--json") == "[]\n"


def waiting_on_a_byte(count, *rules):
    """So many requests wait for a lock of one byte. Both forms have each of them, and those in its way: who holds the byte, and by `--fair` all older ones."""
    uniques = range(1_000, 1_000 + count)
    asks = "".join(f"ask 0 {it} 2 0 0 0 setlkw 1 {it} 0 0 1 {it} 0\n" for it in uniques)
    script = "ask 0 1 1 0 0 0 create 0 420 61\nask 0 2 2 0 0 0 setlk 1 7 0 0 1 11 0\n" + asks
    named, in_the_way = Model([0]), [(7, 11), *((it, it) for it in uniques)]
    named.names[2] = "61"
    rows = [Row(Lock(2, RECORD, 0, 7, 0, WRITE, 11), None, [])]
    rows += [Row(Lock(2, RECORD, 0, it, 0, WRITE, it), it, in_the_way[:1 + older * ("--fair" in rules)]) for older, it in enumerate(uniques)]
    trace = traced(script, *rules).encode()
    assert lists(trace, *rules) == table(named, rows), rules
    assert lists(trace, *rules, "--json") == line_of(objects(named, rows)), rules


def try_256_that_wait():
    for rules in [], ["--fair"]:
        waiting_on_a_byte(256, *rules)


def try_1024_that_wait():
    """As many as may wait by any rule. By `--fair` three seconds would go by."""
    waiting_on_a_byte(1_024, "--parked", "1024")


def try_traces_that_are_not_legal():
    trace = traced(WORKED)
    wrong = trace.replace("tell 4 ok", "tell 4 err 11")
    ran = run("locks", text=wrong.encode())
    assert (ran.stdout, ran.stderr, ran.returncode) == (b"", b"differs 8\n", 1), ran
    ran = run("locks", text=trace.replace("ask 0 9", "ask 0  9").encode())
    assert (ran.stdout, ran.returncode) == (b"", 2) and ran.stderr.startswith(b"bad line "), ran
    assert lists(wrong.encode(), "--at", "7") == lists(trace.encode(), "--at", "7")


def try_faults():
    """A write that fails is told, whether nothing or a beginning of the list went out, and so is a read. Nothing is printed before the read failed."""
    trace = traced(WORKED).encode()
    for words in ["locks"], ["locks", "--json"]:
        whole = len(lists(trace, *words[1:]))
        for left in 0, 1, whole - 1:
            assert fills_up(*words, text=trace, left=left) == (b"write failed\n", 2), (words, left)
        assert fills_up(*words, text=trace, left=whole) == (b"", 0), words
        with open("/dev/full", "wb") as full:
            ran = subprocess.run([tries.PROGRAM, *words], input=trace, stdout=full, stderr=subprocess.PIPE, timeout=tries.PATIENCE, check=False)
        assert (ran.stderr, ran.returncode) == (b"write failed\n", 2), (words, ran)
        assert fails_to_read(*words, text=trace) == (b"", b"read failed\n", 2), words


def try_at_each_line():
    for fair in False, True:
        rules = ["--fair"] * fair
        lines = traced(WORKED, *rules).splitlines(True)
        for at in range(len(lines) + 2):
            model = after(lines, at, fair)
            assert lists("".join(lines).encode(), *rules, "--at", str(at)) == table(model, rows_of(model)), (fair, at)
            cut = "".join(lines)[:len("".join(lines[:at])) + 3]
            assert lists(cut.encode(), *rules) == table(model, rows_of(model)), (fair, at)


# ---- beside the model ----

def random_script(numbers):
    """Orders of three files and six owners, some of which open, close, unlink and interrupt."""
    yield from (f"create 0 420 {name}" for name in ("61", "6265", "2063"))
    for _ in range(numbers.randrange(60)):
        fh, owner = numbers.randrange(1, 5), numbers.randrange(6)
        start = numbers.choice([0, 1, 2, 5, 8, 9])
        end = numbers.choice([start, start + 1, start + 4, LAST])
        kind, flags = numbers.choice([READ, WRITE, WRITE, UNLOCK]), int(numbers.random() < 0.2)
        yield numbers.choice([f"setlk {fh} {owner} {start} {end} {kind} {owner + 100 * numbers.randrange(2)} {flags}",
                              f"setlkw {fh} {owner} {start} {end} {kind} {owner + 100} {flags}", f"flush {fh} {owner}", "open",
                              f"release {fh} {numbers.randrange(2)} {owner}", "unlink 6265", f"interrupt {numbers.randrange(4, 60)}"]
                             if numbers.random() < 0.3 else [f"setlkw {fh} {owner} {start} {end} {kind} {owner + 100} {flags}"])


def random_trace(numbers, rules):
    asks = []
    for unique, op in enumerate(random_script(numbers), 1):
        node = 1 if op.startswith(("create", "unlink")) else min(1 + int(op.split()[1]), 4) if op[:3] in ("set", "flu", "rel") else numbers.randrange(2, 5)
        asks.append(f"ask 0 {unique} {node} 0 0 0 {op}\n")
    return traced("".join(asks), *rules)


def try_2000_random_traces():
    held = waiting = 0
    for seed in range(2_000):
        numbers, fair = random.Random(seed), seed % 2 == 1
        rules = ["--fair"] * fair
        text = random_trace(numbers, rules)
        lines = text.splitlines(True)
        at = numbers.choice([len(lines), numbers.randrange(len(lines))])
        model = after(lines, at, fair)
        rows = rows_of(model)
        waiting += len(model.parked)
        held += len(rows) - len(model.parked)
        words = [*rules, "--at", str(at)]
        if seed % 4 == 0:
            name = numbers.choice(["a", "be", " c"])
            words += ["--file", name]
            rows = [row for row in rows if name_of(model, row.lock.node) == name.encode()]
        if seed % 3:
            assert lists(text.encode(), *words, "--json") == line_of(objects(model, rows)), (seed, at)
        else:
            assert lists(text.encode(), *words) == table(model, rows), (seed, at)
    assert held > 2_000 and waiting > 500, (held, waiting)
    return f"{held} locks and {waiting} that wait"


# ---- the list of a folder ----

@contextlib.contextmanager
def folder_of(trace, *rules):
    """A folder that seems to be mounted: two processes have the words of a carrier and of its server, which goes on with this trace. They only wait."""
    with tempfile.TemporaryDirectory(prefix="try-lockd-") as at:
        served = shlex.join(["sh", "serve", "socket", "--resume", f"{at}/trace", *rules])
        for name, text in ("trace", trace), ("serve", b"echo; read _\n"), ("carry", f"{served}\n:\n".encode()):
            with open(f"{at}/{name}", "wb") as file:
                file.write(text)
        words = ["lockd_mount", "carry", f"{at}/folder"]
        with subprocess.Popen(words, executable="/bin/sh", cwd=at, stdin=subprocess.PIPE, stdout=subprocess.PIPE) as carrier:
            carrier.stdout.readline()
            yield f"{at}/folder"


def listed(folder, *words):
    """What programs/lockd_locks prints and tells of the folder, and its status."""
    ran = subprocess.run([sys.executable, f"{tries.TOP}/programs/lockd_locks", *words, folder], env={**os.environ, "LOCKD": tries.PROGRAM}, capture_output=True,
                         timeout=tries.PATIENCE, check=False)
    return ran.stdout.decode(), ran.stderr.decode(), ran.returncode


FOLDER_RULES = (), ("--fair",), ("--runs", "9", "--parked", "4"), ("--fair", "--files", "65536", "--open", "4", "--runs", "65536", "--parked", "1024")


def try_a_folder_whose_trace_begins_with_a_head():
    """Its list is that of the whole trace, whether the server was started with the rules that the head names, or left them to it."""
    rows = 0
    for seed in range(24):
        numbers, rules = random.Random(seed), FOLDER_RULES[seed % 4]
        text = random_trace(numbers, rules)
        lines = text.splitlines(True)
        at = numbers.choice([*(at for at, line in enumerate(lines) if line.startswith("ask ")), len(lines)])
        piece = run("state", *rules, text="".join(lines[:at]).encode()).stdout + "".join(lines[at:]).encode()
        words = [(), ("--json",), ("--file", "a")][seed % 3]
        expected = lists(text.encode(), *words, *rules), "", 0
        rows += expected[0].count("\n") - 1
        for trace, told in (text.encode(), rules), (piece, ()), (piece, rules):
            with folder_of(trace, *told) as folder:
                assert listed(folder, *words) == expected, (seed, at, told)
    assert rows > 60, rows
    return f"{rows} rows"


def try_a_folder_whose_head_is_odd():
    """One that is cut off, is no head, tells rules that no server has, or stands behind other lines."""
    head = "state 0 1 4096 256 256 1024 9 9\n"
    for text, told, status in ((head, "differs 2\n", 1), (head[:-1], "", 0), ("state 0 1 4096 256 256\ngo\n", "bad line 1\n", 2),
                               (f"tell 1 ok\n{head}go\n", "differs 1\n", 1), (head * 2, "differs 2\n", 1)):
        with folder_of(text.encode()) as folder:
            assert listed(folder)[1:] == (told, status), (text, listed(folder))
    with folder_of(b"state 0 0 0 256 256 1024 9 9\ngo\n") as folder:
        printed, told, status = listed(folder)
        assert (printed, status) == ("", 2) and "--runs" in told, (told, status)


# ---- a server ----

def try_a_growing_trace():
    """Fifty lists of the file while a server writes it. A lock that was set before the load and stays is in each."""
    for workers in 1, 4:
        server = tries.Server("--trace", "{file}", workers=workers)
        with server.connect() as client:
            # One of several workers may take the lock before another has made its file.
            for sent, size in (tries.INIT + tries.CREATE, fuse.INIT_SIZE + fuse.CREATE_SIZE), (tries.lock(fuse.SETLK, 3, 7, 0, WRITE), fuse.BARE_SIZE):
                client.sendall(sent)
                tries.take(client, size)
            # Before the load: several workers write their lines once they sleep, and may find no time to while orders come.
            tries.wait_until(lambda: b"tell 3 ok\n" in server.traced())
            over, more = threading.Event(), threading.Semaphore(0)
            loads = threading.Thread(target=load, args=(client, over, more))
            loads.start()
            try:
                for _ in range(50):
                    # The longer the lists take, the longer the trace would grow, and the lists would take.
                    more.release(8)
                    found = json.loads(lists(server.traced(), "--json"))
                    assert (7, 0) in [(it["owner"], it["start"]) for it in found], found
            finally:
                over.set()
                more.release()
                loads.join()
        assert server.ended()[2] == 0


def load(client, over, more):
    """Locks and unlocks of owner 8, 64 at a time, some thousands a second, as many times as it is to."""
    unique = 4
    while more.acquire() and not over.is_set():
        client.sendall(b"".join(tries.lock(fuse.SETLK, it, 8, 9, 1 + it % 2) for it in range(unique, unique + 64)))
        tries.take(client, 64 * fuse.BARE_SIZE)
        unique += 64
        time.sleep(0.01)


if __name__ == "__main__":
    sys.exit(tries.main("locks/listing", globals()))
