#!/bin/sh
# Times orders where 256 lock requests wait on one file, against the same orders where none waits, in processor time of
# `lockd`: unlocks that free none of them, of bytes that nobody waits for and of the other class; one unlock that frees
# all of them, so that it gives 257 replies, also behind 3,800 runs of another owner; one that frees the younger half, while the
# older half stays; and a SETLK on another file, by text and by messages, and under fair rules. Each time is the difference of two
# runs that differ in these orders alone: 20,000 of them, or the one unlock that frees. The runs take turns, and the least time of
# each counts. Prints microseconds an order and the ratios.
#
# What dominates: an unlock on the same file walks along all requests that wait, and tests those of its class for a
# conflict. An order on another file walks along none, since its unique is greater than theirs and no request waits on
# its node. The unlock that frees 256 spends its time setting their locks, so it stands beside 256 SETLKs that set the
# same locks with nothing in the way.
set -eu
. "$(dirname "$0")/../dev/built_lockd.sh"
python3 - "$program" "$work" <<'END'
import os, subprocess, sys

sys.dont_write_bytecode = True
sys.path.insert(0, ".")
from tests import fuse
from tests.tries import INIT, line_of

PROGRAM, WORK = sys.argv[1:]
WAITERS, ORDERS = 256, 20_000
READ, WRITE, UNLOCK = fuse.READ_LOCK, fuse.WRITE_LOCK, fuse.NO_LOCK
OPCODES = {"setlk": fuse.SETLK, "setlkw": fuse.SETLKW}

# An order is a node and what is asked there. The first open file of a node has its number less one.
def lock(node, owner, start, end, kind, word="setlk", flags=0):
    return node, (word, node - 1, owner, start, end, kind, 11, flags)

def line(unique, node, asked):
    words = " ".join(str(word) for word in asked)
    return f"ask 0 {unique} {node} 0 0 0 {words}\n"

def message(unique, node, asked):
    word, *words = asked
    if word == "create":
        return line_of(fuse.create(unique, bytes.fromhex(words[2])))
    return line_of(fuse.message(OPCODES[word], unique, node, fuse.lock_body(*words)))

def stored(name, command, orders):
    spell, lines = (line, []) if command.startswith("script") else (message, [line_of(INIT)])
    lines += [spell(i + 1, *order) for i, order in enumerate(orders)]
    path = f"{WORK}/{name}"
    with open(path, "w") as out:
        out.write("".join(lines))
    return command, path

def micros(command, path):
    with open(path) as given, open(f"{WORK}/told", "w") as told:
        running = subprocess.Popen([PROGRAM, *command.split()], stdin=given, stdout=told)
        _, status, used = os.wait4(running.pid, 0)
    running.returncode = status
    assert status == 0
    return (used.ru_utime + used.ru_stime) * 1e6

# The least time of each run, in microseconds.
def least(runs, times):
    best = {name: float("inf") for name in runs}
    for _ in range(times):
        for name, run in runs.items():
            best[name] = min(best[name], micros(*run))
    return best

def told_by(command, path):
    with open(path) as given:
        return subprocess.run([PROGRAM, *command.split()], stdin=given, capture_output=True, check=True, text=True).stdout

BEHIND = 10_000
FILES = [(1, ("create", 0, 420, "61")), (1, ("create", 0, 420, "62"))]
RUNS = [lock(2, 5_000, 2 * i, 2 * i, READ) for i in range(3_800)]
HELD = FILES + [lock(2, 7, 0, 99, WRITE)]

# A lock request of each of so many owners, all of one byte.
def asks(word, byte=0, first=1000, count=WAITERS):
    return [lock(2, first + i, byte, byte, READ, word) for i in range(count)]

def compare(what, none, many):
    print(f"{what}: {none:.2f} us with none waiting, {many:.2f} us with {WAITERS}, ratio {many / none:.1f}")

# Orders that free none, one after another; the time of one where none waits, and where all do.
def repeated(what, order, command="script"):
    runs = {}
    for begun, waiting in ("none", []), ("many", asks("setlkw")):
        runs[begun] = stored(begun, command, HELD + waiting)
        runs[begun + " on"] = stored(begun + "_on", command, HELD + waiting + [order] * ORDERS)
        done = told_by(*runs[begun + " on"]).count(" ok\n" if command.startswith("script") else "\n10000000" + "0" * 8)
        assert done == 1 + ORDERS
    best = least(runs, 15)
    none, many = ((best[begun + " on"] - best[begun]) / ORDERS for begun in ("none", "many"))
    compare(what, none, many)
    return none, many

# One unlock that frees all requests but those that wait for another lock; these are older, so they are tested again and again.
def frees(what, none, others=(), staying=0):
    count = WAITERS - staying
    held = FILES + list(others) + [lock(2, 7, BEHIND, BEHIND + 99, WRITE), lock(2, 8, BEHIND + 100, BEHIND + 100, WRITE)]
    waiting = held + asks("setlkw", BEHIND + 100, 2000, staying) + asks("setlkw", BEHIND, 1000, count)
    runs = {
        "waiting": stored("waiting", "script", waiting),
        "freed": stored("freed", "script", waiting + [lock(2, 7, BEHIND, BEHIND + 99, UNLOCK)]),
        "held": stored("held", "script", FILES + list(others)),
        "set": stored("set", "script", FILES + list(others) + asks("setlk", BEHIND, 1000, count)),
    }
    assert told_by(*runs["freed"]).count(" ok\n") - told_by(*runs["waiting"]).count(" ok\n") == 1 + count
    best = least(runs, 40)
    unlock, each = best["freed"] - best["waiting"], best["set"] - best["held"]
    compare(what, none, unlock)
    print(f"{count} SETLKs of the same locks: {each:.0f} us, ratio of the unlock to these {unlock / each:.2f}")

none, _ = repeated("unlock that frees none, same class", lock(2, 7, 200, 299, UNLOCK))
repeated("unlock that frees none, other class", lock(2, 7, 0, 0, UNLOCK, flags=1))
frees("unlock that frees all", none)
frees("unlock that frees all, behind 3,800 runs", none, RUNS)
frees("unlock that frees the younger half, behind 3,800 runs", none, RUNS, WAITERS // 2)
for command in "script", "bytes":
    _, many = repeated(f"SETLK on another file, {command}", lock(3, 7, 0, 9, WRITE), command)
    _, fair = repeated(f"SETLK on another file, {command} --fair", lock(3, 7, 0, 9, WRITE), f"{command} --fair")
    print(f"ratio of the fair one to the other {fair / many:.2f} (aim 1.2)")
END
