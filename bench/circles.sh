#!/bin/sh
# Times the search for a circle of owners, in processor time of `lockd`, where 255 lock requests wait in a row, each for a lock of
# the next one's owner:
# - a SETLKW that parks, with the INTERRUPT that ends it, against the same two orders where none waits. It waits for the first of
#   the row, and the last waits for an owner who doesn't wait, so the search goes along the whole row and finds no circle;
# - a SETLKW that would close the circle, and is told EDEADLK;
# - the requests of the row themselves, where the row is built from its far end, so that each one's search goes along all before.
# With 3,840 runs of other owners the row stands on one file, where one owner has these runs; on one file, where each is
# another owner's and in the way of every request; and on 255 files. Each time is the difference of two runs that differ in
# these orders alone. The runs take turns, and the least time of each counts. Prints milliseconds and the ratio, and the ratios of
# the same under fair rules to these.
#
# What dominates: for each request that is visited, the table is asked once for all owners of parked requests, and once for the
# one who asks. Each time it walks along the rows of the file's owners, and into those of owners who are asked for.
set -eu
. "$(dirname "$0")/../dev/built_lockd.sh"
python3 - "$program" "$work" <<'END'
import os, subprocess, sys

PROGRAM, WORK = sys.argv[1:]
ROW, RUNS, FILES = 255, 3_840, 255
READ, WRITE = 0, 1
FEW, OFTEN = 20, 20_000
ASKER = 9_999

# The row's bytes begin here, behind those of the other runs.
BEHIND = 2 * RUNS

# An order is a node and what is asked there. The first open file of a node has its number less one.
def lock(node, owner, start, end, kind, word):
    return node, (word, node - 1, owner, start, end, kind, 11, 0)

def stored(name, orders):
    path = f"{WORK}/{name}"
    with open(path, "w") as out:
        for unique, (node, asked) in enumerate(orders, 1):
            out.write(f"ask 0 {unique} {node} 0 0 0 {' '.join(str(word) for word in asked)}\n")
    return path

def millis(command, path):
    with open(path) as given, open(f"{WORK}/told", "w") as told:
        running = subprocess.Popen([PROGRAM, *command], stdin=given, stdout=told)
        _, status, used = os.wait4(running.pid, 0)
    running.returncode = status
    assert status == 0
    return (used.ru_utime + used.ru_stime) * 1e3

def told_by(path):
    with open(path) as given:
        return subprocess.run([PROGRAM, "script"], stdin=given, capture_output=True, check=True, text=True).stdout

# The least time of each run, in milliseconds: under the standard rules, and under fair ones.
def least(runs, times):
    commands = ["script"], ["script", "--fair"]
    best = [dict.fromkeys(runs, float("inf")) for _ in commands]
    for _ in range(times):
        for command, so_far in zip(commands, best):
            for name, path in runs.items():
                so_far[name] = min(so_far[name], millis(command, path))
    return best

# The owner of this place in the row, from 0, holds a byte.
def holds(files, place):
    return lock(2 + place % files, place, BEHIND + 2 * place, BEHIND + 2 * place, READ, "setlk")

# Somebody waits for it.
def wants(files, owner, place):
    return lock(2 + place % files, owner, BEHIND + 2 * place, BEHIND + 2 * place, WRITE, "setlkw")

# A SETLKW that waits for the first of the row until it is interrupted, and again.
def asked(files, before, times):
    orders = list(before)
    for _ in range(times):
        orders += [wants(files, ASKER, 0), (1, ("interrupt", len(orders) + 1))]
    return orders

# The last of the row's owners asks for what the first one holds.
def closing(files, before, times):
    return before + [wants(files, ROW, 0)] * times

# Milliseconds of a SETLKW where none waits, behind the row, where it is told EDEADLK, and of one of the row.
def each(best):
    alone, behind = (best["none_on"] - best["none"]) / OFTEN, (best["row_on"] - best["row"]) / FEW
    return alone, behind, (best["closed"] - best["row"]) / FEW, (best["built"] - best["none"]) / ROW

def compare(what, files, others):
    made = [(1, ("create", 0, 420, f"{i:03}".encode().hex())) for i in range(files)]
    none = made + others + [holds(files, place) for place in range(ROW + 1)]
    requests = [wants(files, place, place + 1) for place in range(ROW)]
    row = none + requests
    runs = {
        "none": stored("none", none),
        "none_on": stored("none_on", asked(files, none, OFTEN)),
        "row": stored("row", row),
        "row_on": stored("row_on", asked(files, row, FEW)),
        "closed": stored("closed", closing(files, row, FEW)),
        "built": stored("built", none + requests[::-1]),
    }
    assert told_by(runs["row"]).count("\ntell") == told_by(runs["built"]).count("\ntell") == len(none)
    assert told_by(runs["none_on"]).count(" err 4\n") == OFTEN
    assert told_by(runs["row_on"]).count(" err 4\n") == FEW
    assert told_by(runs["closed"]).count(" err 35\n") == FEW
    standard, fair = (each(best) for best in least(runs, 3))
    alone, behind, closed, built = standard
    print(f"{what}: {alone:.4f} ms with none waiting, {behind:.2f} ms with {ROW}, ratio {behind / alone:.0f}; "
          f"told EDEADLK {closed:.2f} ms; {built:.2f} ms each where the row is built from its far end; "
          "fair " + ", ".join(f"{new / old:.2f}" for new, old in zip(fair, standard)) + " (aim of the worst: 1.5)")

compare("one file, runs of one owner", 1, [lock(2, 5_000, 2 * i, 2 * i, READ, "setlk") for i in range(RUNS)])
compare("one file, each owner in the way", 1, [lock(2, 10_000 + i, 0, 2**63 - 1, READ, "setlk") for i in range(RUNS)])
compare(f"{FILES} files", FILES, [lock(2 + i % FILES, 5_000, 2 * i, 2 * i, READ, "setlk") for i in range(RUNS)])
END
