#!/bin/sh
# Times orders by how many files there are: 16, 256, 4,096 and 60,000, each open once and locked. `bench/programs/directory_bench` says what is
# asked, under the greatest rules for all sizes; one file is asked for far from the next. It proves and builds that first, with `rt`. The sizes take
# turns in one run. Prints nanoseconds an order with 16 files, the least of five runs, and the ratios of the others to it; 1.5 at most is aimed at.
#
#     bench/directory_by_size.sh [--instructions]
#
# With --instructions it prints, in place of times, how many instructions orders take, by valgrind's callgrind: the difference of two runs, one with
# twice as many orders. As with times, an order is there before it is counted. OPEN stands with RELEASE, SETLK with FLUSH, and CREATE with what ends a
# file, since a run leaves as many files as there were.
set -eu
cd "$(dirname "$0")/.."
program=$(bench/build directory_bench)
python3 - "$program" "${1:-}" <<'END'
import re, subprocess, sys

PROGRAM, OPTION = sys.argv[1:]
SIZES = 16, 256, 4_096, 60_000
ROUND, ROUNDS, RUNS = 16, 4_000, 5
KINDS = {"Lookup": "LOOKUP", "Getattr": "GETATTR", "Open": "OPEN", "Setlk": "SETLK", "Flush": "FLUSH", "Release": "RELEASE", "Close": "RELEASE of the last",
         "Unlink": "UNLINK", "Forget": "FORGET", "Create": "CREATE", "Lock": "SETLK of a new row"}
# What a word of the program leaves in.
GROUPS = {"lookup": "LOOKUP", "getattr": "GETATTR", "open": "OPEN and RELEASE", "setlk": "SETLK and FLUSH",
          "create": "CREATE, SETLK, RELEASE, UNLINK and FORGET"}

def run(words, *before):
    return subprocess.run([*before, PROGRAM, *map(str, words)], capture_output=True, text=True, check=True)

def times(size):
    """Nanoseconds an order of each kind."""
    told = [line.split() for line in run([size, ROUNDS]).stdout.splitlines()]
    assert [(kind, int(done)) for kind, done, _ in told] == [(kind, ROUND * ROUNDS) for kind in KINDS], told
    return {kind: int(nanos) / (ROUND * ROUNDS) for kind, _, nanos in told}

def instructions(size, word):
    """Of one of each order that the word names."""
    def collected(rounds):
        ran = run([size, rounds, word], "valgrind", "--tool=callgrind", "--toggle-collect=directory_bench::ask", "--callgrind-out-file=/dev/null")
        return int(re.search(r"Collected : (\d+)", ran.stderr).group(1))
    return (collected(512) - collected(256)) / (256 * ROUND)

def show(what, unit, found):
    few, *more = found
    print(f"{what:<42}{few:>8.0f} {unit} with 16 files, " + ", ".join(f"{size}: {it / few:.2f}" for size, it in zip(SIZES[1:], more)), flush=True)

if OPTION == "--instructions":
    for word, what in GROUPS.items():
        show(what, "instructions", [instructions(size, word) for size in SIZES])
else:
    least = {}
    for _ in range(RUNS):
        for size in SIZES:
            for kind, nanos in times(size).items():
                least[kind, size] = min(nanos, least.get((kind, size), nanos))
    for kind, what in KINDS.items():
        show(what, "ns", [least[kind, size] for size in SIZES])
END
