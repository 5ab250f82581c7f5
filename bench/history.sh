#!/bin/sh
# Takes orders at a desk, by this work tree and by another one, as `git worktree add ../before COMMIT` makes it, and prints
# for each how many bytes an order and its reply take, how many orders a second a desk takes, and how long the longest
# took: of a million SETLKs (each lock is dropped by the next), GETLKs (each finds a lock) and LOOKUPs of one name of 8
# bytes, in turn, three times each; then of ten million SETLKs here. A rate is the best of the three. It proves and builds
# bench/programs/history_bench over each tree, with `rt`, which takes long where a tree has no proved libraries yet.
set -eu
top=$(cd "$(dirname "$0")/.." && pwd)
other=$(cd "$1" && pwd)
here=$("$top/bench/build" history_bench)
before=$("$top/bench/build" history_bench "$other")
python3 - "$here" "$before" <<'END'
import os, subprocess, sys, time

MILLION = 1_000_000

PROGRAMS = {"here": sys.argv[1], "before": sys.argv[2]}

# Seconds, the most memory in bytes, and the longest order in microseconds.
def run(tree, kind, orders):
    begun = time.monotonic()
    process = subprocess.Popen([PROGRAMS[tree], kind, str(orders)], stdout=subprocess.PIPE)
    lines, longest = process.stdout.read().split()
    _, status, usage = os.wait4(process.pid, 0)
    assert status == 0 and int(lines) == 2 * orders + 4, (status, lines)
    return time.monotonic() - begun, usage.ru_maxrss * 1024, int(longest)

def row(tree, kind, orders, times):
    empty = run(tree, kind, 0)
    runs = [run(tree, kind, orders) for _ in range(times)]
    seconds = min(seconds for seconds, _, _ in runs) - empty[0]
    size = (min(peak for _, peak, _ in runs) - empty[1]) / orders
    longest = min(longest for _, _, longest in runs)
    print(f"{kind:7} {tree:7} {orders:9} orders: {size:6.1f} bytes an order, {orders / seconds:8.0f} orders a second, "
          f"longest {longest} us", flush=True)
    return orders / seconds

for kind in ["setlk", "getlk", "lookup"]:
    before, here = (row(tree, kind, MILLION, 3) for tree in ["before", "here"])
    print(f"{kind:7} ratio {here / before:.2f} of the rates (here / before)")
row("here", "setlk", 10 * MILLION, 1)
END
