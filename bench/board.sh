#!/bin/sh
# Times 200,000 lock requests, each a lock set or dropped on the worker's own byte, handed in at a board by 1, 2 and 4 threads,
# one at a time and by rows of 16, in turn with a desk, which has no lock. Prints orders a second and the ratios to the desk: what
# the lock costs one thread, and what is lost where several wait for it. It proves and builds bench/programs/board_bench first, with `rt`. The runs take turns,
# and the least time of each counts, less that of a run with no order.
set -eu
cd "$(dirname "$0")/.."
program=$(bench/build board_bench)
python3 - "$program" <<'END'
import subprocess, sys, time

PROGRAM = sys.argv[1]
ORDERS = 200_000
RUNS = [(0,), (1,), (2,), (4,), (1, "rows"), (2, "rows"), (4, "rows")]

def seconds(orders, threads, *by):
    start = time.perf_counter()
    words = [PROGRAM, str(threads), str(orders), *by]
    told = subprocess.run(words, capture_output=True, check=True, text=True).stdout
    assert told == f"{2 * orders + 2} lines\n", told
    return time.perf_counter() - start

best = {(orders, *run): float("inf") for run in RUNS for orders in (0, ORDERS)}
for _ in range(5):
    for run in best:
        best[run] = min(best[run], seconds(*run))
rates = {run: ORDERS / (best[(ORDERS, *run)] - best[(0, *run)]) for run in RUNS}
for run in RUNS:
    threads, *by = run
    where = f"board, {threads} threads{', by rows of 16' if by else ''}" if threads else "desk"
    print(f"{where}: {rates[run]:.0f} orders a second, ratio {rates[run] / rates[RUNS[0]]:.2f} (to the desk)")
END
