#!/bin/sh
# Times looks: GETLKs that find a lock's owner in nobody's way, answered by what a board publishes. Prints looks a second by 1, 2
# and 4 threads, alone and beside one more thread that hands lock requests in without a pause; what one costs beside the
# answer of a core that no other thread has; and what an order costs that one thread hands in, alone or by rows of 16, beside a
# desk. It proves and builds bench/programs/board_bench first, with `rt`. The runs take turns, and the least time of each counts,
# less that of a run with no look.
set -eu
cd "$(dirname "$0")/.."
program=$(bench/build board_bench)
python3 - "$program" <<'END'
import subprocess, sys, time

PROGRAM = sys.argv[1]
LOOKING = [["looks"], ["beside"]]
LOOKS = 4_000_000
ORDERS = 200_000

def seconds(threads, times, *mode):
    start = time.perf_counter()
    subprocess.run([PROGRAM, str(threads), str(times), *mode], capture_output=True, check=True)
    return time.perf_counter() - start

runs = [(0, "looks"), *((n, mode) for mode in ("looks", "beside") for n in (1, 2, 4)), (0,), (1,), (1, "rows")]
best = {}
for _ in range(5):
    for threads, *mode in runs:
        for times in (0, LOOKS if mode in LOOKING else ORDERS):
            key = (threads, *mode, times)
            best[key] = min(best.get(key, float("inf")), seconds(threads, times, *mode))

def each(threads, *mode):
    times = LOOKS if list(mode) in LOOKING else ORDERS
    return (best[(threads, *mode, times)] - best[(threads, *mode, 0)]) / times

core = each(0, "looks")
print(f"core: {1 / core:.0f} answers a second")
for mode in ("looks", "beside"):
    where = "beside a thread that hands in" if mode == "beside" else "alone"
    for threads in (1, 2, 4):
        rate = 1 / each(threads, mode)
        print(f"{threads} threads {where}: {rate:.0f} looks a second, {rate * each(1, mode):.2f} of one thread, "
              f"{rate * each(threads, 'looks'):.2f} of the same alone")
print(f"a look: {each(1, 'looks') / core:.2f} times an answer of a core")
print(f"an order handed in by one thread: {each(1) / each(0):.2f} times one at a desk")
print(f"one of a row of 16: {each(1, 'rows') / each(0):.2f} times one at a desk")
END
