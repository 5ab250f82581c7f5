#!/bin/sh
# Times lock requests on one file by how its locks stand, beside `fcntl` on a file in memory (bench/peers/locks.c), in turns in
# one run: one owner with 1, 16, 256, 4,096 and 65,536 runs of bytes; 4,000 owners, and 60,000 or as many as may have a file open each, with one run each;
# 64 owners.
# `bench/programs/locks_bench` says what is asked. It proves and builds that first, with `rt`, and needs a C compiler. Prints microseconds an order of both,
# and their ratio: the least of five runs each, less that of a run with no order. Where more than 4,096 runs are held it is one run each, with
# all that sets them: `fcntl` takes minutes for that. What is aimed at stands beside.
#
#     bench/setlk_by_runs.sh [--instructions]
#
# With --instructions it prints, in place of times, how many instructions an order takes, by valgrind's callgrind.
set -eu
cd "$(dirname "$0")/.."
work=$(mktemp -d)
trap 'rm -rf "$work"' EXIT
trap 'exit 1' INT TERM
program=$(bench/build locks_bench)
cc -O2 -Wall -Wextra -o "$work/locks" bench/peers/locks.c
python3 - "$program" "$work/locks" "${1:-}" <<'END'
import re, resource, subprocess, sys, time

OURS, KERNEL, OPTION = sys.argv[1:]
MOST = min(60_000, resource.getrlimit(resource.RLIMIT_NOFILE)[1] - 16)
# Owners, runs of each, what is asked, and the greatest ratio that is aimed at.
CASES = [(1, 1, "anew", None), (1, 16, "anew", 2), (1, 256, "anew", None), (1, 4096, "anew", 0.5),
         (1, 16, "look", None), (1, 4096, "look", None), (4000, 1, "more", 0.5), (4000, 1, "amid", None),
         (4000, 1, "look", None), (64, 1, "turns", None), (1, 65536, "anew", None), (1, 65536, "look", None),
         (MOST, 1, "more", None), (MOST, 1, "look", None)]

# What `fcntl` is asked in place of it: it knows no order of owners.
OF_KERNEL = {"amid": "more"}

def run(command, owners, runs, what, orders):
    what = OF_KERNEL.get(what, what) if KERNEL in command else what
    words = [*command, str(owners), str(runs), what, str(orders)]
    begun = time.perf_counter()
    told = subprocess.run(words, capture_output=True, text=True, check=True)
    seconds = time.perf_counter() - begun
    assert told.stdout == f"{owners * runs} held, {orders} done\n", (words, told.stdout)
    return seconds, told.stderr

def micros(owners, runs, what):
    orders = max(8_192, 1_000_000 // max(owners, runs) // 8_192 * 8_192)
    wants = [(program, number) for program in (OURS, KERNEL) for number in (orders, 0)]
    best = dict.fromkeys(wants, float("inf"))
    for _ in range(5):
        for program, number in wants:
            best[program, number] = min(best[program, number], run([program], owners, runs, what, number)[0])
    return [(best[program, orders] - best[program, 0]) / orders * 1e6 for program in (OURS, KERNEL)]

def instructions(owners, runs, what):
    def collected(orders):
        valgrind = ["valgrind", "--tool=callgrind", "--callgrind-out-file=/dev/null", OURS]
        return int(re.search(r"Collected : (\d+)", run(valgrind, owners, runs, what, orders)[1]).group(1))
    return (collected(8_192) - collected(0)) / 8_192

for owners, runs, what, aim in CASES:
    case = f"{owners} owners with {runs} runs, {what}"
    if OPTION == "--instructions":
        print(f"{case:<34}{instructions(owners, runs, what):>12.0f} instructions")
    elif owners * runs > 4096:
        ours, kernel = (run([program], owners, runs, what, 8_192)[0] for program in (OURS, KERNEL))
        print(f"{case:<34}{ours:>9.2f} s, fcntl {kernel:>7.2f} s, ratio {ours / kernel:.2f}, with what sets them", flush=True)
    else:
        ours, kernel = micros(owners, runs, what)
        print(f"{case:<34}{ours:>9.2f} us, fcntl {kernel:>7.2f} us, ratio {ours / kernel:.2f}" + (f" (aim {aim})" if aim else ""))
END
