#!/bin/sh
# Times `lockd serve` with 4 workers against 1: pairs of SETLK and unlock a second with 1, 16 and 64 under way, each on bytes of its own, of one
# file or of a file each, on all processors and on the first two. The servers take turns, so that what else the machine does hits both, and the
# median of the ratios of all turns counts: one run differs from the next by a fifth. The client is that of bench/peers.sh.
#
#     bench/turns.sh [TURNS]
set -eu
. "$(dirname "$0")/../dev/built_lockd.sh"
cc -O2 -Wall -Wextra -o "$work/client" "$(dirname "$0")/peers/client.c"
python3 - "$program" "$work" "${1:-25}" <<'END'
import itertools, os, statistics, subprocess, sys

PROGRAM, WORK, TURNS = *sys.argv[1:3], int(sys.argv[3])
WINDOWS, LONGEST = [1, 16, 64], 60
NUMBER = itertools.count()

# The pairs a second of a server of its own.
def rate(workers, speech, window):
    socket = f"{WORK}/socket{next(NUMBER)}"
    serving = subprocess.Popen([PROGRAM, "serve", socket, "--workers", str(workers)], stdout=subprocess.DEVNULL)
    try:
        messages = "20000" if window == 1 else "80000"
        ran = subprocess.run([f"{WORK}/client", speech, socket, str(window), messages], stdout=subprocess.PIPE, text=True, timeout=LONGEST)
        if ran.returncode or serving.wait(timeout=LONGEST):
            sys.exit(f"{workers} workers, {speech}, {window} under way: failed")
    finally:
        serving.kill()
        serving.wait()
    return float(ran.stdout.split()[0])

# Who begins changes with each turn.
def ratio(turn, speech, window):
    order = (1, 4) if turn % 2 else (4, 1)
    rates = {workers: rate(workers, speech, window) for workers in order}
    return rates[4] / rates[1]

def medians(speech):
    ratios = {window: [] for window in WINDOWS}
    for turn in range(TURNS):
        for window in WINDOWS:
            ratios[window].append(ratio(turn, speech, window))
    return [statistics.median(ratios[window]) for window in WINDOWS]

ALL = os.sched_getaffinity(0)
print(f"pairs a second of 4 workers to 1 worker, medians of {TURNS} turns, with 1, 16 and 64 under way")
for processors, where in (ALL, ""), (set(sorted(ALL)[:2]), ", two processors"):
    os.sched_setaffinity(0, processors)
    for speech, files in ("fuse", "one file"), ("files", "a file each"):
        print(f"{files + where:<32}" + "".join(f"{it:>8.2f}" for it in medians(speech)), flush=True)
END
