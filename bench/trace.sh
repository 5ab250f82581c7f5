#!/bin/sh
# Times `lockd serve` by where its trace goes: nowhere, to a file, or printed at the end, with 1 and 4 workers; and to the file of
# `--resume`, with 1. 64 messages are under way. A desk takes as many orders in one program (`bench/programs/history_bench`), whose
# lines go nowhere, to a file, or into memory.
# Prints pairs of SETLK and unlock a second while the session runs and their ratios to `--trace none`; how much memory the
# process had at most (VmHWM of /proc), beside that of a session with a tenth of the messages; and what `lockd check` says of each trace.
# With --resume it times `--trace FILE` and `--resume FILE` alone, with 64 messages and with 1 under way, and prints the ratios of their
# pairs; then how long a server takes that resumes from the lines of all messages, to what `lockd check` takes of them: medians of 15 runs
# in turn, since the best of a few says little where others use the machine.
# The runs take turns, three times, and the best of each figure counts. It builds the client of bench/peers.sh, by a C compiler.
#
#     bench/trace.sh [--resume] [MESSAGES]
set -eu
. "$(dirname "$0")/../dev/built_lockd.sh"
cc -O2 -Wall -Wextra -o "$work/client" bench/peers/client.c
desk=
if [ "${1:-}" = --resume ]; then shift; else desk=$(bench/build history_bench); fi
python3 - "$program" "$work" "${1:-1000000}" "$desk" <<'END'
import itertools, os, socket, statistics, subprocess, sys, time

sys.dont_write_bytecode = True
sys.path.insert(0, ".")
from tests.fuse import INIT_SIZE
from tests.tries import INIT

PROGRAM, WORK, MESSAGES, DESK = *sys.argv[1:3], int(sys.argv[3]), sys.argv[4]
ROUNDS, LONGEST = 3, 300
LINES = f"{WORK}/lines_of_the_last"
NUMBER = itertools.count()
MODES = {"none": lambda file: ["--trace", "none"], "file": lambda file: ["--trace", file], "printed": lambda file: [],
         "resume": lambda file: ["--resume", file]}
WAYS = [(workers, mode) for workers in (1, 4) for mode in MODES if (workers, mode) != (4, "resume")]

# The most memory that a process had, in kilobytes, asked again and again until it ends. What wait4 says begins with the memory of
# this script, which forked it.
def most_until_the_end(serving):
    most = 0
    while serving.poll() is None:
        with open(f"/proc/{serving.pid}/status") as it:
            most = next((int(line.split()[1]) for line in it if line.startswith("VmHWM")), most)
        time.sleep(0.01)
    return most

# Pairs a second, and the most memory of the server in megabytes. The trace is judged, if there is one.
def measured(mode, workers, messages, window=64):
    number = next(NUMBER)
    path, file = f"{WORK}/socket{number}", f"{WORK}/trace{number}"
    output = open(file, "wb") if mode == "printed" else subprocess.DEVNULL
    with_workers = [] if mode == "resume" else ["--workers", str(workers)]
    serving = subprocess.Popen([PROGRAM, "serve", path, *with_workers, *MODES[mode](file)], stdout=output)
    try:
        asking = subprocess.Popen([f"{WORK}/client", "fuse", path, str(window), str(messages)], stdout=subprocess.PIPE, text=True)
        memory = most_until_the_end(serving)
        told = asking.communicate(timeout=LONGEST)[0]
    finally:
        serving.poll() is None and serving.kill()
    if serving.returncode or asking.returncode:
        sys.exit(f"{mode}: the server ended with status {serving.returncode}, the client with {asking.returncode}")
    if mode != "none":
        with open(file, "rb") as trace:
            verdict = subprocess.run([PROGRAM, "check"], stdin=trace, stdout=subprocess.PIPE, text=True).stdout
        if verdict != "legal\n":
            sys.exit(f"{mode}: {verdict}")
        os.rename(file, LINES)
    return float(told.split()[0]), memory / 1000

# Orders a second at a desk, less the time of a run with none.
def at_desk(where):
    seconds = []
    for orders in 0, MESSAGES:
        begun = time.perf_counter()
        subprocess.run([DESK, "setlk", str(orders), where], stdout=subprocess.DEVNULL, timeout=LONGEST, check=True)
        seconds.append(time.perf_counter() - begun)
    return MESSAGES / (seconds[1] - seconds[0])

# Seconds until a server serves that reads the last trace, and those that `check` takes of it.
def read_again():
    path = f"{WORK}/socket{next(NUMBER)}"
    begun = time.perf_counter()
    with subprocess.Popen([PROGRAM, "serve", path, "--resume", LINES]) as serving, socket.socket(socket.AF_UNIX) as client:
        while client.connect_ex(path) and serving.poll() is None:
            time.sleep(0.001)
        client.sendall(INIT)
        served = client.recv(INIT_SIZE) and time.perf_counter() - begun
    begun = time.perf_counter()
    with open(LINES, "rb") as trace:
        subprocess.run([PROGRAM, "check"], stdin=trace, stdout=subprocess.DEVNULL, timeout=LONGEST, check=True)
    return served, time.perf_counter() - begun

def by_trace():
    best, desks = {}, {}
    for _ in range(ROUNDS):
        for where in "none", f"{WORK}/lines", "memory":
            desks[where] = max(desks.get(where, 0), at_desk(where))
        for workers, mode in WAYS:
            _, before = measured(mode, workers, MESSAGES // 10)
            pairs, memory = measured(mode, workers, MESSAGES)
            old = best.get((mode, workers), (0, 0, 0))
            best[mode, workers] = max(old[0], pairs), memory, before
    for where, rate in desks.items():
        name = "file" if "/" in where else where
        print(f"desk, lines {name}: {rate:.0f} orders a second, ratio {rate / desks['none']:.2f} (to none)")
    for workers, mode in WAYS:
        pairs, memory, before = best[mode, workers]
        print(f"{workers} workers, trace {mode}: {pairs:.0f} pairs a second, ratio {pairs / best['none', workers][0]:.2f} (to none); "
              f"{memory:.1f} MB, {before:.1f} with a tenth of the messages")

# With 1 message under way there are a quarter as many, since each takes longer.
def by_resuming():
    best, again, messages = {}, [], {64: MESSAGES, 1: MESSAGES // 4}
    for _ in range(ROUNDS):
        for window in 1, 64:
            for mode in "file", "resume":
                best[mode, window] = max(best.get((mode, window), 0), measured(mode, 1, messages[window], window)[0])
        again += [read_again() for _ in range(5)]
    for window in messages:
        pairs = best["resume", window]
        print(f"resume, {window} under way: {pairs:.0f} pairs a second, ratio {pairs / best['file', window]:.2f} (to trace file)")
    served, checked = map(statistics.median, zip(*again))
    print(f"resume of the lines of {MESSAGES} messages: {served:.2f} s, ratio {served / checked:.2f} (to check)")

if DESK:
    by_trace()
else:
    by_resuming()
END
