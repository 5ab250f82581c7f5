#!/bin/sh
# Times `lockd serve` with 1 and 4 workers against what its users have: pairs of SETLK and unlock a second with 1, 16
# and 64 messages under way, each on bytes of its own, of one file or of a file each, and p50 and p99 of a round trip with 1 under way. Beside it stand
#   echo    a server in C that cuts the same messages from its stream and answers each with a header: `each` with one
#           write a reply, `together` with one write for all messages of a read;
#   redis   SET NX and DEL of a key over a Unix socket, nothing kept on disk, where `redis-server` is installed;
#   fcntl   F_SETLK, set and dropped, on a file in /dev/shm, one call after another, so there is one figure of it.
# One client in C asks all servers, over one connection each, and checks each reply. Each run has a server of its own.
# With 1 under way it has as many messages as the argument says (30,000 without one), with more four times as many, and
# a tenth goes before them that doesn't count. The runs take turns, three times, and the best of each figure counts.
# Prints the figures, then the ratios of `lockd` to each peer (of pairs, more is better; of a round trip, less), and
# what is aimed at.
#
#     bench/peers.sh [MESSAGES]
set -eu
. "$(dirname "$0")/../dev/built_lockd.sh"
for source in client echo fcntl; do
    cc -O2 -Wall -Wextra -o "$work/$source" "bench/peers/$source.c"
done
python3 - "$program" "$work" "${1:-30000}" <<'END'
import itertools, os, shutil, subprocess, sys

PROGRAM, WORK, MESSAGES = *sys.argv[1:3], int(sys.argv[3])
ROUNDS, LONGEST = 3, 60
WINDOWS = [1, 16, 64]
NUMBER = itertools.count()

# What the client speaks with each server, and the server's command, but for its socket.
SERVERS = {
    "echo each": ("fuse", lambda socket: [f"{WORK}/echo", "each", socket]),
    "echo together": ("fuse", lambda socket: [f"{WORK}/echo", "together", socket]),
    "redis": ("redis", lambda socket: ["redis-server", "--port", "0", "--unixsocket", socket, "--save", "",
                                       "--appendonly", "no", "--dir", WORK]),
    "lockd, 1 worker": ("fuse", lambda socket: [PROGRAM, "serve", socket, "--workers", "1"]),
    "lockd, 4 workers": ("fuse", lambda socket: [PROGRAM, "serve", socket, "--workers", "4"]),
    "lockd, 1 worker, a file each": ("files", lambda socket: [PROGRAM, "serve", socket, "--workers", "1"]),
    "lockd, 4 workers, a file each": ("files", lambda socket: [PROGRAM, "serve", socket, "--workers", "4"]),
    "lockd, 1 worker, no trace": ("fuse", lambda socket: [PROGRAM, "serve", socket, "--workers", "1", "--trace", "none"]),
}
LOCKD = [server for server in SERVERS if server.startswith("lockd")]
if not shutil.which("redis-server"):
    del SERVERS["redis"]
    print("redis-server isn't installed: left out")

# Pairs a second, p50 and p99 in nanoseconds, as a program in C prints them.
def figures(*command):
    ran = subprocess.run(command, stdout=subprocess.PIPE, text=True, timeout=LONGEST)
    if ran.returncode:
        sys.exit(f"failed: {' '.join(command)}")
    return [float(word) for word in ran.stdout.split()]

# One run. A server of one connection ends with it, and Redis has to be told.
def measured(server, window):
    speech, command = SERVERS[server]
    messages = MESSAGES if window == 1 else 4 * MESSAGES
    socket = f"{WORK}/socket{next(NUMBER)}"
    serving = subprocess.Popen(command(socket), stdout=subprocess.DEVNULL)
    try:
        told = figures(f"{WORK}/client", speech, socket, str(window), str(messages))
        if server == "redis":
            serving.terminate()
        if serving.wait(timeout=LONGEST):
            sys.exit(f"{server} ended with status {serving.returncode}")
    finally:
        serving.kill()
        serving.wait()
    return told

# The most pairs a second, and the least p50 and p99, of each server with each window, and of `fcntl`.
def best_of_all():
    runs = {}
    for _ in range(ROUNDS):
        for server in SERVERS:
            for window in WINDOWS:
                runs.setdefault((server, window), []).append(measured(server, window))
        runs.setdefault(("fcntl", 1), []).append(figures(f"{WORK}/fcntl", str(MESSAGES)))
    return {run: (max(rates), min(p50s), min(p99s)) for run, (rates, p50s, p99s) in
            ((run, zip(*told)) for run, told in runs.items())}

def table(title, heads, rows):
    print(f"\n{title:<44}" + "".join(f"{head:>15}" for head in heads))
    for name, cells in rows:
        print(f"{name:<44}" + "".join(f"{cell:>15}" for cell in cells))

BEST = best_of_all()
PEERS = ["fcntl"] + [server for server in SERVERS if server not in LOCKD]

def rate(server, window):
    return BEST[server, 1 if server == "fcntl" else window][0]

def ratio(server, peer, window):
    return rate(server, window) / rate(peer, window)

def aim(what, wanted, reached):
    print(f"aim, {what}, {wanted}: " + ", ".join(f"{reached(server):.2f} ({server})" for server in LOCKD))

print(f"{MESSAGES} messages with 1 under way, {4 * MESSAGES} with more, best of {ROUNDS}, {os.cpu_count()} processors")
under_way = [f"{window} under way" for window in WINDOWS]
table("pairs of SETLK and unlock a second", under_way,
      [(server, [f"{rate(server, window):.0f}" for window in (WINDOWS if server != "fcntl" else [1])])
       for server in PEERS + LOCKD])
table("ratio of pairs a second", under_way,
      [(f"{server} / {peer}", [f"{ratio(server, peer, window):.2f}" for window in WINDOWS])
       for server in LOCKD for peer in PEERS])
table("a round trip, 1 under way", ["p50 us", "p99 us"],
      [(server, [f"{nanos / 1000:.2f}" for nanos in BEST[server, 1][1:]]) for server in PEERS + LOCKD])
table("ratio of a round trip", ["p50", "p99"],
      [(f"{server} / {peer}", [f"{BEST[server, 1][at] / BEST[peer, 1][at]:.2f}" for at in (1, 2)])
       for server in LOCKD for peer in PEERS])
print()
if "redis" in SERVERS:
    aim("pairs to redis, 64 under way", "at least 2", lambda server: ratio(server, "redis", 64))
aim("pairs to echo together, 64 under way", "at least 0.6", lambda server: ratio(server, "echo together", 64))
aim("p50 of a round trip to echo each", "at most 1.2", lambda server: BEST[server, 1][1] / BEST["echo each", 1][1])
END
