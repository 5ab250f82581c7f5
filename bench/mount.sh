#!/bin/sh
# Times F_SETLK, set and dropped, through a mount, with 1 and 8 processes that each have a file of their own:
#   lockd   a folder that programs/mount/out/lockd_mount has mounted, with 1 and 4 workers;
#   null    a FUSE file system in C of one thread that answers 0 to each message: the floor of any FUSE server;
#   memory  files in /dev/shm, with no server.
# Each process makes as many calls as the argument says (else 20,000), four times as many in memory, and a tenth
# goes before them that doesn't count. Each run has a mount of its own. The runs take turns, three times, and the best of
# each figure counts. Prints pairs a second and p50 of a call, then the ratios, and what is aimed at. Wants root,
# /dev/fuse, a C compiler and Python 3.
# With --resume it compares two mounts with 1 worker, one with a trace and one with --resume. They are nearly as fast, so both stand
# all the time, and are asked in turn, for 1,000 calls each, a hundred times. Prints the median of the ratios of neighbours, and the
# quarters about it.
#
#     bench/mount.sh [--resume] [CALLS]
set -eu
resumes= calls=
for word in "$@"; do
    case $word in
        --resume) resumes=1 ;;
        *[!0-9]* | '') echo "bench/mount.sh [--resume] [CALLS]" >&2 && exit 2 ;;
        *) calls=$word ;;
    esac
done
. "$(dirname "$0")/../dev/built_lockd.sh"
for source in null_fuse fcntl; do
    cc -O2 -Wall -Wextra -o "$work/$source" "bench/peers/$source.c"
done
programs/mount/build
unshare --mount --propagation private --pid --fork --kill-child --mount-proc \
    python3 - "$(realpath "$program")" "$work" "${calls:-0}" "$resumes" <<'END'
import contextlib, itertools, os, shutil, statistics, subprocess, sys, tempfile

PROGRAM, WORK, CALLS, RESUMES = *sys.argv[1:3], int(sys.argv[3]), sys.argv[4]
CALLS = CALLS or (1_000 if RESUMES else 20_000)
ROUNDS, TURNS, LONGEST = 3, 100, 120
NUMBER = itertools.count()
PROCESSES = 1, 8
TRACED, RESUMED = "lockd, 1 worker", "lockd, 1 worker, resume"
FILES = ["memory", "null", TRACED, "lockd, 4 workers"]
# What ratios are to, and what is aimed at: at least so much.
AIMS = {"null": 0.8, "memory": None}
AIM_RESUMED = 0.93

# The command that mounts a folder.
def server(files, folder):
    if files == "null":
        return [f"{WORK}/null_fuse", folder]
    trace = "--resume" if files.endswith("resume") else "--trace"
    return ["programs/mount/out/lockd_mount", folder, "--workers", files.split()[1], trace, f"{WORK}/trace{next(NUMBER)}"]

# The best total of pairs a second, and the median of the processes' p50 in nanoseconds.
def timed(folder, processes, calls):
    asked = [subprocess.Popen([f"{WORK}/fcntl", str(calls), f"{folder}/{at}"], stdout=subprocess.PIPE, text=True)
             for at in range(processes)]
    told = [[float(word) for word in it.communicate(timeout=LONGEST)[0].split()] for it in asked]
    return sum(it[0] for it in told), sorted(it[1] for it in told)[processes // 2]

@contextlib.contextmanager
def mounted(files):
    folder = tempfile.mkdtemp(dir="/dev/shm" if files == "memory" else WORK)
    try:
        if files == "memory":
            yield folder
            return
        serving = subprocess.Popen(server(files, folder), stdout=subprocess.PIPE, stderr=subprocess.DEVNULL, text=True,
                                   env={**os.environ, "LOCKD": PROGRAM})
        assert serving.stdout.readline().startswith("mounted")
        try:
            yield folder
            subprocess.run(["umount", folder], check=True, timeout=LONGEST)
        except BaseException:
            serving.kill()
            subprocess.run(["umount", "-l", folder], check=False, timeout=LONGEST)
            raise
        said = serving.communicate(timeout=LONGEST)[0].split()
        assert serving.returncode == 0 and (files == "null" or said[-1] == "legal"), said
    finally:
        shutil.rmtree(folder, ignore_errors=True)

def measured(files, processes):
    with mounted(files) as folder:
        return timed(folder, processes, 4 * CALLS if files == "memory" else CALLS)

# The ratios of pairs a second of a mount with --resume to those of one with a trace, asked right before or after it.
def ratios_resumed(processes):
    found = []
    with mounted(TRACED) as traced, mounted(RESUMED) as resumed:
        for at in range(TURNS):
            rates = {folder: timed(folder, processes, CALLS)[0] for folder in ((traced, resumed) if at % 2 else (resumed, traced))}
            found.append(rates[resumed] / rates[traced])
    return found

if RESUMES:
    for processes in PROCESSES:
        low, median, high = statistics.quantiles(ratios_resumed(processes), n=4)
        print(f"pairs with --resume to those with a trace, {processes} at once: {median:.3f}, half of them {low:.2f} to {high:.2f}; "
              f"aim {AIM_RESUMED}", flush=True)
    sys.exit()

runs = {}
for _ in range(ROUNDS):
    for files in FILES:
        for processes in PROCESSES:
            runs.setdefault((files, processes), []).append(measured(files, processes))
BEST = {run: (max(rate for rate, _ in found), min(p50 for _, p50 in found)) for run, found in runs.items()}

def table(title, rows):
    print(f"\n{title:<36}" + "".join(f"{count:>8} process{'es' if count > 1 else '  '}" for count in PROCESSES))
    for name, cells in rows:
        print(f"{name:<36}" + "".join(f"{cell:>18}" for cell in cells))

def ratio(files, peer, processes):
    return BEST[files, processes][0] / BEST[peer, processes][0]

print(f"{CALLS} calls a process, best of {ROUNDS}, {os.cpu_count()} processors, Linux {os.uname().release}")
table("pairs of lock and unlock a second", [(it, [f"{BEST[it, count][0]:.0f}" for count in PROCESSES]) for it in FILES])
table("p50 of a call, us", [(it, [f"{BEST[it, count][1] / 1000:.1f}" for count in PROCESSES]) for it in FILES])
table("ratio of pairs a second", [(f"{it} / {peer}", [f"{ratio(it, peer, count):.3f}" for count in PROCESSES])
                                  for peer in AIMS for it in FILES if it not in (peer, "memory")])
print()
for peer, aim in AIMS.items():
    for files in (it for it in FILES if aim and it.startswith("lockd") and it != peer):
        print(f"aim, pairs to {peer}, at least {aim}: " + ", ".join(f"{ratio(files, peer, it):.2f} ({it})" for it in PROCESSES) + f", {files}")
END
