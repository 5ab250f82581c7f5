#!/bin/sh
# Makes traces, and spreads their files over 2 to 16 servers on paper (bench/spread.py says how). Each trace is of one server and one client:
#   peers       the client of bench/peers.sh locks and unlocks on 64 files, 64 messages under way;
#   circles     as in bench/circles.sh, 255 requests wait in a row, each on a file of its own, and 20 would close the circle (`lockd script`);
#   programs    tests/mount/programs.sh: the programs of others that are installed here take their locks on two mounts, three processes each;
#   flock       flock(1) locks a file for each program of /usr/bin (4,000 at most), 8 at a time, on a mount;
#   two of any  on a mount, 16 processes lock two of 32 files one after the other, by F_SETLKW, and hold each for 2 ms: any two of them, in any order.
#               After EDEADLK a process drops what it has;
#   two of a job  the same, but the two are of one of 8 jobs (`job3.data`, `job3.index`, ..).
# `lockd check` judges each. The last four want root, /dev/fuse and a C compiler, and are left out where these aren't there. It takes a minute.
#
#     bench/spread.sh [FOLDER]      (FOLDER gets the traces, and stays; but for the row of circles, those that it has aren't made again)
set -eu
. "$(dirname "$0")/../dev/built_lockd.sh"
program=$(realpath "$program")
number=0
kept=$(realpath -m "${1:-$work/kept}")
mkdir -p "$kept"
# Judges a trace, and keeps it by a name.
keep() {
    [ "$("$program" check < "$1")" = legal ] || { echo "spread.sh: $1 isn't legal" >&2; exit 1; }
    mv "$1" "$kept/$2.trace"
}

if ! [ -e "$kept/peers.trace" ]; then
    cc -O2 -Wall -Wextra -o "$work/client" bench/peers/client.c
    "$program" serve "$work/socket" --workers 1 --trace "$work/peers" &
    "$work/client" files "$work/socket" 64 6000 > "$work/figures"
    wait
    keep "$work/peers" peers
fi
# The row of bench/circles.sh: owner I holds a byte of file I, and waits for that of owner I + 1.
awk 'BEGIN {
    for (i = 0; i <= 255; i++) {
        printf "ask 0 %d 1 0 0 0 create 0 420 3%d3%d3%d\n", ++unique, int(i / 100), int(i / 10) % 10, i % 10
        printf "ask 0 %d %d 0 0 0 setlk %d %d 0 0 0 11 0\n", ++unique, i + 2, i + 1, i
    }
    for (i = 0; i < 255; i++)
        printf "ask 0 %d %d 0 0 0 setlkw %d %d 0 0 1 11 0\n", ++unique, i + 3, i + 2, i
    for (i = 0; i < 20; i++)
        printf "ask 0 %d 2 0 0 0 setlkw 1 255 0 0 1 11 0\n", ++unique
}' | "$program" script > "$work/circles"
keep "$work/circles" circles
set -- "peers=$kept/peers.trace" "circles=$kept/circles.trace"

apart='unshare --mount --propagation private --pid --fork --kill-child --mount-proc'
if [ "$(id -u)" -eq 0 ] && [ -c /dev/fuse ] && $apart true 2> /dev/null; then
    programs/mount/build
    # lockd_mount with a trace, also where none is asked for.
    cat > "$work/lockd_mount" <<END
#!/bin/sh
for word; do
    shift
    [ "\$word" != none ] || word=$work/programs.\$\$
    set -- "\$@" "\$word"
done
exec "$PWD/programs/mount/out/lockd_mount" "\$@"
END
    chmod 755 "$work/lockd_mount"
    if ! [ -e "$kept/programs1.trace" ]; then
        LOCKD=$program LOCKD_MOUNT=$work/lockd_mount tests/mount/programs.sh > "$work/said" || cat "$work/said" >&2
        for it in "$work"/programs.*; do
            keep "$it" "programs$((number += 1))"
        done
    fi
    $apart python3 - "$program" "$kept" "$work" <<'END'
import errno, fcntl, os, random, shutil, subprocess, sys, tempfile, time

PROGRAM, KEPT, WORK = sys.argv[1:]
AT_A_TIME, PROCESSES, TURNS, LONGEST = 8, 16, 250, 600
FILES = [f"file{it}" for it in range(32)]
JOBS = [[f"job{job}.{what}" for what in ("data", "index", "journal", "lock")] for job in range(8)]


def traced(name, fill, *options):
    """Keeps the trace of a mount in which this was done, which has to be legal."""
    if os.path.exists(f"{KEPT}/{name}.trace"):
        return
    folder = tempfile.mkdtemp(dir=WORK)
    command = ["programs/mount/out/lockd_mount", *options, "--trace", f"{WORK}/{name}", folder]
    serving = subprocess.Popen(command, stdout=subprocess.PIPE, stderr=subprocess.DEVNULL, text=True, env={**os.environ, "LOCKD": PROGRAM})
    try:
        assert serving.stdout.readline().startswith("mounted")
        fill(folder)
        subprocess.run(["umount", folder], check=True, timeout=LONGEST)
        said = serving.communicate(timeout=LONGEST)[0].split()
        assert serving.returncode == 0 and said[-1] == "legal", said
    finally:
        serving.kill()
    shutil.move(f"{WORK}/{name}", f"{KEPT}/{name}.trace")


def with_flock(folder):
    names = "".join(f"{it}\n" for it in sorted(os.listdir("/usr/bin"))[:4_000])
    subprocess.run(["xargs", "-P", str(AT_A_TIME), "-I{}", "flock", f"{folder}/{{}}", "true"], input=names, text=True, check=True, timeout=LONGEST)


def lock_two(opened, names):
    for it in names:
        fcntl.lockf(opened[it], fcntl.LOCK_EX)
        time.sleep(0.002)


def turns(folder, at, every, choose):
    chance = random.Random(at)
    opened = {it: os.open(f"{folder}/{it}", os.O_RDWR | os.O_CREAT) for it in every}
    for _ in range(TURNS):
        names = choose(chance)
        try:
            lock_two(opened, names)
        except OSError as error:
            assert error.errno == errno.EDEADLK, error
        for it in names:
            fcntl.lockf(opened[it], fcntl.LOCK_UN)


def in_pairs(every, choose):
    def fill(folder):
        processes = []
        for at in range(PROCESSES):
            pid = os.fork()
            if not pid:
                status = 1
                try:
                    turns(folder, at, every, choose)
                    status = 0
                finally:
                    os._exit(status)
            processes.append(pid)
        assert not any([os.waitpid(it, 0)[1] for it in processes])
    return fill


traced("flock", with_flock, "--files", "4096")
traced("two_of_any", in_pairs(FILES, lambda chance: chance.sample(FILES, 2)))
traced("two_of_a_job", in_pairs(sum(JOBS, []), lambda chance: chance.sample(chance.choice(JOBS), 2)))
END
    set -- "$@" "programs=$(echo "$kept"/programs*.trace | tr ' ' ,)" "flock=$kept/flock.trace" "two of any=$kept/two_of_any.trace" \
        "two of a job=$kept/two_of_a_job.trace"
else
    echo 'spread.sh: no root, no /dev/fuse, or no mount here: the traces of mounts are left out' >&2
fi
bench/spread.py "$@"
