#!/bin/sh
# What a trace in pieces costs `lockd serve --resume FILE --rotate BYTES`. It builds the client of bench/peers.sh, by a C compiler.
# - Pairs of SETLK and unlock a second with `--rotate 16777216`, to those without `--rotate`, with 64 messages and with 1 under way. Runs take
#   turns, five times, and the best of each counts.
# - How long a turn holds up orders: from the connection to the first reply of a server whose FILE is due, less the same of one without
#   `--rotate`, in milliseconds, and to what Python takes to write that head to a file and to force it to the disk. The state is as great as the
#   standard rules allow, or has 65,536 files, open files and locks. FILE is in memory (/dev/shm), where fdatasync is free, and on the disk.
#   Medians of nine runs in turn.
# - How long a restart takes, to `lockd check` of FILE: where FILE has 64 MB, and where it has little, so that the piece before of 64 MB is read.
# - What `lockd check PIECE..` takes of so many orders (1,000,000 without an argument) in pieces of `--rotate 1`, to `lockd check` of one trace.
#
#     bench/pieces.sh [ORDERS]
set -eu
. "$(dirname "$0")/../dev/built_lockd.sh"
cc -O2 -Wall -Wextra -o "$work/client" bench/peers/client.c
LOCKD=$(realpath "$program") python3 - "$work" "${1:-1000000}" <<'END'
import glob, itertools, os, shutil, socket, statistics, subprocess, sys, tempfile, time

sys.dont_write_bytecode = True
sys.path.insert(0, ".")
from tests import fuse
from tests.resume.long import exchange
from tests.tries import INIT, INIT_REPLY, PROGRAM, Server, take

WORK, ORDERS = sys.argv[1], int(sys.argv[2])
LONGEST, ROUNDS, RESTARTS, MOST = 600, 5, 9, 67_108_864
NUMBER = itertools.count()
GREAT = ["--files", "65536", "--open", "65536", "--runs", "65536"]


def server_of(file, *options):
    path = f"{WORK}/socket{next(NUMBER)}"
    return path, subprocess.Popen([PROGRAM, "serve", path, "--resume", file, *options])


def pieces(file):
    """The paths of its pieces, the oldest first."""
    numbers = sorted(int(it[len(file) + 1:]) for it in glob.glob(f"{file}.*") if it[len(file) + 1:].isdecimal())
    return [*(f"{file}.{it}" for it in numbers), file]


def measured(file, messages, window, *options):
    """Pairs a second."""
    path, serving = server_of(file, *options)
    try:
        told = subprocess.run([f"{WORK}/client", "fuse", path, str(window), str(messages)], stdout=subprocess.PIPE, text=True, timeout=LONGEST, check=True)
        serving.wait(LONGEST)
    finally:
        serving.poll() is None and serving.kill()
    assert serving.returncode == 0, serving.returncode
    return float(told.stdout.split()[0])


def remove(file):
    for it in pieces(file):
        os.remove(it)


def seconds(*words, input=None):
    begun = time.perf_counter()
    with open(input or os.devnull, "rb") as text:
        subprocess.run([PROGRAM, *words], stdin=text, stdout=subprocess.DEVNULL, timeout=LONGEST, check=True)
    return time.perf_counter() - begun


def served(file, *options):
    """Seconds from the start of a server to its first reply, and those of them since the connection."""
    path, begun = None, time.perf_counter()
    path, serving = server_of(file, *options)
    with serving, socket.socket(socket.AF_UNIX) as client:
        while True:
            tried = time.perf_counter()
            if not client.connect_ex(path):
                break
            assert serving.poll() is None
            time.sleep(0.0002)
        client.sendall(INIT)
        assert take(client, len(INIT_REPLY)) == INIT_REPLY
        ended = time.perf_counter()
    assert serving.returncode == 0
    return ended - begun, ended - tried


def throughput():
    best = {}
    for _ in range(ROUNDS):
        for window, messages in (64, ORDERS), (1, ORDERS // 8):
            for options in (), ("--rotate", "16777216"):
                file = f"{WORK}/trace{next(NUMBER)}"
                best[window, options] = max(best.get((window, options), 0), measured(file, messages, window, *options))
                count = len(pieces(file))
                remove(file)
                if options and window == 64:
                    print(f"{count} pieces", file=sys.stderr)
    for window in 64, 1:
        one, turned = best[window, ()], best[window, ("--rotate", "16777216")]
        print(f"--rotate 16777216, {window} under way: {turned:.0f} pairs a second, ratio {turned / one:.2f} (to no --rotate)", flush=True)


def full(files, opens, runs, waiting):
    """The messages of a state with so many files, open files, locks and waiting requests, and then orders that change nothing, up to 65,536 orders and replies."""
    messages = [fuse.create(2 + it, b"%d" % it) for it in range(files)]
    messages += [fuse.open_(2 + it, 2 + it % files) for it in range(files, opens)]
    # Each lock has an owner of its own, so that no two are one row.
    messages += [fuse.lock(fuse.SETLK, opens + 2 + it, it + 1, it // files, it // files, fuse.WRITE_LOCK, 2 + it % files, 1 + it % files) for it in range(runs)]
    messages += [fuse.lock(fuse.SETLKW, opens + runs + 2 + it, runs + 1 + it, 0, 0, fuse.WRITE_LOCK, 2, 1) for it in range(waiting)]
    more = range(len(messages) + 2, max(len(messages), 33_500) + 2)
    return b"".join(messages) + b"".join(fuse.getattr_(it, 2) for it in more)


def write_out(path, text):
    """Seconds that it takes to write a new file, up to its place on the disk."""
    begun = time.perf_counter()
    with open(path, "wb") as it:
        it.write(text)
        it.flush()
        os.fdatasync(it.fileno())
    return time.perf_counter() - begun


def turn(label, folder, text, *limits):
    """A turn behind this trace."""
    file = f"{folder}/turned"
    found, written = {(): [], ("--rotate", "1"): []}, []
    for _ in range(RESTARTS):
        for options, times in found.items():
            write_out(file, text)
            times.append(served(file, *options, *limits)[1])
            assert len(pieces(file)) == 1 + bool(options)
            with open(file, "rb") as it:
                head = it.read()
            remove(file)
        written.append(write_out(file, head))
        os.remove(file)
    without, turned = map(statistics.median, found.values())
    print(f"a turn, {label}: a head of {head.count(bytes([10]))} lines, {len(head) / 1e6:.2f} MB, {1e3 * (turned - without):.1f} ms, "
          f"ratio {(turned - without) / statistics.median(written):.2f} (to a file of as many bytes)", flush=True)


def turns():
    for label, limits, numbers in ("standard rules", [], (256, 1024, 4096, 256)), ("65,536 files, open files and locks", GREAT, (65_535, 65_536, 65_536, 0)):
        server = Server("--resume", "{file}", *limits, workers=None)
        exchange(server, INIT + full(*numbers))
        assert server.ended() == (b"", "", 0)
        text = server.traced()
        for where, folder in ("in memory", "/dev/shm"), ("on the disk", WORK):
            with tempfile.TemporaryDirectory(dir=folder) as folder:
                turn(f"{label}, {where}", folder, text, *limits)


def restarts():
    file = f"{WORK}/restarted"
    measured(file, 2_300_000, 64, "--rotate", str(MOST))
    *_, before, last = pieces(file)
    assert before != last and os.path.getsize(before) >= MOST, pieces(file)
    grown, short = f"{WORK}/grown", f"{WORK}/short"
    # FILE of 64 MB is the piece before by another name: its own piece before isn't read.
    shutil.copy(before, grown)
    shutil.copy(before, f"{short}.1")
    with open(short, "wb") as it, open(before, "rb") as text:
        subprocess.run([PROGRAM, "state"], stdin=text, stdout=it, check=True)
    for label, path, read in ("FILE of 64 MB", grown, grown), ("a short FILE, its piece before of 64 MB", short, f"{short}.1"):
        again = [(served(path)[0], seconds("check", input=read)) for _ in range(RESTARTS)]
        restart, checked = map(statistics.median, zip(*again))
        print(f"a restart behind {label}: {restart:.2f} s, ratio {restart / checked:.2f} (to lockd check of it)", flush=True)
    for it in glob.glob(f"{WORK}/restarted*") + [grown, short, f"{short}.1"]:
        os.remove(it)


def rows():
    file, one = f"{WORK}/rows", f"{WORK}/one"
    measured(file, ORDERS, 64, "--rotate", "1")
    measured(one, ORDERS, 64)
    paths = pieces(file)
    found = [(seconds("check", *paths), seconds("check", input=one)) for _ in range(ROUNDS)]
    row, checked = map(min, zip(*found))
    print(f"check of {len(paths)} pieces: {row:.2f} s, ratio {row / checked:.2f} (to check of one trace)", flush=True)


throughput()
turns()
restarts()
rows()
END
