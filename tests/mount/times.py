"""The times of requests and replies that `lockd_mount --times` writes."""
import os, subprocess, sys, tempfile, time
from report.times import read_times
from report.trace import read_trace
from tests.mount.kit import *


def bytes_of(path):
    with open(path, "rb") as it:
        return it.read()


def waited_for(mount):
    """A record lock and a whole-file lock are waited for, each for a tenth of a second at least."""
    for kind, lock, unlock in ("record", WRITE, UNLOCK), ("flock", ALONE, NOT_HELD):
        one, two = children(f"{mount.folder}/{kind}", 2)
        same(one.ask(kind, "a", lock), "ok")
        two.begin(kind, "a", lock, *((0, 0, True) if kind == "record" else ()))
        assert two.waits()
        until(lambda: mount.lets_wait(two))
        time.sleep(0.1)
        same([one.ask(kind, "a", unlock), two.answer()], ["ok", "ok"])
        one.kill()
        two.kill()


def times_fit(trace, times):
    """Each order and each reply has a time, and no reply comes before its request."""
    asks, tells = read_times(times)
    longest = 0
    for order in trace.orders:
        assert asks.found[order.unique], order.line
        for reply in order.replies:
            assert tells.found[reply.unique], reply.line
            took = tells.found[reply.unique][0] - asks.found[reply.unique][0]
            assert took >= 0, (reply.line, took)
            longest = max(longest, took)
    assert 10**8 < longest < PATIENCE * 10**9, longest
    same(times[-1:], b"\n")


def try_times_of_orders():
    """With 1 worker and with 4, they are those of the trace, and programs/lockd_report takes them."""
    for workers in "1", "4":
        folder = tempfile.mkdtemp(dir=WORK)
        words = "--workers", workers, "--times", f"{folder}/times", "--trace", f"{folder}/trace"
        mount = Mount(*words)
        waited_for(mount)
        same(mount.end(), (0, "legal"))
        times_fit(read_trace(bytes_of(f"{folder}/trace")), bytes_of(f"{folder}/times"))
        ran = subprocess.run([sys.executable, f"{TOP}/programs/lockd_report", "--times", f"{folder}/times", f"{folder}/trace"], capture_output=True, timeout=PATIENCE)
        same((ran.stderr, ran.returncode, b"Longest wait, ms" in ran.stdout), (b"", 0, True))


def try_times_that_cannot_be_made():
    folder, there = tempfile.mkdtemp(dir=WORK), tempfile.mkdtemp(dir=WORK)
    for path, why in (there, "File exists"), (__file__, "File exists"), ("/no/such/times", "No such file or directory"):
        contains(refusal("--times", path, folder=folder), f"cannot make {path} for the times: {why}")
    # What was made is gone where nothing is mounted.
    contains(refusal("--times", f"{there}/times", "--trace", __file__, folder=folder), f"a file is at {__file__} already")
    same(os.listdir(there), [])


def try_times_on_a_full_disk():
    """The mount goes on, and what is there can be read."""
    small = tempfile.mkdtemp(dir=WORK)
    subprocess.run(["mount", "-t", "tmpfs", "-o", "size=4096", "none", small], check=True, timeout=PATIENCE)
    mount = Mount("--times", f"{small}/times")
    for _ in range(100):
        shell(mount, "flock job echo in", "in")
    same(mount.end(), (0, "legal"))
    mount.says(f"times are no longer written to {small}/times: No space left on device")
    same(mount.output().count("no longer"), 1)
    read_times(bytes_of(f"{small}/times"))
    unmount(small)
