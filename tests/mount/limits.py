"""Limits of a mount: how many files, open files, locks and waiting requests; where the trace goes."""
import fcntl, os, resource, subprocess, tempfile, threading, time
from tests.mount.kit import *


# ---- Files and locks ----

def try_4096_files():
    mount, held = Mount(), []
    while True:
        fd = outcome(os.open, f"{mount.folder}/many{len(held)}", os.O_RDWR | os.O_CREAT)
        if isinstance(fd, str):
            break
        held.append(fd)
    same((fd, len(held)), ("ENOSPC", 4096))
    for at, fd in enumerate(held):
        record(fd, WRITE, at, 1)
        os.unlink(f"{mount.folder}/many{at}")
        os.close(fd)
    os.close(os.open(f"{mount.folder}/another", os.O_RDWR | os.O_CREAT))
    same(mount.end(), (0, "legal"))


def try_as_many_files_as_rules_say():
    """Of two files each is there until it has neither a name nor an open file. Three may be open."""
    mount = Mount("--files", "2", "--open", "3")
    first, second, third = (f"{mount.folder}/{name}" for name in ("first", "second", "third"))

    def tried(path, flags=os.O_RDWR | os.O_CREAT):
        fd = outcome(os.open, path, flags)
        return fd if isinstance(fd, str) else held.append(fd)

    held = []
    same([tried(first), tried(second), tried(third), tried(first), tried(second), tried(third)], [None, None, "ENOSPC", None, "ENFILE", "ENOSPC"])
    free = os.statvfs(mount.folder)
    same((free.f_files, free.f_ffree), (2, 0))
    os.unlink(second)
    same(tried(third), "ENOSPC")
    os.close(held[1])
    until(lambda: tried(third) is None)
    for fd in held[:1] + held[2:]:
        os.close(fd)
    same(mount.end(), (0, "legal"))


def make_and_remove(folder, count, made, go):
    """So many files, which are open and locked all at once. It tells when they are made, and removes them when it may go on."""
    paths = [f"{folder}/{os.getpid()}.{at}" for at in range(count)]
    held = [os.open(path, os.O_RDWR | os.O_CREAT | os.O_EXCL) for path in paths]
    for fd in held:
        record(fd, WRITE)
        fcntl.flock(fd, ALONE | AT_ONCE)
    os.write(made, b".")
    os.read(go, 1)
    for path, fd in zip(paths, held):
        os.unlink(path)
        os.close(fd)


def try_20000_files_of_16_processes():
    mount, makers = Mount("--files", "65536", "--open", "65536", "--runs", "65536"), []
    (is_made, made), (go, goes) = os.pipe(), os.pipe()
    for _ in range(16):
        makers.append(os.fork())
        if not makers[-1]:
            os.close(goes)
            os.close(is_made)
            try:
                make_and_remove(mount.folder, 1_250, made, go)
                os._exit(0)
            finally:
                os._exit(1)
    os.close(made)
    told = 0
    while told < len(makers):
        count = len(os.read(is_made, 16))
        assert count, "one of them failed"
        told += count
    files = os.statvfs(mount.folder)
    same((len(os.listdir(mount.folder)), files.f_files, files.f_ffree), (20_000, 65_536, 45_536))
    os.close(goes)
    same([os.waitpid(it, 0)[1] for it in makers], [0] * 16)
    until(lambda: os.statvfs(mount.folder).f_ffree == 65_536)
    same((os.listdir(mount.folder), mount.end()), ([], (0, "legal")))


try_20000_files_of_16_processes.seconds = 40 * PATIENCE


def try_4096_open_files(mount):
    held = []
    while True:
        fd = outcome(os.open, f"{mount.folder}/opened", os.O_RDWR | os.O_CREAT)
        if isinstance(fd, str):
            break
        held.append(fd)
        fcntl.flock(fd, SHARED | AT_ONCE)
    same((fd, len(held)), ("ENFILE", 4096))
    for fd in held:
        os.close(fd)
    shell(mount, f"flock -w {PATIENCE} opened echo in", "in")


def try_no_more_locks_than_runs():
    for words, most in ((), 16_384), (("--runs", "100"), 100):
        mount = Mount(*words)
        fd = os.open(f"{mount.folder}/runs", os.O_RDWR | os.O_CREAT)
        held = 0
        while (said := outcome(record, fd, WRITE, 2 * held, 1)) is None:
            held += 1
        same((said, held), ("ENOLCK", most))
        same([outcome(record, fd, UNLOCK, 6, 1), outcome(record, fd, WRITE, 1 << 40, 1)], [None, None])
        (other,) = children(f"{mount.folder}/other", 1)
        same(other.ask("record", "a", WRITE), "ENOLCK")
        os.close(fd)
        same(other.ask("record", "a", WRITE), "ok")
        other.kill()
        same(mount.end(), (0, "legal"))


def lock_and_let_go(folder, outcomes):
    fd = os.open(f"{folder}/wanted", os.O_RDWR | os.O_CREAT)
    outcomes.append(outcome(fcntl.flock, fd, ALONE))
    os.close(fd)


def try_1024_waiting_requests():
    """One more is refused. All that wait get the lock."""
    mount, outcomes = Mount(), []
    (holder,) = children(f"{mount.folder}/wanted", 1)
    same(holder.ask("flock", "a", ALONE), "ok")
    threading.stack_size(1 << 16)
    waiting = [threading.Thread(target=lock_and_let_go, args=(mount.folder, outcomes), daemon=True) for _ in range(1025)]
    for it in waiting:
        it.start()
    until(lambda: outcomes)
    same((outcomes[:], holder.ask("flock", "a", NOT_HELD)), (["ENOLCK"], "ok"))
    for it in waiting:
        it.join(PATIENCE)
    same(outcomes, ["ENOLCK", *[None] * 1024])
    holder.kill()
    same(mount.end(), (0, "legal"))


def try_rules_of_a_mount():
    """With room for one request, the second that waits is refused, and `check` knows of it."""
    mount = Mount("--fair", "--runs", "100", "--parked", "1")
    one, two, three = children(f"{mount.folder}/rules", 3)
    same(one.ask("record", "a", WRITE), "ok")
    two.begin("record", "a", WRITE, 0, 0, True)
    assert two.waits()
    same(three.ask("record", "a", WRITE, 0, 0, True), "ENOLCK")
    same([one.ask("record", "a", UNLOCK), two.answer()], ["ok", "ok"])
    for it in one, two, three:
        it.kill()
    same(mount.end(), (0, "legal"))


def try_count():
    mount = Mount("--count")
    shell(mount, "flock job echo in", "in")
    same(mount.end(), (0, "legal"))
    counted = next(line for line in mount.output().splitlines() if line.startswith("messages of the kernel, opcode and how many: "))
    counts = dict(it.split(":") for it in counted.rpartition(": ")[2].split())
    # INIT, CREATE, SETLKW, and the RELEASE of the last process that had the file.
    same([counts.get(it) for it in ("26", "35", "33", "18")], ["1"] * 4)


# ---- The trace ----

def try_who_holds_what():
    """One process holds a lock and another waits for it: programs/lockd_locks names both, by the folder alone."""
    mount = Mount("--fair", "--files", "300")
    mount.says("its trace is ")
    one, two = children(f"{mount.folder}/held", 2)
    same(one.ask("record", "a", WRITE), "ok")
    two.begin("record", "a", WRITE, 0, 0, True)
    assert two.waits()
    until(lambda: "WRITE*" in listed(mount).stdout)
    rows = [line.split() for line in listed(mount).stdout.splitlines()]
    same([(row[0], row[1], row[-2], row[-1]) for row in rows[1:]],
         [("POSIX", "WRITE", "-", "held"), ("POSIX", "WRITE*", str(one.pid), "held")])
    same(listed(mount, "--file", "none", "--json").stdout, "[]\n")
    same([one.ask("record", "a", UNLOCK), two.answer()], ["ok", "ok"])
    for it in one, two:
        it.kill()
    same(mount.end(), (0, "legal"))
    same(listed(mount).returncode, 2)


def try_a_trace_that_goes_nowhere():
    mount = Mount("--trace", "none")
    shell(mount, "flock job echo in", "in")
    same(mount.end()[0], 0)
    mount = Mount("--no-check")
    shell(mount, "flock job echo in", "in")
    status, said = mount.end()
    same((status, said.startswith("trace: ")), (0, True))


def lock_for_a_while(mount):
    last = time.monotonic() + PATIENCE
    while time.monotonic() < last and "doesn't grow" not in mount.output():
        shell(mount, "for one in 1 2 3 4 5 6 7 8 9; do flock job true; done", "")
        time.sleep(0.2)


def ends_without_lines(mount, said):
    """The end says why. The lines that are there are judged as those of a server that was killed."""
    status, verdict = mount.end()
    same((status, verdict in ("legal", "begins")), (3, True))
    mount.says(f"trace failed\nlockd_mount: the server ended with status 2: {said}\n")


def try_a_full_trace_is_said_while_it_runs():
    disk = tempfile.mkdtemp(dir=WORK)
    subprocess.run(["mount", "-t", "tmpfs", "-o", "size=4k", "none", disk], check=True, timeout=PATIENCE)
    mount = Mount("--trace", f"{disk}/trace")
    lock_for_a_while(mount)
    mount.says("doesn't grow")
    ends_without_lines(mount, f"{disk}/trace lacks lines, since it couldn't be written: No space left on device (os error 28)")
    unmount(disk)


def try_a_trace_that_lacks_whole_lines():
    """Its file ends with a newline. The list has what it has."""
    trace = f"{WORK}/lacks.trace"
    mount = Mount("--trace", trace)
    shell(mount, "flock job true", "")
    resource.prlimit(mount.server(), resource.RLIMIT_FSIZE, (os.path.getsize(trace), resource.RLIM_INFINITY))
    (one,) = children(f"{mount.folder}/held", 1)
    same((one.ask("flock", "a", ALONE), listed(mount).stdout.count("\n")), ("ok", 1))
    one.kill()
    ends_without_lines(mount, f"{trace} lacks lines, since it couldn't be written: File too large (os error 27)")
    with open(trace, "rb") as it:
        same(it.read()[-1:], b"\n")


def try_a_trace_that_is_removed():
    """It is put back, but not over another file."""
    trace = f"{WORK}/removed.trace"
    mount = Mount("--trace", trace)
    os.remove(trace)
    same(mount.end(), (0, "legal"))
    mount.says(f"{trace} was moved or removed, and is there again\n")
    trace = f"{WORK}/replaced.trace"
    mount = Mount("--trace", trace)
    with open(f"{trace}.other", "w", encoding="ascii") as it:
        it.write("another\n")
    os.replace(f"{trace}.other", trace)
    same(mount.end()[0], 3)
    mount.says(f"{trace} was replaced, and can't be put back: another file is there\n",
               f"trace failed\nlockd_mount: the server ended with status 2: {trace} lacks lines, is spoilt, or is gone\n")


def try_a_mount_takes_no_refuse():
    """With any other option, and nothing is made. The line names what to take."""
    folder, trace = tempfile.mkdtemp(dir=WORK), f"{WORK}/refused.trace"
    for words in (), ("--workers", "2"), ("--workers", "2", "--trace", trace), ("--trace", "none"), ("--resume", trace):
        said = refusal(*words, "--trace-full", "refuse", folder=folder)
        same((said.count("\n"), os.path.exists(trace), is_mounted(folder)), (1, False, False))
        contains(said, "--trace-full refuse isn't for a mount", "a close that is rejected is lost", "go-on", "--resume FILE", "end")


def try_a_limit_of_a_file_ends_no_server():
    limited = f"{WORK}/limited"
    with open(limited, "w", encoding="ascii") as it:
        it.write(f'#!/bin/sh\nulimit -f 8\nexec {PROGRAM} "$@"\n')
    os.chmod(limited, 0o700)
    mount = Mount("--trace", f"{WORK}/limited.trace", program=limited)
    for _ in range(20):
        shell(mount, "for one in 1 2 3 4 5 6 7 8 9; do flock job true; done", "")
    shell(mount, "flock -n job flock -n job echo in || echo held", "held")
    same(mount.end()[0], 3)
    mount.says("the server ended with status 2")
