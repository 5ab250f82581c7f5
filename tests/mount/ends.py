"""How a mount ends: by umount, signals, a server or a carrier that is killed, an abort."""
import fcntl, os, resource, select, signal, socket, subprocess, tempfile, threading, time
from tests.mount.kit import *


def held_and_waited_for(mount, name="held"):
    """One process with the file's lock, and one that waits for it."""
    one, two = children(f"{mount.folder}/{name}", 2)
    same(one.ask("flock", "a", ALONE), "ok")
    two.begin("flock", "a", ALONE)
    assert two.waits()
    return one, two


def lock_fails(folder, error="ENOTCONN"):
    """Nobody gets the lock, neither in the mount nor in the folder below."""
    same(outcome(os.open, f"{folder}/held", os.O_RDWR | os.O_CREAT), error)


def mounts_again(folder):
    """What was mounted there is over in a moment."""
    mount = Mount("--grace", str(PATIENCE), folder=folder)
    shell(mount, "flock -n held echo in", "in")
    same(mount.end(), (0, "legal"))


def try_a_mount_that_ends_or_is_killed_is_followed_at_once(_):
    """One without a grace waits a moment for it: it hears of its end late, or isn't gone yet. The tries beside each other make namespaces, which keep mounts
    longer: so this is none of them."""
    folder = tempfile.mkdtemp(dir=WORK)
    for kills in (False, True) * 2:
        mount = Mount(folder=folder)
        shell(mount, "flock held echo in", "in")
        has_closed_files(folder)
        if kills:
            mount.running.kill()
        else:
            unmount(folder)
        again = Mount(folder=folder)
        shell(again, "flock -n held echo in", "in")
        same(again.end(), (0, "legal"))
        same(mount.running.wait(PATIENCE), -signal.SIGKILL if kills else 0)


def try_a_mount_is_followed_while_its_trace_is_judged(_):
    slow = f"{tempfile.mkdtemp(dir=WORK)}/slow"
    with open(slow, "w", encoding="ascii") as it:
        it.write(f'#!/bin/sh\n[ "$1" != check ] || until [ -e {slow}.go ]; do sleep 0.1; done\nexec {os.environ["LOCKD"]} "$@"\n')
    os.chmod(slow, 0o700)
    mount = Mount(LOCKD=slow)
    shell(mount, "flock held echo in", "in")
    has_closed_files(mount.folder)
    unmount(mount.folder)
    again = Mount(folder=mount.folder)
    same(mount.running.poll(), None)
    shell(again, "flock -n held echo in", "in")
    same(again.end(), (0, "legal"))
    open(f"{slow}.go", "x").close()
    same(mount.end(lambda: None), (0, "legal"))


def try_end_by_umount():
    mount = Mount()
    shell(mount, "flock job echo in", "in")
    same(mount.end(), (0, "legal"))
    assert not mount.is_mounted()
    mount.says("the folder was unmounted")


def try_umount_is_refused_while_a_file_is_open():
    mount = Mount()
    (one,) = children(f"{mount.folder}/held", 1)
    ran = subprocess.run(["umount", mount.folder], capture_output=True, timeout=PATIENCE)
    same((ran.returncode != 0, mount.running.poll(), one.ask("close", "a")), (True, None, "ok"))
    same(mount.end(), (0, "legal"))


def try_end_by_signals_without_open_files():
    for which in signal.SIGTERM, signal.SIGINT:
        mount = Mount()
        shell(mount, "flock job echo in", "in")
        same(mount.end(lambda: mount.running.send_signal(which)), (0, "legal"))
        assert not mount.is_mounted()


def try_term_with_open_files_ends_it_and_says_of_whom():
    mount = Mount()
    one, two = held_and_waited_for(mount)
    same(mount.end(mount.term), (4, "legal"))
    same(two.answer(), "ECONNABORTED")
    assert not mount.is_mounted()
    mount.says("SIGTERM came; 2 files are open", "their locks are lost", f" {one.pid} ", f" {two.pid}\n")
    same(one.ask("flock", "a", NOT_HELD), "ENOTCONN")
    # They still think that they hold what they had, so nobody else gets it.
    contains(refusal(folder=mount.folder), "an earlier mount", str(one.pid))
    one.kill()
    two.kill()
    mounts_again(mount.folder)


def try_term_waits_for_open_files():
    mount = Mount("--grace", str(PATIENCE))
    (one,) = children(f"{mount.folder}/held", 1)
    same(one.ask("flock", "a", ALONE), "ok")
    mount.term()
    until(lambda: f"waiting {PATIENCE} seconds" in mount.output())
    time.sleep(0.2)
    same((mount.running.poll(), one.ask("flock", "a", SHARED), one.ask("close", "a")), (None, "ok", "ok"))
    same(mount.end(lambda: None), (0, "legal"))
    assert not mount.is_mounted()


def try_term_ends_it_when_its_grace_is_over():
    def ends():
        mount = Mount("--grace", "1")
        one, two = held_and_waited_for(mount)
        begun = time.monotonic()
        same(mount.end(mount.term), (4, "legal"))
        took = time.monotonic() - begun
        assert took > 0.9, took
        same(two.answer(), "ECONNABORTED")
        one.kill()
        two.kill()
        return None, took
    soon(9, ends)


def try_a_second_term_ends_it_at_once():
    mount = Mount("--grace", "1000")
    one, two = held_and_waited_for(mount)
    mount.term()
    until(lambda: "waiting 1000 seconds" in mount.output())
    same(mount.end(mount.term), (4, "legal"))
    same(two.answer(), "ECONNABORTED")


def try_term_with_a_process_that_stands_in_the_folder():
    mount = Mount()
    os.mkdir(f"{mount.folder}/held.d")
    inside = subprocess.Popen(["sleep", "100"], cwd=mount.folder)
    try:
        same(mount.end(mount.term), (4, "legal"))
        mount.says("0 files are open, of processes", str(inside.pid))
        assert not mount.is_mounted()
    finally:
        inside.kill()
        inside.wait()


def unread_errors():
    """Standard errors that take no line: a full pipe, a full socket, a stopped terminal, and a terminal with little room."""
    reading, pipe = os.pipe()
    os.set_blocking(pipe, False)
    while outcome(os.write, pipe, bytes(4096)) == 4096:
        pass
    os.set_blocking(pipe, True)
    keys, terminal = os.openpty()
    os.write(keys, b"\x13")
    until(lambda: not select.select([], [terminal], [], 0)[1])
    unread, full = os.openpty()
    os.set_blocking(full, False)
    while outcome(os.write, full, b" ") == 1:
        pass
    os.set_blocking(full, True)
    os.read(unread, 8)
    ours, theirs = socket.socketpair()
    theirs.setblocking(False)
    while outcome(theirs.send, bytes(4096)) == 4096:
        pass
    theirs.setblocking(True)
    yield from (pipe, theirs.fileno(), terminal, full)
    ours.close()
    theirs.close()
    for it in reading, pipe, keys, terminal, unread, full:
        os.close(it)


def try_nobody_reads_what_it_says():
    """Nor what its server says, whose trace can't be written. It ends all the same, and goes on with another server."""
    for errors in unread_errors():
        trace = tempfile.mkdtemp(dir=WORK) + "/trace"
        mount = Mount("--trace", trace, "--count", errors=errors)
        resource.prlimit(mount.server(), resource.RLIMIT_FSIZE, (os.path.getsize(trace), resource.RLIM_INFINITY))
        for it in held_and_waited_for(mount):
            it.kill()
        status, verdict = mount.end(mount.term)
        same((status, verdict in ("legal", "begins")), (3, True))
        mount = Mount("--resume", f"{trace}.resumed", errors=errors)
        one, two = held_and_waited_for(mount)
        os.kill(mount.server(), signal.SIGKILL)
        same([one.ask("flock", "a", NOT_HELD), two.answer()], ["ok", "ok"])
        one.kill()
        two.kill()
        same(mount.end(), (0, "legal"))


def try_hup_does_nothing_and_usr1_prints_counts():
    mount = Mount()
    (one,) = children(f"{mount.folder}/held", 1)
    for which in signal.SIGHUP, signal.SIGUSR1:
        mount.running.send_signal(which)
    until(lambda: "lockd_mount: 1 files, 1 open; " in mount.output())
    same(one.ask("flock", "a", ALONE), "ok")
    one.kill()
    same(mount.end(), (0, "legal"))


def try_a_lazy_umount_keeps_others_out_while_files_are_open():
    mount = Mount()
    one, two = held_and_waited_for(mount)
    subprocess.run(["umount", "-l", mount.folder], timeout=PATIENCE, check=True)
    assert two.waits() and not mount.is_mounted()
    contains(refusal(folder=mount.folder), f"another lockd_mount has {mount.folder}")
    waiting = subprocess.Popen([PROGRAM, "--grace", str(PATIENCE), "--trace", "none", mount.folder], stdout=subprocess.PIPE, stderr=subprocess.DEVNULL, text=True)
    time.sleep(0.3)
    same((waiting.poll(), is_mounted(mount.folder)), (None, False))
    same([one.ask("close", "a"), two.answer()], ["ok", "ok"])
    assert mount.running.poll() is None
    same(two.ask("close", "a"), "ok")
    same(mount.end(lambda: None), (0, "legal"))
    same(waiting.stdout.readline(), f"mounted at {mount.folder}\n")
    waiting.terminate()
    same(waiting.wait(PATIENCE), 0)


def try_files_that_close_with_the_last_of_the_mount():
    """The kernel tells of no more than 16 closed files before it ends the connection."""
    for _ in range(4):
        mount = Mount("--trace", "none")
        holder = Child()
        for at in range(300):
            same(holder.ask("open", f"f{at}", f"{mount.folder}/held", os.O_RDWR | os.O_CREAT), "ok")
        same(holder.ask("flock", "f7", ALONE), "ok")
        subprocess.run(["umount", "-l", mount.folder], timeout=PATIENCE, check=True)
        holder.kill()
        status, said = mount.end(lambda: None)
        same((status, said), (0, "lockd_mount: the folder was unmounted"))


def try_a_mount_kept_in_another_namespace_keeps_others_out():
    mount = Mount()
    inside = subprocess.Popen(["unshare", "--mount", "--propagation", "private", "sh", "-c", f"exec 9> {mount.folder}/held; flock 9; echo in; read end"],
                              stdin=subprocess.PIPE, stdout=subprocess.PIPE, text=True)
    same(inside.stdout.readline(), "in\n")
    unmount(mount.folder)
    same((mount.running.poll(), mount.is_mounted()), (None, False))
    contains(refusal(folder=mount.folder), f"another lockd_mount has {mount.folder}")
    inside.communicate("end\n", timeout=PATIENCE)
    same(mount.end(lambda: None), (0, "legal"))
    mounts_again(mount.folder)


def try_term_where_another_namespace_has_it_mounted():
    mount = Mount()
    inside = subprocess.Popen(["unshare", "--mount", "--propagation", "private", "sh", "-c", "echo in; read end"],
                              stdin=subprocess.PIPE, stdout=subprocess.PIPE, text=True)
    same(inside.stdout.readline(), "in\n")
    same(mount.end(mount.term), (0, "legal"))
    mount.says("mounted elsewhere too")
    mounts_again(mount.folder)
    inside.communicate("end\n", timeout=PATIENCE)


def try_a_dead_mount_stays_while_a_file_of_it_is_under_way():
    """No process has the file. Who gets it has its lock."""
    mount, (one, two) = Mount(), socket.socketpair()
    with open(f"{mount.folder}/held", "w", encoding="ascii") as it:
        fcntl.flock(it, ALONE)
        socket.send_fds(one, [b"held"], [it.fileno()])
    mount.end(mount.running.kill)
    contains(refusal(folder=mount.folder), "files are still open there", "processes that can't be seen")
    same((mount.is_mounted(), outcome(os.listdir, mount.folder)), (True, "ENOTCONN"))
    one.close()
    two.close()
    mounts_again(mount.folder)


def try_what_is_mounted_there_next_stays():
    """The kernel gives it the same number, perhaps before the carrier sees that its mount is gone."""
    for _ in range(5):
        mount = Mount("--trace", "none")
        unmount(mount.folder)
        subprocess.run(["mount", "-t", "tmpfs", "next", mount.folder], check=True, timeout=PATIENCE)
        same(mount.end(lambda: None), (0, "lockd_mount: the folder was unmounted"))
        assert mount.is_mounted()
        unmount(mount.folder)


def try_a_container_keeps_a_dead_mount_at_another_path():
    mount, beside = Mount(), tempfile.mkdtemp(dir=WORK)
    inside = subprocess.Popen(["unshare", "--mount", "--propagation", "private", "sh", "-c", f"mount --bind {mount.folder} {beside}; "
                               f"umount {mount.folder}; exec 9> {beside}/held; flock 9; echo in; read end"], stdin=subprocess.PIPE, stdout=subprocess.PIPE, text=True)
    same(inside.stdout.readline(), "in\n")
    mount.end(mount.running.kill)
    subprocess.run(["umount", "-l", mount.folder], timeout=PATIENCE, check=True)
    contains(refusal(folder=mount.folder), "an earlier mount", str(inside.pid))
    inside.communicate("end\n", timeout=PATIENCE)
    mounts_again(mount.folder)


def try_a_container_with_a_dead_mount_and_no_open_file_keeps_nobody_out():
    mount = Mount()
    inside = subprocess.Popen(["unshare", "--mount", "--propagation", "private", "sh", "-c", "echo in; read end"],
                              stdin=subprocess.PIPE, stdout=subprocess.PIPE, text=True)
    same(inside.stdout.readline(), "in\n")
    mount.end(mount.running.kill)
    subprocess.run(["umount", "-l", mount.folder], timeout=PATIENCE, check=True)
    mounts_again(mount.folder)
    inside.communicate("end\n", timeout=PATIENCE)


def try_the_server_is_killed_while_processes_wait():
    mount = Mount()
    one, *waiting = children(f"{mount.folder}/held", 7)
    same([one.ask("flock", "a", ALONE), one.ask("record", "a", WRITE)], ["ok", "ok"])
    for at, child in enumerate(waiting):
        child.begin(*(("flock", "a", ALONE) if at % 2 else ("record", "a", WRITE, 0, 0, True)))
        assert child.waits()
    status, _ = mount.end(lambda: os.kill(mount.server(), signal.SIGKILL))
    mount.says("the server ended", "the end of its trace is lost", f"{mount.folder} stays unusable")
    same((status, [child.answer() for child in waiting]), (1, ["ECONNABORTED"] * 6))
    lock_fails(mount.folder)
    contains(refusal(folder=mount.folder), "an earlier mount", str(one.pid))
    lock_fails(mount.folder)
    for it in one, *waiting:
        it.kill()
    mounts_again(mount.folder)
    assert not mount.is_mounted()


def try_the_server_is_killed_without_open_files():
    mount = Mount()
    shell(mount, "flock job echo in", "in")
    same(mount.end(lambda: os.kill(mount.server(), signal.SIGKILL))[0], 1)
    assert not mount.is_mounted()


def try_the_carrier_is_killed():
    mount = Mount()
    one, two = held_and_waited_for(mount)
    server = mount.server()
    same(mount.end(lambda: mount.running.kill())[0], -signal.SIGKILL)
    same(two.answer(), "ECONNABORTED")
    until(lambda: state_of(f"/proc/{server}") in "XZ")
    lock_fails(mount.folder)
    contains(refusal(folder=mount.folder), "an earlier mount", str(one.pid))
    # Where the dead mount is taken away by hand, they still think that they hold it.
    subprocess.run(["umount", "-l", mount.folder], timeout=PATIENCE, check=True)
    contains(refusal(folder=mount.folder), "an earlier mount", str(one.pid))
    one.kill()
    begun = time.monotonic()
    threading.Timer(0.5, two.kill).start()
    mounts_again(mount.folder)
    assert time.monotonic() - begun > 0.4


def given_again(end):
    """A mount that is gone, once this was done to its carrier, and a later one that got its number. Other tries mount, too, and may get one first."""
    gone = {}
    while (number := number_of(mount := Mount())) not in gone:
        assert len(gone) < 50, "no number is given again"
        end(mount)
        subprocess.run(["umount", "-l", mount.folder], timeout=PATIENCE, check=True)
        gone[number] = mount
    first = gone.pop(number)
    for it in gone.values():
        it.end(lambda: it.running.send_signal(signal.SIGCONT))
    return first, mount


def try_a_number_is_given_again_while_its_last_carrier_stands_still():
    """The second mount ends while a file is open. It isn't taken for over, although the record of the first one has its number, too."""
    for status, end in [(-signal.SIGKILL, lambda it: it.running.kill())] + [(4, abort)] * can_abort():
        first, second = given_again(lambda it: stop(it.running.pid))
        (one,) = children(f"{second.folder}/held", 1)
        same(second.end(lambda: end(second))[0], status)
        subprocess.run(["umount", "-l", second.folder], timeout=PATIENCE, check=True)
        contains(refusal(folder=second.folder), "an earlier mount", str(one.pid))
        same(first.end(lambda: first.running.send_signal(signal.SIGCONT)), (0, "legal"))
        contains(refusal(folder=second.folder), "an earlier mount", str(one.pid))
        one.kill()
        mounts_again(second.folder)


def try_a_number_is_given_again_after_its_last_carrier_was_killed():
    """The first mount is over, although a file is open in the second one, which has its number."""
    first, second = given_again(lambda it: it.end(it.running.kill))
    (one,) = children(f"{second.folder}/held", 1)
    subprocess.run(["umount", "-l", second.folder], timeout=PATIENCE, check=True)
    same(Mount(folder=first.folder).end(), (0, "legal"))
    same(second.end(one.kill), (0, "legal"))


def try_the_carrier_is_killed_without_open_files():
    mount = Mount()
    shell(mount, "flock job echo in", "in")
    mount.end(lambda: mount.running.kill())
    assert mount.is_mounted()
    lock_fails(mount.folder)
    mounts_again(mount.folder)


def try_a_dead_mount_stays_until_the_next_one_is_made():
    """Nobody gets into the folder below while the next server starts, nor if it fails."""
    mount, slow = Mount(), f"{tempfile.mkdtemp(dir=WORK)}/slow"
    mount.end(mount.running.kill)
    with open(slow, "w", encoding="ascii") as it:
        it.write(f'#!/bin/sh\nuntil [ -e {slow}.go ]; do sleep 0.1; done\nexec {os.environ["LOCKD"]} "$@"\n')
    os.chmod(slow, 0o700)
    contains(refusal(folder=mount.folder, LOCKD="/bin/false"), "before it listened")
    lock_fails(mount.folder)
    again = subprocess.Popen([PROGRAM, "--trace", "none", mount.folder], stdout=subprocess.PIPE, stderr=subprocess.DEVNULL, text=True,
                             env={**os.environ, "TMPDIR": WORK, "LOCKD": slow})
    until(lambda: list(children_of(again.pid)))
    time.sleep(0.2)
    lock_fails(mount.folder)
    open(f"{slow}.go", "x").close()
    same((again.stdout.readline(), os.listdir(mount.folder)), (f"mounted at {mount.folder}\n", []))
    again.terminate()
    same((again.wait(PATIENCE), mount.is_mounted(), os.listdir(mount.folder)), (0, False, []))


def try_an_abort_is_no_unmounting():
    for how in [abort] * can_abort() + [lambda mount: subprocess.run(["umount", "-f", mount.folder], timeout=PATIENCE, stderr=subprocess.DEVNULL)]:
        mount = Mount()
        one, two = held_and_waited_for(mount)
        same(mount.end(lambda: how(mount)), (4, "legal"))
        same(two.answer(), "ECONNABORTED")
        mount.says("the connection was aborted while 2 files were open", "their locks are lost", str(one.pid))
        lock_fails(mount.folder)
        contains(refusal(folder=mount.folder), "an earlier mount", str(one.pid))
        one.kill()
        two.kill()
        mounts_again(mount.folder)


def try_an_abort_without_open_files():
    if not can_abort():
        return
    mount = Mount()
    shell(mount, "flock job echo in", "in")
    same(mount.end(lambda: abort(mount)), (0, "legal"))
    mount.says("no file was open")
    assert not mount.is_mounted()


def try_a_server_that_stands_still_keeps_nobody_from_the_end():
    def ends():
        mount = Mount()
        one, two = held_and_waited_for(mount)
        (three,) = children(f"{mount.folder}/held", 1)
        stop(mount.server())
        three.begin("flock", "a", ALONE)
        assert three.waits()
        begun = time.monotonic()
        mount.term()
        same([two.answer(), three.answer()], ["ECONNABORTED"] * 2)
        return mount, time.monotonic() - begun
    same(soon(5, ends).end(lambda: None), (4, "legal"))


def try_a_server_that_stands_still_loses_nothing():
    """More messages wait for it than its socket has room for, which takes less than 300 that are sent one by one."""
    mount, path = Mount(), "still"
    fds = [os.open(f"{mount.folder}/{path}", os.O_RDWR | os.O_CREAT) for _ in range(900)]
    said, serving = ["waits"] * len(fds), mount.server()

    def lock(at):
        said[at] = outcome(fcntl.flock, fds[at], SHARED | AT_ONCE)

    threads = [threading.Thread(target=lock, args=(at,), daemon=True) for at in range(len(fds))]
    stop(serving)
    try:
        for it in threads:
            it.start()
        time.sleep(1)
        same(set(said), {"waits"})
    finally:
        os.kill(serving, signal.SIGCONT)
    for it in threads:
        it.join(PATIENCE)
    same(said, [None] * len(fds))
    for fd in fds[1:]:
        os.close(fd)
    shell(mount, f"flock -n {path} echo in || echo held; flock -s -w {PATIENCE} {path} echo both", "held both")
    os.close(fds[0])
    shell(mount, f"flock -w {PATIENCE} {path} echo in", "in")
    same(mount.end(), (0, "legal"))
