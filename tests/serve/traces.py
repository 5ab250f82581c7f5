"""Tries where the trace of the built `lockd serve` goes: to standard output, to a file, nowhere, and to a file that fills up.

Each function `try_..` is one thing that is tried. `tries.py` says how it ends.
"""
import array
import contextlib
import fcntl
import os
import resource
import select
import shutil
import signal
import socket
import subprocess
import sys
import tempfile
import termios
import threading

from tests import tries
from tests.fuse import EINTR, ENOMEM, READ_LOCK, SETLK, SETLKW, WRITE_LOCK, interrupt
from tests.serve.kit import checked, full, ignores_signal, may_have
from tests.tries import CREATE, INIT, PATIENCE, Server, judged, limited, lock, peak, replies, run, setlk, take

# How many orders `try_memory_stays` gives a server: `ORDERS=10000000 tests/run serve/traces try_memory_stays` takes some minutes, and a gigabyte of disk.
MANY = int(os.environ.get("ORDERS", "300000"))
FEW = min(100_000, MANY // 10)


def is_whole(trace, count):
    """The trace is legal, and has the CREATE and so many orders, each with its reply."""
    checked(trace, 2 * (count + 1))


def try_printed():
    server = Server()
    assert server.session(1000) == [0] * 1000
    printed, told, status = server.ended()
    assert (told, status) == ("", 0), (told, status)
    is_whole(printed, 1000)


def try_a_file():
    for workers in 1, 4:
        server = Server("--trace", "{file}", workers=workers)
        assert not any(server.session(30_000))
        assert server.ended() == (b"", "", 0)
        is_whole(server.traced(), 30_000)


def try_none():
    server = Server("--trace", "none", workers=4)
    assert not any(server.session(1000))
    assert server.ended() == (b"", "", 0)
    assert os.listdir(server.folder.name) == []


def try_a_file_that_is_there():
    server = Server("--trace", sys.argv[0])
    assert server.ended() == (b"", "cannot trace\n", 2)
    server = Server("--trace", "/nowhere/at/all")
    assert server.ended() == (b"", "cannot trace\n", 2)


def try_no_socket():
    """Where nobody can connect, no empty file is left."""
    server = Server("--trace", "{file}")
    other = run("serve", "", "--trace", f"{server.file}.other")
    assert (other.stderr, other.returncode) == (b"cannot listen\n", 2), other
    assert not os.path.exists(f"{server.file}.other")
    server.session(1)
    server.ended()


def server_peaks(server, *counts):
    """Its peak after each of these counts of orders, in one session."""
    peaks, unique = [], 3
    with server.connect() as client:
        client.sendall(INIT + CREATE)
        take(client, 80 + 160)
        for count in counts:
            while unique < 3 + count:
                uniques = range(unique, min(unique + 512, 3 + count))
                client.sendall(b"".join(map(setlk, uniques)))
                assert len(take(client, 16 * len(uniques))) == 16 * len(uniques)
                unique = uniques.stop
            peaks.append(peak(server.serving))
    return peaks


def check_peak(trace):
    """What `lockd check` has had once it took in a trace, which has to be legal."""
    with subprocess.Popen([tries.PROGRAM, "check"], stdin=subprocess.PIPE, stdout=subprocess.PIPE) as checking:
        ending = threading.Timer(PATIENCE + len(trace) / 4e6, checking.kill)
        ending.start()
        checking.stdin.write(trace)
        checking.stdin.flush()
        waits = array.array("i", [1])

        def is_read():
            fcntl.ioctl(checking.stdin, termios.FIONREAD, waits)
            return not waits[0]

        tries.wait_until(is_read)
        assert is_read(), "it doesn't read on"
        found = peak(checking)
        checking.stdin.close()
        assert checking.stdout.read() == b"legal\n"
        ending.cancel()
    return found


def try_memory_stays():
    """Where no line is kept, many orders take as much memory as few, and `check` has little of them."""
    said = []
    for words, workers in (["none"], 4), (["{file}"], 1), (["{file}"], 4):
        server = Server("--trace", *words, workers=workers)
        few, many = server_peaks(server, FEW, MANY)
        assert server.ended() == (b"", "", 0)
        assert many < few + 1024, (words, workers, few, many)
        said.append(f"{few} to {many}")
        if words != ["none"]:
            checked = check_peak(server.traced())
            assert checked < 4096, checked
            said.append(f"check {checked}")
    return f"kilobytes: {', '.join(said)}"


def try_killed():
    """What a server leaves that is killed in the middle of 200,000 orders is a beginning of a legal trace, perhaps with a cut line. One
    worker leaves the line of each reply that its client has, several all but those of some 64 KB of lines."""
    lost = []
    for workers in 1, 4:
        server = Server("--trace", "{file}", workers=workers)
        with server.connect() as client:
            client.sendall(INIT + CREATE)
            take(client, 80 + 160)

            def send():
                with contextlib.suppress(OSError):
                    for first in range(3, 3 + 200_000, 64):
                        client.sendall(b"".join(map(setlk, range(first, first + 64))))

            sending = threading.Thread(target=send)
            sending.start()
            take(client, 16 * 100_000)
            server.serving.kill()
            sending.join()
            more = 0
            with contextlib.suppress(ConnectionError):
                while piece := client.recv(65_536):
                    more += len(piece)
        server.serving.wait()
        traced = server.traced()
        assert traced.count(b"\n") > 100_000, traced.count(b"\n")
        said = judged(traced, "--cut")
        assert said in ("begins\n", "legal\n"), said
        told = traced[:traced.rindex(b"\n")].count(b"\ntell ")
        lost.append(1 + 100_000 + more // 16 - told)
    assert lost[0] <= 0 and lost[1] < 2000, lost
    return f"{max(0, lost[1])} lost with 4 workers"


def try_a_device_that_is_always_full():
    """It is there already, so it can't be a trace's file. A printed trace that it doesn't take is told."""
    server = Server("--trace", "/dev/full")
    assert server.ended() == (b"", "cannot trace\n", 2)
    with open("/dev/full", "wb") as full:
        server = Server(printed=full)
        assert not any(server.session(1000))
        assert server.ended() == (None, "write failed\n", 2)


def try_a_full_file_goes_on():
    for workers in 1, 4:
        server = Server("--trace", "{file}", workers=workers, before=limited(100_000))
        assert not any(server.session(40_000))
        assert server.ended() == (b"", f"{full(server)}trace failed\n", 2)
        assert len(server.traced()) == 100_000


FULL = 100_000


def refusing(workers):
    """A server that refuses orders while its trace's file can't be written, which may have so many bytes."""
    def limit():
        ignores_signal()
        resource.setrlimit(resource.RLIMIT_FSIZE, (FULL, resource.RLIM_INFINITY))

    return Server("--trace", "{file}", "--trace-full", "refuse", workers=workers, before=limit)


def can_read(client, seconds=0.0):
    return bool(select.select([client], [], [], seconds)[0])


def came(server, client, wanted):
    """The replies to so many orders, or those that came before the file was full and no other came for half a second. Of each order that was
    taken the file has the lines."""
    found = []
    while len(found) < wanted:
        tries.wait_until(lambda: can_read(client) or os.path.getsize(server.file) == FULL)
        if not can_read(client, 0.5):
            break
        found += replies(take(client, 16))
    traced = server.traced()
    lacking = [unique for unique, error in found if not error and b"\ntell %d ok\n" % unique not in traced]
    assert not lacking, lacking
    return found


def fill(server, client, step):
    """Locks and unlocks, so many at a time, until replies don't come. Gives all replies, and how many orders wait for theirs."""
    client.sendall(INIT + CREATE)
    take(client, 80 + 160)
    found = []
    for first in range(3, 3 + 10_000, step):
        client.sendall(b"".join(map(setlk, range(first, first + step))))
        more = came(server, client, step)
        found += more
        if len(more) < step:
            return found, step - len(more)
    raise AssertionError("the file isn't full")


def is_whole_again(server, told):
    """The server ended well, and its trace is legal and has the orders that were taken: those with no error."""
    assert server.ended() == (b"", f"{full(server)}{server.file} is written again\n", 0)
    is_whole(server.traced(), [error for _, error in told].count(0))


def try_a_full_file_refuses():
    """Replies whose lines can't be written wait, and other orders are refused. Once the file can be written, all goes on."""
    said = []
    for workers, step in (2, 1), (4, 1), (4, 64):
        server = refusing(workers)
        with server.connect() as client:
            told, waiting = fill(server, client, step)
            assert {error for _, error in told} <= {0, ENOMEM}, told
            last = len(told) + waiting + 3
            client.sendall(b"".join(map(setlk, range(last, last + 64))))
            more = replies(take(client, 16 * 64))
            assert sorted(more) == [(unique, ENOMEM) for unique in range(last, last + 64)], more
            assert not can_read(client, 0.3)
            may_have(server)
            told += more + came(server, client, waiting)
            client.sendall(setlk(last + 64))
            told += replies(take(client, 16))
            assert told[-1] == (last + 64, 0), told[-1]
        assert sorted(unique for unique, _ in told) == [*range(3, last + 65)]
        is_whole_again(server, told)
        said.append(f"{waiting} of {step}")
    return f"waited: {', '.join(said)}"


def limit_to(server, more):
    """The server's file may have so many bytes more."""
    may_have(server, os.path.getsize(server.file) + more)


def of_two_digits(server, client):
    """The bytes of the lines of each order whose unique has two digits, at a worker whose number has one."""
    client.sendall(INIT + CREATE)
    take(client, 80 + 160)
    before = os.path.getsize(server.file)
    client.sendall(setlk(10))
    take(client, 16)
    return os.path.getsize(server.file) - before


def try_replies_leave_before_a_worker_waits():
    """Of two orders at once the file has room for one. That one is answered, though nothing else comes."""
    for workers in 2, 9:
        server = refusing(workers)
        with server.connect() as client:
            size = of_two_digits(server, client)
            for unique in range(11, 51, 2):
                limit_to(server, size)
                client.sendall(setlk(unique) + setlk(unique + 1))
                told = replies(take(client, 16))
                assert not can_read(client, 0.01)
                may_have(server)
                told += replies(take(client, 16))
                assert sorted(told) == [(unique, 0), (unique + 1, 0)], told
        server.ended()
        is_whole(server.traced(), 41)


def try_a_worker_waits_for_its_own_lines():
    """Of two orders that wait for their lines, one is answered once the file has room for its own."""
    server = refusing(2)
    with server.connect() as client:
        size = of_two_digits(server, client)
        for unique in range(11, 51, 2):
            limit_to(server, 0)
            client.sendall(setlk(unique))
            assert not can_read(client, 0.02)
            limit_to(server, size)
            client.sendall(setlk(unique + 1))
            assert replies(take(client, 16)) == [(unique, 0)] and not can_read(client, 0.01)
            may_have(server)
            assert replies(take(client, 16)) == [(unique + 1, 0)]
    server.ended()
    is_whole(server.traced(), 41)


def try_a_client_that_goes_while_the_file_is_full():
    """The server ends once the lines are written, and sends the reply that waited."""
    server = refusing(2)
    with server.connect() as client:
        told, waiting = fill(server, client, 1)
        client.shutdown(socket.SHUT_WR)
        assert waiting == 1 and not can_read(client, 0.5) and server.serving.poll() is None
        may_have(server)
        told += replies(take(client, 32))
    is_whole_again(server, told)


def try_killed_while_the_file_is_full():
    """The order whose reply waits is lost, and no other."""
    server = refusing(2)
    with server.connect() as client:
        told, waiting = fill(server, client, 1)
        server.serving.terminate()
        assert (waiting, take(client, 16)) == (1, b"")
    assert server.ended() == (b"", full(server), -signal.SIGTERM)
    traced = server.traced()
    assert judged(traced, "--cut") in ("begins\n", "legal\n")
    assert not any(error for _, error in told) and traced[:traced.rindex(b"\n")].count(b"\ntell ") == len(told) + 1


def try_one_worker_cannot_refuse():
    """While it waits, nobody would."""
    with tempfile.TemporaryDirectory() as folder:
        ran = run("serve", f"{folder}/socket", "--workers", "1", "--trace", f"{folder}/trace", "--trace-full", "refuse")
        wanted = "error: '--trace-full refuse' takes two workers or more: while one waits to write, another refuses orders\n"
        assert (ran.stdout, ran.returncode, os.listdir(folder)) == (b"", 2, []) and ran.stderr.decode().startswith(wanted), ran


def try_a_full_file_is_told_when_it_comes():
    """Before the session ends."""
    server = Server("--trace", "{file}", before=limited(100))
    with server.connect() as client:
        client.sendall(INIT + CREATE + setlk(3))
        take(client, 80 + 160 + 16)
        said = server.tells()
        assert said == full(server), said
    assert server.ended() == (b"", "trace failed\n", 2)


def try_a_file_that_is_cut_off_has_no_hole():
    """Lines that come behind one that was cut to nothing stand at its front. That it was cut is told."""
    server = Server("--trace", "{file}")
    with server.connect() as client:
        client.sendall(INIT + CREATE)
        take(client, 80 + 160)
        os.truncate(server.file, 0)
        client.sendall(setlk(3))
        take(client, 16)
        assert server.traced() == b"ask 0 3 2 0 0 0 setlk 1 7 0 0 2 11 0\ntell 3 ok\n", server.traced()
    assert server.ended() == (b"", f"{server.file} was cut\ntrace failed\n", 2)


def try_a_new_file_that_another_program_writes_to():
    """That is told when orders come, or at the end."""
    for workers in 1, 4:
        server = Server("--trace", "{file}", workers=workers)
        with server.connect() as client:
            client.sendall(INIT + CREATE)
            take(client, 80 + 160)
            with open(server.file, "ab") as it:
                it.write(b"notes\n")
        assert server.ended() == (b"", f"{server.file} was written to by another program\ntrace failed\n", 2)


def try_a_file_that_goes():
    """A trace's file that was removed is put back by the end. Of one whose name another has taken, that is told."""
    for workers in 1, 4:
        for take_away, told, status in (
                (os.remove, "{} was moved or removed, and is there again\n", 0),
                (lambda file: os.replace(shutil.copy(file, f"{file}.copy"), file), "{} was replaced, and can't be put back: another file is there\ntrace failed\n", 2)):
            server = Server("--trace", "{file}", workers=workers)
            with server.connect() as client:
                client.sendall(INIT + CREATE)
                take(client, 80 + 160)
                # Several workers write lines soon, and an empty file would be replaced.
                tries.wait_until(server.traced)
                take_away(server.file)
                client.sendall(setlk(3))
                assert len(take(client, 16)) == 16
            assert server.ended() == (b"", told.format(server.file), status)
            assert status or judged(server.traced()) == "legal\n" and server.traced().endswith(b"\ntell 3 ok\n")


def try_a_fair_server():
    """A reader waits behind a writer, whom then an interrupt ends. The trace is legal where `check` has the server's rules, and else differs
    where the reader should have its lock at once."""
    for workers in 1, 4:
        server = Server("--fair", "--trace", "{file}", workers=workers)
        with server.connect() as client:
            for order, size in (INIT + CREATE, 80 + 160), (lock(SETLK, 3, 7, 0, READ_LOCK), 16):
                client.sendall(order)
                take(client, size)
            for order, lines in (lock(SETLKW, 4, 8, 0, WRITE_LOCK), 5), (lock(SETLKW, 6, 9, 0, READ_LOCK), 6):
                client.sendall(order)
                tries.wait_until(lambda: server.traced().count(b"\n") >= lines)
            client.sendall(interrupt(8, 4))
            assert replies(take(client, 32)) == [(4, EINTR), (6, 0)]
        assert server.ended() == (b"", "", 0)
        assert judged(server.traced(), "--fair") == "legal\n"
        assert judged(server.traced()) == "differs 7\n"


if __name__ == "__main__":
    sys.exit(tries.main("serve/traces", globals()))
