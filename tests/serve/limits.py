"""Tries the built `lockd` where the system has no more to give: open files, threads, letters of a path, room of an output; with a client that
doesn't read; and with almost as many files as there can be.

Each function `try_..` is one thing that is tried. `tries.py` says how it ends.
"""
import ctypes
import fcntl
import itertools
import os
import resource
import shutil
import struct
import subprocess
import sys
import tempfile
import termios
import threading
import time

from tests import fuse
from tests import tries
from tests.serve import kit
from tests.tries import CREATE, INIT, PATIENCE, PROGRAM, Server, judged, replies, run, setlk, take

SCRIPT = b"ask 0 1 1 0 0 0 create 0 420 61\n"
NOBODY = 65534


def with_three_open_files(*words, text):
    """Runs a command that may open no file but its standard streams, from the moment on when it reads."""
    running = subprocess.Popen([PROGRAM, *words], stdin=subprocess.PIPE, stdout=subprocess.PIPE, stderr=subprocess.PIPE)
    tries.wait_until(lambda: is_reading(running))
    resource.prlimit(running.pid, resource.RLIMIT_NOFILE, (3, 3))
    printed, told = running.communicate(text, timeout=PATIENCE)
    return printed, told.decode(), running.returncode


def is_reading(process):
    """It waits in a read of standard input. The first word of the file is a call's number, and the second what it is called with."""
    with open(f"/proc/{process.pid}/syscall", encoding="ascii") as file:
        return file.read().split()[:2] == ["0", "0x0"]


def try_three_open_files():
    """Commands without a socket need no other, and a client can't connect."""
    printed, told, status = with_three_open_files("script", text=SCRIPT)
    assert printed.startswith(SCRIPT) and (told, status) == ("", 0), (told, status)
    assert with_three_open_files("check", text=printed) == (b"legal\n", "", 0)
    assert with_three_open_files("bytes", text=INIT.hex().encode() + b"\n")[1:] == ("", 0)
    server = Server()
    server.listens()
    assert with_three_open_files("drive", server.path, text=b"") == (b"", "cannot connect\n", 2)
    server.session(1)
    assert server.ended()[1:] == ("", 0)


def try_four_open_files():
    """A server listens with the fourth, and can't accept, for which the system wants a fifth before anybody comes. It takes its socket's
    file away."""
    server = Server(before=lambda: resource.setrlimit(resource.RLIMIT_NOFILE, (4, 4)))
    assert server.ended() == (b"", "cannot listen\n", 2)
    assert not os.path.exists(server.path)


def alone(threads):
    """A user who may have so many threads in all."""
    def becomes():
        if os.getuid() == 0:
            os.setgroups([])
            os.setgid(NOBODY)
            os.setuid(NOBODY)
        resource.setrlimit(resource.RLIMIT_NPROC, (threads, threads))

    return becomes


def starved(server):
    """What a server says to its client that has no threads for its workers."""
    with server.connect() as client:
        try:
            client.sendall(INIT + CREATE)
            found = client.recv(1)
        except (ConnectionResetError, BrokenPipeError):
            found = b""
    return found, *server.ended()


def try_no_threads():
    """None can be started, or some of three, or with `refuse` of four. Nothing is read, nothing is printed, and those that were started end. The trace's file
    goes, and none that has taken its place."""
    to_file = "--trace", "{file}"
    with tempfile.TemporaryDirectory(prefix="try-lockd-") as folder:
        os.chmod(folder, 0o755)
        program = shutil.copy(PROGRAM, folder)
        os.chmod(program, 0o755)
        for options, most, left in ((), 3, []), (to_file, 3, []), (to_file, 3, ["trace"]), ((*to_file, "--trace-full", "refuse"), 4, []):
            for threads in range(1, most + 1):
                server = Server(*options, workers=4, before=alone(threads), program=program)
                server.listens()
                if left:
                    os.replace(shutil.copy(program, f"{server.file}.other"), server.file)
                came, printed, told, status = starved(server)
                stays = f"{server.file} was replaced, and can't be put back: another file is there\n"
                assert (came, printed, told.removeprefix(stays if left else ""), status) == (b"", b"", "no memory\n", 2), (threads, options, told)
                assert os.listdir(server.folder.name) == left, (threads, options)


def at_a_path(length):
    """What a server and a client say where the socket's path has so many bytes."""
    server = Server()
    path = f"{server.folder.name}/".ljust(length, "x")
    serving = subprocess.Popen([PROGRAM, "serve", path], stdout=subprocess.PIPE, stderr=subprocess.PIPE)
    tries.wait_until(lambda: serving.poll() is not None or tries.is_listening(path))
    client = run("drive", path, text=INIT.hex().encode() + b"\nrecv 1\n")
    told = serving.communicate(timeout=PATIENCE)[1]
    server.session(1)
    server.ended()
    return told, serving.returncode, client.stderr, client.returncode


def try_paths():
    """A path has 107 bytes at most."""
    assert at_a_path(107) == (b"", 0, b"", 0)
    assert at_a_path(108) == (b"cannot listen\n", 2, b"cannot connect\n", 2)


def try_a_full_output():
    with open("/dev/full", "wb") as full:
        server = Server(printed=full)
        server.session(100)
        assert server.ended()[1:] == ("write failed\n", 2)
        hexes = INIT.hex().encode() + b"\n"
        for words, text in (["script"], SCRIPT), (["check"], b""), (["bytes"], hexes), (["--version"], b""):
            ran = subprocess.run([PROGRAM, *words], input=text, stdout=full, stderr=subprocess.PIPE, timeout=PATIENCE)
            assert (ran.stderr, ran.returncode) == (b"write failed\n", 2), (words, ran)


def try_an_output_that_is_closed_meanwhile():
    """Nobody reads the trace any more when it is printed."""
    ours, theirs = os.pipe()
    server = Server(printed=theirs)
    os.close(theirs)
    with server.connect() as client:
        client.sendall(INIT + CREATE)
        take(client, 80 + 160)
        os.close(ours)
    assert server.ended()[1:] == ("write failed\n", 2)


def try_a_version_that_is_not_written():
    """A part of the line fits, nobody reads it, or the output is closed from the start."""
    line = run("--version").stdout
    assert line.startswith(b"lockd ") and line.endswith(b"\n"), line
    for option in "--version", "-V":
        for left in range(len(line)):
            assert tries.fills_up(option, text=b"", left=left) == (b"write failed\n", 2), (option, left)
        assert tries.fills_up(option, text=b"", left=len(line)) == (b"", 0), option
        ours, theirs = os.pipe()
        os.close(ours)
        for how in {"stdout": theirs}, {"preexec_fn": lambda: os.close(1)}:
            ran = subprocess.run([PROGRAM, option], stderr=subprocess.PIPE, timeout=PATIENCE, **how)
            assert (ran.stderr, ran.returncode) == (b"write failed\n", 2), (option, how, ran)
        os.close(theirs)


def try_a_closed_output():
    server = Server(printed=None, before=lambda: os.close(1))
    server.session(100)
    assert server.ended()[1:] == ("write failed\n", 2)


def resident(process):
    """Bytes of memory that a process has."""
    with open(f"/proc/{process.pid}/status", encoding="ascii") as file:
        return next(int(it.split()[1]) * 1024 for it in file if it.startswith("VmRSS"))


class Unread:
    """A client that sends locks and unlocks and reads no reply, until it is told to."""

    def __init__(self, server, count):
        self.count, self.sent = count, 0
        self.client = server.connect()
        self.client.sendall(INIT + CREATE)
        take(self.client, 80 + 160)
        self.sending = threading.Thread(target=self.send, daemon=True)
        self.sending.start()

    def send(self):
        self.client.settimeout(None)
        for unique in range(3, 3 + self.count):
            self.client.sendall(setlk(unique))
            self.sent += 1

    def waits(self):
        """It stands in a write. The first word of the file is the call's number."""
        with open(f"/proc/self/task/{self.sending.native_id}/syscall", encoding="ascii") as file:
            return file.read().split()[0] == "44"

    def stand(self, server):
        """Waits until no more goes out for a second, since it waits for the server and each thread of that sleeps. Says how many did."""
        before, still, last = 0, 0, time.monotonic() + 5 * PATIENCE
        while still < 4:
            assert time.monotonic() < last, f"{self.sent} went out, and more do"
            time.sleep(0.25)
            still = still + 1 if before == self.sent and before and self.waits() and tries.states_of(server.serving) == {"S"} else 0
            before = self.sent
        return before

    def read_all(self):
        found = replies(take(self.client, 16 * self.count))
        self.sending.join(PATIENCE)
        return found


def unread(count, *options, workers):
    """The server stops reading where nobody reads its replies. Gives how much memory it took by then, and the server."""
    server = Server(*options, workers=workers)
    client = Unread(server, count)
    first = client.stand(server)
    assert 0 < first < count, first
    stood = resident(server.serving)
    time.sleep(0.5)
    assert client.sent == first and resident(server.serving) - stood < 1 << 20
    assert sorted(client.read_all()) == [(unique, 0) for unique in range(3, 3 + count)]
    grown = resident(server.serving) - stood
    client.client.close()
    return server, first, grown


def try_nobody_reads():
    count = 100_000
    for workers in 1, 4:
        server, _, _ = unread(count, workers=workers)
        printed, told, status = server.ended()
        assert (told, status, printed.count(b"\n")) == ("", 0, 2 * count + 2), (told, status)
        assert judged(printed) == "legal\n"


def try_nobody_reads_and_no_trace_is_kept():
    """Memory doesn't grow: some megabyte is that of threads which ran for the first time."""
    for workers in 1, 4:
        server, _, grown = unread(100_000, "--trace", "none", workers=workers)
        assert grown < 2 << 20, grown
        assert server.ended() == (b"", "", 0)


# ---- many files

# By ptrace(2), a process goes on by one instruction, or is stopped so that it can be led.
STEP, ATTACH, DETACH = 9, 16, 17
LIBC = ctypes.CDLL(None, use_errno=True)
LIBC.ptrace.argtypes, LIBC.ptrace.restype = [ctypes.c_long] * 4, ctypes.c_long

# How long replies are that have more than a header. A FORGET gets none.
SIZES = {fuse.LOOKUP: fuse.ENTRY_SIZE, fuse.GETATTR: fuse.ATTR_SIZE, fuse.OPEN: fuse.OPEN_SIZE, fuse.CREATE: fuse.CREATE_SIZE, fuse.FORGET: 0}


def size_of(messages):
    """How long their replies are."""
    return sum(SIZES.get(fuse.opcode_of(it), fuse.BARE_SIZE) for it in messages)


class Stepped:
    """A server with so many files, each open and locked, whose instructions are counted: it makes one, and waits. Files and open files get numbers in
    turn, so each is known before. One file is asked for far from the next."""

    def __init__(self, count):
        self.count, self.file, self.node, self.fh, self.uniques = count, 0, 2 + count, 1 + count, itertools.count(2)
        self.server = Server("--trace", "none", "--files", "65536", "--open", "65536", "--runs", "65536")
        self.pid = self.server.serving.pid
        self.client = self.server.connect()
        self.client.sendall(INIT)
        take(self.client, fuse.INIT_SIZE)
        for first in range(0, count, 400):
            files = range(first, min(first + 400, count))
            self.ask([self.create(it) for it in files])
            self.ask([self.lock(2 + it, 1 + it, 7, 0) for it in files])

    def create(self, file):
        return fuse.create(next(self.uniques), b"%d" % file)

    def lock(self, node, fh, owner, first):
        return fuse.lock(fuse.SETLK, next(self.uniques), owner, first, first + 9, fuse.WRITE_LOCK, node, fh)

    def some(self, count):
        for _ in range(count):
            self.file = (self.file + 7_919) % self.count
            yield self.file

    def opened(self):
        self.fh += 1
        return self.fh - 1

    def lookups(self):
        return [fuse.lookup(next(self.uniques), b"%d" % it) for it in self.some(20)]

    def getattrs(self):
        return [fuse.getattr_(next(self.uniques), 2 + it) for it in self.some(20)]

    def opens(self):
        return [it for file in self.some(10) for it in (fuse.open_(next(self.uniques), 2 + file), fuse.release(next(self.uniques), 2 + file, self.opened()))]

    def locks(self):
        return [it for file in self.some(10)
                for it in (self.lock(2 + file, 1 + file, 8, 20), fuse.flush(next(self.uniques), 2 + file, 1 + file, 8))]

    def creates(self):
        found = []
        for file in range(self.count, self.count + 5):
            fh, name = self.opened(), b"%d" % file
            found += [self.create(file), self.lock(self.node, fh, 7, 0), fuse.release(next(self.uniques), self.node, fh),
                      fuse.unlink(next(self.uniques), name), fuse.forget(next(self.uniques), self.node)]
            self.node += 1
        return found

    def ask(self, messages):
        """All are answered well."""
        self.client.sendall(b"".join(messages))
        self.came(messages)

    def came(self, messages):
        wrong = [it for it in replies(take(self.client, size_of(messages))) if it[1]]
        assert not wrong, wrong

    def trace(self, request):
        if LIBC.ptrace(request, self.pid, 0, 0):
            raise OSError(ctypes.get_errno(), os.strerror(ctypes.get_errno()))

    def begin(self):
        """It sleeps in a read of the socket, and makes no more instructions but those that are counted."""
        tries.wait_until(lambda: kit.is_reading(self.server))
        self.trace(ATTACH)
        os.waitpid(self.pid, 0)

    def instructions(self, messages, most):
        """How many it makes until all replies to these messages are at hand, give or take 32, or that there are more than this."""
        count, step, size = 0, LIBC.ptrace, size_of(messages)
        self.client.sendall(b"".join(messages))
        while count < most and struct.unpack("<i", fcntl.ioctl(self.client, termios.FIONREAD, bytes(4)))[0] < size:
            for _ in range(32):
                step(STEP, self.pid, 0, 0)
                os.waitpid(self.pid, 0)
            count += 32
        assert count < most, f"messages of opcode {fuse.opcode_of(messages[0])} took more than {most} instructions"
        self.came(messages)
        return count

    def end(self):
        self.trace(DETACH)
        self.client.close()
        assert self.server.ended() == (b"", "", 0)


def try_orders_on_60000_files():
    """They take as many instructions as on 16, or half as many more at most: what an order looks through doesn't grow with the number of files. Unlike
    times, that is so on any machine."""
    few, many = Stepped(16), Stepped(60_000)
    try:
        few.begin()
        many.begin()
    except OSError as error:
        return f"not tried: no process can be traced here: {error}"
    said = []
    for kind in Stepped.lookups, Stepped.getattrs, Stepped.opens, Stepped.locks, Stepped.creates:
        least = few.instructions(kind(few), 1 << 20)
        said.append(f"{kind.__name__} {many.instructions(kind(many), 3 * least // 2) / least:.2f}")
    few.end()
    many.end()
    return ", ".join(said)


if __name__ == "__main__":
    sys.exit(tries.main("serve/limits", globals()))
