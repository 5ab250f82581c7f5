"""Tries `serve` and `drive` of the built `lockd` over sockets: what they write, and how they end.

A server meets a client of the script's own, a client meets a server of it, and both meet each other. `tries.py` says how it ends.
"""
import contextlib
import itertools
import os
import socket
import struct
import sys
import tempfile
import threading
import time

from tests import fuse
from tests import tries
from tests.fuse import ENOLCK, READ_LOCK, SETLK, WRITE_LOCK
from tests.serve.kit import BAD, Client, trace_of, tracing
from tests.tries import CREATE, INIT, INIT_REPLY, Server, cases, fails_to_read, fills_up, judged, line_of, lock, marked, replies, run, setlk, take, text_of

SHORT = "10000000f5ffffff0400000000000000\n"
# The worked session with two locks: what its client sends behind an INIT, and what it gets.
TWO_LOCKS = dict(cases(text_of("tests/cases/bytes.txt")))["a read lock under another's write lock"]
SENT, GOT = (marked(TWO_LOCKS, mark).replace("INIT\n", "") for mark in ("> ", "< "))


# ---- servers

def slowly(server, sent):
    """Sends these bytes two at a time with pauses, of which many are longer than a look, closes its side, and gives all that comes."""
    with Client(server) as client:
        for number, at in enumerate(range(0, len(sent), 2)):
            client.send(sent[at:at + 2])
            if number % 4:
                time.sleep(0.001)
        client.closes()
        return take(client.socket, sys.maxsize)


def try_a_client_that_sends_slowly():
    """The worked session, with three ends."""
    for behind, told in (b"", ""), (BAD, "bad length 39\n"), (struct.pack("<I", 56), "cut\n"):
        for workers in 1, 4:
            server = Server(workers=workers)
            came = slowly(server, INIT + bytes.fromhex(SENT) + behind)
            if workers == 1:
                assert came == INIT_REPLY + bytes.fromhex(GOT), came
            assert came[:80] == INIT_REPLY and len(replies(came)) == 4, came
            trace_of(server, told=told, lines=6)


def sends_slowly(client, uniques):
    """Sends these locks one at a time, so that most replies are writes of their own, and come while the server looks for the next message."""
    for unique in uniques:
        client.sendall(setlk(unique))
        until = time.monotonic() + 15e-6
        while time.monotonic() < until:
            pass


def try_a_client_that_reads_late():
    """Again and again it reads nothing for a while, until no more replies have room. Each reply comes once."""
    last = 12_000
    for workers in 1, 4:
        server = Server(workers=workers)
        with Client(server) as client:
            client.begin()
            sender, came = threading.Thread(target=sends_slowly, args=(client.socket, range(3, last + 1))), b""
            sender.start()
            while len(came) < fuse.BARE_SIZE * (last - 2):
                time.sleep(0.01)
                more = client.socket.recv(1500)
                assert more, "the server ended"
                came += more
            sender.join()
            client.closes()
            assert client.rest() == [], "more came"
        assert sorted(replies(came)) == [(unique, 0) for unique in range(3, last + 1)], len(replies(came))
        trace_of(server, lines=2 * (last - 1))


def try_paths_that_cannot_be_bound():
    """A path at which somebody listens, who goes on, one at which there is a file, which stays, one that can't be, and an empty one."""
    with tempfile.TemporaryDirectory() as folder, tempfile.NamedTemporaryFile() as file:
        with socket.socket(socket.AF_UNIX) as listener, socket.socket(socket.AF_UNIX) as client:
            listener.bind(f"{folder}/socket")
            listener.listen()
            for path in f"{folder}/socket", file.name, "/nowhere/at/all", "":
                ran = run("serve", path, "--workers", "4")
                assert (ran.stdout, ran.stderr, ran.returncode) == (b"", b"cannot listen\n", 2), ran
            client.connect(f"{folder}/socket")
        assert os.path.exists(file.name)


def puts_a_file(path):
    with open(path, "w", encoding="ascii") as file:
        file.write("of somebody else\n")


def puts_a_socket(path):
    with socket.socket(socket.AF_UNIX) as other:
        other.bind(path)


def puts_a_link(path):
    os.symlink("moved", path)


def which(path):
    """Which file is at a path, and of what kind and size."""
    found = os.lstat(path)
    return found.st_dev, found.st_ino, found.st_mode, found.st_size


def try_a_file_of_somebody_else():
    """While the server listens, somebody renames its socket, and then renames another file to its path. A client connects by the new name. The other
    file stays: a plain one, another socket, a pipe, a folder, or a link to the server's own socket."""
    for workers, puts in itertools.product((1, 4), (puts_a_file, puts_a_socket, os.mkfifo, os.mkdir, puts_a_link)):
        server = tracing("none", workers=workers)
        tries.wait_until(lambda: os.path.exists(server.path) and is_accepting(server))
        theirs, moved = f"{server.folder.name}/theirs", f"{server.folder.name}/moved"
        puts(theirs)
        before = which(theirs)
        os.rename(server.path, moved)
        os.rename(theirs, server.path)
        listens_at, server.path = server.path, moved
        with Client(server) as client:
            client.begin()
            assert which(listens_at) == before, puts
        assert server.ended() == (b"", "", 0)
        assert which(listens_at) == before, puts
        assert sorted(os.listdir(server.folder.name)) == ["moved", "socket"]


def is_accepting(server):
    """It waits for a connection. The first word of the file is the call's number."""
    with open(f"/proc/{server.serving.pid}/syscall", encoding="ascii") as file:
        return file.read().split()[0] in ("43", "288")


# ---- both

def drive(server, text):
    """A client, once the server listens: where nobody does, none has sent anything."""
    last = time.monotonic() + tries.PATIENCE
    while True:
        ran = run("drive", server.path, text=text.encode())
        if ran.stderr != b"cannot connect\n" or time.monotonic() > last:
            return ran
        time.sleep(0.01)


def driven(server, text):
    """What the client prints, which ends well."""
    ran = drive(server, text)
    assert (ran.stderr, ran.returncode) == (b"", 0), ran
    return ran.stdout.decode()


def try_a_session_of_both():
    server = Server()
    printed = driven(server, f"{line_of(INIT)}recv 1\n{SENT}recv 3\n")
    assert printed == line_of(INIT_REPLY) + GOT, printed
    trace_of(server, lines=6)


def try_a_bad_length_of_a_client():
    server = Server()
    ran = drive(server, f"{line_of(INIT)}recv 1\n00000000\nrecv 1\n")
    assert (ran.stdout.decode(), ran.stderr, ran.returncode) == (line_of(INIT_REPLY), b"cut\n", 2), ran
    assert trace_of(server, told="bad length 0\n") == ""


def hundred_files():
    """The CREATE of a hundred files, sent before a reply is waited for, and a DESTROY."""
    files = (fuse.create(it + 2, b"f%02d" % it, 0o100644) for it in range(100))
    return f"{line_of(INIT)}recv 1\n{''.join(map(line_of, files))}recv 100\n{line_of(fuse.destroy(255))}recv 1\n"


def try_a_hundred_files():
    """Each is made, and the reply to the DESTROY comes last."""
    for workers, way in itertools.product((1, 2, 4, 16), ("printed", "file", "none")):
        server = tracing(way, workers=workers)
        printed = driven(server, hundred_files()).splitlines()
        assert sum(len(it) == 320 and it.startswith("a000000000000000") for it in printed) == 100, printed
        assert len(printed) == 102 and printed[-1] == "1000000000000000ff00000000000000", printed
        trace_of(server, way, lines=200)


def try_room_for_one_run():
    """Of two locks one finds no room. So the trace is legal under the server's rules, and under the standard ones it isn't."""
    locks = line_of(lock(SETLK, 3, 7, 0, WRITE_LOCK)) + line_of(lock(SETLK, 4, 8, 20, READ_LOCK))
    sent = f"{line_of(INIT)}recv 1\n{line_of(CREATE)}recv 1\n{locks}recv 2\n"
    for workers, way in itertools.product((1, 4), ("printed", "file", "none")):
        server = tracing(way, "--runs", "1", workers=workers)
        errors = [error for _, error in replies(bytes.fromhex(driven(server, sent)))]
        assert sorted(errors) == [0, 0, 0, ENOLCK], errors
        trace = trace_of(server, way, lines=6, options=("--runs", "1"))
        assert trace is None or judged(trace.encode()) == "differs 6\n", trace


# ---- clients

@contextlib.contextmanager
def listening(serve):
    """A path at which the one client that comes is served so, in a thread."""
    with tempfile.TemporaryDirectory(prefix="try-drive-") as folder, socket.socket(socket.AF_UNIX) as listener:
        listener.bind(f"{folder}/socket")
        listener.settimeout(tries.PATIENCE)
        listener.listen()

        def accept():
            with listener.accept()[0] as client:
                client.settimeout(tries.PATIENCE)
                serve(client)

        serving = threading.Thread(target=accept)
        serving.start()
        try:
            yield f"{folder}/socket"
        finally:
            serving.join()


def answers(sent, bytes_):
    """A server that sends these bytes, closes its side, and notes all that comes. A client that goes before it has read all ends it."""
    def serve(client):
        with contextlib.suppress(OSError):
            client.sendall(bytes_)
            client.shutdown(socket.SHUT_WR)
            while more := client.recv(1 << 16):
                sent.extend(more)

    return serve


def meets(text, bytes_, wanted, printed, told=""):
    """A client with these lines sends what is wanted, and prints and tells this of the server's bytes."""
    sent = bytearray()
    with listening(answers(sent, bytes_)) as path:
        ran = run("drive", path, text=text.encode())
    assert (ran.stdout.decode(), ran.stderr.decode(), ran.returncode) == (printed, told, 2 if told else 0), (text, ran)
    assert sent == wanted, (text, sent)


def try_stored_replies():
    found = cases(text_of("tests/cases/drive.txt"))
    for _, case in found:
        bytes_, wanted = (bytes.fromhex(marked(case, mark)) for mark in ("+ ", "= "))
        meets(marked(case, "> "), bytes_, wanted, marked(case, "< "), marked(case, "! "))
    assert len(found) == 10, len(found)


def try_many_replies_and_the_longest():
    """As many as one line can wait for, and one of 8,192 bytes."""
    longest = f"00200000{'00' * 8188}\n"
    meets("recv 1000\n", bytes.fromhex(SHORT * 1000), b"", SHORT * 1000)
    meets("recv 1\n", bytes.fromhex(longest), b"", longest)


def try_a_read_of_a_reply_that_fails():
    """The server reads one of two bytes, sends so many of a reply, and goes."""
    for left in 0, 1, 3:
        def serve(client, left=left):
            client.recv(1)
            client.sendall(b"\x10\0\0\0"[:left])

        with listening(serve) as path:
            ran = run("drive", path, text=b"0102\nrecv 1\n")
        assert (ran.stdout, ran.stderr, ran.returncode) == (b"", b"read failed\n", 2), (left, ran)


def try_a_request_that_cannot_be_sent():
    """The first reply comes when the server takes no more. The second isn't waited for."""
    def serve(client):
        client.shutdown(socket.SHUT_RD)
        client.sendall(bytes.fromhex(SHORT * 2))

    with listening(serve) as path:
        ran = run("drive", path, text=b"recv 1\n0102\nrecv 1\n")
    assert (ran.stdout.decode(), ran.stderr, ran.returncode) == (SHORT, b"write failed\n", 2), ran


def try_a_reply_that_cannot_be_printed():
    for left in 0, 1, 3:
        sent = bytearray()
        with listening(answers(sent, bytes.fromhex(SHORT))) as path:
            ran = fills_up("drive", path, text=b"0102\nrecv 1\n", left=left)
        assert ran == (b"write failed\n", 2), (left, ran)
        assert sent == b"\1\2", sent


def try_an_input_that_fails():
    """It is read before anything is connected."""
    for text in b"", b"\n\n\n", b"0102\nrecv 1\n":
        ran = fails_to_read("drive", "/nowhere/at/all", text=text)
        assert ran == (b"", b"read failed\n", 2), ran


def refuses(text, told):
    ran = run("drive", "/nowhere/at/all", text=text.encode())
    assert (ran.stdout, ran.stderr.decode(), ran.returncode) == (b"", told, 2), (text, ran)


def try_bad_lines_of_a_client():
    """Each is the first or the third of a text, and no more than that is told: nothing is connected."""
    lines = """\
recv 0
recv 1001
recv 01
recv 4294967297
recv
recv\x20
recv 1\x20
recv  1
recv +1
recv -1
recv 1x
recv 1\r
recv one
recv \u0661
Recv 1
 recv 1
recv1
0
0g
01 02
0x01""".split("\n")
    for line in lines:
        refuses(f"{line}\n0102\n", "bad line 1\n")
        refuses(f"0102\nrecv 1000\n{line}\nzz\n", "bad line 3\n")
    refuses("01", "bad line 1\n")
    refuses("01\nrecv 1", "bad line 2\n")
    return f"{len(lines)} refused"


def try_nobody_listens():
    """At no file, at one that isn't a socket's, at one that was left over, at an empty path, and at one that is too long for a socket."""
    with tempfile.TemporaryDirectory() as folder, tempfile.NamedTemporaryFile() as file:
        with socket.socket(socket.AF_UNIX) as listener:
            listener.bind(f"{folder}/socket")
        for path in f"{folder}/none", file.name, f"{folder}/socket", "", "x" * 200:
            for text in b"", b"0102\nrecv 1\n":
                ran = run("drive", path, text=text)
                assert (ran.stdout, ran.stderr, ran.returncode) == (b"", b"cannot connect\n", 2), (path, ran)


if __name__ == "__main__":
    sys.exit(tries.main("serve/sockets", globals()))
