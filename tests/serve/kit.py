"""What the scripts of `tests/serve` share that try sessions: stored sessions, a plain server, a client, and what a server leaves.

`tests/shims/calls.c` makes the calls of a server short, fails them and notes them. `tests/fuse.py` lays out messages and replies.
"""
import errno
import fcntl
import itertools
import os
import re
import resource
import signal
import socket
import struct
import termios
import time

from tests import calls
from tests import fuse
from tests import tries
from tests.fuse import DESTROY, EINVAL, INIT, lookup, unique_of
from tests.tries import Server, cases, judged, marked, run, text_of


# ---- stored sessions

class Session:
    """The options of a stored session, its messages, their replies, the lines that they add to the trace, and those before."""

    def __init__(self, title, case):
        def spelled(mark):
            return [bytes.fromhex(it) for it in marked(case, mark).split()]

        self.title, self.options = title, marked(case, "$ ").split()
        self.messages, self.replies = spelled("> "), spelled("< ")
        self.lines, self.before = (marked(case, it).encode() for it in ("= ", ": "))

    @property
    def stream(self):
        return b"".join(self.messages)

    def is_plain(self):
        """It begins with its INIT, is no end by itself, and no unique comes twice."""
        opcodes = [int.from_bytes(it[4:8], "little") for it in self.messages]
        plain = opcodes[0] == INIT and DESTROY not in opcodes and not self.before
        return plain and len({*map(unique_of, self.messages)}) == len(opcodes)


def stored(name):
    """The sessions of a file of such cases. `+ TITLE` stands for the lines of that case."""
    found = dict(cases(text_of(f"tests/cases/{name}.txt")))

    def whole(case):
        return re.sub(r"^\+ (.*)\n", lambda it: whole(found[it[1]]), case, flags=re.M)

    return [Session(title, whole(case)) for title, case in found.items() if not title.isupper()]


SESSIONS = stored("sessions")
# These can be cut into messages, each with what comes of it.
PLAIN = [it for it in SESSIONS if it.is_plain()]
assert len(PLAIN) == 11, len(PLAIN)
WORKED = next(it for it in SESSIONS if it.title == "two locks")
# Its messages and replies, and behind how many bytes each of them ends.
STREAM, ANSWERS = WORKED.stream, b"".join(WORKED.replies)
ENDS, ANSWERED = ([0, *itertools.accumulate(map(len, it))] for it in (WORKED.messages, WORKED.replies))


def whole_in(size):
    """How many of its messages are whole among so many bytes."""
    return sum(end <= size for end in ENDS[1:])


def is_served(session):
    """Both commands give its replies, and a server its trace: printed, in a file, or in a file that had the lines before."""
    if session.before:
        return serves(session, Server("--resume", "{file}", workers=None, traced=session.before))
    ran = run("bytes", *session.options, text=session.stream.hex().encode() + b"\n")
    assert (ran.stderr, ran.returncode) == (b"", 0), (session.title, ran)
    assert ran.stdout.decode().split() == [it.hex() for it in session.replies], (session.title, ran)
    serves(session, Server(*session.options), is_printed=True)
    return serves(session, Server("--trace", "{file}", *session.options))


def serves(session, server, is_printed=False):
    came = server.talk(session.stream)
    assert came == b"".join(session.replies), (session.title, came.hex())
    printed, *ended = server.ended()
    assert ended == ["", 0], (session.title, ended)
    found = (printed, b"") if is_printed else (server.traced(), printed)
    assert found == (session.before + session.lines, b""), (session.title, found)


# ---- a plain server

# The most bytes of replies that go out together.
ROOM = 672


def steps(session):
    """Each message of a plain session, with the lines and the replies that come of it."""
    lines, replies = session.lines.splitlines(True), [*session.replies]
    for sent in session.messages:
        own = []
        while lines and lines[0].startswith(b"ask 0 %d " % unique_of(sent)):
            own.append(lines.pop(0))
            while lines and lines[0].startswith(b"tell "):
                own.append(lines.pop(0))
        told = sum(it.startswith(b"tell ") for it in own)
        count = told if own else bool(replies) and unique_of(replies[0]) == unique_of(sent)
        yield sent, b"".join(own), replies[:count]
        del replies[:count]
    assert not lines and not replies, (session.title, lines, replies)


class Plain:
    """What a server does with a plain session: its calls, and what they moved. It has no model of locks, since the session was laid out by hand with
    what comes of each message.

    It reads if no whole message is at hand. Before that it writes all lines to the file, and then sends the replies; so it does before the reply
    to an INIT too, and if there may be no room for another. `recv`, `send` and `write` say how many bytes a call moves at most, and `fails` has
    the kind, the number and the error of a call that fails. After that it sends nothing more, and if that was no `send`, it ends.
    """

    def __init__(self, session, recv=8192, send=ROOM, write=1 << 16, fails=("none", 0, 0)):
        self.most, self.fails = {"recv": recv, "send": send, "write": write}, fails
        self.calls, self.moved, self.over = [], dict.fromkeys(self.most, b""), set()
        self.lines = self.replies = b""
        rest, at_hand = session.stream, 0
        for sent, lines, replies in [*steps(session), (bytes(1 << 20), b"", [])]:
            while at_hand < len(sent):
                self.hand_on()
                came = self.call("recv", rest)
                if not came:
                    return
                rest, at_hand = rest[len(came):], at_hand + len(came)
            at_hand -= len(sent)
            self.lines += lines
            for reply in replies:
                if fuse.opcode_of(sent) == INIT or len(self.replies) + fuse.CREATE_SIZE > ROOM:
                    self.hand_on()
                self.replies += reply

    def hand_on(self):
        for kind, bytes_ in ("write", self.lines), ("send", self.replies):
            while bytes_ and kind not in self.over:
                bytes_ = bytes_[len(self.call(kind, bytes_)):]
        self.lines = self.replies = b""

    def call(self, kind, bytes_):
        if kind in self.over:
            return b""
        name, number, error = self.fails
        if name == kind and number == 1 + sum(it.startswith(kind) for it in self.calls):
            self.over = {"send"} if kind == "send" else {*self.most}
            self.calls.append(f"{kind} {-error}")
            return b""
        came = bytes_[:self.most[kind]]
        self.calls.append(f"{kind} {len(came)}")
        self.moved[kind] += came
        return came


def shortened(*options, resumes=False, fails=None, **most):
    """A server whose calls are short and fail so, and the file with its calls. Its trace goes to a file too. A `recv` or a `send` fails once, a `write` from
    then on."""
    notes, kinds = calls.new_notes(), {it: [most.get(it, 0)] for it in ("recv", "send", "write")}
    if fails:
        kind, number, error = fails
        kinds[kind] += number, number if kind != "write" else calls.ANY, error
    option, workers = ("--resume", None) if resumes else ("--trace", 1)
    return Server(option, "{file}", *options, workers=workers, env=calls.environment(notes, **kinds)), notes


def are_calls(found, wanted, *what):
    """So, or else the first that differs is told."""
    at = next((at for at, (one, other) in enumerate(itertools.zip_longest(found, wanted)) if one != other), None)
    assert at is None, (*what, "calls", at, found[max(0, at - 2):at + 2], wanted[max(0, at - 2):at + 2])


def is_reading(server):
    """The server's thread that reads sleeps in a read of the socket. The first word of the file is the call's number."""
    with open(f"/proc/{server.serving.pid}/syscall", encoding="ascii") as file:
        return file.read().split()[0] in ("45", "207")


def talks(server, sent, asleep=False):
    """As `Server.talk`. With `asleep` nothing is sent before the server sleeps in a read: then it spins before none of the first 64."""
    return server.talk(sent, lambda: not asleep or not os.path.exists(server.path) and is_reading(server))


def does(session, fault="", resumes=False, asleep=False, **how):
    """A server makes the calls of a plain one, which move the same bytes. If one fails, this is the fault. Gives the plain one."""
    plain = Plain(session, **how)
    told = fault if plain.over else ""
    server, notes = shortened(*session.options, resumes=resumes, **how)
    came = talks(server, session.stream, asleep)
    ended = server.ended()
    assert ended == (b"", told, 2 if told else 0), (session.title, how, ended)
    are_calls(calls.noted(notes), plain.calls, session.title, how)
    assert (came, server.traced()) == (plain.moved["send"], plain.moved["write"]), (session.title, how, came.hex(), server.traced())
    return plain


# ---- a client

# The attributes of the file of a session: its mode, links, user and group.
FILE = 0o100644, 1, 0, 0


class Client:
    """A connection to a server, which takes one reply at a time."""

    def __init__(self, server):
        self.server, self.socket = server, server.connect()

    def __enter__(self):
        return self

    def __exit__(self, *_):
        self.socket.close()

    def send(self, *messages):
        self.socket.sendall(b"".join(messages))

    def closes(self):
        """It sends no more, but takes what comes."""
        self.socket.shutdown(socket.SHUT_WR)

    def unread(self):
        """How many of the bytes that it sent weren't read yet."""
        return struct.unpack("<i", fcntl.ioctl(self.socket, termios.TIOCOUTQ, bytes(4)))[0]

    def next(self):
        """One whole reply, or nothing at the end."""
        head = tries.take(self.socket, 4)
        if not head:
            return head
        size = fuse.length_of(head)
        assert fuse.REPLY_HEADER <= size <= fuse.LONGEST, size
        whole = head + tries.take(self.socket, size - 4)
        assert len(whole) == size, ("a cut reply", whole)
        return whole

    def some(self, count):
        return [self.next() for _ in range(count)]

    def rest(self):
        """All replies to the end."""
        return list(iter(self.next, b""))

    def gets(self, message, *wanted):
        """Sends a message, and gets these replies in this order."""
        self.send(message)
        for it in wanted:
            came = self.next()
            assert came == it, (message.hex(), came.hex(), it.hex())

    def begin(self):
        """A session with one file."""
        self.gets(tries.INIT + tries.CREATE, tries.INIT_REPLY, fuse.create_reply(2, 2, *FILE, 1))

    def sees_parked(self, uniques):
        """Waits until these requests are parked. PROTOCOL: an order with the unique of a parked request is rejected with EINVAL, and changes nothing."""
        last = time.monotonic() + tries.PATIENCE
        while uniques:
            self.send(*map(lookup, uniques))
            came = {unique_of(it): it for it in self.some(len(uniques))}
            assert sorted(came) == sorted(uniques), came
            uniques = [it for it in uniques if came[it] != fuse.reply(it, EINVAL)]
            assert all(came[it] == fuse.entry_reply(it, 2, *FILE) for it in uniques), came
            assert time.monotonic() < last, f"not parked: {uniques}"


def lookups(count):
    """Orders that all workers answer alike: there is no such file."""
    return b"".join(lookup(it, b"none") for it in range(2, 2 + count))


def forget_each(unique, *nodes):
    """A BATCH_FORGET of one lookup of each."""
    return fuse.batch_forget(unique, *((it, 1) for it in nodes))


# A length that no message has.
BAD = struct.pack("<I", 39)


# ---- a file that can't grow

def ignores_signal():
    """What a server does before it starts, so that a write over its limit fails."""
    signal.signal(signal.SIGXFSZ, signal.SIG_IGN)


def may_have(server, size=resource.RLIM_INFINITY):
    """The server's files may have so many bytes."""
    resource.prlimit(server.serving.pid, resource.RLIMIT_FSIZE, (size, resource.RLIM_INFINITY))


def full(server):
    """What is told of a trace's file that can't grow."""
    return f"cannot write {server.file}: {os.strerror(errno.EFBIG)} (os error {errno.EFBIG})\n"


# ---- what a server leaves

# The options of a server for each way of tracing. In pieces, each read, reply and line goes seven bytes at a time.
WAYS = {"printed": [], "file": ["--trace", "{file}"], "pieces": ["--trace", "{file}"], "none": ["--trace", "none"]}


def tracing(way, *options, **how):
    """A server whose trace goes this way."""
    pieces = {"env": calls.environment(recv=[7], send=[7], write=[7])} if way == "pieces" else {}
    return Server(*WAYS[way], *options, **pieces, **how)


def checked(trace, lines=None, options=()):
    """The text of a trace. It is legal under these options, and has so many lines."""
    said = judged(trace, *options)
    assert said == "legal\n", (said, trace)
    assert lines in (None, trace.count(b"\n")), (trace.count(b"\n"), lines)
    return trace.decode()


def traced_by(ended, lines=None, told="", options=()):
    """The trace that a server printed, which ended with this on standard error."""
    printed, *ending = ended
    assert ending == [told, 2 if told else 0], (ending, told)
    return checked(printed, lines, options)


def trace_of(server, way="printed", told="", lines=None, options=()):
    """The trace of a server that ends with this on standard error, or with one of these, or None if it keeps none. It printed and left what its way of
    tracing says."""
    printed, said, status = server.ended()
    assert said in ([told] if isinstance(told, str) else told) and status == (2 if said else 0), (said, status)
    left = ["trace"] if "{file}" in WAYS[way] else []
    assert os.listdir(server.folder.name) == left, os.listdir(server.folder.name)
    assert way == "printed" or printed == b"", printed
    return None if way == "none" else checked(server.traced() if left else printed, lines, options)


def without_workers(trace):
    return re.sub(r"^ask \d+ ", "ask ", trace, flags=re.M)


def orders_of(trace):
    """The orders of a trace, each with its replies, and without its worker."""
    return re.findall(r"^ask .*\n(?:tell .*\n)*", without_workers(trace), re.M)


def workers_of(trace):
    return {int(it) for it in re.findall(r"^ask (\d+) ", trace, re.M)}


def errors_in(trace):
    """The uniques and errors of the replies, as they stand there."""
    return [(int(unique), int(error or 0)) for unique, error in re.findall(r"^tell (\d+) (?:err (\d+))?", trace, re.M)]
