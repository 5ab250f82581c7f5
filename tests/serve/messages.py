"""Tries the messages that the built `lockd` takes and the replies that it gives, by their bytes: what a message asks stands in a server's trace.

Most stand in `tests/cases/messages.txt`, laid out by hand from `fuse.h`. `tries.py` says how it ends.
"""
import itertools
import struct
import sys
import threading
from concurrent.futures import ThreadPoolExecutor

from tests import fuse
from tests import tries
from tests.fuse import (
    BATCH_FORGET, BODIES, CREATE, DESTROY, EAGAIN, EBADF, EINTR, EINVAL, ENAMETOOLONG, ENOENT, ENOSYS, EPROTO, FLUSH, FORGET, GETATTR, GETLK, INIT,
    INTERRUPT, LAST, LAST_BYTE, LOOKUP, NO_LOCK, NO_REPLY, OPEN, READ_LOCK, RELEASE, SETLK, SETLKW, UNLINK, WHOLE_BODIES, WRITE_LOCK, attr_reply, create,
    create_reply, destroy, entry_reply, getattr_, interrupt, lock_reply, lookup, message, release, reply, unique_of)
from tests.serve.kit import FILE, Client, Session, forget_each, is_served, orders_of, stored, trace_of, tracing
from tests.tries import INIT_REPLY, Server, lock, run


def try_stored_messages():
    """Each is taken as the order beside it, or rejected, and each reply has these bytes."""
    found = stored("messages")
    for session in found:
        is_served(session)
    assert len(found) == 22, len(found)


# ---- orders

class Row(list):
    """The lines of a session as it is stored, put together from its messages. It begins with an INIT, and the uniques go from 5 on."""

    def __init__(self):
        super().__init__([f"> {tries.INIT.hex()}", f"< {INIT_REPLY.hex()}"])
        self.unique = 4

    def ask(self, opcode, node, body, asks, told, body_of_reply=b"", error=0):
        """A message that asks this, and the reply that it gets, or none if nothing is told."""
        self.unique += 1
        self.append(f"> {message(opcode, self.unique, node, body).hex()}")
        self.append(f"= ask 0 {self.unique} {node} 0 0 0 {asks}")
        if told:
            self.append(f"< {reply(self.unique, error, body_of_reply).hex()}")
            self.append(f"= tell {self.unique} {told}")

    def fails(self, opcode, node, body, asks, error):
        self.ask(opcode, node, body, asks, f"err {error}", error=error)

    def is_served(self, title):
        is_served(Session(title, "".join(f"{it}\n" for it in self)))


def try_bodies_of_zeros():
    """Each is an order if it has the length of its kind. `try_refused_messages` has those of other lengths."""
    row, zeros = Row(), "0 0 0 0 0 0 0"
    row.ask(FORGET, 0, bytes(8), "forget 0", "")
    for opcode, length, asks, error in [
        (GETATTR, 16, "getattr", ENOENT), (OPEN, 8, "open", ENOENT), (RELEASE, 24, "release 0 0 0", EBADF), (FLUSH, 24, "flush 0 0", EBADF),
        (INTERRUPT, 8, "interrupt 0", EAGAIN), (GETLK, 48, f"getlk {zeros}", EBADF), (SETLK, 48, f"setlk {zeros}", EBADF),
        (SETLKW, 48, f"setlkw {zeros}", EBADF),
    ]:
        row.fails(opcode, 0, bytes(length), asks, error)
    row.is_served("bodies")


def try_the_names_of_orders():
    """A name is all before its one zero byte, and has 255 bytes at most: in a LOOKUP, an UNLINK and a CREATE. `try_refused_messages` has others."""
    row = Row()
    for number, name in enumerate([b"a", b"a" * 255], 1):
        row.fails(LOOKUP, 1, name + b"\0", f"lookup {name.hex()}", ENOENT)
        row.fails(UNLINK, 1, name + b"\0", f"unlink {name.hex()}", ENOENT)
        made = fuse.entry_body(number + 1, 0o100000, 1, 0, 0) + fuse.opened_body(number)
        row.ask(CREATE, 1, bytes(16) + name + b"\0", f"create 0 0 {name.hex()}", f"made {number + 1} 32768 1 0 0 {number}", made)
    for opcode, fields, asks, error in (LOOKUP, b"", "lookup -", ENOENT), (UNLINK, b"", "unlink -", ENOENT), (CREATE, bytes(16), "create 0 0 -", EINVAL):
        row.fails(opcode, 1, fields + b"\0", asks, error)
    row.is_served("names")


def try_an_open_file_of_two_bytes():
    """`struct fuse_open_out` of fh 261: fh, open_flags, padding."""
    row = Row()
    row.ask(CREATE, 1, bytes(16) + b"a\0", "create 0 0 61", "made 2 32768 1 0 0 1", fuse.entry_body(2, 0o100000, 1, 0, 0) + fuse.opened_body(1))
    for fh in range(2, 262):
        row.ask(OPEN, 2, bytes(8), "open", f"open {fh}", fuse.opened_body(fh))
    assert row[-2] == "< 2000000000000000090100000000000005010000000000000000000000000000", row[-2]
    row.is_served("open files")


def try_batches():
    """A BATCH_FORGET before the INIT and one of no pair forget nothing. One of the most pairs is as many orders, each once, and with one more it would be
    longer than any message."""
    most = forget_each(5, *range(509))
    assert len(most) == fuse.LONGEST
    sent = forget_each(2, 9, 2) + tries.INIT + forget_each(3) + most + lookup(6) + lookup(7)
    told = INIT_REPLY, reply(6, ENOENT), reply(7, ENOENT)
    wanted = [*(f"ask 5 {it} 0 0 0 forget 1\n" for it in range(509)), *(f"ask {it} 1 0 0 0 lookup 61\ntell {it} err {ENOENT}\n" for it in (6, 7))]
    for workers, way in itertools.product((1, 2, 4, 16), ("printed", "file")):
        server = tracing(way, workers=workers)
        found, rest = fuse.cut(server.talk(sent))
        assert sorted(found, key=unique_of) == [*told] and not rest, (workers, found)
        orders = orders_of(trace_of(server, way))
        assert orders == wanted if workers == 1 else sorted(orders) == sorted(wanted), (workers, orders)
    ran = run("bytes", text=sent.hex().encode() + b"\n")
    assert (ran.stdout.decode().split(), ran.stderr, ran.returncode) == ([it.hex() for it in told], b"", 0), ran
    server = Server()
    assert server.talk(tries.INIT + forget_each(5, *range(1, 511))) == INIT_REPLY
    assert trace_of(server, told="bad length 8208\n") == ""


# ---- messages that the session refuses

# Each opcode of a message that is an order, or begins or ends a session.
KINDS = {*BODIES, INIT, DESTROY}
UNKNOWN = [it for it in (*range(128), 0x1000, 0xFFFF, 0x01000001, 2**32 - 1) if it not in KINDS]


def before_an_init():
    """Opcodes and bodies, and the error that each gets, or None."""
    for opcode, (size, named) in BODIES.items():
        for body in bytes(size) + b"a\0" * named, b"", bytes(100):
            yield opcode, body, None if opcode in NO_REPLY else EPROTO
    for opcode in *UNKNOWN, DESTROY:
        yield opcode, b"", EPROTO
    for opcode, (size, _) in WHOLE_BODIES.items():
        yield opcode, bytes(size) + b"a\0", EPROTO
    for body in b"", bytes(15), struct.pack("<III", 7, 31, 0):
        yield INIT, body, EINVAL
    for major, minor in (6, 31), (0, 0), (7, 30), (7, 0):
        yield INIT, fuse.init_body(major, minor), EPROTO
    for major in 8, 2**32 - 1:
        yield INIT, fuse.init_body(major, 0), "version"


def after_an_init():
    for size in 0, 15, 16, 64:
        yield INIT, fuse.init_body()[:size].ljust(size, b"\0"), EPROTO
    yield from ((opcode, bytes(opcode % 50), ENOSYS) for opcode in UNKNOWN)
    yield from ((opcode, bytes(size), ENOSYS) for opcode in (0, 4, 15, 34, 43, 2**32 - 1) for size in (0, 16, 8152))
    for opcode, (size, _) in WHOLE_BODIES.items():
        yield from ((opcode, bytes(size) + it, ENOSYS) for it in (b"", b"\0", b"a\0", b"a", b"a" * 255 + b"\0", b"a" * 256 + b"\0"))
    for opcode, (size, named) in BODIES.items():
        if named:
            names = [b"a", b"a\0b\0", b"a\0\0", b"\0\0", b"a" * 257, b"a" * 20 + b"\0" + b"a" * 235 + b"\0"]
            yield from ((opcode, body, EINVAL) for body in (b"", bytes(size)[:1], bytes(size)[:-1], bytes(size), *(bytes(size) + it for it in names)))
            yield from ((opcode, bytes(size) + b"a" * length + b"\0", ENAMETOOLONG) for length in (256, 8151 - size))
        else:
            sizes = {0, size - 1, size + 1, 8152} if opcode != BATCH_FORGET else {0, 7, 9, 23, 25, 8152}
            bodies = (bytes([first]).ljust(it, b"\0")[:it] for first in (0, 1) for it in sizes)
            yield from ((opcode, body, None if opcode in NO_REPLY else EINVAL) for body in bodies)
    for count, pairs in (2, 1), (1, 2), (0, 1), (510, 509), (2**32 - 1, 1):
        yield BATCH_FORGET, struct.pack("<II", count, 0) + bytes(16 * pairs), None


def refused(kinds, first):
    """Messages from this unique on, and the reply that each gets, or nothing."""
    for unique, (opcode, body, error) in enumerate(kinds, first):
        wanted = fuse.version_reply(unique) if error == "version" else reply(unique, error) if error else b""
        yield message(opcode, unique, 2, body), wanted


def refused_and_locks():
    """Each message of a session and the reply that it gets: those that are refused, and a lock after each of those that come after the INIT."""
    locks = ((lock(SETLK, 3000 + it, 7, it, WRITE_LOCK), reply(3000 + it)) for it in range(1000))
    agreed = fuse.init(1, 7, 36, 4096, 2**32 - 1, bytes(48)), fuse.init_reply(1, 4096, 1 << 1 | 1 << 10)
    late = [it for both in zip(refused(after_an_init(), 2000), locks) for it in both]
    return [*refused(before_an_init(), 1000), agreed, (create(2), create_reply(2, 2, *FILE, 1)), *late, (destroy(4000, bytes(8)), reply(4000))]


def sends_all(client, talk, made):
    """Sends all messages, those behind the CREATE once its file is made, because locks need it."""
    for sent, _ in talk:
        client.send(sent)
        if sent == create(2):
            made.wait(tries.PATIENCE)


def try_refused_messages():
    """Each gets its one reply, or none if its kind has none, before the next is sent or with all others. The locks between them are all set."""
    talk = refused_and_locks()
    wanted, created = [it for _, it in talk if it], dict(talk)[create(2)]
    for workers in 1, 4:
        for one_by_one in True, False:
            server, came, made = Server(workers=workers), [], threading.Event()
            with Client(server) as client, ThreadPoolExecutor(1) as pool:
                if one_by_one:
                    for sent, told in talk:
                        client.send(sent)
                        while told and (not came or unique_of(came[-1]) != unique_of(sent)):
                            came.append(client.next())
                            assert came[-1], f"no reply to {sent.hex()}"
                    came += client.rest()
                else:
                    # Replies are read meanwhile: the server reads no more once nobody takes them.
                    sending = pool.submit(sends_all, client, talk, made)
                    while it := client.next():
                        came.append(it)
                        if it == created:
                            made.set()
                    made.set()
                    sending.result()
            in_order = (sorted(it, key=unique_of) if workers > 1 and not one_by_one else it for it in (came, wanted))
            differ = [(it, other) for it, other in itertools.zip_longest(*in_order) if it != other]
            assert not differ, (workers, one_by_one, len(came), len(wanted), differ[:3])
            assert len(orders_of(trace_of(server))) == 1 + sum(1 for _ in after_an_init()), workers
    ran = run("bytes", text=b"".join(it for it, _ in talk).hex().encode() + b"\n")
    assert (ran.stdout.decode().split(), ran.stderr, ran.returncode) == ([it.hex() for it in wanted], b"", 0), ran.stderr
    return f"{sum(1 for _ in before_an_init())} before an INIT and {sum(1 for _ in after_an_init())} after it"


# ---- what replies have in them

def looks(first, links):
    """What is asked of a file of user 1001 and group 2002, and of another, and the replies."""
    who, mode, far = {"uid": 1, "gid": 2, "pid": 3}, 0o100640, LAST_BYTE - 1

    def asks(place, owner, start, end, kind):
        return message(GETLK, first + place, 3, fuse.lock_body(2, owner, start, end, kind, 12), **who)

    return [(getattr_(first, 3, **who), attr_reply(first, 3, mode, links, 1001, 2002)),
            (getattr_(first + 1, 2), attr_reply(first + 1, 2, 0o100777, 1, 0, 0)),
            (asks(2, 8, 0, LAST_BYTE, READ_LOCK), lock_reply(first + 2, 5, 9, WRITE_LOCK, 11)),
            (asks(3, 8, 2**40 + 1, 2**41, WRITE_LOCK), lock_reply(first + 3, 2**40, far, READ_LOCK, 2**32 - 1)),
            (asks(4, 8, 2**40 + 1, 2**41, READ_LOCK), lock_reply(first + 4, 2**40 + 1, 2**41, NO_LOCK, 12)),
            (asks(5, LAST, 0, LAST_BYTE, WRITE_LOCK), lock_reply(first + 5, 0, LAST_BYTE, NO_LOCK, 12)),
            (asks(6, 8, LAST_BYTE, LAST_BYTE, WRITE_LOCK), lock_reply(first + 6, LAST_BYTE, LAST_BYTE, NO_LOCK, 12)),
            (asks(7, 8, 0, LAST_BYTE + 1, WRITE_LOCK), reply(first + 7, EINVAL)),
            (getattr_(first + 8, 4), reply(first + 8, ENOENT))]


def try_attributes_and_locks():
    """What GETATTR and GETLK say. They are sent nine at a time, again and again, so that each worker gets some."""
    who = {"uid": 1001, "gid": 2002, "pid": 4242}
    for workers in 1, 4:
        server = Server(workers=workers)
        with Client(server) as client:
            client.gets(tries.INIT, INIT_REPLY)
            client.gets(create(2, b"other", 0o777), create_reply(2, 2, 0o100777, 1, 0, 0, 1))
            client.gets(create(3, mode=0o640, **who), create_reply(3, 3, 0o100640, 1, 1001, 2002, 2))
            for unique, kind, start, end, pid in (4, WRITE_LOCK, 5, 9, 11), (5, READ_LOCK, 2**40, LAST_BYTE - 1, 2**32 - 1):
                client.gets(message(SETLK, unique, 3, fuse.lock_body(2, LAST, start, end, kind, pid), **who), reply(unique))
            for first in range(1000, 1400, 10):
                if first == 1200:
                    client.gets(fuse.unlink(9), reply(9))
                talk = looks(first, 1 if first < 1200 else 0)
                client.send(*(sent for sent, _ in talk))
                came, wanted = client.some(len(talk)), [it for _, it in talk]
                assert sorted(came, key=unique_of) == wanted, (workers, first, [it.hex() for it in came])
            client.gets(destroy(10), reply(10))
        # Two CREATEs, two locks and an UNLINK. With one worker also those that only read.
        assert len(orders_of(trace_of(server))) == (5 + 9 * 40 if workers == 1 else 5), workers


# ---- great uniques

GREAT = 1, 2**63 - 1, 2**63, LAST - 1, LAST


def try_great_uniques():
    """In orders that are answered at once, and in ones that wait and are granted, interrupted or ended."""
    for workers in 1, 4:
        server = Server(workers=workers)
        with Client(server) as client:
            client.begin()
            for fh, unique in enumerate(GREAT, 2):
                client.gets(create(unique), create_reply(unique, 2, *FILE, fh))
                client.gets(lookup(unique), entry_reply(unique, 2, *FILE))
                client.gets(getattr_(unique), attr_reply(unique, 2, *FILE))
                client.gets(lock(SETLK, unique, 7, 0, WRITE_LOCK), reply(unique))
                client.gets(lock(SETLK, unique, 8, 0, WRITE_LOCK), reply(unique, EAGAIN))
                client.gets(lock(SETLKW, unique, 9, 5, WRITE_LOCK), reply(unique))
                client.gets(lock(GETLK, unique, 8, 0, READ_LOCK), lock_reply(unique, 0, 0, WRITE_LOCK, 11))
                client.gets(interrupt(unique, unique), reply(unique, EAGAIN))
                client.gets(message(99, unique, 2), reply(unique, ENOSYS))
                client.gets(message(SETLK, unique, 2), reply(unique, EINVAL))
            for _ in range(2):
                waits_and_ends(client, lambda unique: (interrupt(3, unique), [reply(unique, EINTR)]))
            waits_and_ends(client, lambda _: (lock(SETLK, 3, 7, 0, NO_LOCK), [reply(3), *map(reply, GREAT)]), once=True)
            client.gets(lock(SETLK, 3, 7, 100, WRITE_LOCK), reply(3))
            waits_and_ends(client, lambda _: (release(3), [reply(3), *(reply(it, EBADF) for it in GREAT)]), once=True, byte=100)
            client.gets(destroy(LAST), reply(LAST))
        trace = trace_of(server)
        counts = [trace.count(f" {it} 2 0 0 0 setlkw 1 {100 + number} ") for number, it in enumerate(GREAT)]
        assert counts == [4] * len(GREAT), counts


def waits_and_ends(client, ending, once=False, byte=0):
    """Requests of these uniques wait, one behind the other, and then they end so, one by one or all at once."""
    for number, unique in enumerate(GREAT):
        client.send(lock(SETLKW, unique, 100 + number, byte, READ_LOCK))
        client.sees_parked([unique])
        # No order can have the unique of a parked one, also if it only reads.
        for sent in interrupt(unique, unique), getattr_(unique):
            client.gets(sent, reply(unique, EINVAL))
    for unique in GREAT[:1] if once else GREAT:
        sent, wanted = ending(unique)
        client.gets(sent, *wanted)


if __name__ == "__main__":
    sys.exit(tries.main("serve/messages", globals()))
