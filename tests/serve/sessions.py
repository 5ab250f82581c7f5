"""Tries what sessions of the built `lockd serve` answer, with one worker and with several: worked scripts and stored sessions, whole, in pieces and sent
again, with each way of tracing, each number of workers and each end.

A script's ask lines are sent as messages, and its tell lines are the replies that are wanted. Stored sessions stand in `tests/cases/sessions.txt`. It wants
a C compiler. `tries.py` says how it ends.
"""
import itertools
import os
import re
import signal
import socket
import struct
import sys
import time

from tests import calls
from tests import fuse
from tests import tries
from tests import worked
from tests.fuse import EAGAIN, EPROTO, GETLK, NO_LOCK, READ_LOCK, SETLK, SETLKW, WRITE_LOCK, attr_reply, destroy, lock_reply, reply, unique_of
from tests.resume.kit import completed
from tests.serve import kit
from tests.serve.kit import (
    BAD, FILE, PLAIN, ROOM, SESSIONS, WAYS, WORKED, Client, Session, does, is_served, orders_of, shortened, steps, trace_of, tracing, without_workers,
    workers_of)
from tests.tries import INIT, INIT_REPLY, Server, each, lock, take

# The orders that only read. With several workers they are answered without the lock, and are in no trace.
LOOKS = "getlk", "getattr"


# ---- lines and messages

# The opcode of each order, and how the words of its line are its body.
ORDERS = {
    "lookup": (fuse.LOOKUP, fuse.name_body), "forget": (fuse.FORGET, fuse.forget_body), "getattr": (fuse.GETATTR, fuse.getattr_body),
    "unlink": (fuse.UNLINK, fuse.name_body), "open": (fuse.OPEN, fuse.open_body), "flush": (fuse.FLUSH, fuse.flush_body),
    "release": (fuse.RELEASE, lambda fh, drop, owner: fuse.release_body(fh, owner, fuse.RELEASE_FLOCK_UNLOCK * drop)),
    "getlk": (GETLK, fuse.lock_body), "setlk": (SETLK, fuse.lock_body), "setlkw": (SETLKW, fuse.lock_body),
    "create": (fuse.CREATE, lambda excl, mode, name: fuse.create_body(name, fuse.S_IFREG | mode, fuse.O_EXCL * excl)),
    "interrupt": (fuse.INTERRUPT, fuse.interrupt_body), "rmdir": (fuse.RMDIR, fuse.name_body),
    "mknod": (fuse.MKNOD, lambda mode, name: fuse.mknod_body(name, mode)), "mkdir": (fuse.MKDIR, lambda mode, name: fuse.mkdir_body(name, mode)),
}
NAMED = "lookup", "unlink", "create", "mknod", "mkdir", "rmdir"
REPLIES = {"err": reply, "entry": fuse.entry_reply, "attr": attr_reply, "open": fuse.open_reply, "made": fuse.create_reply, "lock": lock_reply}


def message_of(line):
    """The message of an ask line without its worker."""
    _, unique, node, *who = line.split()[:6]
    order, *words = line.split()[6:]
    names = [bytes.fromhex(words.pop().strip("-"))] if order in NAMED else []
    opcode, body = ORDERS[order]
    return fuse.message(opcode, int(unique), int(node), body(*map(int, words), *names), *map(int, who))


def reply_of(line):
    """The reply of a tell line."""
    _, unique, result, *words = line.split()
    return reply(int(unique)) if [result, *words] == ["ok"] else REPLIES[result](int(unique), *map(int, words))


def bytes_of(order):
    """The message of an order, and the replies that it gives."""
    ask, *told = order.splitlines()
    return message_of(ask), b"".join(map(reply_of, told))


# ---- scripts

def is_idle(server, client):
    """The server has read all, and each of its threads slept at two looks. So no order is under way: who hands one on is awake until another is."""
    return not client.unread() and all(tries.states_of(server.serving) == {"S"} for _ in range(2))


def wait_until_idle(server, client):
    last = time.monotonic() + tries.PATIENCE
    while not is_idle(server, client):
        assert time.monotonic() < last, "the server is never idle"
        time.sleep(0.0002)


def gets_the_replies(server, trace, workers, together):
    """A client of the server sends the orders of a trace, so many together, and gets the replies of the trace and no other. Of several workers each order
    was taken before the next is sent, also one that has no reply."""
    asked = [*map(bytes_of, orders_of(trace))]
    with Client(server) as client:
        client.gets(INIT, INIT_REPLY)
        for at in range(0, len(asked), together):
            sent, wanted = map(b"".join, zip(*asked[at:at + together]))
            client.send(sent)
            if not wanted and workers != 1:
                wait_until_idle(server, client)
            found = take(client.socket, len(wanted))
            assert found == wanted, (sent, found, wanted)
        client.closes()
        assert client.rest() == []


def script_is_served(title, trace, way, workers, together):
    """The script has its replies, and its trace is printed, goes to a file or nowhere."""
    try:
        server = tracing(way, workers=workers)
        gets_the_replies(server, trace, workers, together)
        found = trace_of(server, way)
        wanted = [it for it in orders_of(trace) if workers == 1 or it.split()[6] not in LOOKS]
        assert found is None or without_workers(found) == "".join(wanted) and workers_of(found) <= {*range(workers)}, found
    except AssertionError as error:
        raise AssertionError(f"{title}, {way}, {workers} workers: {error}") from error


def are_served(scripts, *hows):
    """Each script, each time with a way of tracing, so many workers, and so many messages together."""
    each(script_is_served, [(*script, *how) for how in hows for script in scripts])
    return f"{len(scripts)} scripts, {len(hows)} times"


def scripts():
    """Each worked script, and none at all."""
    return [("nothing", ""), *((title, trace) for title, trace, _ in worked.stored())]


def try_scripts_with_one_worker():
    """One message after another, and then those of a script together."""
    return are_served(scripts(), ("printed", 1, 1), ("pieces", 1, 1), ("none", 1, 1), ("printed", 1, 100))


def try_scripts_with_workers():
    """Of 4 and of 16."""
    return are_served(scripts(), ("printed", 16, 1), ("printed", 4, 1), ("pieces", 4, 1), ("none", 4, 1))


def try_scripts_that_reach_a_limit():
    return are_served(worked.limits(), ("printed", 1, 64), ("file", 1, 64), ("none", 1, 64), ("printed", 4, 1))


def try_scripts_that_go_on():
    """With `--resume` a message is sent again if bit 63 of its unique is set: the replies and the line have the unique without it."""
    for title, trace in scripts():
        server = Server("--resume", "{file}", workers=None)
        told = server.talk(INIT + b"".join(bytes_of(it)[0] for it in orders_of(trace)))
        wanted = re.sub(r"\b18446744073709551615\b", str(2**63 - 1), trace)
        assert told == INIT_REPLY + b"".join(bytes_of(it)[1] for it in orders_of(wanted)), (title, told)
        assert server.ended() == (b"", "", 0), title
        assert without_workers(server.traced().decode()) == without_workers(wanted), (title, server.traced())


# ---- stored sessions, whole and in pieces

def try_stored_sessions():
    """They get their replies, and leave their traces."""
    assert len(each(is_served, zip(SESSIONS))) == 34, len(SESSIONS)


def try_no_reply_stays_behind_while_its_client_waits():
    for session in PLAIN:
        server, notes = shortened(*session.options)
        with Client(server) as client:
            for sent, _, replies in steps(session):
                client.gets(sent, *replies)
        assert server.ended() == (b"", "", 0)
        if session == WORKED:
            counts = [[("recv", sent), ("write", lines), ("send", b"".join(replies))] for sent, lines, replies in steps(session)]
            wanted = [f"{kind} {len(it)}" for row in counts for kind, it in row if it] + ["recv 0"]
            kit.are_calls(calls.noted(notes), wanted)


def try_sessions_in_pieces():
    """Reads, replies and lines go in pieces of a byte, of a few, and of many. Before each read all lines are in the file, and all replies have left."""
    def goes(session, size, resumes):
        does(session, resumes=resumes, **dict(zip(("recv", "send", "write"), size)))

    sizes = [(1, 1, 1), (7, 3, 700), (29, 7, 5), (57, ROOM, 1 << 16), (8192, 16, 8)]
    return f"{len(each(goes, itertools.product(PLAIN, sizes, (False, True))))} sessions"


def try_replies_to_what_one_read_gave_go_out_together():
    """A write has at most 672 bytes, and goes out when a reply of 160 would have no more room."""
    for locks, writes in (0, 1), (18, 1), (19, 2), (64, 3):
        text = "".join(f"> {it.hex()}\n" for it in WORKED.messages[:2]) + "".join(f"< {it.hex()}\n" for it in WORKED.replies[:2])
        text += "".join(f"= {it}\n" for it in WORKED.lines.decode().splitlines()[:2])
        for unique in range(3, 3 + locks):
            text += f"> {fuse.with_unique(WORKED.messages[2], unique).hex()}\n< {reply(unique).hex()}\n"
            text += f"= ask 0 {unique} 2 0 0 0 setlk 1 7 0 9 1 11 0\n= tell {unique} ok\n"
        plain = does(Session(f"{locks} locks", text))
        sizes = [int(it.split()[1]) for it in plain.calls if it.startswith("send")]
        assert len(sizes) == writes and max(sizes) <= ROOM, sizes


# ---- stored sessions, sent again

def again(session, text, most):
    """What a session that goes on behind this text makes of it, if its first messages come again, and the replies that come then."""
    known, replies = {unique_of(it): it for it in session.replies}, []
    for sent, lines, told in [*steps(session)][:most]:
        mine = b"ask 0 %d " % unique_of(sent)
        count = sum(it.startswith(mine) for it in text.splitlines())
        if not count:
            text += lines
        else:
            text += b"".join([it for it in lines.splitlines(True) if it.startswith(mine)][count:])
            told = [known[unique_of(sent)]] if b"\ntell %d " % unique_of(sent) in text else []
        replies += told
    return text, b"".join(replies)


def is_as_one(session, cut):
    """Behind so many lines, a few messages come again, marked, and then all of them to another server. Its lines are those of one session."""
    text = b"".join(session.lines.splitlines(True)[:cut])
    for most in 3, None:
        server = Server("--resume", "{file}", *session.options, workers=None, traced=text)
        text, wanted = again(session, completed(text, session.lines), most)
        first, *others = session.messages[:most]
        came = server.talk(first + b"".join(map(fuse.sent_again, others)))
        assert server.ended() == (b"", "", 0)
        assert (came, server.traced()) == (wanted, text), (session.title, cut, came.hex(), wanted.hex(), server.traced())
    assert text == session.lines, (session.title, cut, text)


def try_sessions_that_are_cut_are_as_one():
    """Cut behind each line of their traces, and once more. A batch is cut between its FORGETs, and requests wait."""
    every = [(it, cut) for it in PLAIN for cut in range(it.lines.count(b"\n") + 1)]
    return f"{len(each(is_as_one, every))} cuts"


# ---- each number of workers

CREATED = "ask 2 1 0 0 0 create 0 420 61\ntell 2 made 2 33188 1 0 0 1\n"


def asks_for_each_kind_of_lock(client):
    """One message after another. Each reply is compared."""
    client.begin()
    client.gets(lock(SETLK, 3, 7, 5, WRITE_LOCK), reply(3))
    client.gets(fuse.getattr_(4), attr_reply(4, 2, *FILE))
    client.gets(fuse.lock(SETLK, 5, 8, 4, 6, READ_LOCK, pid=12), reply(5, EAGAIN))
    client.gets(fuse.lock(GETLK, 6, 8, 0, 9, READ_LOCK, pid=12), lock_reply(6, 5, 5, WRITE_LOCK, 11))
    client.send(fuse.lock(SETLKW, 7, 8, 5, 5, WRITE_LOCK, pid=12))
    client.sees_parked([7])
    client.gets(lock(SETLK, 8, 7, 5, NO_LOCK), reply(8), reply(7))
    client.gets(fuse.lock(GETLK, 9, 7, 0, 9, WRITE_LOCK, pid=12), lock_reply(9, 5, 5, WRITE_LOCK, 12))
    client.gets(destroy(10), reply(10))
    assert client.rest() == []


def try_each_number_of_workers():
    """A session with each kind of lock request. Each order of the trace is compared. With several workers the trace has no orders that only read."""
    reads = ["ask 4 2 0 0 0 getattr\ntell 4 attr 2 33188 1 0 0\n", "ask 6 2 0 0 0 getlk 1 8 0 9 0 12 0\ntell 6 lock 5 5 1 11\n",
             "ask 9 2 0 0 0 getlk 1 7 0 9 1 12 0\ntell 9 lock 5 5 1 12\n"]
    orders = [CREATED, "ask 3 2 0 0 0 setlk 1 7 5 5 1 11 0\ntell 3 ok\n", "ask 5 2 0 0 0 setlk 1 8 4 6 0 12 0\ntell 5 err 11\n",
              "ask 7 2 0 0 0 setlkw 1 8 5 5 1 12 0\n", "ask 7 1 0 0 0 lookup 61\ntell 7 err 22\n",
              "ask 8 2 0 0 0 setlk 1 7 5 5 2 11 0\ntell 8 ok\ntell 7 ok\n"]
    for workers in range(1, 17):
        for way in "printed", "file":
            server = tracing(way, workers=workers)
            with Client(server) as client:
                asks_for_each_kind_of_lock(client)
            trace = trace_of(server, way)
            # If a LOOKUP of `sees_parked` came before the SETLKW, it found the file.
            found = [it for it in orders_of(trace) if it != "ask 7 1 0 0 0 lookup 61\ntell 7 entry 2 33188 1 0 0\n"]
            assert sorted(found) == sorted(orders + reads * (workers == 1)), (workers, found)
            assert workers_of(trace) <= {*range(workers)}, (workers, trace)


def try_the_number_of_threads():
    """One worker serves in one thread. Of several, the first works in the thread that reads, and each other one has a thread. With `refuse` the first has
    one too, since orders may hold it up. The default is four workers."""
    for workers in None, *range(1, 17):
        for way, options, readers in ("none", (), 0), ("file", ("--trace-full", "refuse"), 1):
            if workers == 1 and options:
                continue
            server = tracing(way, *options, workers=workers)
            with Client(server) as client:
                client.begin()
                found, wanted = len(os.listdir(f"/proc/{server.serving.pid}/task")), (workers or 4) + readers
                assert found == wanted, (workers, way, found)
                client.gets(destroy(3), reply(3))
            trace_of(server, way)


# ---- each end

SET = "ask 5 2 0 0 0 setlk 1 9 5 5 1 11 0\ntell 5 ok\n"
FIFTH = lock(SETLK, 5, 9, 5, WRITE_LOCK)


def closes_its_side(behind=b""):
    """The client sends this and closes its side, and nothing more comes."""
    def end(_server, client):
        client.send(behind)
        client.closes()
        assert client.rest() == []

    return end


def goes_away(_server, client):
    client.socket.close()


def destroys(_server, client):
    """What follows a DESTROY counts for nothing, also if it came with it."""
    client.gets(destroy(6) + FIFTH + BAD, reply(6))
    assert client.rest() == []


def is_reset(_server, client):
    """The client closes while a reply is unread. Then the server's next read fails."""
    client.send(FIFTH)
    tries.wait_until(lambda: len(client.socket.recv(fuse.BARE_SIZE, socket.MSG_PEEK)) == fuse.BARE_SIZE)
    client.socket.close()


def reads_no_more(behind=b""):
    """The client ends reading, so that the reply to its last lock can't be written. Then it sends that lock and this, and closes its side."""
    def end(_server, client):
        client.socket.shutdown(socket.SHUT_RD)
        client.send(FIFTH, behind)
        client.closes()

    return end


def closes_before_it_is_answered(server, client):
    """The server is stopped while the client sends a lock and closes. So no reply is unread, and that to the lock can't be written."""
    server.serving.send_signal(signal.SIGSTOP)
    tries.wait_until(lambda: tries.states_of(server.serving) == {"T"})
    client.send(FIFTH)
    client.socket.close()
    server.serving.send_signal(signal.SIGCONT)


# Each end, what is told, and what the trace has more than the session so far. At the first two a server that reads few bytes at once leaves some.
ENDS = [
    (destroys, "", []),
    (closes_its_side(BAD + FIFTH), "bad length 39\n", []),
    (closes_its_side(), "", []),
    (goes_away, "", []),
    *((closes_its_side(FIFTH[:size]), "cut\n", []) for size in (1, 3, 4, 41, 87)),
    *((closes_its_side(struct.pack("<I", it)), f"bad length {it}\n", []) for it in (0, 39, 8193, 2**32 - 1)),
    (is_reset, "read failed\n", [SET]),
    (reads_no_more(), "write failed\n", [SET]),
    (closes_before_it_is_answered, "write failed\n", [SET]),
    (reads_no_more(destroy(6)), "write failed\n", [SET]),
    (reads_no_more(BAD), "bad length 39\n", [SET]),
    (reads_no_more(FIFTH[:41]), "cut\n", [SET]),
]
EVERY_WAY = [*itertools.product((1, 4), WAYS)]


def ends(end, told, more, workers, way):
    server = tracing(way, workers=workers)
    with Client(server) as client:
        client.begin()
        client.gets(lock(SETLK, 3, 7, 0, WRITE_LOCK), reply(3))
        client.send(lock(SETLKW, 4, 8, 0, WRITE_LOCK))
        assert not os.path.exists(server.path)
        client.gets(fuse.init(9), reply(9, EPROTO))
        end(server, client)
    trace = trace_of(server, way, told)
    wanted = [CREATED, "ask 3 2 0 0 0 setlk 1 7 0 0 1 11 0\ntell 3 ok\n", "ask 4 2 0 0 0 setlkw 1 8 0 0 1 11 0\n", *more]
    assert trace is None or sorted(orders_of(trace)) == sorted(wanted), (end, told, workers, way, trace)


def try_ends():
    """A session with a lock and a request that waits for it, with each end. The request gets no reply."""
    every = [(*end, *how) for end in ENDS for how in EVERY_WAY if "pieces" not in how or end not in ENDS[:2]]
    # A server that another thread starts has a copy of the client's socket until it runs. So nothing else is started while a client closes unread.
    alone = [it for it in every if it[0] is closes_before_it_is_answered]
    each(ends, [it for it in every if it not in alone])
    for it in alone:
        ends(*it)
    return f"{len(every)} sessions"


def try_a_client_that_goes_in_the_middle():
    """It sends 200 locks and closes at once. Two outcomes are right, by timing. If a reply came before the client closed, it is unread, and the server's
    read fails after the last lock. If none came, a write fails, and the server reads on to the stream's end. It takes all locks in both."""
    for workers, way in EVERY_WAY * 4:
        server = tracing(way, workers=workers)
        with Client(server) as client:
            client.begin()
            client.send(*(lock(SETLK, it, 7, it, WRITE_LOCK) for it in range(3, 203)))
        trace_of(server, way, ("read failed\n", "write failed\n"), lines=2 * 201)


def try_a_client_that_does_nothing():
    """It sends nothing, or is cut off in its first message. The trace has no line, and its file stays. It also stays after a cut in a later message."""
    for behind, told in (b"", ""), (b"\x38", "cut\n"), (INIT[:55], "cut\n"), (BAD, "bad length 39\n"):
        for workers, way in EVERY_WAY:
            server = tracing(way, workers=workers)
            with Client(server) as client:
                closes_its_side(behind)(server, client)
            trace_of(server, way, told, lines=0)
    for full, workers in ("go-on", 1), ("refuse", 2):
        server = tracing("file", "--trace-full", full, workers=workers)
        with Client(server) as client:
            client.begin()
            closes_its_side(FIFTH[:50])(server, client)
        assert orders_of(trace_of(server, "file", "cut\n")) == [CREATED]


if __name__ == "__main__":
    sys.exit(calls.main("serve/sessions", globals()))
