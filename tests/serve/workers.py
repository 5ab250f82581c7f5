"""Tries what only several workers of the built `lockd serve` show: that they answer as one would, that none leaves a reply behind, and how they wait.

These tries stand apart from `tests/serve/sessions.py`, because one file would be too long for both. Where one worker is tried beside several, it shows what
these have to give, too. `tries.py` says how it ends.
"""
import collections
import itertools
import os
import random
import re
import select
import sys
import threading
import time

from tests import fuse
from tests import tries
from tests.fuse import (
    EAGAIN, EBADF, ENOENT, ENOMEM, ENOSYS, GETATTR, GETLK, INTERRUPT, NO_LOCK, READ, READ_LOCK, SETLK, SETLKW, WRITE_LOCK, create, destroy, getattr_,
    interrupt, lock_reply, lookup, reply, unique_of)
from tests.serve.kit import BAD, FILE, Client, checked, errors_in, forget_each, full, ignores_signal, may_have, orders_of, trace_of, tracing
from tests.tries import INIT, INIT_REPLY, Server, lock, replies, setlk, take

# How many mixed orders a server gets: `ORDERS=1000000 tests/run serve/workers try_mixed_orders` takes half a minute.
ORDERS = int(os.environ.get("ORDERS", "150000"))
# How many messages a client sends that waits for each reply: `ALONE=100000 tests/run serve/workers try_messages_that_come_alone_wake_nobody`.
ALONE = int(os.environ.get("ALONE", "20000"))


def crews(*numbers):
    """Each number of workers, and how its server traces. The first of several works in the thread that reads, and takes what comes while the others sleep: that
    is nearly all. With `refuse` each has a thread of its own, so it is tried, too."""
    for workers in numbers:
        yield workers, "printed", ()
        if workers > 1:
            yield workers, "file", ("--trace-full", "refuse")


def asked_in(trace):
    """The uniques of the orders, as they stand there."""
    return [int(it) for it in re.findall(r"^ask \d+ (\d+) ", trace, re.M)]


# ---- orders that come together

def told_alike(unique):
    """A message whose answer is the same whichever worker is first, and the error that it gets."""
    return [
        (getattr_(unique, 1), 0),
        (lookup(unique, b"none"), ENOENT),
        (fuse.lock(SETLK, unique, 7, 0, 0, READ_LOCK, fh=999), EBADF),
        (interrupt(unique, 999_999), EAGAIN),
        (create(unique), 0),
        (fuse.message(READ, unique, 1), ENOSYS),
    ][unique % 6]


def try_answers_that_are_alike_for_all_workers():
    """Each of 1,200 messages gets its one reply, and each order is in the trace once. With several workers the trace has no GETATTR."""
    uniques = range(2, 1202)
    for workers, way, options in crews(1, 2, 4, 16):
        server = tracing(way, *options, workers=workers)
        came = replies(server.talk(INIT + b"".join(told_alike(it)[0] for it in uniques)))
        assert sorted(came) == [(1, 0)] + [(it, told_alike(it)[1]) for it in uniques], (workers, len(came))
        orders = [it for it in uniques if it % 6 != 5 and (it % 6 or workers == 1)]
        found = asked_in(trace_of(server, way, lines=2 * len(orders)))
        assert (found if workers == 1 else sorted(found)) == orders, workers


def mixed(unique, number):
    """SETLK, GETLK, LOOKUP, GETATTR, SETLKW or INTERRUPT, by a number of 24 bits: of 8 bytes, by 6 owners, so that many conflict."""
    kind, byte, owner, how, back = number % 16, number >> 4 & 7, (number >> 7 & 15) % 6, number >> 11 & 3, 1 + (number >> 13 & 7)
    if kind < 2:
        return interrupt(unique, unique - back) if how > 1 else lock(SETLKW, unique, owner, byte, 1 - how)
    if kind < 6:
        return lock(SETLK, unique, owner, byte, WRITE_LOCK if kind < 4 else NO_LOCK)
    if kind < 8:
        return lookup(unique, (b"a", b"b")[how % 2]) if kind == 6 else fuse.lock(SETLK, unique, owner, 0, 7, NO_LOCK)
    return lock(GETLK, unique, owner, byte, READ_LOCK) if kind < 12 else getattr_(unique)


def sends(client, chunks):
    for chunk in chunks:
        client.send(chunk)
    client.closes()


def try_mixed_orders():
    """Many orders, of which half only read. Each has one reply, but that a SETLKW may wait for ever, and an INTERRUPT that ends one has none. All but those
    that only read are in the trace once, and its replies are those that came."""
    uniques, numbers = range(10, 10 + ORDERS), random.Random(1)
    orders = {it: mixed(it, numbers.getrandbits(24)) for it in uniques}
    sent = [*orders.values()]
    chunks = [b"".join(sent[at:at + 64]) for at in range(0, ORDERS, 64)]
    by_opcode = collections.defaultdict(set)
    for unique, order in orders.items():
        by_opcode[fuse.opcode_of(order)].add(unique)
    reads, waits = by_opcode[GETLK] | by_opcode[GETATTR], by_opcode[SETLKW] | by_opcode[INTERRUPT]
    ended = []
    for workers, way, options in crews(1, 4, 16):
        server = tracing(way, *options, workers=workers)
        with Client(server) as client:
            client.begin()
            sender = threading.Thread(target=sends, args=(client, chunks))
            sender.start()
            came = replies(take(client.socket, sys.maxsize))
            sender.join()
        trace = trace_of(server, way)
        found = [unique for unique, _ in came]
        told = {*found}
        assert len(found) == len(told) and {*uniques} - waits <= told <= {*uniques}, (workers, len(found), len(told))
        recorded = [it for it in uniques if workers == 1 or it not in reads]
        assert sorted(asked_in(trace)) == [2, *recorded], workers
        assert sorted(errors_in(trace)) == sorted([(2, 0), *(it for it in came if workers == 1 or it[0] not in reads)]), workers
        assert not any(error for unique, error in came if unique in reads), workers
        ended.append(len(by_opcode[INTERRUPT] - told))
    assert all(ended), ended
    return f"{ORDERS} orders, {ended} interrupts that ended a wait"


def asked(unique):
    """Of ten orders one is a FORGET, three are a GETATTR of the top directory, and six a LOOKUP that finds nothing. Gives the size and the error of the
    reply, too."""
    if unique % 10 == 0:
        return fuse.forget(unique, 1), 0, None
    if unique % 10 < 4:
        return getattr_(unique, 1), fuse.ATTR_SIZE, 0
    return lookup(unique, b"b"), fuse.BARE_SIZE, ENOENT


def try_all_that_is_owed():
    """3,000 orders in bursts of 1 to 64, each sent when all replies to the one before have come; now and then workers fall asleep first. To each order but
    a FORGET one reply comes, and nothing else. A GETATTR is no line."""
    for workers, way, options in crews(2, 4, 16):
        server = tracing(way, *options, workers=workers)
        with Client(server) as client:
            client.gets(INIT, INIT_REPLY)
            first, size = 2, 1
            while first < 3_002:
                burst = range(first, min(first + size, 3_002))
                client.send(*(asked(it)[0] for it in burst))
                came = take(client.socket, sum(asked(it)[1] for it in burst))
                assert sorted(replies(came)) == [(it, asked(it)[2]) for it in burst if asked(it)[1]], (workers, burst)
                if size % 8 == 0:
                    time.sleep(0.001)
                first, size = first + size, size % 64 + 1
            client.closes()
            assert client.rest() == [], "more came"
        trace_of(server, way, lines=300 + 2 * 1_800)


def several(unique):
    """A message whose reply is the same whichever worker is first, this reply, and whether several workers put it into the trace."""
    return [
        (lock(SETLK, unique, unique, unique, WRITE_LOCK), reply(unique), True),
        (lookup(unique, b"none"), reply(unique, ENOENT), True),
        (fuse.forget(unique, 1), b"", True),
        (getattr_(unique), fuse.attr_reply(unique, 2, *FILE), False),
    ][unique % 4]


def are_all_answered(server, came, uniques, told="", before=()):
    """Each of these messages got its one reply, and nothing else came. The trace has those that belong there once, beside the first file's CREATE and the
    orders before."""
    wanted = [reply_ for _, reply_, _ in map(several, uniques) if reply_]
    assert sorted(came) == sorted(wanted), (server.words, uniques, len(came), len(wanted))
    found, recorded = asked_in(trace_of(server, told=told)), [2, *before, *(it for it in uniques if several(it)[2])]
    assert sorted(found) == sorted(recorded), (server.words, uniques, len(found), len(recorded))


def all_sleep(server):
    tries.wait_until(lambda: tries.states_of(server.serving) == {"S"})


def ends_behind(end, told, count, workers):
    """So many messages come at once, with this end behind them."""
    server, uniques = Server(workers=workers), range(4, 4 + count)
    with Client(server) as client:
        client.begin()
        all_sleep(server)
        client.send(*(several(it)[0] for it in uniques), end)
        if not end:
            client.closes()
        came = client.rest()
    if end == destroy(3):
        assert came.pop() == reply(3), (count, workers)
    are_all_answered(server, came, uniques, told)


def try_ends_right_behind_orders():
    """1 to 40 messages come at once, with an end of the stream, a DESTROY or a bad length behind them. All are answered, and then the DESTROY."""
    ends = (b"", ""), (destroy(3), ""), (BAD, "bad length 39\n")
    every = [(*end, count, workers) for count in range(1, 41) for workers in (2, 4, 16) for end in ends]
    tries.each(ends_behind, every)
    return f"{len(every)} sessions"


def pieces(stream, longest, numbers):
    """The same bytes, in pieces of one byte to so many."""
    at = 0
    while at < len(stream):
        size = numbers.randint(1, longest)
        yield stream[at:at + size]
        at += size


def try_bursts_in_pieces():
    """200 messages come in pieces that end anywhere. Each is answered once."""
    numbers = random.Random(2)
    for longest, workers in itertools.product((4, 60, 300, 2000) * 2, (2, 4, 16)):
        server, uniques = Server(workers=workers), range(3, 203)
        with Client(server) as client:
            client.begin()
            for piece in pieces(b"".join(several(it)[0] for it in uniques), longest, numbers):
                client.send(piece)
            client.closes()
            came = client.rest()
        are_all_answered(server, came, uniques)


def try_a_client_that_closes_while_replies_are_due():
    """It takes no reply before it has closed its side. 1,000 long ones are due then, which is more than the connection holds, and those to 1 to 40 messages
    that came when the server could send no more."""
    for count, workers in itertools.product((1, 15, 16, 17, 40), (2, 4, 16)):
        server, lookups, uniques = Server(workers=workers), range(100, 1_100), range(4, 4 + count)
        with Client(server) as client:
            client.begin()
            client.send(*(lookup(it) for it in lookups))
            all_sleep(server)
            client.send(*(several(it)[0] for it in uniques))
            client.closes()
            came = client.rest()
        long = [it for it in came if len(it) == fuse.ENTRY_SIZE]
        assert sorted(long) == sorted(fuse.entry_reply(it, 2, *FILE) for it in lookups), (count, workers, len(long))
        are_all_answered(server, [it for it in came if len(it) != fuse.ENTRY_SIZE], uniques, before=lookups)


# ---- orders that wait for each reply

def try_a_lock_that_was_set_is_shown():
    """In each of 100 new files the next GETLK of another owner shows it, whichever worker looks. With several it is no line."""
    for workers, way, options in crews(1, 2, 4, 16):
        server = tracing(way, *options, workers=workers)
        with Client(server) as client:
            client.gets(INIT, INIT_REPLY)
            for number in range(100):
                client.send(create(2, b"f%d" % number))
                node, fh = fuse.made_of(client.next())
                assert (node, fh) == (number + 2, number + 1), (node, fh)
                client.gets(fuse.lock(SETLK, 3, 7, 0, 9, WRITE_LOCK, node, fh), reply(3))
                client.gets(fuse.lock(GETLK, 4, 8, 0, 9, READ_LOCK, node, fh), lock_reply(4, 0, 9, WRITE_LOCK, 11))
        trace_of(server, way, lines=600 if workers == 1 else 400)


# With one slot of each kind, what looks read is let go after 4 orders that are handed in and no look.
ONE_SLOT = "--files", "1", "--open", "1", "--runs", "1", "--parked", "1"


def try_a_lock_after_a_long_time_is_shown():
    """After many orders without a look, what looks read was let go. 64 looks that come together then are shown the lock that was set last, and so are
    later ones. None of them is a line."""
    for (workers, way, more), (rules, count) in [
        *itertools.product(crews(2, 16), [(ONE_SLOT, 60), (ONE_SLOT, 600)]), *itertools.product(crews(4), [((), 50_000)])]:
        server = tracing(way, *more, *rules, workers=workers)
        with Client(server) as client:
            client.begin()
            for first in range(3, 3 + count, 64):
                uniques = range(first, min(first + 64, 3 + count))
                client.send(b"".join(map(setlk, uniques)))
                assert len(take(client.socket, fuse.BARE_SIZE * len(uniques))) == fuse.BARE_SIZE * len(uniques)
            client.gets(lock(SETLK, 3 + count, 7, 0, WRITE_LOCK), reply(3 + count))
            for first in 10**6, 2 * 10**6:
                looks = range(first, first + 64)
                client.send(*(lock(GETLK, it, 8, 0, READ_LOCK) for it in looks))
                assert sorted(client.some(64)) == sorted(lock_reply(it, 0, 0, WRITE_LOCK, 11) for it in looks), (workers, first)
            client.closes()
            assert client.rest() == []
        trace_of(server, way, lines=2 * (count + 2), options=rules)


def try_no_reply_stays_behind():
    """Each order is sent when the reply to the one before has come, so it stands behind that in the trace."""
    for workers, way, options in crews(1, 4, 16):
        server = tracing(way, *options, workers=workers)
        with Client(server) as client:
            client.begin()
            for unique in range(3, 10_003):
                client.send(getattr_(unique) if unique % 3 == 1 else setlk(unique))
                came = take(client.socket, fuse.ATTR_SIZE if unique % 3 == 1 else fuse.BARE_SIZE)
                assert replies(came) == [(unique, 0)], (workers, unique, came)
            client.closes()
            assert client.rest() == []
        wanted = [2] + [it for it in range(3, 10_003) if workers == 1 or it % 3 != 1]
        assert asked_in(trace_of(server, way, lines=2 * len(wanted))) == wanted, workers


def try_a_file_goes_by_a_batch():
    """Its name and its open file are gone, and a batch forgets its last lookup, beside a node that isn't there."""
    for workers in 2, 4, 16:
        server = Server(workers=workers)
        with Client(server) as client:
            client.begin()
            client.gets(fuse.unlink(3), reply(3))
            client.gets(fuse.release(4), reply(4))
            client.gets(getattr_(5), fuse.attr_reply(5, 2, 0o100644, 0, 0, 0))
            client.send(forget_each(6, 9, 2))
            # One worker may answer a GETATTR before another forgets.
            last, unique, error = time.monotonic() + tries.PATIENCE, 7, 0
            while not error and time.monotonic() < last:
                client.send(getattr_(unique))
                (answered, error), = replies(client.next())
                assert answered == unique
                unique += 1
            assert error == ENOENT, error
        found = asked_in(trace_of(server, lines=8))
        assert sorted(found) == [2, 3, 4, 6, 6], found


def parks(client, count):
    """So many read locks wait for one write lock, in any order. Gives their uniques."""
    client.begin()
    client.gets(lock(SETLK, 3, 7, 0, WRITE_LOCK), reply(3))
    uniques = range(10, 10 + count)
    client.send(*(lock(SETLKW, it, 1000 + it, 0, READ_LOCK) for it in uniques))
    client.sees_parked(uniques)
    return uniques


def try_257_replies_of_one_order():
    """An unlock grants all requests that wait, and a RELEASE ends them. The order's own reply comes first, and the others in the order in which the requests
    wait, which the trace tells: each once, with nothing between them."""
    for workers, count, options in (1, 256, []), (4, 256, []), (4, 256, []), (16, 256, []), (4, 1024, ["--parked", "1024"]):
        for way in "printed", "file", "none":
            for last, error, line in (lock(SETLK, 5, 7, 0, NO_LOCK), 0, "setlk 1 7 0 0 2 11 0"), (fuse.release(5), EBADF, "release 1 0 0"):
                server = tracing(way, *options, workers=workers)
                with Client(server) as client:
                    uniques = parks(client, count)
                    client.send(last)
                    came = client.some(count + 1)
                    client.gets(destroy(6), reply(6))
                    assert client.rest() == []
                assert came[0] == reply(5), came[0]
                assert sorted(came[1:]) == sorted(reply(it, error) for it in uniques), (workers, way, len({*came}))
                trace = trace_of(server, way, options=options)
                if trace is not None:
                    lines = "".join(f"tell {unique_of(it)} {f'err {error}' if error else 'ok'}\n" for it in came[1:])
                    assert f"ask 5 2 0 0 0 {line}\ntell 5 ok\n{lines}" in orders_of(trace), (workers, way)


def try_requests_that_wait_have_no_reply():
    """200 owners wait for the lock of another when their client goes."""
    for workers in 1, 2, 16:
        server = Server(workers=workers)
        with Client(server) as client:
            client.begin()
            client.gets(lock(SETLK, 3, 3, 0, WRITE_LOCK), reply(3))
            client.send(*(lock(SETLKW, it, it, 0, WRITE_LOCK) for it in range(4, 204)))
            client.closes()
            assert client.rest() == [], workers
        assert sorted(asked_in(trace_of(server, lines=2 + 2 + 200))) == [*range(2, 204)], workers


def waits_of(server):
    """How often each thread of a server has waited so far. The server's first thread reads, and the others only work. It is none where Linux doesn't count."""
    found, folder = {}, f"/proc/{server.serving.pid}/task"
    for it in os.listdir(folder):
        with open(f"{folder}/{it}/status", encoding="ascii") as file:
            found[int(it)] = sum(int(line.split()[1]) for line in file if line.startswith("voluntary_ctxt_switches:"))
    return found


def asked_alone(unique):
    """A write lock, a GETLK of another owner, the unlock and a GETATTR, in turn, and the reply."""
    return [
        (lock(SETLK, unique, 7, 0, WRITE_LOCK), reply(unique)),
        (lock(GETLK, unique, 8, 0, READ_LOCK), lock_reply(unique, 0, 0, WRITE_LOCK, 11)),
        (lock(SETLK, unique, 7, 0, NO_LOCK), reply(unique)),
        (getattr_(unique), fuse.attr_reply(unique, 2, *FILE)),
    ][unique % 4]


def try_messages_that_come_alone_wake_nobody():
    """A client waits for each reply. The thread that reads handles each message itself, so the others sleep on, however many come."""
    said = []
    for workers in 2, 4, 16:
        server = tracing("none", workers=workers)
        with Client(server) as client:
            client.begin()
            all_sleep(server)
            before = waits_of(server)
            for unique in range(4, 4 + ALONE):
                client.gets(*asked_alone(unique))
            after = waits_of(server)
            client.closes()
            assert client.rest() == []
        trace_of(server, "none")
        assert before.keys() == after.keys() and len(after) == workers, (workers, before, after)
        reader = server.serving.pid
        if after[reader] == before[reader]:
            return "not tried: how often threads wait isn't counted here"
        woken = sum(after.values()) - sum(before.values()) - after[reader] + before[reader]
        assert woken < 100, (workers, woken)
        said.append(woken)
    return f"{ALONE} messages woke others {said} times"


# ---- how they wait

def try_lines_are_there_while_workers_sleep():
    """Each worker writes the lines of its orders when none is at hand."""
    for workers in 1, 2, 4, 16:
        server = tracing("file", workers=workers)
        with Client(server) as client:
            client.begin()
            for first in range(3, 643, 64):
                client.send(*map(setlk, range(first, first + 64)))
                client.some(64)
                lines = 2 * (first + 62)
                tries.wait_until(lambda: server.traced().count(b"\n") == lines)
                checked(server.traced(), lines)
        trace_of(server, "file", lines=2 * 641)


def try_a_destroy_waits_for_an_order_that_is_held_up():
    """The lines of an order can't be written, so its reply waits. Other orders are refused meanwhile. A DESTROY behind them is read, and answered last."""
    for workers in 2, 4, 16:
        server = tracing("file", "--trace-full", "refuse", workers=workers, before=ignores_signal)
        with Client(server) as client:
            client.begin()
            may_have(server, os.path.getsize(server.file))
            client.send(setlk(3))
            assert server.tells() == full(server)
            client.send(*(lookup(it, b"none") for it in range(4, 24)), destroy(24))
            assert sorted(client.some(20)) == [reply(it, ENOMEM) for it in range(4, 24)]
            tries.wait_until(lambda: not client.unread())
            assert not select.select([client.socket], [], [], 0.3)[0]
            may_have(server)
            assert client.rest() == [reply(3), reply(24)]
        assert server.ended() == (b"", f"{server.file} is written again\n", 0)
        assert asked_in(checked(server.traced())) == [2, 3]


def nanoseconds(server):
    """The processor time of a server so far. Linux numbers the clock of a process so."""
    return time.clock_gettime_ns(~server.serving.pid << 3 | 2)


def try_an_idle_server_uses_no_processor_time():
    """Less than 20 milliseconds of a second in which its client asks nothing."""
    servers = [Server(workers=workers) for workers in (1, 4, 16)]
    clients = [*map(Client, servers)]
    for client in clients:
        client.begin()
        tries.wait_until(lambda: tries.states_of(client.server.serving) == {"S"})
    time.sleep(0.1)
    before = [*map(nanoseconds, servers)]
    time.sleep(1)
    used = [nanoseconds(server) - it for server, it in zip(servers, before)]
    for client in clients:
        client.closes()
        assert client.rest() == []
        trace_of(client.server, lines=2)
    assert min(before) > 0 and max(used) < 20_000_000, (before, used)
    return f"at most {max(used) // 1000} microseconds"


if __name__ == "__main__":
    sys.exit(tries.main("serve/workers", globals()))
