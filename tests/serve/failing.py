"""Lets each read and each write of the built `lockd serve` fail in turn, cuts its streams, and refuses memory to each order.

`tests/shims/calls.c` does it, and counts the calls, so that it is seen here if one that failed is tried again. It wants a C compiler and the GNU C library;
where there is none it says so, with status 77. Each function `try_..` is one thing that is tried. `tries.py` says how it ends.
"""
import collections
import itertools
import re
import struct
import sys
import tempfile
from errno import EAGAIN, ECONNRESET, EINTR, EIO, ENOENT, ENOMEM, EPIPE

from tests import calls
from tests import fuse
from tests.calls import ANY
from tests.fuse import INTERRUPT, NO_REPLY, destroy, lookup, node_of, reply, unique_of
from tests.serve.kit import (
    ANSWERED, ANSWERS, BAD, ENDS, ROOM, STREAM, WORKED, Plain, are_calls, does, errors_in, forget_each, full, lookups, orders_of, shortened, stored, talks,
    traced_by, tracing, whole_in)
from tests.tries import INIT, INIT_REPLY, Server, each, limited, replies, run

# Stored sessions. Each message is an order.
STORED = {it.title: it for it in stored("streams")[:8]}
CROWD = STORED["orders that are answered alike in any sequence"]
BATCHED = STORED["two files without names and a node that isn't there, forgotten in a batch"]
SINGLE = STORED["the same, forgotten one by one"]

# What a client got, what its server printed, told and ended with, and how many calls of each kind there were.
Ran = collections.namedtuple("Ran", "came ended recv send allocate")


def serve(sent, workers, asleep=False, **kinds):
    """A session whose client sends this and closes its side. The server's calls of these kinds move few bytes or fail, as `calls.environment` says."""
    notes, kinds = calls.new_notes(), {"recv": [0], "send": [0], **kinds}
    server = Server(workers=workers, env=calls.environment(notes, **kinds))
    came = talks(server, sent, asleep)
    ended, made = server.ended(), collections.Counter(it.split()[0] for it in calls.noted(notes))
    return Ran(came, ended, *(made[it] for it in Ran._fields[2:]))


# ---- streams that end anywhere

def is_cut(size, workers):
    """The worked session ends behind so many bytes. What came whole before is answered, and stands in the trace. `lockd bytes` has no workers."""
    whole, told = whole_in(size), "" if size in ENDS else "cut\n"
    wanted = ANSWERS[:ANSWERED[whole]]
    if not workers:
        ran = run("bytes", text=STREAM[:size].hex().encode() + b"\n")
        assert (bytes.fromhex(ran.stdout.decode()), ran.stderr.decode(), ran.returncode) == (wanted, told, 2 if told else 0), (size, ran)
        return
    server = Server(workers=workers)
    came = server.talk(STREAM[:size])
    assert sorted(it for it, _ in replies(came)) == [*range(1, whole + 1)], (size, workers, came)
    assert came == wanted if workers == 1 else came[:80] == wanted[:80], (size, workers, came)
    traced_by(server.ended(), 2 * max(0, whole - 1), told)


def try_streams_that_are_cut():
    """After each byte of `bytes` and of four workers, and after some of one worker and of sixteen."""
    sizes = range(len(STREAM) + 1)
    assert len(sizes) == 291
    every = [*itertools.product(sizes, (0, 4)), *itertools.product([*sizes[::7], 56, 57, 289, 290], (1, 16))]
    return f"{len(each(is_cut, every))} sessions"


def ends_with_all_behind(end, told, count, workers):
    """An INIT, so many orders and an end come by one read. The orders are answered, whatever stands behind them. What is sent behind an end isn't read."""
    sent, is_over = INIT + lookups(count) + end, len(end) > 3 and told != "cut\n"
    ran = serve(sent + lookup(94, b"none") * is_over, workers, recv=[len(sent)])
    traced_by(ran.ended, 2 * count, told)
    came, is_destroyed = replies(ran.came), is_over and not told
    assert sorted(came) == [(1, 0)] + [(it, ENOENT) for it in range(2, 2 + count)] + [(92, 0)] * is_destroyed, (workers, end, came)
    assert came[-1] == (92, 0) or not is_destroyed, (workers, end, came)
    assert ran.recv == (1 if is_over else 2) and (workers > 1 or ran.send == 1), (workers, end, ran)


def try_nothing_is_read_behind_the_end():
    """Behind a DESTROY, and behind a length that no message has. What came with either counts for nothing. A stream may also end, or be cut."""
    ends = [(b"", ""), (bytes.fromhex("280000"), "cut\n"), (lookup(90)[:41], "cut\n")]
    ends += [(struct.pack("<I", it) + more, f"bad length {it}\n") for it in (0, 39, 8193) for more in (b"", lookup(91, b"none"))]
    ends += [(destroy(92) + more, "") for more in (b"", lookup(93, b"none") + BAD)]
    return f"{len(each(ends_with_all_behind, [(*end, *how) for end in ends for how in itertools.product((0, 20), (1, 2, 4, 16))]))} sessions"


# ---- reads and writes that fail

def ends_by_a_read(number, error, workers):
    """The read of this number fails, and none is made behind it. What came whole before is answered and stands in the trace. Gives whether it failed."""
    size, fails = min(29 * (number - 1), len(STREAM)), number <= 11
    whole = whole_in(size)
    # A read that gives nothing is the stream's end.
    told = "" if not fails else "read failed\n" if error else "" if size in ENDS else "cut\n"
    if workers == 1:
        plain = does(WORKED, told, asleep=True, recv=29, fails=("recv", number, error))
        assert len(plain.moved["send"]) == ANSWERED[whole], (number, error, plain.moved)
        return fails
    ran = serve(STREAM, workers, asleep=True, recv=(29, number, number, error))
    traced_by(ran.ended, 2 * max(0, whole - 1), told)
    assert ran.recv == min(number, 11), (number, error, workers, ran)
    assert sorted(it for it, _ in replies(ran.came)) == [*range(1, whole + 1)], (number, ran)
    return fails


def try_each_read_fails():
    """A read gives 29 bytes at most, so eleven find all and the stream's end. An error that is told once isn't asked about again. With one worker all replies
    left before, also if it spins when the read fails."""
    every = itertools.product(range(1, 13), (EIO, EAGAIN, ECONNRESET, 0), (1, 2, 4, 16))
    each(lambda number: does(WORKED, "read failed\n", recv=29, fails=("recv", number, EIO)), zip(range(1, 12)))
    return f"{sum(each(ends_by_a_read, every))} reads failed"


def goes_on_behind_a_read(number, workers):
    """The read of this number is interrupted, and made again."""
    ran = serve(STREAM, workers, asleep=True, recv=(29, number, number, EINTR))
    traced_by(ran.ended, 6, "")
    assert ran.recv == 11 + (number <= 11), (number, workers, ran)
    assert sorted(it for it, _ in replies(ran.came)) == [1, 2, 3, 4], (number, ran)


def try_each_read_is_interrupted_once():
    """All is answered."""
    return f"{len(each(goes_on_behind_a_read, itertools.product(range(1, 13), (1, 2, 4, 16))))} reads"


def ends_by_a_write(number, error, workers):
    """The write of this number fails or takes nothing, and nothing is written behind it. All orders are in the trace. What went out begins as all replies do:
    with that to the INIT. Gives whether it failed."""
    ran = serve(STREAM, workers, asleep=True, send=(7, number, number, error))
    fails = ran.send >= number
    traced_by(ran.ended, 6, "write failed\n" if fails else "")
    assert ran.came[:80] == ANSWERS[:80][:len(ran.came)], (number, ran)
    if fails:
        assert ran.send == number and len(ran.came) <= 7 * (number - 1) and len(ran.came) < len(ANSWERS), (number, error, workers, ran)
    else:
        assert sorted(it for it, _ in replies(ran.came)) == [1, 2, 3, 4], (number, ran)
    return fails


def ends_by_a_write_of_one_worker(number, error, recv, send, writes):
    """The same with one worker, of whose replies so many writes are made. All messages are taken."""
    plain = does(WORKED, "write failed\n", recv=recv, send=send, fails=("send", number, error))
    assert bool(plain.over) == (number <= writes) == (len(plain.moved["send"]) < len(ANSWERS)) and plain.moved["write"] == WORKED.lines, plain.calls
    return bool(plain.over)


def try_each_write_fails_or_takes_nothing():
    """A write takes 7 bytes at most. So all replies take 39 if they go out together, as those of one worker do if one read gives all orders, and else 41 at
    most. Nothing more is sent, also if a write was interrupted."""
    every = [*itertools.product(range(1, 43), (0, EINTR, EIO, EPIPE), (4, 16))]
    failed = each(ends_by_a_write, every)
    assert all(it for it, (number, *_) in zip(failed, every) if number < 40), failed
    assert not any(it for it, (number, *_) in zip(failed, every) if number == 42), failed
    ways = [(range(1, 43), (29,), (7,), (41,)), (range(1, 43), (8192,), (7,), (39,)), (range(1, 6), (29,), (ROOM,), (4,))]
    failed += each(ends_by_a_write_of_one_worker, [it for numbers, *way in ways for it in itertools.product(numbers, (0, EINTR, EIO, EPIPE), *way)])
    return f"{sum(failed)} writes failed"


def try_all_reads_and_writes_fail():
    """From the first one on. If both fail, the fault is that of reading."""
    fails, works = (0, 1, ANY, EIO), (0,)
    every = [(works, works, "", 6, 272), (fails, works, "read failed\n", 0, 0)]
    every += [(works, fails, "write failed\n", 6, 0), (fails, fails, "read failed\n", 0, 0)]
    for reads, writes, told, lines, size in every:
        for workers in 1, 2, 4:
            ran = serve(STREAM, workers, recv=reads, send=writes)
            traced_by(ran.ended, lines, told)
            assert len(ran.came) == size, ran
            assert reads is works or ran.recv == 1, ran
            assert writes is works or ran.send == (reads is works), ran


def try_a_fault_of_reading_hides_that_of_a_write():
    """Three writes of 16 bytes succeed. Behind 20 orders the stream ends, is cut off, has a bad length, or a read fails."""
    ends = (b"", 0, "write failed\n"), (b"\x28", 0, "cut\n"), (BAD, 0, "bad length 39\n"), (b"", 10, "read failed\n")
    for end, number, told in ends:
        for workers in 1, 4:
            ran = serve(INIT + lookups(20) + end, workers, recv=(100, number, number, EIO), send=(16, 4, ANY, EIO))
            assert ran.came == INIT_REPLY[:48] and ran.send == 4, (end, workers, ran)
            # An INIT and 18 orders are whole among the first 900 bytes.
            traced_by(ran.ended, 2 * (18 if number else 20), told)


def try_a_cut_stream_and_a_failed_write():
    """The first is the fault, and with `--verbose` the second is told beside it."""
    for fails, size in (None, 256), (("send", 2, EPIPE), 200):
        server, _ = shortened("--verbose", send=200, fails=fails)
        assert server.talk(STREAM[:-1]) == ANSWERS[:size]
        _, told, status = server.ended()
        assert "\ncut\n" in told and "write failed" not in told and status == 2, told
        assert ("\nreplies can't be written to the client: " in told) == bool(fails), told


# ---- traces that can't be written

def try_no_reply_leaves_before_its_line():
    """A write of the file of `--resume` fails, each in turn. The session ends by then, so nothing is read or sent any more."""
    def fails(number, size):
        how = {"recv": size, "write": 7, "fails": ("write", number, EIO)}
        plain, (server, notes) = Plain(WORKED, **how), shortened("--trace-full", "end", resumes=True, **how)
        came = server.talk(STREAM)
        _, told, status = server.ended()
        assert re.fullmatch("cannot write .*\ntrace failed\n", told) and status == 2, (number, told)
        made, behind = calls.noted(notes)[:len(plain.calls)], calls.noted(notes)[len(plain.calls):]
        are_calls(made + [it for it in behind if not it.startswith("write")], plain.calls, number)
        assert (came, server.traced()) == (plain.moved["send"], plain.moved["write"]), (number, came.hex(), server.traced())

    for size in 29, 8192:
        count = sum(it.startswith("write") for it in Plain(WORKED, recv=size, write=7).calls)
        each(fails, [(number, size) for number in range(1, count + 1)])


# A LOOKUP of `aa` in the root, where no file is, the replies, and the trace.
SENT, REPLIED = INIT + lookup(2, b"aa"), INIT_REPLY + reply(2, ENOENT)
TRACE = "ask 0 2 1 0 0 0 lookup 6161\ntell 2 err 2\n"


def each_full_trace():
    """A trace has room for no byte, for one, or lacks one. The session ends well, is cut, or has a bad length."""
    return itertools.product((1, 4), ((b"", ""), (struct.pack("<I", 40), "cut\n"), (BAD, "bad length 39\n")), (0, 1, len(TRACE) - 1))


def begins(text, length):
    """The trace of some worker begins with this text, which has so many bytes."""
    return len(text) == length and any(TRACE.replace("ask 0", f"ask {worker}").encode().startswith(text) for worker in range(4))


def try_a_trace_that_cannot_be_printed():
    """That alone is told, whatever fault the session has."""
    for workers, (behind, _), left in each_full_trace():
        with tempfile.TemporaryFile() as full:
            server = Server(workers=workers, printed=full, before=limited(left))
            assert server.talk(SENT + behind) == REPLIED
            assert server.ended() == (None, "write failed\n", 2), (behind, left)
            full.seek(0)
            assert begins(full.read(), left), (behind, left)


def try_a_trace_that_cannot_be_written():
    """That is told behind the fault of the session, if it has one."""
    for workers, (behind, told), left in each_full_trace():
        server = tracing("file", workers=workers, before=limited(left))
        assert server.talk(SENT + behind) == REPLIED
        assert server.ended() == (b"", f"{full(server)}{told}trace failed\n", 2), (behind, left)
        assert begins(server.traced(), left), (behind, left)


# ---- orders for which memory is refused

def refusal(sent):
    """What an order is told that finds no memory."""
    opcode = fuse.opcode_of(sent)
    return [] if opcode in NO_REPLY else [(unique_of(sent), EAGAIN if opcode == INTERRUPT else ENOMEM)]


def forgets(count):
    """So many FORGETs of a node that isn't there, each a line of the trace and no more."""
    most = 509
    return b"".join(forget_each(999, *[77] * size) for size in [most] * (count // most) + [count % most])


def room():
    """How many FORGETs a server of one worker takes before its history needs memory again, and the number of the allocation that it then makes."""
    few = serve(INIT + forgets(1), 1, allocate=[0]).allocate
    low, high = 1, 10_000
    while high - low > 1:
        middle = (low + high) // 2
        low, high = (middle, high) if serve(INIT + forgets(middle), 1, allocate=[0]).allocate == few else (low, middle)
    return low, few + 1


def told_in(trace):
    """The line of each order in a trace, without its worker, and the replies that each gave."""
    orders = orders_of(trace)
    return [it.split("\n")[0] for it in orders], [*map(errors_in, orders)]


def answers_alone(stream):
    """The replies of a session without workers, each in hex."""
    ran = run("bytes", text=stream.hex().encode() + b"\n")
    assert (ran.stderr, ran.returncode) == (b"", 0), ran
    return ran.stdout.decode().split()


def is_refused(stream, orders, lines, number, before, allocation):
    """The order of this number, from 0, is refused, behind so many FORGETs. It is told so, it is no line, and all else is as in a session without it.
    `orders` are a message for each order of the stream, and `lines` are theirs in a session that refuses none."""
    ran = serve(INIT + forgets(before) + stream, 1, allocate=(0, allocation, allocation))
    found, told = told_in(traced_by(ran.ended))
    assert found[before:] == lines[:number] + lines[number + 1:], (number, found[before:])
    told[before + number:before + number] = [refusal(orders[number])]
    assert replies(ran.came) == [(1, 0)] + sum(told, []), (number, ran.came)
    wanted = answers_alone(INIT + b"".join(orders[:number] + orders[number + 1:]))
    at = 1 + sum(map(len, told[before:before + number]))
    wanted[at:at] = [reply(unique, error).hex() for unique, error in refusal(orders[number])]
    assert ran.came.hex() == "".join(wanted), (number, ran.came)


def try_each_order_is_refused_in_turn():
    """Also each one of a batch. Those behind it are taken."""
    most, allocation = room()
    every = []
    for title, session in STORED.items():
        stream, orders = session.stream, (SINGLE if session == BATCHED else session).messages
        lines, told = told_in(traced_by(serve(INIT + stream, 1).ended))
        assert [it.split()[1:3] for it in lines] == [[str(unique_of(it)), str(node_of(it))] for it in orders], title
        before = [number + sum(map(len, told[:number])) for number in range(len(lines))]
        every += [(stream, orders, lines, number, most - it, allocation) for number, it in enumerate(before)]
    assert len(every) == 27 + 2 * 11 + 24, len(every)
    each(is_refused, every)
    return f"{len(every)} orders"


def some_are_refused(first, last, workers, fewest, most):
    """The history of a session finds no memory for these allocations. Of its 24 orders so many are refused, told so, and no lines. The others are taken."""
    ran, orders = serve(INIT + CROWD.stream, workers, allocate=(0, first, last)), CROWD.messages
    found, told = told_in(traced_by(ran.ended))
    taken = {int(it.split()[1]) for it in found}
    assert ran.ended[0].count(b"\n") == len(found) + sum(map(len, told)), ran
    assert len(taken) == len(found) and taken <= {*map(unique_of, orders)}, found
    refused = [it for it in orders if unique_of(it) not in taken]
    assert fewest <= len(refused) <= most, (first, last, workers, len(refused))
    assert sorted(replies(ran.came)) == sorted([(1, 0)] + sum(told, []) + sum(map(refusal, refused), [])), (workers, ran.came)
    return len(refused)


def try_refused_orders_are_told_so_and_are_no_lines():
    """None, one, some and all of 24 orders that are answered alike in any sequence."""
    said = []
    for workers in 1, 2, 4, 16:
        first = serve(INIT, workers, allocate=[0]).allocate + 1
        every = [(0, 0, workers, 0, 0), (first, first, workers, 1, 1), (first, first + 7, workers, 1, 8), (first, ANY, workers, 24, 24)]
        said.append(each(some_are_refused, every)[2])
    return f"{said} of 24 for eight allocations"


if __name__ == "__main__":
    sys.exit(calls.main("serve/failing", globals()))
