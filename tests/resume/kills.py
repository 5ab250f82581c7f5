"""Tries `lockd serve --resume` of the built program: a server that is killed at each of its reads and writes, and goes on where it was.

The client of `tests/resume/kit.py` sends again what has no reply. Each time its replies and the trace are those of a session that wasn't cut,
byte for byte. `tests/shims/calls.c` kills the server; it wants a C compiler. `tries.py` says how it ends. `DEATHS=1000 tests/resume/kills.py
try_killed_again_and_again` kills up to a thousand servers at random calls.
"""
import os
import random
import socket
import sys
from concurrent.futures import ThreadPoolExecutor

from tests import calls
from tests.calls import dying
from tests.resume import kit
from tests.fuse import (CREATE_SIZE, EAGAIN, EINVAL, ENOENT, ENOSYS, SETATTR, SETLK, SETLKW, UNIQUE_RESEND, batch_forget, forget, getattr_, interrupt, lookup,
                        made_of, message, sent_again)
from tests.tries import CREATE, INIT, Server, judged, peak, replies, take
from tests.resume.kit import FEW, KILLED, LINES, READ, UNLOCK, WORKED, WRITE, Client, Gone, goes_on, is_stored, is_whole, locks, resuming

DEATHS = int(os.environ.get("DEATHS", "60"))


# ---- a session that is cut

def is_cut(rows, *deaths):
    """The worked session, with servers that die so, one after the other, and one that doesn't. Says how many died."""
    server = resuming(env=dying(*deaths[0]))
    client, rows = Client(server), [*rows]
    for died in range(len(deaths) + 1):
        try:
            goes_on(client, rows)
            is_whole(client)
            return died
        except Gone:
            client.close()
            ended = server.ended()
            assert ended == (b"", "", KILLED), ended
            is_stored(client)
            server.start(env=dying(*deaths[died + 1]) if died + 1 < len(deaths) else None)
    raise AssertionError("the server that wasn't to die is gone")


def at_each(rows, how):
    """Cuts the session at each call in turn, until there are no more. Says how many there are."""
    with ThreadPoolExecutor() as pool:
        for first in range(1, 10_000, 16):
            died = [*pool.map(lambda it: is_cut(rows, (how, it)), range(first, first + 16))]
            if not all(died):
                return first - 1 + sum(died)
    raise AssertionError("there is no last one")


def try_a_session_that_is_not_cut():
    """It has the replies that stand beside the messages, and the trace of a server that doesn't resume."""
    client = Client(resuming())
    goes_on(client, [*WORKED])
    is_whole(client)
    assert client.errors() == {it for row in WORKED for _, told in row for it in told}, client.errors()
    assert client.server.traced().count(b"\n") == 113


def try_each_death():
    """With a few messages under way, and with one. A row takes at least a read, a write of the file and one of the socket."""
    said = []
    for name, rows in ("in rows", WORKED), ("singly", kit.SINGLY):
        for how, least in ("before", 3), ("half", 2), ("after", 3):
            count = at_each(rows, how)
            assert count >= least * len(WORKED), (name, how, count)
            said.append(f"{name} {count} {how}")
    return ", ".join(said)


def try_each_death_while_it_resumes():
    """A server dies within a write, and the next one at each of its first calls."""
    seconds = [*(("before", it) for it in range(1, 9)), *(("half", it) for it in range(1, 4))]
    deaths = [(("half", first), second) for first in range(1, 2 * len(WORKED), 2) for second in seconds]
    with ThreadPoolExecutor() as pool:
        died = [*pool.map(lambda it: is_cut(WORKED, *it), deaths)]
    assert died.count(2) > len(deaths) // 2, died
    return f"{died.count(2)} twice"


def try_killed_again_and_again():
    """Servers that die at random calls, up to three in a session."""
    def death(numbers, rows):
        number = numbers.randrange(1, len(rows))
        return numbers.choice(["before", "half", "after"]), number

    def cut(seed):
        numbers = random.Random(seed)
        rows = numbers.choice([WORKED, kit.SINGLY])
        return is_cut(rows, *(death(numbers, rows) for _ in range(3)))

    with ThreadPoolExecutor() as pool:
        died = sum(pool.map(cut, range(DEATHS // 3)))
    assert died > DEATHS // 2, died
    return f"{died} died"


def try_a_hundred_that_wait():
    """Two servers are killed while they wait, and the third grants each its lock in the old order."""
    waiting = range(10, 110)
    server = resuming()
    client = Client(server)
    client.meet()
    client.ask(FEW[:2] + [(locks(SETLKW, it, it, 0, 9, WRITE), []) for it in waiting])
    for _ in range(2):
        server.serving.kill()
        assert server.ended() == (b"", "", KILLED)
        client.close()
        server.start()
        client.meet()
        client.send_again()
    for owner, freed in zip([7, *waiting], waiting):
        client.ask([(locks(SETLK, 200 + freed, owner, 0, 9, UNLOCK), [(200 + freed, 0), (freed, 0)])])
    client.finish()
    assert server.ended() == (b"", "", 0)
    assert [it for it in kit.told(server.traced()) if it in waiting] == [*waiting]
    assert kit.asked(server.traced()) == [2, 3, *waiting, *(200 + it for it in waiting)], kit.asked(server.traced())
    assert all(len(it) == 1 for it in client.found.values())
    assert judged(server.traced()) == "legal\n"


def try_locks_survive():
    """Three clients come, each to a server of its own. What the first holds keeps the second from its lock, and the third's unlock gives a lock
    to a request of the first, which waited."""
    server = resuming()
    refused, unlock = (locks(SETLK, 8, 10, 9, 9, READ), [(8, EAGAIN)]), (locks(SETLK, 9, 7, 0, 9, UNLOCK), [(9, 0), (4, 0)])
    for row in FEW[:3], [refused], [unlock]:
        client = Client(server)
        client.meet()
        client.ask(row)
        assert client.errors() == {it for _, told in row for it in told}, client.errors()
        client.finish()
        assert server.ended() == (b"", "", 0)
        server.start()
    assert judged(server.traced()) == "legal\n"


# ---- messages that are sent again

def is_told(server, sent, told):
    """A client that sends these messages together gets these replies, by unique and error, in this order."""
    with server.connect() as client:
        client.sendall(INIT + b"".join(sent))
        client.shutdown(socket.SHUT_WR)
        found = take(client, sys.maxsize)
    assert replies(found[80:]) == told, replies(found[80:])
    assert server.ended() == (b"", "", 0)
    return found[80:]


def try_sent_again():
    """What is answered is answered once more, and what waits goes on waiting. What is new is an order, under its unique without the mark."""
    unlock = locks(SETLK, 6, 7, 0, 9, UNLOCK)
    new = [interrupt(8, 99), getattr_(9, 2), lookup(10, b"b"), forget(11, 99, 1), batch_forget(12, (98, 1), (97, 1))]
    sent = [*(it for it, _ in FEW[:4]), *(sent_again(it) for it, _ in FEW[:4]), sent_again(unlock), *(sent_again(it) for it, _ in FEW[:4]), sent_again(unlock)]
    told = [(2, 0), (3, 0), (2, 0), (3, 0), (6, 0), (4, 0), (5, 0), (2, 0), (3, 0), (4, 0), (5, 0), (6, 0)]
    told += [(8, EAGAIN), (9, 0), (10, ENOENT)] * 3
    server = resuming()
    found = is_told(server, sent + [sent_again(it) for it in new * 3], told)
    assert found[:160] == found[176:336], "another reply to the CREATE"
    assert kit.asked(server.traced()) == [2, 3, 4, 5, 6, 8, 9, 10, 11, 12, 12], kit.asked(server.traced())
    assert judged(server.traced()) == "legal\n"


def try_sent_again_to_another_server():
    """The same, where the lines are those of a file. Its last order lacks a reply, and its batch two pairs."""
    text = LINES.split(b"tell 5 ok")[0]
    server = resuming(traced=text)
    told = [(2, 0), (3, 0), (4, 0), (5, 0), (6, 0), (7, EAGAIN), (7, EAGAIN)]
    is_told(server, [sent_again(it) for it, _ in FEW] + [sent_again(FEW[-1][0])], told)
    assert server.traced() == LINES, server.traced()
    pairs = [(99, 1), (2, 0), (98, 1), (97, 1)]
    batch = b"".join(b"ask 0 8 %d 0 0 0 forget %d\n" % it for it in pairs)
    for count in range(5):
        server = resuming(traced=LINES + b"".join(batch.splitlines(True)[:count]) + b"ask 0 8")
        is_told(server, [sent_again(batch_forget(8, *pairs)), sent_again(batch_forget(8, *pairs)), getattr_(9, 2)], [(9, 0)])
        assert server.traced().startswith(LINES + batch + b"ask 0 9 "), (count, server.traced())


def try_sent_again_that_is_no_order():
    """It is answered each time, and is no line."""
    unknown, short = message(SETATTR, 3, 2, bytes(88)), message(SETLK, 4, 2)
    server = resuming()
    is_told(server, [CREATE, unknown, sent_again(unknown), sent_again(short)], [(2, 0), (3, ENOSYS), (3, ENOSYS), (4, EINVAL)])
    assert kit.asked(server.traced()) == [2]


def try_a_mark_without_resuming():
    """It is a bit of the unique like others."""
    for workers in 1, 4:
        server = Server("--trace", "{file}", workers=workers)
        is_told(server, [sent_again(CREATE)], [(2 | UNIQUE_RESEND, 0)])
        assert kit.asked(server.traced()) == [2 | UNIQUE_RESEND]


def fill(client, uniques):
    """Locks and unlocks of a byte, one for each of these uniques."""
    for at in range(0, len(uniques), 64):
        row = uniques[at:at + 64]
        client.sendall(b"".join(locks(SETLK, it, 99, 500, 500, WRITE + it % 2) for it in row))
        assert replies(take(client, 16 * len(row))) == [(it, 0) for it in row]


def try_the_last_lines():
    """The CREATE stands in the last 65,536 lines, the second time at a server that has read them. A pair of lines later it is a new order, and
    the file is open a second time. What waits goes on waiting, though its line has gone."""
    server = resuming()
    with server.connect() as client:
        client.sendall(INIT + CREATE + locks(SETLK, 3, 7, 0, 0, WRITE) + locks(SETLKW, 4, 8, 0, 0, WRITE) + forget(5, 99, 1))
        first = take(client, 80 + 160 + 16)[80:240]
        fill(client, range(100, 100 + (65_536 - 6) // 2))
        client.sendall(sent_again(CREATE))
        assert take(client, 160) == first
    assert server.ended() == (b"", "", 0)
    assert server.traced().count(b"\n") == 65_536
    server.start()
    with server.connect() as client:
        client.sendall(INIT + sent_again(CREATE))
        assert take(client, 80 + 160)[80:] == first
        fill(client, range(50_000, 50_001))
        client.sendall(sent_again(CREATE))
        assert (made_of(first), made_of(take(client, CREATE_SIZE))) == ((2, 1), (2, 2))
        fill(client, range(50_001, 50_002))
        client.sendall(sent_again(locks(SETLKW, 4, 8, 0, 0, WRITE)) + locks(SETLK, 6, 7, 0, 0, UNLOCK))
        assert replies(take(client, 32)) == [(6, 0), (4, 0)]
    assert server.ended() == (b"", "", 0)
    uniques = kit.asked(server.traced())
    assert (uniques.count(2), uniques.count(4)) == (2, 1)
    assert judged(server.traced()) == "legal\n"


# ---- memory

def try_memory_of_a_server_that_resumes():
    """A server that goes on behind many lines has as much memory as one behind few."""
    peaks = []
    for count in 40_000, 200_000:
        before = Server("--trace", "{file}")
        assert not any(before.session(count))
        assert before.ended() == (b"", "", 0)
        client = Client(resuming(traced=before.traced()))
        client.meet()
        peaks.append(peak(client.server.serving))
    assert peaks[1] < peaks[0] + 1024, peaks
    return f"kilobytes: {peaks[0]} to {peaks[1]}"


if __name__ == "__main__":
    sys.exit(calls.main("resume/kills", globals()))
