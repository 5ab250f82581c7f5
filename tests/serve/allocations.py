"""Refuses each allocation of the built `lockd serve` in turn, and of `lockd drive`, and counts those that orders take. Wants a C compiler and the
GNU C library; where there is none it says so, with status 77.

A server ends with status 2, `no memory` and no trace, or else goes on: its trace is legal, each order that is no line of it was told that it is
refused, and all replies are those of the trace. One that says `no memory` answered nobody. It leaves no file of `--trace`, and that of `--resume` as
it was. `tries.py` says how it ends.
"""
import os
import re
import subprocess
import sys

from tests import calls, fuse
from tests.fuse import EAGAIN, EBADF, ENOMEM, FORGET, GETLK, INTERRUPT, NO_LOCK, READ_LOCK, SETLK, SETLKW, WRITE_LOCK
from tests.resume.kit import LINES, completed, lines_of
from tests.resume.long import LEAST, behind_head, exchange, long, order_at, paths_of, piece, read, replies_to, text_of
from tests.serve.kit import Client
from tests.tries import CREATE, INIT, INIT_REPLY, PATIENCE, PROGRAM, TOP, Server, judged, lock, replies, setlk, take

COUNTS = f"{calls.WORK.name}/counts"
DRIVEN = f"{TOP}/examples/two_locks_driven.txt"


def refusing(number):
    return calls.refusing(number, COUNTS)


def asked():
    """How many allocations the last program asked for."""
    return calls.allocations(COUNTS)


def waiting():
    """200 orders: a file, and then a lock of a byte, three requests that wait for it, an INTERRUPT of one of them, a FORGET and two
    unlocks, over and over at another byte."""
    orders = {2: CREATE}
    for first in range(3, 199, 8):
        byte = first
        orders[first] = lock(SETLK, first, 7, byte, WRITE_LOCK)
        for behind in 1, 2, 3:
            orders[first + behind] = lock(SETLKW, first + behind, 7 + behind, byte, READ_LOCK if behind == 3 else WRITE_LOCK)
        orders[first + 4] = fuse.interrupt(first + 4, first + 2)
        orders[first + 5] = fuse.forget(first + 5, 99)
        orders[first + 6] = lock(SETLK, first + 6, 7, byte, NO_LOCK)
        orders[first + 7] = lock(SETLK, first + 7, 8, byte, NO_LOCK)
    return dict(list(orders.items())[:200])


def locks():
    """Some thousand locks and unlocks, for which the history grows again."""
    return {2: CREATE, **{unique: setlk(unique) for unique in range(3, 4_200)}}


def folders():
    """Some thousand folders and files that are made and removed, and some that can't be."""
    orders = {}
    for first in range(2, 2_802, 7):
        name, node = b"%d" % first, 2 + 2 * (first // 7)
        orders |= enumerate([fuse.mkdir(first, name), fuse.mknod(first + 1, b"f"), fuse.mkdir(first + 2, name), fuse.unlink(first + 3, b"f"),
                             fuse.rmdir(first + 4, name), fuse.forget(first + 5, node), fuse.forget(first + 6, node + 1)], first)
    return orders


def talk(server, orders):
    """All replies to an INIT and these orders, sent without waiting for any; none where the server is gone."""
    try:
        with server.connect() as client:
            client.sendall(INIT)
            if len(take(client, fuse.INIT_SIZE)) < fuse.INIT_SIZE:
                return None
            sent = b"".join(orders.values())
            found = b""
            # A client that only sends may stop a server that only answers.
            for at in range(0, len(sent), 1 << 14):
                client.sendall(sent[at:at + (1 << 14)])
                client.setblocking(False)
                try:
                    found += client.recv(1 << 20)
                except BlockingIOError:
                    pass
                client.settimeout(PATIENCE)
            client.shutdown(1)
            return replies(found + take(client, 1 << 30))
    except (BrokenPipeError, ConnectionError, FileNotFoundError):
        return None


def refusal(unique, order):
    """What an order is told that finds no memory."""
    opcode = fuse.opcode_of(order)
    return [] if opcode == FORGET else [(unique, EAGAIN if opcode == INTERRUPT else ENOMEM)]


def is_served(orders, trace, found, before=b""):
    """The trace is legal, and begins with the lines `before`. The replies are those behind them, and of the orders that are no lines of it. Gives how
    many these are."""
    assert judged(trace) == "legal\n", judged(trace)
    assert trace.startswith(before), trace
    text = trace[len(before):].decode()
    taken = {int(it) for it in re.findall(r"^ask \d+ (\d+) ", text, re.M)}
    told = [(int(unique), int(error or 0)) for unique, error in re.findall(r"^tell (\d+) (?:err (\d+))?", text, re.M)]
    refused = [it for unique, order in orders.items() if unique not in taken for it in refusal(unique, order)]
    assert sorted(found) == sorted(told + refused), (sorted(found), sorted(told + refused))
    return len(orders) - len(taken)


def serve(orders, workers, number, *options):
    """Says how many orders were refused; none where it ended with no memory, having answered nobody."""
    server = Server(*options, workers=workers, env=refusing(number))
    found = talk(server, orders)
    printed, told, status = server.ended()
    if (printed, told, status) == (b"", "no memory\n", 2):
        assert found is None, (number, found)
        return None
    assert (told, status) == ("", 0) and found is not None, (number, told, status)
    refused = is_served(orders, printed, found)
    assert refused <= 1, (number, refused)
    return refused


def serve_each(orders, workers, *options):
    assert serve(orders, workers, 0, *options) == 0
    came = [serve(orders, workers, number, *options) for number in range(1, asked() + 1)]
    assert None in came and 1 in came, came
    return f"{len(came)} refused: {came.count(None)} ended with no memory, {came.count(1)} refused an order"


def try_a_desk_of_thousands():
    """One worker is one thread, and takes orders at a desk of its own."""
    return serve_each(locks(), 1)


def try_a_whole_session_of_thousands():
    """With a folder that is refused, what is made later has another number: then the FORGETs are of nodes that are still linked, or aren't there."""
    return serve_each(folders(), 1, "--whole")


def try_a_board_of_thousands():
    return serve_each(locks(), 2)


def try_a_server_with_requests_that_wait():
    return serve_each(waiting(), 4)


# With one slot of each kind, what looks read is let go after 4 orders that are handed in and no look.
ONE_SLOT = "--files", "1", "--open", "1", "--runs", "1", "--parked", "1"


def serve_late_look(number):
    """A GETLK after 60 orders, once they were answered, is shown the lock, or is handed in. Says whether it is a line; none where the server ended with
    no memory, having answered nobody."""
    server = Server(*ONE_SLOT, workers=2, env=refusing(number))
    orders = {2: CREATE, **{unique: setlk(unique) for unique in range(3, 62)}}
    try:
        with Client(server) as client:
            client.send(INIT, *orders.values())
            found = replies(b"".join(client.some(1 + len(orders))))[1:]
            client.send(lock(GETLK, 90, 8, 0, READ_LOCK))
            client.closes()
            looked = replies(b"".join(client.rest()))
    except (BrokenPipeError, ConnectionError, FileNotFoundError):
        found = looked = None
    printed, told, status = server.ended()
    if (printed, told, status) == (b"", "no memory\n", 2):
        assert not found, (number, found)
        return None
    assert (told, status) == ("", 0) and [unique for unique, _ in looked] == [90], (number, told, status, looked)
    is_line = re.search(rb"^ask \d+ 90 ", printed, re.M) is not None
    assert is_served({**orders, **({90: b""} if is_line else {})}, printed, found + (looked if is_line else [])) <= 1, number
    assert is_line or looked == [(90, 0 if (2, 0) in found else EBADF)], (number, looked)
    return is_line


def try_a_look_that_finds_no_memory():
    """What looks read is made anew after a long time. Each allocation for that is refused in turn, too: then the look is handed in."""
    assert serve_late_look(0) is False
    came = [serve_late_look(number) for number in range(1, asked() + 1)]
    assert True in came and False in came, came
    return f"{len(came)} refused: {came.count(None)} ended with no memory, {came.count(True)} handed a look in"


def owed_lines():
    """A trace whose last order lacks its last reply."""
    lines = lines_of(LINES)
    last = max(at for at, it in enumerate(lines) if it.startswith(b"tell 5 "))
    return b"".join(lines[:last])


def leaves(server):
    """The text of its file; none if there is no file."""
    return server.traced() if os.path.exists(server.file) else None


def serve_with_file(orders, how, before, number):
    """As `serve`, of a server whose trace's file has this text before, or isn't there. Says whether it went on: then it refuses no order. If not, it
    leaves no file of `--trace`, and that of `--resume` as it was, or empty if there was none."""
    server = Server(*how, env=refusing(number), traced=before, workers=None)
    found = talk(server, orders)
    ended = server.ended()
    if ended == (b"", "no memory\n", 2):
        kept = {before} if how[0] == "--trace" else {before, before or b""}
        assert found is None and leaves(server) in kept, (number, how, before, found, leaves(server))
        return False
    assert ended == (b"", "", 0) and found is not None, (number, how, before, ended)
    assert is_served(orders, leaves(server), found, completed(before or b"", LINES)) == 0, (number, how, before)
    return True


def serve_each_with_file(how, before=None):
    assert serve_with_file(waiting(), how, before, 0)
    came = [serve_with_file(waiting(), how, before, number) for number in range(1, asked() + 1)]
    assert not all(came), came
    return f"{len(came)} refused: {came.count(False)} ended with no memory"


def try_servers_with_a_trace_file():
    return "; ".join(serve_each_with_file(["--trace", "{file}", *words]) for words in (["--workers", "1"], ["--workers", "4"], ["--rotate", "1"]))


def try_servers_that_go_on():
    """Behind whole lines, which lack a reply, behind some with a cut one, and in a new file."""
    return "; ".join(serve_each_with_file(["--resume", "{file}"], before) for before in (owed_lines(), LINES + b"ask 0 8", None))


def serve_in_pieces(older, begin, end, number):
    """The same, of a server that goes on behind these older pieces and one with these orders. If a new piece is due, and doesn't begin, that is told."""
    server = Server("--resume", "{file}", "--rotate", "1", env=refusing(number), traced=piece(begin, end), pieces=older, workers=None)
    try:
        came = exchange(server, INIT + b"".join(long().messages[end:end + 50]))
    except (FileNotFoundError, ConnectionError):
        came = None
    printed, told, status = server.ended()
    texts = [read(it) for it in paths_of(server)]
    if told == "no memory\n":
        assert (printed, status, came, texts) == (b"", 2, None, [*older.values(), piece(begin, end)]), (number, printed, status)
        return False
    assert (printed, status) == (b"", 0) and re.fullmatch(r"(no new piece of .*\n)?", told), (number, printed, told, status)
    assert came == INIT_REPLY + b"".join(replies_to(end, end + 50)), number
    assert b"".join(map(behind_head, texts)) == text_of(0, end + 50), number
    return True


def try_servers_in_pieces():
    """Behind the piece before, and where a new one is due."""
    said = []
    for older, begin, end in ({1: piece(0, 100)}, 100, 200), ({}, 0, order_at(LEAST)):
        assert serve_in_pieces(older, begin, end, 0)
        came = [serve_in_pieces(older, begin, end, number) for number in range(1, asked() + 1)]
        assert not all(came), came
        said.append(f"{len(came)} refused: {came.count(False)} ended with no memory")
    return "; ".join(said)


def try_an_order_takes_no_memory():
    """A server that keeps no line asks for as many allocations without an order as for thousands."""
    counts = {}
    for workers in 1, 4:
        for orders in {}, waiting(), locks():
            server = Server("--trace", "none", workers=workers, env=refusing(0))
            assert talk(server, orders) is not None
            assert server.ended() == (b"", "", 0)
            counts.setdefault(workers, set()).add(asked())
    assert all(len(each) == 1 for each in counts.values()), counts
    return ", ".join(f"{workers} workers: {each.pop()}" for workers, each in counts.items())


def drive(number):
    server = Server("--trace", "none")
    server.listens()
    with open(DRIVEN, "rb") as lines:
        ran = subprocess.run([PROGRAM, "drive", server.path], stdin=lines, capture_output=True, timeout=PATIENCE, env=refusing(number))
    if server.serving.poll() is None:
        try:
            server.connect().close()
        except (ConnectionError, FileNotFoundError):
            pass
    server.ended()
    return ran.stdout.splitlines(True), ran.stderr.decode(), ran.returncode


def try_a_client():
    wanted, told, status = drive(0)
    assert (len(wanted), told, status) == (4, "", 0), (wanted, told, status)
    count, without = asked(), 0
    for number in range(1, count + 1):
        printed, told, status = drive(number)
        if (told, status) == ("no memory\n", 2):
            assert printed == wanted[:len(printed)], (number, printed)
            without += 1
        else:
            assert (printed, told, status) == (wanted, "", 0), (number, told, status)
    assert without
    return f"{count} refused: {without} ended with no memory"


if __name__ == "__main__":
    sys.exit(calls.main("serve/allocations", globals()))
