"""Tries `lockd serve --resume FILE --rotate BYTES`, and `--trace FILE --rotate BYTES`, of the built program: a trace in pieces, restarts behind one, and
servers that are killed, or whose calls fail, while a new piece begins.

Replies and lines are each time those of a server whose trace is one piece, byte for byte. `tests/resume/long.py` has the session, and
`tests/shims/turns.c` kills the server; it wants a C compiler. `tries.py` says how it ends.
"""
import contextlib
import errno
import fcntl
import glob
import itertools
import os
import random
import re
import socket
import sys
import tempfile

from tests import calls, fuse, tries
from tests.calls import new_notes, noted, turning
from tests.resume import kit
from tests.resume.kit import FEW, KILLED, LINES, WORKED, Client, goes_on
from tests.resume.long import (FIRST, LEAST, ORDERS, behind_head, exchange, head_at, is_row, long, names_of, order_at, paths_of, piece, read, replies_to,
                               sending, snapshot, state_of, text_of)
from tests.fuse import SETLK, SETLKW, sent_again, unique_of
from tests.tries import INIT, INIT_REPLY, Server, each, run, take, wait_until

DEATHS = int(os.environ.get("DEATHS", "8"))
ROTATE = "--rotate", "1"


# ---- servers behind pieces of the long session

def after(pieces):
    """The order behind so many whole pieces, each a few lines longer than it has to be."""
    return order_at(pieces * (LEAST + 50))


def pieces_of(count):
    """So many whole pieces, by their numbers."""
    return {it + 1: piece(after(it), after(it + 1)) for it in range(count)}


def behind(pieces, traced, *options, **how):
    return Server("--resume", "{file}", *options, workers=None, traced=traced, pieces=pieces, **how)


def due(*options, pieces=0, **how):
    """A server behind so many whole pieces and FILE, in which as many lines stand as a piece has at the least."""
    *older, traced = pieces_of(pieces + 1).values()
    return behind(dict(enumerate(older, 1)), traced, *options, **how)


def sent(begin, end, again=False):
    messages = long().messages[begin:end]
    return b"".join(map(sent_again, messages) if again else messages)


def serves(server, begin, end):
    """Serves these orders to its end as a server with one piece does."""
    came = exchange(server, INIT + sent(begin, end))
    assert server.ended() == (b"", "", 0)
    assert came == INIT_REPLY + b"".join(replies_to(begin, end)), "other replies"


class Asking:
    """A client whose session has begun, until its block ends."""

    def __init__(self, server):
        self.server, self.socket = server, server.connect()
        self.socket.sendall(INIT)
        assert take(self.socket, len(INIT_REPLY)) == INIT_REPLY

    def __enter__(self):
        return self

    def __exit__(self, *_):
        self.socket.close()

    def ask(self, begin, end):
        """Asks for these orders. The replies that come are those to them alone, in their order. They are carried out then, also where none comes."""
        expected = b"".join(replies_to(begin, end))
        with sending(self.socket, sent(begin, end)):
            found = take(self.socket, len(expected))
        assert found == expected, (len(found), len(expected))
        last = long().lines[long().starts[end - 1]]
        if os.path.exists(self.server.file):
            wait_until(lambda: any(last in read(it)[-10_000:] for it in glob.glob(f"{self.server.file}*") if os.path.isfile(it) and not it.endswith(".new")))


# ---- turns

def try_several_turns():
    """In each head are files, open files, locks and requests that wait. Each piece is legal by itself."""
    server = behind({}, None, *ROTATE)
    serves(server, 0, ORDERS)
    texts = is_row(server, 0, ORDERS)
    assert names_of(server) == [1, 2, 3, ""], names_of(server)
    for it in texts:
        assert tries.judged(it) == "legal\n"
    for it in texts[1:]:
        parts = {line.split()[0] for line in it[:it.index(b"\ngo\n")].splitlines()}
        assert parts == {b"state", b"node", b"file", b"lock", b"wait"}, parts
    counts = [behind_head(it).count(b"\n") for it in texts[:-1]]
    assert max(counts) < LEAST + 4096, counts
    return f"{counts} lines"


def try_a_piece_is_due_by_bytes_and_by_lines():
    """FILE has so many bytes, or more, with so many orders and replies behind its head, or in it. A server that goes on counts what stands there."""
    for pieces in 0, 2:
        at = after(pieces + 1)
        size = len(piece(after(pieces), at))
        for more, turns in (1, True), (size, True), (size + 20_000, False):
            server = due("--rotate", str(more), pieces=pieces)
            serves(server, at, at + 100)
            assert names_of(server) == [*range(1, pieces + 1 + turns), ""], (pieces, more, names_of(server))
            is_row(server, 0, at + 100)

    def begins(begin, lines):
        end = order_at(long().starts[begin] + lines)
        count = long().starts[end] - long().starts[begin]
        server = behind({1: piece(0, after(1))} if begin else {}, piece(begin, end), *ROTATE)
        serves(server, end, end)
        assert names_of(server) == [*range(1, 1 + bool(begin) + (count >= LEAST)), ""], (begin, count, names_of(server))

    each(begins, [(begin, lines) for begin in (0, after(1)) for lines in range(LEAST - 3, LEAST + 3)])


def try_a_piece_that_is_never_due():
    """By the bytes, or by the lines, of which the worked session has few."""
    for options in ["--rotate", "4294967295"], ["--rotate", "1"], ["--rotate", "4294967295", "--keep", "4294967295"]:
        client = Client(kit.resuming(*options))
        goes_on(client, [*WORKED])
        kit.is_whole(client)
        assert names_of(client.server) == [""], names_of(client.server)


def try_pieces_that_stay():
    """So many, FILE among them, and the last ones."""
    def stay(keep):
        server = behind({}, None, *ROTATE, "--keep", str(keep))
        serves(server, 0, ORDERS)
        assert names_of(server) == [*range(1, 4)][-keep + 1:] + [""], (keep, names_of(server))
        texts = [read(it) for it in paths_of(server)]
        is_row(server, ORDERS - sum(it.count(b"\nask ") + it.startswith(b"ask ") for it in texts), ORDERS)

    each(stay, [(2,), (3,), (9,)])


def try_pieces_that_someone_removed():
    """The next number is one more than the greatest. Those that are removed end with the first that isn't there."""
    at, texts = after(1), pieces_of(1)
    for there, keep, stay in (
            ([], 2, [1]), ([7], 2, [8]), ([7], None, [7, 8]), ([1, 2, 3, 4], 2, [5]), ([1, 2, 4], 2, [1, 2, 5]), ([1, 3, 4], 3, [1, 4, 5]),
            ([1, 2, 3, 9], 2, [1, 2, 3, 10]), ([9, 10, 99], 3, [9, 10, 99, 100]), ([1, 2, 3], 4, [2, 3, 4]), ([1, 2, 3], 5, [1, 2, 3, 4])):
        server = behind(dict.fromkeys(there, b"x\n"), texts[1], *ROTATE, *(["--keep", str(keep)] if keep else []))
        serves(server, at, at + 10)
        assert names_of(server) == [*stay, ""], (there, keep, names_of(server))
        assert read(f"{server.file}.{stay[-1]}") == texts[1]
        assert read(server.file).startswith(b"state ") and behind_head(read(server.file)) == text_of(at, at + 10)
        assert all(read(f"{server.file}.{it}") == b"x\n" for it in stay[:-1])


def try_names_that_are_no_pieces():
    """They don't count, and stay."""
    names = ".01", ".007", ".1x", ".x", ".", ".+5", ".-5", ".5.gz", ".news", "1", ".0x7", ". 7"
    at, text = after(1), piece(0, after(1))
    server = at_rest({}, text, *ROTATE, "--keep", "2")
    for it in names:
        with open(server.file + it, "wb") as file:
            file.write(b"x\n")
    server.start()
    serves(server, at, at + 10)
    assert names_of(server) == [1, *sorted(["", *names])], names_of(server)
    assert read(f"{server.file}.1") == text and all(read(server.file + it) == b"x\n" for it in names)


def try_a_new_piece_that_was_left():
    """Of a server that was killed: it is removed when the next piece begins, and stays if none does."""
    at = after(1)
    for text in b"", b"state 1 0 ", head_at(at):
        server = behind({"new": text}, piece(0, at), *ROTATE)
        serves(server, at, at + 10)
        is_row(server, 0, at + 10)
        server = behind({"new": text}, piece(0, 100))
        with Asking(server):
            pass
        assert server.ended() == (b"", "", 0)
        assert read(f"{server.file}.new") == text


def try_paths_of_a_file_in_pieces():
    """FILE is named from the folder at hand, or by a name with dots."""
    at, end = after(2), after(2) + 100
    for name in "trace", "./trace", "beside/../trace", "tr.1.ace":
        server = at_rest(pieces_of(1), piece(after(1), at), *ROTATE)
        folder = server.folder.name
        os.mkdir(f"{folder}/beside")
        if name == "tr.1.ace":
            for it in "trace", "trace.1":
                os.rename(f"{folder}/{it}", f"{folder}/{it.replace('trace', name)}")
        server.words[server.words.index(server.file)] = name
        for begin, more in (at, 10), (at + 10, end - at - 10):
            server.start(before=lambda folder=folder: os.chdir(folder))
            serves(server, begin, begin + more)
        server.file = f"{folder}/{name}"
        paths = paths_of(server)
        assert names_of(server) == [1, 2, ""], (name, names_of(server))
        assert read(paths[-2]) == piece(after(1), at) and behind_head(read(paths[-1])) == text_of(at, end), name


def try_a_link_to_a_file_in_pieces():
    """It would lead to the file that is the piece before by then. So nobody is served, but without `--rotate`."""
    at = after(1)
    server = at_rest({}, piece(0, at))
    os.rename(server.file, f"{server.file}.1")
    os.symlink("trace.1", server.file)
    words = server.words
    server.words = [*words, *ROTATE]
    refused(server)
    server.words = words
    server.start()
    serves(server, at, at + 50)
    assert os.path.islink(server.file) and read(server.file) == piece(0, at + 50) and names_of(server) == [1, ""]


def try_a_file_with_no_lines_beside_pieces():
    """Someone has taken FILE away, or has emptied it, or cut it within its first line: nobody is served. Nor is anybody if FILE.new is there, a copy of
    FILE or a piece, but for an empty one."""
    for options in ROTATE, (), ("--allow-gap",):
        for traced in b"", b"as":
            refused(at_rest({1: LINES}, traced, *options))
    for left in LINES[:9], b"":
        server = at_rest({}, b"")
        with open(f"{server.file}.new", "xb") as it:
            it.write(left)
        if left:
            refused(server)
            continue
        server.start()
        with Asking(server):
            pass
        assert server.ended() == (b"", "", 0)


def try_permissions_of_a_new_piece():
    """They are those of FILE, and so is the owner."""
    for mode in 0o600, 0o664, 0o666:
        server = at_rest({}, piece(0, after(1)), *ROTATE)
        os.chmod(server.file, mode)
        if os.getuid() == 0:
            os.chown(server.file, 65534, 65533)
        before = os.stat(server.file)
        server.start()
        serves(server, after(1), after(1) + 10)
        found = os.stat(server.file)
        assert (found.st_mode, found.st_uid, found.st_gid) == (before.st_mode, before.st_uid, before.st_gid), oct(found.st_mode)
        assert os.path.samestat(os.stat(f"{server.file}.1"), before)


def try_a_number_that_is_taken_meanwhile():
    """By a file that the server didn't find when it began: it has the name, and the piece gets the next number."""
    at = after(1)
    server = behind({}, piece(0, at - 40), *ROTATE)
    with Asking(server) as client:
        client.ask(at - 40, at - 39)
        for it in 1, 2:
            with open(f"{server.file}.{it}", "wb") as file:
                file.write(b"x\n")
        client.ask(at - 39, at + 10)
    assert server.ended() == (b"", "", 0)
    assert names_of(server) == [1, 2, 3, ""] and read(f"{server.file}.1") == read(f"{server.file}.2") == b"x\n"
    assert behind_head(read(f"{server.file}.3")) + behind_head(read(server.file)) == text_of(0, at + 10)


def try_pieces_that_another_server_has():
    """They are locked, and stay, be it FILE.new or one that would be removed."""
    texts = pieces_of(2)
    at = after(2)
    for name in ".1", ".new":
        server = at_rest({1: texts[1], "new": b""}, texts[2], *ROTATE, "--keep", "2")
        with open(server.file + name, "rb") as file:
            fcntl.flock(file, fcntl.LOCK_EX)
            server.start()
            with Asking(server) as client:
                client.ask(at, at + 10)
            printed, told, status = server.ended()
        assert (printed, status) == (b"", 0) and re.fullmatch(no_new_piece(server) if name == ".new" else "", told), told
        assert names_of(server) == ([1, "", ".new"] if name == ".new" else [1, 2, ""]), names_of(server)


def try_a_name_with_no_room_behind_it():
    """No file can be named FILE.new. So there is no new piece, which is told."""
    server = at_rest({}, piece(0, after(1)), *ROTATE)
    name = f"{server.folder.name}/{'x' * 252}"
    os.rename(server.file, name)
    server.words[server.words.index(server.file)] = server.file = name
    server.start()
    with Asking(server) as client:
        client.ask(after(1), after(1) + 50)
    printed, told, status = server.ended()
    assert (printed, status) == (b"", 0) and re.fullmatch(no_new_piece(server), told), told
    assert names_of(server) == [""] and read(name) == piece(0, after(1) + 50)


def try_no_other_server_takes_a_new_piece():
    """While its server lives. The piece before is nobody's."""
    server = due(*ROTATE)
    with Asking(server) as client:
        client.ask(after(1), after(1) + 10)
        assert names_of(server) == [1, ""]
        before = snapshot(server)
        other = run("serve", f"{server.path}.other", "--resume", server.file, *ROTATE)
        assert (other.stdout, other.stderr, other.returncode) == (b"", b"cannot trace\n", 2), other
        assert snapshot(server) == before
    assert server.ended() == (b"", "", 0)
    assert run("check", text=read(f"{server.file}.1")).stdout == b"legal\n"


def try_a_file_that_goes_behind_a_turn():
    """It was removed or moved: it is put back by the end, and is the file that counts by then."""
    for take_away in os.remove, lambda it: os.rename(it, f"{os.path.dirname(it)}/moved"):
        server = due(*ROTATE)
        with Asking(server) as client:
            client.ask(after(1), after(1) + 10)
            take_away(server.file)
            client.ask(after(1) + 10, after(1) + 20)
        assert server.ended() == (b"", f"{server.file} was moved or removed, and is there again\n", 0)
        is_row(server, 0, after(1) + 20)


def try_words_of_pieces():
    """Numbers out of their range, and options without the one that they belong to."""
    with tempfile.TemporaryDirectory() as folder:
        path, file = f"{folder}/socket", f"{folder}/trace"
        for words in (["--rotate", "1"], ["--trace", "none", "--rotate", "1"], ["--resume", file, "--keep", "2"], ["--resume", file, "--rotate", "0"],
                      ["--resume", file, "--rotate", "4294967296"], ["--resume", file, "--rotate", "-1"], ["--resume", file, "--rotate", "1M"],
                      ["--resume", file, "--rotate"], ["--resume", file, "--rotate", "1", "--keep", "1"], ["--resume", file, "--rotate", "1", "--keep", "0"],
                      ["--resume", file, "--rotate", "1", "--keep", "4294967296"]):
            ran = run("serve", path, *words)
            assert (ran.stdout, ran.returncode) == (b"", 2) and ran.stderr.startswith(b"error: "), (words, ran)
        assert not os.listdir(folder)


# ---- a new trace in pieces

# Within so many orders a piece begins that is due.
MORE = 5_000


def new(*options, **how):
    """A server whose trace begins in a new FILE, in pieces."""
    return Server("--trace", "{file}", *ROTATE, *options, **{"workers": None, **how})


def new_at_rest(pieces, traced, *options):
    """The files of such a server, which isn't started."""
    server = at_rest(pieces, traced, *ROTATE, *options)
    server.words[server.words.index("--resume")] = "--trace"
    return server


def goes_on_behind(server, *options):
    """It is started once more, by `--resume FILE` and these options."""
    server.words[2:] = [server.path, "--resume", server.file, *options]
    server.start()


def try_a_new_trace_in_pieces():
    """Replies and lines are those of `--resume`, with one worker that is said or not. A server goes on behind the last piece."""
    for workers, pieces, options in (None, 1, ROTATE), (1, 2, ()):
        server, at = new(workers=workers), after(pieces) + MORE
        serves(server, 0, at)
        texts = is_row(server, 0, at)
        assert names_of(server) == [*range(1, pieces + 1), ""], names_of(server)
        for it in texts:
            assert tries.judged(it) == "legal\n"
        goes_on_behind(server, *options)
        serves(server, at, ORDERS)
        is_row(server, 0, ORDERS)
        assert names_of(server) == [*range(1, 4 if options else pieces + 1), ""], names_of(server)


def try_new_pieces_that_stay():
    """So many, FILE among them, and the last ones."""
    for keep, stay in ("2", [2]), ("4294967295", [1, 2]):
        server, at = new("--keep", keep), after(2) + MORE
        serves(server, 0, at)
        assert names_of(server) == [*stay, ""], (keep, names_of(server))
        texts = [read(it) for it in paths_of(server)]
        is_row(server, at - sum(it.count(b"\nask ") + it.startswith(b"ask ") for it in texts), at)


def try_a_new_trace_with_something_at_its_path():
    """A file, one with no lines, a folder or a link to nothing, or a piece of an older trace: nobody is served, and nothing changes."""
    for pieces, traced in ({}, LINES), ({}, b""), ({1: LINES}, None), ({7: piece(0, 100)}, None), ({1: LINES}, b""):
        refused(new_at_rest(pieces, traced))
    for make in os.mkdir, lambda it: os.symlink(f"{it}.other", it):
        server = new_at_rest({}, None)
        make(server.file)
        refused(server)
    server = new_at_rest({"new": b"x\n", "01": b"x\n"}, None)
    server.start()
    serves(server, 0, 50)
    assert read(server.file) == piece(0, 50) and names_of(server) == ["", ".01", ".new"], names_of(server)


def try_a_new_trace_of_nobody():
    """Something is at the path of the socket, and stays, or no path is named. Then no FILE is left."""
    for make in (lambda it: open(it, "wb").close()), os.mkdir, lambda it: socket.socket(socket.AF_UNIX).bind(it):
        server = new_at_rest({}, None)
        make(server.path)
        refused(server, told="cannot listen\n", named=server.path)
    with tempfile.TemporaryDirectory() as folder:
        ran = run("serve", "", "--trace", f"{folder}/trace", *ROTATE)
        assert (ran.stdout, ran.stderr, ran.returncode) == (b"", b"cannot listen\n", 2), ran
        assert not os.listdir(folder)


def try_a_new_trace_of_a_server_that_waits():
    """No other server takes its FILE meanwhile. Killed, it leaves FILE empty, and the next one goes on there."""
    server = new()
    server.listens()
    for words in ["--resume", server.file], ["--resume", server.file, *ROTATE], ["--trace", server.file, *ROTATE]:
        other = run("serve", f"{server.path}.other", *words)
        assert (other.stdout, other.stderr, other.returncode) == (b"", b"cannot trace\n", 2), other
    server.serving.kill()
    assert server.ended() == (b"", "", KILLED) and read(server.file) == b""
    goes_on_behind(server, *ROTATE)
    serves(server, 0, 100)
    assert read(server.file) == text_of(0, 100)


def try_a_new_trace_that_is_full():
    """The lines of the first orders are in FILE once their replies come. By `end` the session ends where FILE can't be written, and FILE stays."""
    server = new("--trace-full", "end", before=tries.limited(5_000))
    with Asking(server) as client:
        expected = b"".join(replies_to(0, 8))
        client.socket.sendall(sent(0, 8))
        assert take(client.socket, len(expected)) == expected
        assert read(server.file) == text_of(0, 8)
        with contextlib.suppress(ConnectionError), sending(client.socket, sent(8, 1000)):
            take(client.socket, 1 << 20)
    printed, told, status = server.ended()
    assert (printed, status) == (b"", 2) and re.fullmatch(rf"cannot write {re.escape(server.file)}: .+\ntrace failed\n", told), told
    assert len(read(server.file)) == 5_000 and text_of(0, 1000).startswith(read(server.file))


def is_new_cut(how, number):
    """The server of a new trace dies at this call of its first turn, and another goes on by `--resume`. All replies come once."""
    server = new(env=turning(dies=f"{how} {number}"))
    session = Cut(server, 0, after(1) + MORE)
    assert session.serve() == KILLED, "none died"
    assert "" in names_of(server), "FILE is gone"
    goes_on_behind(server, *ROTATE)
    session.ends()
    assert names_of(server) == [1, ""], names_of(server)
    is_row(server, 0, after(1) + MORE)


def try_a_new_trace_that_is_killed_in_a_turn():
    """Before each call of it, and behind the last."""
    kinds, _ = calls_of_a_turn(0)
    deaths = [("before", number) for number in range(1, len(kinds) + 1)] + [("after", len(kinds))]
    each(is_new_cut, deaths)
    return f"{len(deaths)} died"


# ---- restarts

def restart(server, options):
    """It is started once more, with these options."""
    server.words[server.words.index(server.file) + 1:] = options
    server.start()


def try_exactly_once_at_a_seam():
    """A server is killed soon behind a turn. To the next one messages come again whose orders stand in the piece before and in FILE: no line is
    added, and the replies come as they were. What waited before the turn is granted then."""
    at = after(1)
    for options in ROTATE, ("--rotate", "1", "--keep", "2"), ():
        server = due(*ROTATE)
        with Asking(server) as client:
            client.ask(at, at + 300)
            server.serving.kill()
        assert server.ended() == (b"", "", KILLED)
        restart(server, options)
        with Asking(server) as client:
            texts = is_row(server, 0, at + 300)
            assert b"\nwait " in texts[1]
            end = at + 300
            waits = answers_again(client, at - 2000, end)
            assert is_row(server, 0, end) == texts
            client.ask(end, end + 5000)
            assert waits - waiting(end + 5000), "none was granted"
        assert server.ended() == (b"", "", 0)
        is_row(server, 0, end + 5000)


def answers_again(client, begin, end):
    """These orders come again, and each gets the reply that it had, but for those that still wait. Gives which these are."""
    client.socket.sendall(sent(begin, end, again=True))
    # To a request that waited the reply comes at its message, and not again at the order that granted it.
    asked = {unique_of(it) for it in long().messages[begin:end]}
    expected = {unique_of(it): it for it in replies_to(begin, ORDERS) if unique_of(it) in asked}
    waits = waiting(end)
    count = sum(len(it) for unique, it in expected.items() if unique not in waits)
    found = fuse.cut(take(client.socket, count))[0]
    assert {unique_of(it): it for it in found} == {unique: it for unique, it in expected.items() if unique not in waits}
    assert len(found) == len({*map(unique_of, found)})
    return waits


def waiting(order):
    """The uniques that wait before this order."""
    return {int(it.split()[1]) for it in head_at(order).splitlines() if it.startswith(b"wait ")}


def boundary():
    """An order with which the last 65,536 lines begin, and the one behind the last line. It and the order before are GETLKs, which have a reply each."""
    orders = {line: order for order, line in enumerate(long().starts)}
    opcodes = [fuse.opcode_of(it) for it in long().messages]
    ends = ((orders.get(long().starts[end] - LEAST), end) for end in range(after(2) + 100, ORDERS))
    return next((first, end) for first, end in ends if first and opcodes[first] == opcodes[first - 1] == fuse.GETLK)


def try_the_last_lines_at_a_seam():
    """An order whose line is the first of the last 65,536 is known. The one before is taken once more."""
    first, end = boundary()
    for older in pieces_of(2), {2: piece(first - 3000, after(2))}:
        server = behind(older, piece(after(2), end))
        with Asking(server) as client:
            before = read(server.file)
            client.socket.sendall(sent(first, first + 1, again=True))
            mine, = replies_to(first, first + 1)
            assert take(client.socket, len(mine)) == mine
            assert read(server.file) == before
            client.socket.sendall(sent(first - 1, first, again=True))
            assert unique_of(take(client.socket, 16)) == unique_of(long().messages[first - 1])
            assert read(server.file).startswith(before + text_of(first - 1, first).splitlines(True)[0])


def refused(server, status=2, told="cannot trace\n", named=None):
    """Nobody is served, and each file is as it was. With `-v` a line says of which piece that is, or of which other file."""
    words, before = server.words, snapshot(server)
    for more in [], ["-v"]:
        server.words = [*words, *more]
        server.start()
        server.listens()
        assert server.serving.poll() is not None, "it serves"
        printed, said, ended = server.ended()
        assert (printed, ended) == (b"", status), (printed, said, ended)
        assert said == told if not more else re.fullmatch(r"(the trace goes to .+\n)?" + re.escape(told) + r"(.+\n)+", said) and (named or server.file) in said, said
        assert snapshot(server) == before


def at_rest(pieces, traced, *options):
    """The files of a server, which isn't started."""
    server = behind(pieces, traced, *options, program="/bin/true")
    server.ended()
    server.words[0] = tries.PROGRAM
    return server


def changed(text, line, to):
    lines = text.splitlines(True)
    return b"".join([*lines[:line], to, *lines[line + 1:]])


def try_pieces_that_do_not_fit():
    """The piece before is missing, another one, cut, has a line more, a bad line or one that differs, or has other rules; or it is too short."""
    first, second = pieces_of(2).values()
    at = after(2)
    traced = piece(at, at + 150)
    last = second.rindex(b"\nask ") + 1
    tell = next(it for it in range(40_000, 50_000) if second.splitlines()[it].endswith(b" ok"))
    wrong = {
        "missing": {},
        "the one before the one before": {1: first},
        "that with another number": {1: first, 2: second, 3: first},
        "with another behind": {1: first, 2: second, 3: b""},
        "without its last order": {1: first, 2: second[:last]},
        "without its last line": {1: first, 2: second[:second.rindex(b"\n", 0, -1) + 1]},
        "without its last newline": {1: first, 2: second[:-1]},
        "with an order more": {1: first, 2: second + text_of(at, at + 1)},
        "of another server": {2: LINES},
        "with a head that is cut off": {2: head_at(at)[:-3]},
        "empty": {2: b""},
        "no trace": {2: b"notes\n"},
        "with a bad first line": {2: changed(second, 0, b"x\n")},
        "with a bad line in its midst": {2: changed(second, 40_000, b"ask 0\n")},
        "with a bad last line": {2: second + b"x\n"},
        "with a reply that differs": {2: changed(second, tell, second.splitlines(True)[tell].replace(b" ok", b" err 71"))},
        "with no lines and other rules": {2: state_of(b"", "--fair")},
        "with a head alone": {2: head_at(at)},
        "too short": {2: piece(at - 100, at)},
    }

    def refuses(number, name, pieces):
        try:
            refused(at_rest(pieces, traced, *ROTATE[:number % 2 * 2]))
        except AssertionError as error:
            raise AssertionError(f"{name}: {error}") from error

    each(refuses, [(number, *it) for number, it in enumerate(wrong.items())])
    server = at_rest({1: first}, traced)
    os.mkdir(f"{server.file}.2")
    refused(server)
    return f"{len(wrong) + 1} pieces"


def try_the_least_of_a_piece_before():
    """With it there are 65,536 orders and replies, or all that there are. With fewer nobody is served."""
    first, end = boundary()
    at = after(2)
    refused(at_rest({2: piece(first + 1, at)}, piece(at, end)))
    refused(at_rest({2: piece(10, 100)}, piece(100, 200)))
    for pieces, begin, end in ({2: piece(first, at)}, at, end), ({1: piece(0, 100)}, 100, 200), ({5: piece(0, 100)}, 100, 100), ({}, 0, 200):
        server = behind(pieces, piece(begin, end))
        serves(server, end, end + 50)
        assert read(server.file) == piece(begin, end + 50)


def try_a_piece_that_needs_none_before():
    """It has 65,536 orders and replies. One fewer is too few."""
    starts = {line: order for order, line in enumerate(long().starts)}
    begin = next(it for it in range(after(1), ORDERS) if long().starts[it] + LEAST in starts and long().starts[it] + LEAST - 1 in starts)
    end = starts[long().starts[begin] + LEAST]
    for pieces in {}, {1: b"x\n"}, {7: piece(0, 10)}:
        server = behind(pieces, piece(begin, end))
        serves(server, end, end + 50)
        assert read(server.file) == piece(begin, end + 50)
    refused(at_rest({}, piece(begin, end - 1)))


def try_pieces_made_by_hand():
    """By `lockd state`, of a trace that was one piece, of a short one, and of none. FILE is then headed, and grows by orders."""
    text = piece(0, after(1))
    for more in (), ROTATE:
        server = behind({1: text}, state_of(text), *more)
        serves(server, after(1), after(1) + 500)
        assert names_of(server) == [1, ""]
        is_row_without_count(server)
    client = Client(behind({}, state_of(b"")))
    client.meet()
    for row in FEW:
        client.ask([row])
    client.finish()
    assert client.server.ended() == (b"", "", 0)
    assert read(client.server.file) == state_of(b"") + LINES
    server = behind({1: LINES}, state_of(LINES))
    client = Client(server)
    client.meet()
    client.send(b"".join(sent_again(it) for it, _ in FEW))
    client.due = {2, 3, 4, 5, 6, 7}
    client.wait()
    client.finish()
    assert server.ended() == (b"", "", 0)
    assert client.errors() == {it for _, told in FEW for it in told}
    assert read(server.file) == state_of(LINES)


def is_row_without_count(server):
    ran = run("check", *paths_of(server))
    assert (ran.stdout, ran.stderr, ran.returncode) == (b"legal\n", b"", 0), ran


OTHER = "--runs", "5000", "--parked", "300"


def try_rules_that_are_not_said():
    """They are those of the head, by which a reader waits for a writer who waits."""
    fair = "--fair", "--runs", "17", "--parked", "3", "--files", "9", "--open", "8"
    rows = [
        (tries.CREATE, [(2, 0)]),
        (kit.locks(SETLK, 3, 7, 0, 9, kit.READ), [(3, 0)]),
        (kit.locks(SETLKW, 4, 8, 0, 0, kit.WRITE), []),
        (kit.locks(SETLKW, 5, 9, 0, 0, kit.READ), []),
        (kit.locks(SETLK, 6, 7, 0, 9, kit.UNLOCK), [(6, 0), (4, 0)]),
    ]
    head = state_of(b"", *fair)
    for said in (), fair, fair[:1], fair[1:3], fair[3:], ROTATE:
        client = Client(behind({}, head, *said))
        client.meet()
        for row in rows:
            client.ask([row])
        client.finish()
        assert client.server.ended() == (b"", "", 0), said
        assert client.errors() == {it for _, told in rows for it in told}, (said, client.errors())
        assert names_of(client.server) == [""] and read(client.server.file).startswith(head + b"ask "), said


def try_other_rules_begin_a_new_piece():
    """It tells what is there by the rules that are said. A restart without them goes on by these, and one with them begins no other."""
    begun = state_of(b"") + piece(0, 200)
    for pieces, traced, end, more in (
            ({1: piece(0, after(1))}, piece(after(1), after(2)), after(2), ()),
            ({1: piece(0, after(1))}, piece(after(1), after(2)), after(2), ("--rotate", "4294967295", "--keep", "2")), ({}, begun, 200, ROTATE)):
        server = behind(pieces, traced, *OTHER, *more)
        serves(server, end, end + 50)
        last = len(pieces) + 1
        assert names_of(server) == [*range(1, last + 1), ""], (end, more, names_of(server))
        assert read(f"{server.file}.{last}") == traced
        told = read(server.file)
        assert told.startswith(b"state %d 0 5000 300 256 1024 " % long().starts[end]) and behind_head(told) == text_of(end, end + 50)
        assert rest_of(told) == rest_of(head_at(end)), "other parts"
        for options in (), OTHER, ("--runs", "5000"):
            restart(server, options)
            serves(server, end + 50, end + 50)
            assert read(server.file) == told and names_of(server) == [*range(1, last + 1), ""]


def try_other_rules_by_which_requests_wait_otherwise():
    """The order in which they wait would change, so nobody is served."""
    assert waiting(after(2))
    refused(at_rest({1: piece(0, after(1))}, piece(after(1), after(2)), "--fair"))


def rest_of(piece_):
    """The parts of a piece's head."""
    return piece_[piece_.index(b"\n"):piece_.index(b"\ngo\n")]


def try_other_rules_where_replies_are_owed():
    """They stand in the old piece, whose last line was cut off."""
    at = after(1)
    order = next(it for it in range(at + 100, ORDERS) if long().starts[it + 1] - long().starts[it] > 2)
    whole = state_of(b"") + piece(0, order + 1)
    server = behind({}, whole[:whole.rindex(b"tell ") + 4], *OTHER)
    serves(server, order + 1, order + 50)
    assert read(f"{server.file}.1") == whole
    assert behind_head(read(server.file)) == text_of(order + 1, order + 50)


def try_other_rules_that_do_not_fit():
    """There are more locks, waiting requests, files or open files than they allow. What there is more of is told."""
    for rules in ("--runs", "10"), ("--parked", "3"), ("--files", "10"), ("--open", "10"), ("--runs", "5000", "--files", "1"):
        for more in (), ROTATE:
            refused(at_rest({1: piece(0, after(1))}, piece(after(1), after(2)), *rules, *more))


def try_killed_while_rules_change():
    """A server dies at each call by which it begins the piece, and another begins or keeps it."""
    first, second = pieces_of(2).values()
    at, notes = after(2), new_notes()

    def killed(*dies):
        server = behind({1: first}, second, *OTHER, env=turning(notes="" if dies else notes, dies=" ".join(map(str, dies)), most=3000))
        if not dies:
            return serves(server, at, at + 50)
        assert server.ended() == (b"", "", KILLED), dies
        assert "" in names_of(server), "FILE is gone"
        server.start()
        serves(server, at, at + 50)
        assert names_of(server) == [1, 2, ""], names_of(server)
        assert read(f"{server.file}.2") == second and behind_head(read(server.file)) == text_of(at, at + 50)

    killed()
    kinds = [line.split()[0] for line in noted(notes)]
    turn = kinds[:kinds.index("rename") + 1]
    deaths = [(how, number) for number, kind in enumerate(turn, 1) for how in ("before", "after", "half")[:2 + (kind == "write")]]
    each(killed, deaths)
    return f"{len(deaths)} died"


def try_a_piece_before_by_other_rules():
    """It is judged by those of its own head."""
    second = pieces_of(2)[2]
    begin = second.splitlines(True)[0]
    server = behind({2: second.replace(begin, begin.replace(b" 0 4096 256 ", b" 0 4095 255 "))}, piece(after(2), after(2) + 150))
    serves(server, after(2) + 150, after(2) + 200)
    assert read(server.file) == piece(after(2), after(2) + 200)


def try_a_file_cut_behind_its_head():
    """It is cut off in its last line, or lacks replies: the line goes, and the replies come. Cut off in its head it is none to go on behind."""
    at = after(1)
    order = next(it for it in range(at + 100, ORDERS) if long().starts[it + 1] - long().starts[it] > 2)
    first, whole = pieces_of(1)[1], piece(at, order + 1)
    begin = len(piece(at, order))
    for end in begin, begin + 5, whole.index(b"\n", begin) + 1, whole.index(b"\n", begin) + 4, len(whole) - 1:
        server = behind({1: first}, whole[:end])
        with Asking(server):
            pass
        assert server.ended() == (b"", "", 0)
        assert read(server.file) == (whole if end > whole.index(b"\n", begin) else piece(at, order)), end
    head = head_at(at)
    for end in 3, 40, head.index(b"\n") + 1, len(head) // 2, len(head) - 3, len(head) - 1:
        server = at_rest({1: first}, head[:end])
        before = snapshot(server)
        server.start()
        server.listens()
        assert server.serving.poll() is not None, "it serves"
        ended = server.ended()
        assert ended[::2] == (b"", 2) and re.fullmatch(r"(differs|bad line) \d+\n|cannot trace\n", ended[1]), (end, ended)
        assert snapshot(server) == before


# ---- servers that are killed

class Cut:
    """A session with these orders, and requests that wait from before, whose servers are killed."""

    def __init__(self, server, begin, end):
        waits = [long().messages[it - FIRST] for it in sorted(waiting(begin))]
        self.server, self.messages, self.expected = server, waits + long().messages[begin:end], replies_to(begin, end)
        self.first = b"".join(map(sent_again, waits)) + sent(begin, end)
        self.found = {}

    def kept(self):
        """What is to be sent again. What may get no reply was taken if there is one to a later message."""
        last = max((at for at, it in enumerate(self.messages) if unique_of(it) in self.found), default=-1)
        return [it for at, it in enumerate(self.messages) if unique_of(it) not in self.found and (at > last or fuse.opcode_of(it) not in kit.SILENT)]

    def serve(self, most=None):
        """A server serves what has no reply, up to its end, and gives no reply twice. Once that many bytes came, it is killed. Gives its status."""
        came = b""
        with contextlib.suppress(ConnectionError, FileNotFoundError):
            came = exchange(self.server, INIT + (self.first or b"".join(map(sent_again, self.kept()))), most)
            self.first = b""
        assert came.startswith(INIT_REPLY) or INIT_REPLY.startswith(came), came[:100]
        replies, _ = fuse.cut(came[len(INIT_REPLY):])
        assert len(replies) == len({*map(unique_of, replies)} - {*self.found}), "a reply came twice"
        self.found.update((unique_of(it), it) for it in replies)
        printed, told, status = self.server.ended()
        assert (printed, told) == (b"", "") and status in (0, KILLED), (printed, told, status)
        return status

    def ends(self):
        """The last server isn't killed, and all replies have come."""
        assert self.serve() == 0
        assert self.found == {unique_of(it): it for it in self.expected}, (len(self.found), len(self.expected))


def is_cut(how, number, pieces, most=0, then=None):
    """The server dies at this call of a turn, and another goes on, with these options. Says whether one died."""
    options = *ROTATE, "--keep", "2"
    begin, end = after(pieces + 1), after(pieces + 1) + 400
    server = due(*options, pieces=pieces, env=turning(dies=f"{how} {number}", most=most))
    session = Cut(server, begin, end)
    if session.serve() != KILLED:
        return False
    assert "" in names_of(server), "FILE is gone"
    restart(server, options if then is None else then)
    session.ends()
    if then is None:
        assert ".new" not in names_of(server)
    there = [it for it in names_of(server) if it not in ("", ".new")]
    # What has two names is one piece.
    if there and os.path.samefile(server.file, f"{server.file}.{there[-1]}"):
        os.remove(f"{server.file}.{there.pop()}")
    # Those that were to be removed, and stay below one that was.
    stay = [it for it in there if {*range(it, there[-1])} <= {*there}]
    for it in [*there, ".new"]:
        if it not in stay and os.path.exists(path := f"{server.file}.{str(it).lstrip('.')}"):
            os.remove(path)
    is_row(server, after(stay[0] - 1 if stay else pieces), end)
    return True


def calls_of_a_turn(pieces, most=0):
    """The kinds of the calls of a turn, and of the first write behind it, as they are where nothing fails. Beside them stand the lines of all."""
    notes = new_notes()
    server = due(*ROTATE, "--keep", "2", pieces=pieces, env=turning(notes=notes, most=most))
    serves(server, after(pieces + 1), after(pieces + 1) + 400)
    is_row(server, after(pieces), after(pieces + 1) + 400)
    kinds = [line.split()[0] for line in noted(notes)]
    return kinds[:kinds.index("line") + 1], noted(notes)


def try_the_calls_of_a_turn():
    """Their order, and what they give: the head is on the disk before the piece gets its name."""
    for pieces in 0, 2:
        kinds, lines = calls_of_a_turn(pieces, most=3000)
        row = " ".join(kind for kind, _ in itertools.groupby(kinds))
        assert re.fullmatch("unlink open flock write fdatasync link rename( unlink)? line", row), lines
        assert lines[0] == f"unlink {-errno.ENOENT}" and kinds.count("write") > 1
        assert sum(int(it.split()[1]) for it in lines if it.startswith("write ")) == len(head_at(after(pieces + 1)))
        assert lines.count("unlink 0") == pieces, lines


def try_killed_at_each_call_of_a_turn():
    """Before it and behind it, and at half of a write, with none and with two pieces before."""
    deaths = []
    for pieces in 0, 2:
        kinds, _ = calls_of_a_turn(pieces, most=3000)
        deaths += [(how, number, pieces, 3000) for number, kind in enumerate(kinds, 1) for how in ("before", "after")]
        deaths += [("half", number, pieces, 3000) for number, kind in enumerate(kinds, 1) if kind in ("write", "line")]
    assert all(each(is_cut, deaths))
    return f"{len(deaths)} died"


def try_killed_in_a_turn_and_no_turn_follows():
    """The next server has no `--rotate`, or one that isn't due."""
    kinds, _ = calls_of_a_turn(2)
    deaths = [("after", number, 2, 0, then) for number, kind in enumerate(kinds, 1) if kind in ("write", "link", "rename")
              for then in ([], ["--rotate", "4294967295"])]
    assert all(each(is_cut, deaths))
    return f"{len(deaths)} died"


def try_a_name_of_a_killed_server_stays():
    """A server was killed between the link and the rename. FILE keeps that name, and gets no other. A restart doesn't take FILE for the piece before."""
    first, second, third = pieces_of(3).values()
    at = after(3)
    server = at_rest({1: first, 2: second}, third, *ROTATE)
    os.link(server.file, f"{server.file}.3")
    server.start()
    serves(server, at, at + 50)
    assert names_of(server) == [1, 2, 3, ""] and read(f"{server.file}.3") == third
    is_row(server, 0, at + 50)
    short = piece(after(2), after(2) + 100)
    server = at_rest({1: first, 2: second}, short, *ROTATE)
    os.link(server.file, f"{server.file}.3")
    server.start()
    serves(server, after(2) + 100, after(2) + 200)
    assert read(server.file) == read(f"{server.file}.3") == piece(after(2), after(2) + 200)
    server = at_rest({1: first}, short, *ROTATE)
    os.link(server.file, f"{server.file}.2")
    refused(server)


def try_killed_at_any_time():
    """A session of several turns, whose servers are killed after a random part of the replies."""
    def cut(seed):
        numbers, server = random.Random(seed), behind({}, None, *ROTATE)
        session, died = Cut(server, 0, ORDERS), 0
        for _ in range(DEATHS):
            died += session.serve(numbers.randrange(2 * sum(map(len, session.expected)) // DEATHS)) == KILLED
            server.start()
        session.ends()
        is_row(server, 0, ORDERS)
        return died

    died = sum(each(cut, [(it,) for it in range(3)]))
    assert died > DEATHS, died
    return f"{died} died"


# ---- many files

def many_files(count):
    """CREATEs of so many files with long names, and a lock on each fourth."""
    create = [fuse.create(it + 2, b"%030d" % it) for it in range(count)]
    return create, [fuse.lock(fuse.SETLK, count + 2 + it, 7, 0, 9, 1, it + 2, it + 1) for it in range(0, count, 4)]


def try_a_head_of_many_writes():
    """Of 33,000 files: a server dies at some of the writes of its head, and another goes on."""
    limits = "--files", "65536", "--open", "65536", "--runs", "65536"
    create, lock = many_files(33_000)
    uncut = behind({}, None, *limits)
    exchange(uncut, INIT + b"".join(create + lock))
    assert uncut.ended() == (b"", "", 0)
    text = read(uncut.file)
    cut = text.index(b"\nask ", text.rindex(b" create ")) + 1
    head = state_of(text[:cut], *limits)

    def killed(*dies):
        notes = new_notes()
        server = behind({}, text[:cut], *ROTATE, *limits, env=turning(notes=notes, dies=" ".join(map(str, dies))))
        exchange(server, INIT + b"".join(lock[:100]))
        died = server.ended()[2] == KILLED
        server.start()
        exchange(server, INIT + b"".join(map(sent_again, lock[:100])) + b"".join(lock[100:]))
        assert server.ended() == (b"", "", 0)
        assert read(f"{server.file}.1") == text[:cut] and behind_head(read(server.file)) == text[cut:]
        is_row_without_count(server)
        return died, [line.split()[0] for line in noted(notes)]

    died, kinds = killed("before", 0)
    writes = [number for number, it in enumerate(kinds, 1) if it == "write"]
    assert not died and len(writes) > 1, kinds
    some = [*writes[:2], writes[len(writes) // 2], writes[-1]]
    assert all(died for died, _ in each(killed, [(how, it) for it in some for how in ("before", "half", "after")]))
    return f"{len(head)} bytes in {len(writes)} writes"


# ---- turns that fail

def no_new_piece(server):
    """What it tells of a turn that fails, as a pattern."""
    return rf"no new piece of {re.escape(server.file)}: \S.*\n"


def goes_on_in_one(server):
    """What it tells of the first turn that goes well after one that failed."""
    return f"{server.file} goes on in a new piece\n"


def orders_for(begin, size):
    """The order behind the first that has so many bytes from this one on."""
    end = begin
    while size > 0:
        size -= len(text_of(end, end + 1))
        end += 1
    return end


GROWS = 20_000
FAILURES = [
    ("open", 1, errno.ENOSPC), ("open", 1, errno.EACCES), ("open", 1, errno.EMFILE), ("open", 1, errno.EEXIST), ("flock", 1, errno.EWOULDBLOCK),
    ("flock", 1, errno.ENOLCK), ("write", 1, errno.ENOSPC), ("write", 1, errno.EIO), ("write", 2, errno.ENOSPC), ("write", 2, errno.EDQUOT),
    ("fdatasync", 1, errno.EIO), ("fdatasync", 1, errno.ENOSPC), ("link", 1, errno.EPERM), ("link", 1, errno.EMLINK), ("link", 1, errno.ENOSPC), ("rename", 1, errno.EIO), ("rename", 1, errno.EPERM),
]


def fails_once(kind, number, error, pieces=1):
    """The first turn fails at this call, the second goes well, once FILE has grown by so many bytes, and no earlier."""
    notes = new_notes()
    server = due("--rotate", str(GROWS), pieces=pieces, env=turning(notes=notes, most=3000, fails=[(kind, number, number, error)]))
    begin = after(pieces + 1)
    middle, end = orders_for(begin, GROWS - 500) - 1, orders_for(begin, GROWS) + 1
    with Asking(server) as client:
        client.ask(begin, middle)
        assert re.fullmatch(no_new_piece(server), told := server.tells()), told
        assert f"{kind} {-error}" in noted(notes), (kind, noted(notes))
        wait_until(lambda: ".new" not in names_of(server))
        there = names_of(server)
        assert os.path.samefile(server.file, f"{server.file}.{there[-2]}") == (kind == "rename"), there
        turns = noted(notes).count("fdatasync 0")
        client.ask(middle, end)
        client.ask(end, end + 10)
        assert noted(notes).count("fdatasync 0") == turns + 1, (kind, noted(notes))
        assert names_of(server) == [*range(1, pieces + 2), ""], (kind, names_of(server))
        client.ask(end + 10, end + 100)
    assert server.ended() == (b"", goes_on_in_one(server), 0)
    is_row(server, 0, end + 100)


def try_each_call_of_a_turn_fails():
    """The session goes on, that is told, nothing is left of it, and a later turn goes well."""
    each(fails_once, FAILURES)
    return f"{len(FAILURES)} fail"


def try_a_failure_is_told_once():
    """Three in a row are told once. Behind a turn that went well the next one is told."""
    notes = new_notes()
    server = due(*ROTATE, env=turning(notes=notes, fails=[("link", 1, 3, errno.EPERM), ("link", 5, 5, errno.EPERM)]))
    at = after(1)
    with Asking(server) as client:
        for it in range(at, at + 80, 10):
            client.ask(it, it + 10)
        assert names_of(server) == [1, ""]
        client.ask(at + 80, after(2) + 500)
        for it in range(after(2) + 500, after(2) + 580, 10):
            client.ask(it, it + 10)
    printed, told, status = server.ended()
    assert (printed, status) == (b"", 0) and re.fullmatch((no_new_piece(server) + re.escape(goes_on_in_one(server))) * 2, told), told
    assert [it for it in noted(notes) if it.startswith("link ")] == ["link -1"] * 3 + ["link 0", "link -1", "link 0"]
    assert names_of(server) == [1, 2, ""]
    is_row(server, 0, after(2) + 580)


def try_pieces_that_cannot_be_removed():
    """By `--keep`: the turn went well. They go when the next piece has begun."""
    server = due(*ROTATE, "--keep", "2", pieces=2, env=turning(fails=[("unlink", 2, 9, errno.EPERM)]))
    at = after(3)
    with Asking(server) as client:
        client.ask(at, at + 100)
        assert names_of(server) == [1, 2, 3, ""]
    assert server.ended() == (b"", "", 0)
    is_row(server, 0, at + 100)


def try_a_folder_for_a_new_piece():
    """One stands at FILE.new, and stays: no turn goes well as long as it is there."""
    server = due(*ROTATE)
    os.mkdir(f"{server.file}.new")
    at = after(1)
    with Asking(server) as client:
        for it in range(at, at + 50, 10):
            client.ask(it, it + 10)
        assert re.fullmatch(no_new_piece(server), told := server.tells()), told
        assert names_of(server) == ["", ".new"]
        os.rmdir(f"{server.file}.new")
        client.ask(at + 50, at + 60)
        client.ask(at + 60, at + 70)
        assert names_of(server) == [1, ""]
    assert server.ended() == (b"", goes_on_in_one(server), 0)
    is_row(server, 0, at + 70)


def try_a_file_that_goes_before_a_turn():
    """Someone has removed FILE: a piece begins once it is there again."""
    at = after(1)
    server = behind({}, piece(0, at - 40), "--rotate", "1")
    with Asking(server) as client:
        client.ask(at - 40, at - 39)
        os.remove(server.file)
        assert server.tells() == f"{server.file} was moved or removed, and is there again\n"
        client.ask(at - 39, at + 10)
        client.ask(at + 10, at + 20)
        assert names_of(server) == [1, ""]
    assert server.ended() == (b"", "", 0)
    is_row(server, 0, at + 20)


# ---- several short pieces

CHANGES = ("--runs", "5000"), ("--runs", "6000", "--parked", "300"), ("--files", "300")


def try_rules_change_within_few_orders():
    """Each server begins a piece, serves a few orders or none, and is killed. To the next ones messages come again from before all of these pieces,
    and are answered once. A last server has no RULES, and begins no piece."""
    def changes(pieces, traced, end, orders, *more):
        begin, first = end - (2000 if pieces else 200), min(pieces, default=1)
        server = behind(pieces, traced, *CHANGES[0], *more)
        for number, rules in enumerate([*CHANGES, ()]):
            if number:
                restart(server, (*rules, *more))
            with Asking(server) as client:
                answers_again(client, begin, end)
                client.ask(end, end + orders)
                server.serving.kill()
            assert server.ended() == (b"", "", KILLED)
            end += orders
            pieces_now = len(pieces) + 1 + min(number + 1, len(CHANGES))
            assert names_of(server) == [*range(first, first + pieces_now - 1), ""], names_of(server)
            assert b"".join(behind_head(read(it)) for it in paths_of(server)) == text_of(0, end)

    short = {1: piece(0, after(1))}, piece(after(1), after(1) + 150), after(1) + 150
    whole = {1: piece(0, after(1))}, piece(after(1), after(2)), after(2)
    each(changes, [(*short, 40), (*short, 0), (*whole, 40, *ROTATE), (*whole, 0), ({}, state_of(b"") + piece(0, 200), 200, 40, *ROTATE)])


def try_a_turn_behind_short_pieces():
    """What goes by `--keep` isn't wanted any more: the piece that is over has enough."""
    begin = after(1) + 100
    end = order_at(long().starts[begin] + LEAST + 50)
    older = {1: piece(0, after(1)), 2: piece(after(1), after(1) + 40), 3: piece(after(1) + 40, begin)}
    server = behind(older, piece(begin, end), *ROTATE, "--keep", "2")
    serves(server, end, end + 20)
    assert names_of(server) == [4, ""], names_of(server)
    server.start()
    with Asking(server) as client:
        answers_again(client, end - 2000, end + 20)
        client.ask(end + 20, end + 40)
    assert server.ended() == (b"", "", 0)


SEAMS = 0, 100, 140, 140, 200


def short_pieces():
    """FILE.1 to FILE.4, one of them with no orders, and FILE."""
    return {it + 1: piece(*SEAMS[it:it + 2]) for it in range(4)}, piece(200, 250)


def try_all_short_pieces_are_read():
    """Messages come again from the first one. A piece that names no rules has those of the piece behind it."""
    older, traced = short_pieces()
    server = behind(older, traced)
    with Asking(server) as client:
        answers_again(client, 0, 250)
        client.ask(250, 300)
    assert server.ended() == (b"", "", 0)
    assert read(server.file) == piece(200, 300)
    create = [fuse.create(it, b"%d" % it) for it in range(2, 5)]
    first = Server("--resume", "{file}", "--files", "2", workers=None)
    came = exchange(first, INIT + b"".join(create))[len(INIT_REPLY):]
    assert first.ended() == (b"", "", 0) and fuse.errors(came) == [(2, 0), (3, 0), (4, errno.ENOSPC)]
    text = first.traced()
    head = state_of(text, "--files", "2")
    begin = head.splitlines(True)[0]
    other = head.replace(begin, begin.replace(b" 2 1024 ", b" 9 1024 "))
    assert other != head
    server = behind({1: text, 2: head}, other)
    with Asking(server) as client:
        client.socket.sendall(b"".join(map(sent_again, create)))
        assert take(client.socket, len(came)) == came
    assert server.ended() == (b"", "", 0)
    assert read(server.file) == other
    refused(at_rest({1: text, 2: other}, other))


def try_a_short_piece_that_does_not_fit():
    """One in the midst is missing, is another one, illegal, or no trace: nobody is served."""
    older, traced = short_pieces()
    second = older[2]
    tell = next(at for at, it in enumerate(second.splitlines()) if it.startswith(b"tell ") and it.endswith(b" ok"))
    line = second.splitlines(True)[tell]
    wrong = {
        "missing": None,
        "empty": b"",
        "no trace": b"notes\n",
        "a head alone": head_at(100),
        "without its last order": piece(100, 139),
        "with an order more": piece(100, 141),
        "with an order more in front": piece(99, 140),
        "with a reply that differs": changed(second, tell, line.replace(b" ok", b" err 71")),
        "with a bad line": changed(second, tell, b"tell\n"),
        "cut off": second[:-1],
        "of other rules by which it isn't legal": second.replace(b" 256 1024 ", b" 1 1024 ", 1),
    }

    def refuses(number, text):
        pieces = {**older, number: text}
        refused(at_rest({it: text for it, text in pieces.items() if text is not None}, traced))

    each(refuses, [(2, it) for it in wrong.values()] + [(1, None), (1, piece(0, 99)), (3, None), (4, None)])
    server = at_rest({it: text for it, text in older.items() if it != 2}, traced)
    os.mkdir(f"{server.file}.2")
    refused(server)
    return f"{len(wrong) + 5} pieces"


GAP = "goes on behind a gap: an order that is sent again may be taken twice"


def try_a_gap_is_allowed():
    """What a short FILE wants is missing, or doesn't fit: the server says so, and goes on. What stands behind the gap it knows. Without a gap it says
    nothing, and a FILE that differs is refused as ever."""
    older, traced = short_pieces()
    for number, text in (4, None), (4, b"notes\n"), (3, None), (2, piece(100, 139)), (1, None), (1, piece(0, 99)), (0, None):
        pieces = {it: text for it, text in {**older, number: text}.items() if text is not None}
        server = behind(pieces, traced, "--allow-gap")
        with Asking(server) as client:
            answers_again(client, SEAMS[number], 250)
            client.ask(250, 300)
        assert server.ended() == (b"", number and f"{server.file} {GAP}\n" or "", 0)
        assert read(server.file) == piece(200, 300)
        assert {it: read(f"{server.file}.{it}") for it in pieces} == pieces
    # A FILE that was put back from an older piece isn't the last one.
    refused(at_rest(older, older[3], "--allow-gap"))
    last = traced.rindex(b"\ntell ") + 1
    server = behind({}, traced[:last] + b"tell 1 err 71\n", "--allow-gap")
    assert server.ended()[1:] == (f"differs {traced[:last].count(10) + 1}\n", 2)


def try_other_rules_behind_a_gap():
    """It is told once. The new piece tells all locks. The old one's number isn't next to those before the gap."""
    _, traced = short_pieces()
    server = behind({}, traced, "--allow-gap", *CHANGES[0])
    with Asking(server) as client:
        client.ask(250, 300)
    assert server.ended() == (b"", f"{server.file} {GAP}\n", 0)
    assert names_of(server) == [2, ""] and read(f"{server.file}.2") == traced
    assert behind_head(read(server.file)) == text_of(250, 300)


if __name__ == "__main__":
    sys.exit(calls.main("resume/pieces", globals(), "turns"))
