"""Tries the files of `lockd serve --resume` of the built program: a trace that is cut off, bad, another server's, or can't be written for a while,
files that are no traces, and a socket that was left.

`tries.py` says how it ends.
"""
import fcntl
import os
import re
import resource
import select
import shutil
import signal
import socket
import stat
import subprocess
import sys
import tempfile
import time
from concurrent.futures import ThreadPoolExecutor

from tests import tries
from tests.fuse import EAGAIN, SETLK
from tests.resume import kit
from tests.tries import CREATE, PATIENCE, PROGRAM, Server, judged, run, setlk, wait_until
from tests.resume.kit import (FEW, KILLED, LINES, READ, UNLOCK, WORKED, WRITE, Client, Gone, asks, completed, goes_on, is_stored, is_whole, locks, resuming,
                             text_of)

NOBODY = 65534


# ---- what is in it

def is_cut_at(byte):
    server = resuming(traced=LINES[:byte])
    client = Client(server)
    client.meet()
    assert server.traced() == completed(LINES[:byte], LINES), server.traced()
    taken = kit.asked(server.traced())
    for it in FEW[len(taken):]:
        client.ask([it])
    client.finish()
    assert server.ended() == (b"", "", 0)
    assert server.traced() == LINES, server.traced()
    told = kit.told(completed(LINES[:byte], LINES))
    assert client.errors() == {it for _, came in FEW for it in came if it[0] not in told}, client.errors()


def try_a_file_that_is_cut_at_each_byte():
    """It gets the replies that its last order is owed, before anything is asked. The orders that it lacks then come as they would have."""
    with ThreadPoolExecutor() as pool:
        count = sum(1 for _ in pool.map(is_cut_at, range(len(LINES) + 1)))
    return f"{count} files"


def try_what_follows_the_last_newline_goes():
    for cut in b"ask 0", b"tell 7 ok", b"\0\xff", b"x" * 100_000:
        server = resuming(traced=LINES + cut)
        Client(server).meet()
        assert server.traced() == LINES, server.traced()[len(LINES):]


def refuses(traced, told, *options):
    """A server tells this of a file with this text, serves nobody, and leaves the file as it was."""
    server = resuming(*options, traced=traced)
    assert (ended := server.ended()) == (b"", told, 2), ended
    assert server.traced() == traced and not os.path.exists(server.path)


def try_a_file_with_no_newline():
    """It is cut off if an order may begin so, as of a server that was killed in its first write. Else it may be no trace, and stays."""
    for cut in b"a", b"ask", b"ask ", b"ask 0 1 1", b"":
        server = resuming(traced=cut)
        Client(server).meet()
        assert server.traced() == b"", cut
    for text in b"notes", b"b", b"asks", b" ask 0", b"tell 1 ok", b"\0", b"x" * 100_000:
        refuses(text, "bad line 1\n")


def try_bad_lines_in_a_resumed_file():
    """The first is told, also behind a line that differs, and whatever follows it."""
    differs = LINES.replace(b"tell 3 ok", b"tell 3 err 11")
    for bad in b"ask 0 4 2 0 0 0 setlkw  1 8 0 0 1 8 0", b"", b"tell 3", b"ASK", b"tell 18446744073709551616 ok", b"x" * 100_000:
        for text, number in (LINES, 1), (LINES, 3), (LINES, 12), (differs, 7):
            before = b"".join(text.splitlines(True)[:number - 1])
            for behind in b"", LINES, b"tell 7 ok\nask 0":
                refuses(before + bad + b"\n" + behind, f"bad line {number}\n")


def try_lines_that_differ():
    """A wrong reply, a reply to nobody, one too few and one too many, each also before a cut line."""
    wrong = {
        LINES.replace(b"tell 3 ok", b"tell 3 err 11"): 4,
        LINES.replace(b"tell 3 ok", b"tell 9 ok"): 4,
        LINES.replace(b"tell 4 ok\n", b""): 9,
        LINES.replace(b"tell 5 ok\n", b"tell 5 ok\ntell 5 ok\n"): 11,
        LINES.replace(b"tell 7 err 11", b"tell 7 ok"): 12,
    }
    for text, number in wrong.items():
        for cut in b"", b"ask 0 8":
            refuses(text + cut, f"differs {number}\n")


# A reader that waits behind a writer who waits.
FAIR = b"".join(LINES.splitlines(True)[:2]) + b"""\
ask 0 3 2 0 0 0 setlk 1 7 0 9 0 7 0
tell 3 ok
ask 0 4 2 0 0 0 setlkw 1 8 0 0 1 8 0
ask 0 5 2 0 0 0 setlkw 1 9 0 0 0 9 0
"""


def try_other_rules():
    """The file's lines tell some rules apart, and others not."""
    refuses(LINES, "differs 7\n", "--parked", "1")
    refuses(LINES, "differs 10\n", "--runs", "1")
    refuses(FAIR + b"ask 0 6 2 0 0 0 getattr\n", "differs 7\n")
    for options in ["--fair"], ["--runs", "2"], ["--parked", "2"], ["--files", "1"], ["--open", "1"]:
        server = resuming(*options, traced=LINES)
        client = Client(server)
        client.meet()
        client.ask([(locks(SETLK, 8, 10, 0, 0, READ), [(8, EAGAIN)])])
        client.finish()
        assert server.ended() == (b"", "", 0), options
        assert server.traced() == LINES + b"ask 0 8 2 0 0 0 setlk 1 10 0 0 0 10 0\ntell 8 err 11\n", options
    for options, owed in ([], b"tell 5 ok\n"), (["--fair"], b""):
        server = resuming(*options, traced=FAIR)
        Client(server).meet()
        assert server.traced() == FAIR + owed, options


# ---- whose it is

def cannot_trace(path, **how):
    """No server goes on there, and none makes a socket."""
    with tempfile.TemporaryDirectory() as folder:
        os.chmod(folder, 0o777)
        ran = run("serve", f"{folder}/socket", "--resume", path, **how)
        assert (ran.stdout, ran.stderr, ran.returncode) == (b"", b"cannot trace\n", 2), (path, ran)
        assert not os.listdir(folder), path


def try_files_that_are_none():
    """A folder, a device, a pipe, a socket, none in a folder that isn't there."""
    with tempfile.TemporaryDirectory() as folder, socket.socket(socket.AF_UNIX) as bound:
        os.mkfifo(f"{folder}/pipe")
        bound.bind(f"{folder}/socket")
        for path in folder, "/dev/null", "/dev/full", f"{folder}/pipe", f"{folder}/socket", f"{folder}/none/trace":
            cannot_trace(path)


def another_user(folder):
    """How the program is run as another user: as a copy in this folder, since that of the program may be closed to others."""
    os.chmod(folder, 0o755)
    program = shutil.copy(PROGRAM, folder)
    os.chmod(program, 0o755)
    return {"executable": program, "preexec_fn": lambda: os.setuid(NOBODY)}


def try_files_that_are_not_ours():
    """One that can't be read, one that can't be written, and none in a folder where none can be made. They stay as they are."""
    with tempfile.TemporaryDirectory() as folder, tempfile.TemporaryDirectory() as beside:
        os.chmod(folder, 0o755)
        before = another_user(beside) if os.getuid() == 0 else {}
        path = f"{folder}/trace"
        for mode in 0o222, 0o444, 0o000:
            with open(path, "wb") as file:
                file.write(LINES + b"ask")
            os.chmod(path, mode)
            cannot_trace(path, **before)
            os.chmod(path, 0o644)
            with open(path, "rb") as file:
                assert file.read() == LINES + b"ask", oct(mode)
            os.remove(path)
        os.chmod(folder, 0o555)
        cannot_trace(path, **before)


def try_a_file_of_another_server():
    """While one waits for its client, and while one serves it, no other goes on from its file or writes it. When it was killed, another does."""
    server = resuming(traced=LINES)
    server.listens()
    cannot_trace(server.file)
    client = Client(server)
    client.meet()
    client.ask([(locks(SETLK, 8, 10, 0, 0, READ), [(8, EAGAIN)])])
    cannot_trace(server.file)
    client.ask([(locks(SETLK, 9, 9, 9, 9, UNLOCK), [(9, 0)])])
    lines = LINES + b"ask 0 8 2 0 0 0 setlk 1 10 0 0 0 10 0\ntell 8 err 11\nask 0 9 2 0 0 0 setlk 1 9 9 9 2 9 0\ntell 9 ok\n"
    assert server.traced() == lines, server.traced()
    server.serving.kill()
    server.ended()
    server.start()
    client.meet()
    client.ask([(locks(SETLK, 10, 10, 9, 9, WRITE), [(10, 0)])])
    assert server.traced().startswith(lines), server.traced()


def try_a_file_of_a_server_that_traces():
    """From the file of `--trace FILE` no other goes on while its server lives."""
    for workers in 1, 4:
        server = Server("--trace", "{file}", workers=workers)
        server.listens()
        cannot_trace(server.file)
        client = Client(server)
        client.meet()
        client.ask(FEW[:1])
        cannot_trace(server.file)
        client.finish()
        assert server.ended() == (b"", "", 0)


def moved(file):
    os.rename(file, f"{file}.away")


def emptied(file):
    os.link(file, f"{file}.away")
    with open(f"{file}.copy", "xb"):
        pass
    os.replace(f"{file}.copy", file)


def copied(file):
    os.replace(shutil.copy(file, f"{file}.copy"), file)


WAYS = {"was moved or removed": [os.remove, moved], "was replaced": [emptied]}
ASKED = [(locks(SETLK, 8, 10, 0, 0, READ), [(8, EAGAIN)])]


def is_put_back(way, what, take_away, waits):
    server = way()
    client = Client(server)
    client.meet()
    before, text = os.stat(server.file), server.traced()
    take_away(server.file)
    told = server.tells() if waits else ""
    if waits:
        assert server.traced() == text
    client.ask(ASKED)
    client.finish()
    printed, more, status = server.ended()
    assert (printed, told + more, status) == (b"", f"{server.file} {what}, and is there again\n", 0), (told, more, status)
    after, lines = os.stat(server.file), server.traced()
    # One that was moved has two names, so that to move it back changes nothing. Of another there is a copy.
    assert (after.st_mode, after.st_uid, after.st_ino == before.st_ino) == (before.st_mode, before.st_uid, take_away is moved)
    assert lines.startswith(text) and judged(lines) == "legal\n", lines
    assert {*os.listdir(server.folder.name)} <= {"trace", "trace.away"}


def try_a_file_that_goes_is_put_back():
    """One that was removed or moved, or in whose place an empty one stands: while nobody asks for anything, and at the end at the latest."""
    for what, ways in WAYS.items():
        for take_away in ways:
            for waits in True, False:
                is_put_back(lambda: resuming(traced=LINES), what, take_away, waits)


def try_a_copy_is_this_servers():
    """While it lives, no other goes on in it. One that is killed leaves it, and the next goes on in it."""
    server = resuming(traced=LINES)
    client = Client(server)
    client.meet()
    moved(server.file)
    assert server.tells() == f"{server.file} was moved or removed, and is there again\n"
    cannot_trace(server.file)
    client.ask(ASKED)
    text = server.traced()
    server.serving.kill()
    assert server.ended()[2] == KILLED
    client.close()
    server.start()
    client = Client(server)
    client.meet()
    client.finish()
    assert server.ended() == (b"", "", 0)
    assert server.traced() == text


def try_a_file_that_cannot_be_put_back():
    """Another file is there, with something in it, or another server's; or a folder stands at FILE.new. It is told once, and at the end."""
    def another(server):
        copied(server.file)

    def taken(server):
        other = open(f"{server.file}.copy", "xb")
        fcntl.flock(other, fcntl.LOCK_EX)
        os.replace(other.name, server.file)
        return other

    def without_a_name(server):
        os.mkdir(f"{server.file}.new")
        os.remove(server.file)

    for take_away, what in (another, "was replaced"), (taken, "was replaced"), (without_a_name, "was moved or removed"):
        server = resuming(traced=LINES)
        client = Client(server)
        client.meet()
        other = take_away(server)
        text = text_of(server)
        said = server.tells()
        assert said.startswith(f"{server.file} {what}, and can't be put back: ") and said.count("\n") == 1, said
        client.ask(ASKED)
        client.finish()
        assert server.ended() == (b"", "trace failed\n", 2)
        assert text_of(server) == text
        if other:
            other.close()


def try_a_file_whose_folder_goes():
    """A file takes its place. It is told, and at the end."""
    with tempfile.TemporaryDirectory() as top:
        os.mkdir(f"{top}/folder")
        server = Server("--resume", f"{top}/folder/trace", workers=None)
        client = Client(server)
        client.meet()
        os.rename(f"{top}/folder", f"{top}/away")
        with open(f"{top}/folder", "xb"):
            pass
        assert server.tells().startswith(f"{top}/folder/trace was moved or removed, and can't be put back: ")
        client.finish()
        assert server.ended() == (b"", "trace failed\n", 2)


def try_a_file_that_is_moved_back():
    """It is told, and it goes on in that."""
    server = resuming(traced=LINES)
    client = Client(server)
    client.meet()
    moved(server.file)
    os.mkdir(server.file)
    assert server.tells().startswith(f"{server.file} was replaced, and can't be put back: ")
    os.rmdir(server.file)
    os.rename(f"{server.file}.away", server.file)
    client.ask(ASKED)
    client.finish()
    assert server.ended() == (b"", f"{server.file} is there again\n", 0)
    assert judged(server.traced()) == "legal\n"


def try_a_file_that_is_cut_and_goes():
    """A new piece begins in its place, and the rest of the old one gets no number."""
    server = resuming(traced=LINES)
    client = Client(server)
    client.meet()
    wanted = run("state", text=LINES).stdout
    os.rename(server.file, f"{server.file}.away")
    os.truncate(f"{server.file}.away", 9)
    told = server.tells(2)
    if "is there again" not in told:
        assert told == f"{server.file} was cut\n{server.file} goes on in a new piece\n", told
        assert (server.traced(), {*os.listdir(server.folder.name)}) == (wanted, {"trace", "trace.away"})
    client.ask(ASKED)
    client.finish()
    assert server.ended()[2] == 0
    assert judged(server.traced()) == "legal\n"


def try_a_file_that_is_cut():
    """A new piece begins at once, and tells what is there: its locks aren't lost."""
    for to in 0, len(LINES) // 2:
        server = resuming(traced=LINES)
        client = Client(server)
        client.meet()
        wanted = run("state", text=LINES).stdout
        os.truncate(server.file, to)
        assert server.tells(2) == f"{server.file} was cut\n{server.file} goes on in a new piece\n"
        assert server.traced() == wanted, server.traced()
        with open(f"{server.file}.1", "rb") as cut:
            assert cut.read() == LINES[:to]
        client.ask(ASKED)
        client.finish()
        assert server.ended() == (b"", "", 0)
        assert judged(server.traced()) == "legal\n"


def try_a_file_that_another_program_writes_to():
    """As of one that was cut, but that the old piece has what was written."""
    server = resuming(traced=LINES)
    client = Client(server)
    client.meet()
    wanted = run("state", text=LINES).stdout
    with open(server.file, "ab") as it:
        it.write(b"notes\n")
    assert server.tells(2) == f"{server.file} was written to by another program\n{server.file} goes on in a new piece\n"
    assert server.traced() == wanted, server.traced()
    with open(f"{server.file}.1", "rb") as spoilt:
        assert spoilt.read() == LINES + b"notes\n"
    client.ask(ASKED)
    client.finish()
    assert server.ended() == (b"", "", 0)


def try_a_file_that_was_written_to_and_goes():
    """It is put back with all that it has."""
    server = resuming(traced=LINES)
    client = Client(server)
    client.meet()
    with open(server.file, "ab") as it:
        it.write(b"notes\n")
    os.remove(server.file)
    became = "was moved or removed, and is there again", "was written to by another program", "goes on in a new piece"
    assert server.tells(3) == "".join(f"{server.file} {it}\n" for it in became)
    with open(f"{server.file}.1", "rb") as spoilt:
        assert spoilt.read() == LINES + b"notes\n"
    client.ask(ASKED)
    client.finish()
    assert server.ended() == (b"", "", 0)
    assert judged(server.traced()) == "legal\n"


def try_killed_behind_a_file_that_was_cut():
    """The next server has all locks, if it may go on behind a gap. If it may not, nobody is served."""
    server = resuming("--allow-gap", traced=LINES)
    client = Client(server)
    client.meet()
    wanted = run("state", text=LINES).stdout
    os.truncate(server.file, 9)
    server.tells(2)
    server.serving.kill()
    server.ended()
    assert server.traced() == wanted
    allowed = server.words
    server.words = [it for it in allowed if it != "--allow-gap"]
    server.start()
    assert server.ended() == (b"", "cannot trace\n", 2)
    server.words = allowed
    server.start()
    client = Client(server)
    client.meet()
    client.ask(ASKED)
    client.finish()
    assert server.ended() == (b"", f"{server.file} goes on behind a gap: an order that is sent again may be taken twice\n", 0)
    assert judged(server.traced()) == "legal\n"
    assert server.traced().startswith(wanted) and len(server.traced()) > len(wanted)


def try_eight_servers_at_once():
    """Of those that start together with one file, one goes on."""
    first = resuming(traced=LINES)
    others = [Server("--resume", first.file, workers=None) for _ in range(7)]
    servers = [first, *others]
    wait_until(lambda: sum(it.serving.poll() is None for it in servers) == 1)
    left = [it for it in servers if it.serving.poll() is None]
    assert len(left) == 1, len(left)
    for it in servers:
        if it not in left:
            assert it.ended() == (b"", "cannot trace\n", 2)
    client = Client(left[0])
    client.meet()
    client.finish()
    assert left[0].ended() == (b"", "", 0)
    assert first.traced() == LINES


# ---- sockets

def cannot_listen(path):
    """No server listens there, and what stands there stays."""
    with tempfile.TemporaryDirectory() as folder:
        ran = run("serve", path, "--resume", f"{folder}/trace")
    assert (ran.stdout, ran.stderr, ran.returncode) == (b"", b"cannot listen\n", 2), (path, ran)


def try_a_socket_that_was_left():
    """Of a server that was killed before its client came. The next one takes its place."""
    server = resuming()
    server.listens()
    server.serving.kill()
    server.ended()
    assert stat.S_ISSOCK(os.lstat(server.path).st_mode)
    server.start()
    client = Client(server)
    client.meet()
    client.ask(FEW[:1])
    assert not os.path.exists(server.path)


def try_sockets_that_stay():
    """A file, a folder and a link stand at the path, and stay."""
    with tempfile.TemporaryDirectory() as folder:
        with open(f"{folder}/file", "wb") as file:
            file.write(LINES)
        os.mkdir(f"{folder}/folder")
        os.symlink("file", f"{folder}/link")
        for name in "file", "folder", "link":
            cannot_listen(f"{folder}/{name}")
        with open(f"{folder}/link", "rb") as file:
            assert file.read() == LINES
        assert os.path.isdir(f"{folder}/folder") and os.path.islink(f"{folder}/link")


def try_a_socket_of_another_server():
    """A server waits for its client. Another at its path doesn't listen, and the client is served."""
    for server in Server("--trace", "{file}"), resuming():
        server.listens()
        cannot_listen(server.path)
        client = Client(server)
        client.meet()
        client.ask(FEW[:1])
        client.finish()
        assert server.ended() == (b"", "", 0)


# ---- a full disk

FULL = 0, 1, 100, 777, 2_977


def holds(most, signalled=signal.SIG_IGN):
    """What a server does before it starts, so that its file can have so many bytes, until it may have more."""
    def limit():
        signal.signal(signal.SIGXFSZ, signalled)
        resource.setrlimit(resource.RLIMIT_CORE, (0, 0))
        resource.setrlimit(resource.RLIMIT_FSIZE, (most, resource.RLIM_INFINITY))

    return limit


def may_have(server, most):
    resource.prlimit(server.serving.pid, resource.RLIMIT_FSIZE, (most, resource.RLIM_INFINITY))


def told_next(server, count=1):
    """The lines that it tells next, so many, and what it tells in the time of some tries more."""
    told, fd = server.tells(count), server.serving.stderr.fileno()
    time.sleep(0.4)
    while select.select([fd], [], [], 0)[0] and (more := os.read(fd, 4096)):
        told += more.decode()
    return told


def cannot_write(server):
    """What it tells of a write that fails, as a pattern."""
    return rf"cannot write {re.escape(server.file)}: \S.*\n"


def is_gone_on(client, rows, told, status):
    """The server ended so while its file was full. The next one goes on, with room."""
    client.close()
    ended = client.server.ended()
    assert ended[0] == b"" and re.fullmatch(told, ended[1]) and ended[2] == status, ended
    is_stored(client)
    client.server.start()
    goes_on(client, rows)
    is_whole(client)


def try_a_full_file_waits():
    """The client waits, and no reply comes whose lines aren't there. That is told once, though it is tried several times, and so is the end of it."""
    for most in FULL:
        server = resuming(before=holds(most))
        client = Client(server)
        with ThreadPoolExecutor() as pool:
            asking = pool.submit(asks, client, [*WORKED])
            assert re.fullmatch(cannot_write(server), told := told_next(server)), told
            is_stored(client)
            assert len(server.traced()) == most and not asking.done(), len(server.traced())
            may_have(server, resource.RLIM_INFINITY)
            asking.result(PATIENCE)
        assert server.ended() == (b"", f"{server.file} is written again\n", 0)
        is_whole(client)


def try_a_full_file_that_lacks_replies():
    """They come before anything is read. So the client waits from the first."""
    cut = LINES.split(b"tell 4 ok")[0]
    server = resuming(traced=cut, before=holds(len(cut) + 3))
    client = Client(server)
    with ThreadPoolExecutor() as pool:
        asking = pool.submit(client.meet)
        assert re.fullmatch(cannot_write(server), told := told_next(server)), told
        assert server.traced() == cut + b"tel" and not asking.done(), server.traced()
        may_have(server, resource.RLIM_INFINITY)
        asking.result(PATIENCE)
    client.ask(FEW[5:])
    client.finish()
    assert server.ended() == (b"", f"{server.file} is written again\n", 0)
    assert server.traced() == LINES


def try_a_file_that_is_full_twice():
    server = resuming("--trace-full", "wait", before=holds(1_000))
    client = Client(server)
    with ThreadPoolExecutor() as pool:
        asking = pool.submit(asks, client, [*WORKED])
        assert re.fullmatch(cannot_write(server), told := told_next(server)), told
        may_have(server, 2_000)
        again = f"{re.escape(server.file)} is written again\n"
        assert re.fullmatch(again + cannot_write(server), told := told_next(server, 2)), told
        assert len(server.traced()) == 2_000
        may_have(server, resource.RLIM_INFINITY)
        asking.result(PATIENCE)
    assert server.ended() == (b"", f"{server.file} is written again\n", 0)
    is_whole(client)


def try_killed_while_its_file_is_full():
    for most in FULL:
        client, rows = Client(resuming(before=holds(most))), [*WORKED]
        with ThreadPoolExecutor() as pool:
            asking = pool.submit(asks, client, rows)
            assert re.fullmatch(cannot_write(client.server), told := told_next(client.server)), told
            client.server.serving.kill()
            assert isinstance(asking.exception(PATIENCE), Gone)
        is_gone_on(client, rows, "", KILLED)


def ends(server, told, status):
    """The server ends so when its file is full, and the next one goes on."""
    client, rows = Client(server), [*WORKED]
    try:
        asks(client, rows)
    except Gone:
        return is_gone_on(client, rows, told, status)
    raise AssertionError("all was served")


def try_a_full_file_ends():
    """By `end`, and by a signal where that isn't ignored."""
    for most in FULL:
        server = resuming("--trace-full", "end", before=holds(most))
        ends(server, cannot_write(server) + "trace failed\n", 2)
        ends(resuming(before=holds(most, signal.SIG_DFL)), "", -signal.SIGXFSZ)


def try_a_full_file_and_no_streams():
    """What would be told goes nowhere, and not into the file."""
    def before():
        holds(777)()
        for it in 0, 1, 2:
            os.close(it)

    server = resuming(before=before)
    client = Client(server)
    with ThreadPoolExecutor() as pool:
        asking = pool.submit(asks, client, [*WORKED])
        wait_until(lambda: len(text_of(server)) == 777)
        time.sleep(0.4)
        assert len(server.traced()) == 777 and not asking.done()
        may_have(server, resource.RLIM_INFINITY)
        asking.result(PATIENCE)
    assert server.ended() == (b"", "", 0)
    is_whole(client)


def many(count):
    """A CREATE, and so many locks and unlocks, 64 together."""
    uniques = range(3, 3 + count)
    rows = (uniques[at:at + 64] for at in range(0, count, 64))
    return [[(CREATE, [(2, 0)])], *([(setlk(it), [(it, 0)]) for it in row] for row in rows)]


def try_a_full_disk():
    """A disk of four pages, which grows when it is full."""
    if os.getuid() != 0:
        return "not tried: root alone mounts a disk"
    with tempfile.TemporaryDirectory() as folder:
        if subprocess.run(["mount", "-t", "tmpfs", "-o", "size=16k", "lockd", folder], check=False).returncode:
            return "not tried: no disk can be mounted"
        try:
            server = Server("--resume", f"{folder}/trace", workers=None)
            server.file = f"{folder}/trace"
            client, rows = Client(server), many(2_000)
            with ThreadPoolExecutor() as pool:
                asking = pool.submit(lambda: (client.meet(), [client.ask(it) for it in rows], client.finish()))
                assert re.fullmatch(cannot_write(server), told := told_next(server)), told
                assert {*client.found} <= {*kit.told(server.traced())}
                assert len(server.traced()) == 16_384 and not asking.done(), len(server.traced())
                subprocess.run(["mount", "-o", "remount,size=1m", folder], check=True)
                asking.result(PATIENCE)
            assert server.ended() == (b"", f"{server.file} is written again\n", 0)
            assert client.errors() == {(it, 0) for it in range(2, 2_003)}
            assert judged(server.traced()) == "legal\n" and server.traced().count(b"\n") == 2 * 2_001
        finally:
            subprocess.run(["umount", "--lazy", folder], check=True)


if __name__ == "__main__":
    sys.exit(tries.main("resume/files", globals()))
