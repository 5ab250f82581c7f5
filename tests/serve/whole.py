"""Tries whole sessions of the built `lockd`: those of `bytes --whole` and `serve --whole`, which also have folders (`folders.py`), list the directory,
tell its room, and refuse by an error of its own what lock files can't do. And that sessions without `--whole` are as they were before there was one.

Those of before stand in `tests/cases/sessions_before_whole.txt`, with the replies that the program gave then. All other replies are laid out here from
`fuse.h` and docs/PROTOCOL.md, beside the plain directory of `tests/locks/directory.py`. `tries.py` says how it ends.
"""
import itertools
import os
import random
import sys

from tests import fuse
from tests import tries
from tests.fuse import (
    DESTROY, EFBIG, EINVAL, ENOENT, ENOSYS, ENOTDIR, EOPNOTSUPP, EPERM, EPROTO, LINK, MKDIR, MKNOD, READ, READDIR, RENAME, RENAME2, REPLY_HEADER, RMDIR, SETLK,
    SETLKW, STATFS, SYMLINK, WRITE, WRITE_LOCK, create, destroy, dirent, error_of, message, opcode_of, readdir, reply, room_reply, sent_again, statfs,
    unique_of, unlink)
from tests.locks.directory import ROOT, Directory, Refused, of_files, of_names, of_nodes, refuse, traced
from tests.resume.kit import KILLED
from tests.resume.long import exchange
from tests.serve.kit import Client, traced_by, without_workers
from tests.serve.messages import UNKNOWN
from tests.serve.sessions import message_of, reply_of, wait_until_idle
from tests.tries import INIT, INIT_REPLY, Server, cases, each, run, text_of

# What sessions without --whole don't know.
WHOLE = READDIR, STATFS, READ, WRITE, RENAME, RENAME2, SYMLINK, LINK, MKNOD, MKDIR, RMDIR
# Those of them that are orders.
ORDERS = MKNOD, MKDIR, RMDIR
# The least buffer of a READDIR, which holds an entry of the longest name, and the most bytes of a list.
LEAST, MOST = 280, 4096
# Entries that no file has: their nodes, cookies, names and modes.
DOTS = [(ROOT, 1, b".", 0o40755), (ROOT, 2, b"..", 0o40755)]
FILES = 256


# ---- a plain directory that is listed

class Listed(Directory):
    """Each entry has a cookie that is greater than those of the entries before it. `lines` are those of the orders that it took."""

    def __init__(self, *most):
        super().__init__(*most)
        self.lines = []

    def entries(self, node):
        """Those of the root, or of another folder, which is empty."""
        if node != ROOT:
            return [(node, 1, b".", self.nodes[node][2]), DOTS[1]]
        named = ((number, number + 1, name, mode) for number, (_, name, mode, *_) in sorted(self.nodes.items()) if name is not None)
        return [*DOTS, *named]

    def readdir(self, unique, node=ROOT, cookie=0, size=MOST):
        """The reply: as many entries as have room."""
        try:
            refuse(not self.is_known(node), ENOENT)
            refuse(node != ROOT and not self.is_folder(node), ENOTDIR)
            refuse(size < LEAST, EINVAL)
        except Refused as error:
            return reply(unique, *error.args)
        body = b""
        for number, at, name, mode in self.entries(node):
            more = dirent(number, at, name, mode)
            if at > cookie and len(body + more) > min(size, MOST):
                break
            body += more if at > cookie else b""
        return reply(unique, body=body)

    def statfs(self, unique):
        return room_reply(unique, self.most_nodes, self.most_nodes - len(self.nodes))

    def takes(self, unique, node, op, *words, user=(0, 0)):
        """The message and the reply of an order."""
        asked, told = traced(self, unique, node, user, op, *words)
        self.lines += asked, told
        return message_of(without_workers(asked)), reply_of(told) if told else b""


# Bodies of what is answered by its opcode alone, as Linux sends them, and the error.
ANSWERED = [
    (READ, fuse.read_body(1), 0), (WRITE, fuse.read_body(1, 0, 4) + b"data", EFBIG),
    (RENAME, fuse.rename_body(b"a", b"b"), EOPNOTSUPP), (RENAME2, fuse.rename2_body(b"a", b"b"), EOPNOTSUPP),
    (SYMLINK, b"b\0a\0", EPERM), (LINK, bytes(8) + b"b\0", EPERM),
]


def is_answered(talk, *options):
    """`bytes --whole` gives to these messages, behind an INIT, the replies that stand beside them, one after another."""
    talk = [(INIT, INIT_REPLY), *talk]
    ran = run("bytes", "--whole", *options, text=b"".join(sent for sent, _ in talk).hex().encode() + b"\n")
    assert (ran.stderr, ran.returncode) == (b"", 0), ran.stderr
    came = iter(map(bytes.fromhex, ran.stdout.decode().split()))
    for at, (sent, wanted) in enumerate(talk):
        found = next(came, b"") if wanted else b""
        assert found == wanted, (at, sent.hex(), found.hex(), wanted.hex())
    assert next(came, None) is None, "more replies"


# ---- sessions without --whole

class Before:
    """A stored session: its options, each message with the replies that come of it, and the fault at its end."""

    def __init__(self, title, case):
        self.title, self.options, self.talk, self.fault = title, [], [], ""
        for mark, line in ((it[:2], it[2:]) for it in case.splitlines()):
            if mark == "> ":
                self.talk.append((INIT if line == "INIT" else bytes.fromhex(line), []))
            elif mark == "< ":
                self.talk[-1][1].append(INIT_REPLY if line == "INIT" else bytes.fromhex(line))
            elif mark == "$ ":
                self.options = line.split()
            elif mark == "! ":
                self.fault = f"{line}\n"
        self.sent, self.replies = (b"".join(it) for it in ((sent for sent, _ in self.talk), (it for _, told in self.talk for it in told)))


BEFORE = [Before(*it) for it in cases(text_of("tests/cases/sessions_before_whole.txt"))]


def is_as_before(session):
    """By `bytes`, and by servers of one worker and of four. To four the next message is sent once all is done that comes of the one before."""
    ran = run("bytes", *session.options, text=session.sent.hex().encode() + b"\n")
    assert bytes.fromhex(ran.stdout.decode().replace("\n", "")) == session.replies, (session.title, ran.stdout)
    assert (ran.stderr.decode(), ran.returncode) == (session.fault, 2 if session.fault else 0), (session.title, ran.stderr)
    server = Server("--trace", "none", *session.options)
    assert server.talk(session.sent) == session.replies, session.title
    assert server.ended() == (b"", session.fault, 2 if session.fault else 0), session.title
    server = Server("--trace", "none", *session.options, workers=4)
    with Client(server) as client:
        for sent, told in session.talk:
            client.gets(sent, *told)
            if opcode_of(sent.ljust(8, b"\0")) == DESTROY and told and not error_of(told[0]):
                break
            if not told and len(sent) >= fuse.HEADER:
                wait_until_idle(server, client)
        client.closes()
        assert client.rest() == [], session.title
    assert server.ended() == (b"", session.fault, 2 if session.fault else 0), session.title


def try_sessions_without_whole_are_as_before():
    assert len(BEFORE) == 68, len(BEFORE)
    each(is_as_before, zip(BEFORE))
    return f"{len(BEFORE)} sessions, {sum(len(it.talk) for it in BEFORE)} messages"


def try_whole_sessions_answer_all_else_as_before():
    """A whole session gives the stored replies, but to what no other session knows, once there was an INIT. Orders that no other session knows are left out,
    since much comes of them."""
    count = 0
    for session in BEFORE:
        talk = [it for it in session.talk if opcode_of(it[0].ljust(8, b"\0")) not in ORDERS]
        ran = run("bytes", "--whole", *session.options, text=b"".join(sent for sent, _ in talk).hex().encode() + b"\n")
        found, rest = fuse.cut(bytes.fromhex(ran.stdout.decode().replace("\n", "")))
        assert (rest, ran.stderr.decode(), ran.returncode) == (b"", session.fault, 2 if session.fault else 0), (session.title, ran.stderr)
        wanted = [(sent, it) for sent, told in talk for it in told]
        assert len(found) == len(wanted), (session.title, len(found), len(wanted))
        for came, (sent, told) in zip(found, wanted):
            if opcode_of(sent) in WHOLE and error_of(told) == ENOSYS:
                assert unique_of(came) == unique_of(told) and error_of(came) != ENOSYS, (session.title, sent.hex(), came.hex())
                count += 1
            else:
                assert came == told, (session.title, sent.hex(), came.hex(), told.hex())
    assert count > 100, count
    return f"{count} replies differ"


# ---- lists

def made(count, name=b"%d"):
    """A plain directory with so many files, and what makes them and closes them: messages from the unique 10 on, and their replies."""
    directory, talk = Listed(FILES, 1_024), []
    for number in range(count):
        for order in (ROOT, "create", 0, 0o644, name % number), (2 + number, "release", 1 + number, 0, 0):
            talk.append(directory.takes(10 + len(talk), *order))
    return directory, talk


def try_pages_of_a_list():
    """By each cookie, and by buffers of the least size and of greater ones."""
    directory, talk = made(40)
    unique = itertools.count(1000)
    cookies = [0, 1, 2, *(node + 1 for node in directory.nodes), 1000, 2**63, fuse.LAST]
    for size in LEAST, LEAST + 1, 512, 1000, MOST - 1, MOST, MOST + 1, 2**31, 2**32 - 1:
        talk += [(readdir(it, cookie, size), directory.readdir(it, ROOT, cookie, size)) for cookie in cookies for it in [next(unique)]]
    is_answered(talk)
    found = fuse.entries_of(directory.readdir(5, ROOT, 0, MOST))
    assert found[:3] == [(1, 1, 4, b"."), (1, 2, 4, b".."), (2, 3, 8, b"0")] and len(found) == 42, found
    return f"{len(talk)} messages"


def try_long_names_in_a_list():
    """An entry of the longest name has 280 bytes. So many of them are in a list of 4,096 bytes."""
    directory, talk = made(60, b"n" * 252 + b"%03d")
    sizes = LEAST, 2 * LEAST - 1, 2 * LEAST, MOST, 2**16
    talk += [(readdir(1000 + at, cookie, size), directory.readdir(1000 + at, ROOT, cookie, size)) for at, (cookie, size) in
             enumerate(itertools.product((0, 1, 2, 3, 30, 60, 61, 62), sizes))]
    is_answered(talk)
    counts = [len(fuse.entries_of(directory.readdir(5, ROOT, 2, it))) for it in sizes]
    assert counts == [1, 1, 2, 14, 14], counts


def try_each_length_of_a_name_in_a_list():
    """An entry ends with zeros up to a multiple of 8."""
    directory, talk = Listed(FILES, 1_024), []
    for length in range(1, 256):
        talk.append(directory.takes(length, ROOT, "create", 0, 0o600, b"n" * length))
        talk.append((readdir(1000 + length, length + 1), directory.readdir(1000 + length, ROOT, length + 1)))
    is_answered(talk)


def try_lists_that_are_refused():
    """A buffer below 280 bytes, a body of another length, another node than the root, and one that isn't there; and a list before an INIT."""
    directory, talk = made(2)
    talk += [(readdir(100 + at, 0, size), reply(100 + at, EINVAL)) for at, size in enumerate((0, 1, 24, 279))]
    talk += [(message(READDIR, 110 + at, ROOT, bytes(it)), reply(110 + at, EINVAL)) for at, it in enumerate((0, 1, 8, 16, 24, 39, 41, 48, 80, 8152))]
    talk += [(readdir(130 + at, 0, MOST, node), reply(130 + at, error)) for at, (node, error) in
             enumerate(((2, ENOTDIR), (3, ENOTDIR), (4, ENOENT), (0, ENOENT), (fuse.LAST, ENOENT)))]
    talk += [(readdir(140), directory.readdir(140)), (message(READDIR, 141, ROOT, fuse.read_body(99, 0, MOST)), directory.readdir(141))]
    is_answered(talk)
    ran = run("bytes", "--whole", text=(readdir(5) + statfs(6) + INIT + readdir(7)).hex().encode() + b"\n").stdout.decode().split()
    assert ran == [reply(5, EPROTO).hex(), reply(6, EPROTO).hex(), INIT_REPLY.hex(), Listed(FILES, 1_024).readdir(7).hex()], ran


def try_files_without_a_name_in_no_list():
    """A file that was unlinked isn't listed, also while it is open. It is one of the files until its last fh and lookup are gone. The same name again is
    another file."""
    directory, talk, free = Listed(3, 1_024), [], []
    for order in ((ROOT, "create", 0, 0o644, b"a"), (ROOT, "create", 0, 0o644, b"b"), (ROOT, "unlink", b"a"), (ROOT, "create", 0, 0o600, b"a"),
                  (ROOT, "create", 0, 0o600, b"c"), (2, "release", 1, 0, 0), (2, "forget", 1), (ROOT, "create", 0, 0o600, b"c"), (ROOT, "unlink", b"b"),
                  (3, "forget", 1), (3, "release", 2, 0, 0), (ROOT, "unlink", b"c"), (ROOT, "unlink", b"a")):
        talk.append(directory.takes(10 + len(talk), *order))
        talk += [(readdir(it, 0), directory.readdir(it, ROOT, 0)) for it in [1000 + len(talk)]]
        talk += [(readdir(it, 3, MOST, 2), directory.readdir(it, 2, 3)) for it in [1000 + len(talk)]]
        talk += [(statfs(it), directory.statfs(it)) for it in [1000 + len(talk)]]
        free.append(directory.most_nodes - len(directory.nodes))
    assert free == [2, 1, 1, 0, 0, 0, 1, 0, 0, 0, 1, 1, 1], free
    is_answered(talk, "--files", "3")


class Paging:
    """A client that asks for one page after another."""

    def __init__(self, client):
        self.client, self.uniques = client, itertools.count(10)

    def asks(self, make, *words, **how):
        """The reply to a message that this function makes of its unique and these words."""
        sent = make(next(self.uniques), *words, **how)
        self.client.send(sent)
        came = self.client.next()
        assert unique_of(came) == unique_of(sent), (sent.hex(), came.hex())
        return came

    def pages(self, size, between=lambda: None):
        """All entries, page after page. Between two of them this is done."""
        found = []
        while more := fuse.entries_of(self.asks(readdir, found[-1][1] if found else 0, size)):
            found += more
            between()
        return found


def begun(*options, **how):
    """A server of a whole session."""
    return Server("--whole", *options, **how)


def lists_while_files_change(seed):
    """By random changes between two pages: each file that has its name from the first page to the last stands in the list once, none does that had no name
    in between, and the files stand in the order in which they were made."""
    numbers, server = random.Random(seed), begun("--trace", "none", "--files", "65536", "--open", "65536", workers=None)
    with Client(server) as client:
        client.gets(INIT, INIT_REPLY)
        paging, linked, ever, gone, names = Paging(client), {}, {}, set(), itertools.count()

        def makes():
            name = b"%d" % next(names) + b"x" * numbers.randrange(200)
            node = fuse.made_of(paging.asks(create, name))[0]
            linked[node] = ever[node] = name

        def changes():
            for _ in range(numbers.randrange(8)):
                if len(linked) < 100 and numbers.random() < 0.5 or not linked:
                    makes()
                else:
                    node = numbers.choice([*linked])
                    assert not error_of(paging.asks(unlink, linked[node]))
                    gone.add(node)
                    del linked[node]

        for _ in range(60):
            makes()
        lengths = []
        for _ in range(6):
            there, before = {*linked.items()}, {*gone}
            found = paging.pages(numbers.choice([LEAST, 300, 600, MOST]), changes)
            stay = there & {*linked.items()}
            listed = [(node, name) for node, _, _, name in found[2:]]
            assert [it[3] for it in found[:2]] == [b".", b".."], found
            assert all(it in listed for it in stay), (seed, stay - {*listed})
            assert all(ever.get(node) == name and node not in before for node, name in listed), (seed, listed)
            assert listed == sorted({*listed}), (seed, listed)
            assert all((cookie, kind) == (node + 1, 8) for node, cookie, kind, _ in found[2:]), found
            lengths.append(len(found))
        client.closes()
        assert client.rest() == []
    assert server.ended() == (b"", "", 0)
    return sum(lengths)


def try_lists_while_files_change():
    return f"{sum(each(lists_while_files_change, zip(range(12))))} entries"


# ---- room, and what is refused

def try_the_room():
    """How many files there may be, and how many there may still be, whatever the node and the body."""
    for most in 1, 3, 256, 65_536:
        directory, talk = Listed(most, 1_024), []
        for number in range(min(most, 300)):
            talk.append(directory.takes(10 + number, ROOT, "create", 0, 0o644, b"%d" % number))
            talk.append((statfs(1000 + number), directory.statfs(1000 + number)))
        talk += [(statfs(it, node), directory.statfs(it)) for it, node in enumerate((0, 2, 999, fuse.LAST), 2000)]
        talk.append((message(STATFS, 3000, ROOT, bytes(24)), directory.statfs(3000)))
        is_answered(talk, "--files", str(most))
    assert len(directory.statfs(1)) == 96


def try_what_lock_files_cannot_do():
    """The same whatever the body and the node are, and nothing comes of it: the list is as it was. A file is at its end at each place of a READ."""
    directory, talk = made(3)
    kinds = [(opcode, body, node, error) for opcode, usual, error in ANSWERED for body in (usual, b"", bytes(7), bytes(8152)) for node in (0, 1, 2, 3, 99)]
    for at, (opcode, body, node, error) in enumerate(kinds):
        talk += [(message(opcode, 1000 + at, node, body), reply(1000 + at, error)), (readdir(5000 + at), directory.readdir(5000 + at))]
    is_answered(talk)
    return f"{len(kinds)} messages"


def try_what_whole_sessions_do_not_know():
    """Each other opcode is ENOSYS, as without --whole, also OPENDIR, RELEASEDIR and READDIRPLUS."""
    unknown = [it for it in UNKNOWN if it not in WHOLE]
    assert len(unknown) > 100 and {27, 29, 30, 44} <= {*unknown}, len(unknown)
    is_answered([(message(opcode, 10 + at, ROOT, bytes(at % 50)), reply(10 + at, ENOSYS)) for at, opcode in enumerate(unknown)])


def try_a_whole_session_beside_locks():
    """What it answers has no part in waiting, also by the unique of a request that waits, and nothing of it comes behind a DESTROY."""
    directory, talk = made(1)
    waits = fuse.create(100, b"0"), fuse.create_reply(100, 2, 0o100644, 1, 0, 0, 2)
    talk += [waits, (fuse.lock(SETLK, 101, 7, 0, 9, WRITE_LOCK, fh=2), reply(101)), (fuse.lock(SETLKW, 102, 8, 0, 9, WRITE_LOCK, fh=2), b"")]
    talk += [(readdir(102), directory.readdir(102)), (statfs(102), directory.statfs(102))]
    talk += [(message(opcode, 102, 2, body), reply(102, error)) for opcode, body, error in ANSWERED]
    talk += [(destroy(103), reply(103)), (readdir(104), b""), (statfs(105), b""), (message(READ, 106, 2), b"")]
    is_answered(talk)


# ---- random sessions

def random_talk(seed, count, most_nodes, most_files):
    """So many random messages and their replies by the plain directory, and the lines of the orders among them."""
    numbers, directory = random.Random(seed), Listed(most_nodes, most_files)
    names = [b"", b".", b"..", b"a/b", *(b"%d" % it + b"n" * (it % 180) for it in range(2 * most_nodes))]

    def whole(unique):
        if numbers.random() < 0.6:
            cookie = numbers.choice([0, 0, 1, 2, numbers.randrange(directory.next_node + 2), fuse.LAST])
            size, node = numbers.choice([LEAST, 600, MOST, MOST, 2**20, numbers.randrange(6_000)]), ROOT
            if numbers.random() < 0.2:
                node = numbers.choice([*directory.nodes, directory.next_node, 0])
            return readdir(unique, cookie, size, node), directory.readdir(unique, node, cookie, size)
        if numbers.random() < 0.4:
            return statfs(unique, numbers.randrange(4)), directory.statfs(unique)
        opcode, body, error = numbers.choice(ANSWERED)
        return message(opcode, unique, numbers.randrange(directory.next_node), body), reply(unique, error)

    def order(unique):
        kinds = [of_names, of_names, of_nodes, of_files] if unique < count / 2 else [of_names, of_nodes, of_files, of_files]
        if directory.names and numbers.random() < 0.1:
            return directory.takes(unique, ROOT, numbers.choice(["unlink", "rmdir"]), numbers.choice([*directory.names]))
        return directory.takes(unique, *numbers.choice(kinds)(numbers, directory, names), user=(numbers.randrange(3), numbers.randrange(3)))

    return [(whole if numbers.random() < 0.4 else order)(unique) for unique in range(2, 2 + count)], "".join(directory.lines).encode()


def random_session(seed, count, most_nodes, most_files):
    """By `bytes`, and by servers: with one worker, with one since none is said, and with `--resume`. The trace is that of the orders alone, and is legal with
    --whole and without."""
    (talk, lines), limits = random_talk(seed, count, most_nodes, most_files), ["--files", str(most_nodes), "--open", str(most_files)]
    is_answered(talk, *limits)
    wanted = INIT_REPLY + b"".join(told for _, told in talk)
    for options, workers in (["--trace", "{file}"], 1), (["--trace", "{file}"], None), (["--resume", "{file}"], None):
        server = begun(*options, *limits, workers=workers)
        came = exchange(server, INIT + b"".join(sent for sent, _ in talk))
        assert came == wanted, (seed, options, len(came), len(wanted))
        assert server.ended() == (b"", "", 0) and os.listdir(server.folder.name) == ["trace"]
        assert server.traced() == lines, (seed, options)
    assert all(tries.judged(lines, *limits, *more) == "legal\n" for more in ([], ["--whole"]))
    return sum(opcode_of(sent) == READDIR and len(told) > REPLY_HEADER for sent, told in talk)


def try_random_whole_sessions():
    """Beside the plain directory, where files come and go, some are open without a name, and limits are reached."""
    rows = [(seed, 1_500, *most) for seed, most in enumerate([(3, 5), (12, 20), (40, 60), (256, 1_024), (200, 300), (60, 1_024)] * 2)]
    return f"{sum(each(random_session, rows))} lists, {len(rows) * 1_500} messages"


# ---- one worker

def try_the_one_worker_of_a_whole_session():
    """If none are said there is one, in whose trace all orders are, and which has one thread."""
    for words, workers in ([], None), ([], 1), (["--fair"], None):
        server = begun(*words, workers=workers)
        with Client(server) as client:
            client.begin()
            assert len(os.listdir(f"/proc/{server.serving.pid}/task")) == 1
            client.gets(fuse.getattr_(3), fuse.attr_reply(3, 2, 0o100644, 1, 0, 0))
            client.gets(readdir(4, 2), reply(4, body=dirent(2, 3, b"a")))
            client.gets(destroy(5), reply(5))
        traced_by(server.ended(), 4)


# ---- restarts

def restart(server, *options):
    """It is started once more, with these options."""
    server.words[server.words.index("serve") + 2:] = [it.format(file=server.file) for it in options]
    server.start()


RESUME = "--resume", "{file}"


def try_a_list_goes_on_behind_a_kill():
    """The server is killed between two pages. The next one lists the same: a READDIR that is sent again, marked, gets the reply that it had, and the list goes
    on behind a page of before."""
    directory, talk = made(100, b"lock.%d")
    server = begun(*RESUME, workers=None)
    unique, cookie, found = itertools.count(1000), 0, []
    for number in itertools.count():
        with Client(server) as client:
            client.gets(INIT, INIT_REPLY)
            for sent, told in talk if not number else []:
                client.gets(sent, told)
            if number:
                client.gets(sent_again(sent), told)
                client.gets(sent_again(statfs(9)), directory.statfs(9))
            it = next(unique)
            sent, told = readdir(it, cookie, 600), directory.readdir(it, ROOT, cookie, 600)
            client.gets(sent, told)
            page = fuse.entries_of(told)
            found += page
            if not page:
                client.closes()
                assert client.rest() == []
                break
            cookie = page[-1][1]
            server.serving.kill()
        assert server.ended() == (b"", "", KILLED)
        restart(server, *RESUME, "--whole")
    assert server.ended() == (b"", "", 0)
    assert [it[3] for it in found] == [b".", b"..", *(b"lock.%d" % it for it in range(100))], found
    assert os.listdir(server.folder.name) == ["trace"]
    return f"{number} were killed"


def try_whole_is_as_it_is_said():
    """A FILE that was begun with --whole, or without, goes on with it and without, in the same piece. So it does if its head names other rules than the
    standard ones."""
    listed, unlisted = Listed(FILES, 1_024).readdir(50), reply(50, ENOSYS)
    lines = b"ask 0 10 1 0 0 0 lookup 61\ntell 10 err 2\n"
    heads = [run("state", *words, text=b"").stdout for words in ([], ["--fair", "--runs", "77"])]
    assert all(it.startswith(b"state ") for it in heads), heads
    for text in None, lines, *heads, heads[1] + lines:
        server = Server(*RESUME, workers=None, traced=text)
        for number, words in enumerate(([], ["--whole"], ["--whole"], [], ["--whole"])):
            if number:
                restart(server, *RESUME, *words)
            assert server.talk(INIT + readdir(50)) == INIT_REPLY + (listed if words else unlisted), (text, words)
            assert server.ended() == (b"", "", 0), (text, words)
            assert (os.listdir(server.folder.name), server.traced()) == (["trace"], text or b""), (text, words)


def try_whole_beside_other_rules():
    """Where other rules are said than the head names, a new piece begins by these, and the session is whole in it. It is, too, in each later piece."""
    head = run("state", "--runs", "77", text=b"").stdout
    server = begun(*RESUME, "--files", "9", workers=None, traced=head)
    directory = Listed(9, 1_024)
    assert server.talk(INIT + readdir(50) + statfs(51)) == INIT_REPLY + directory.readdir(50) + directory.statfs(51)
    assert server.ended() == (b"", "", 0)
    assert sorted(os.listdir(server.folder.name)) == ["trace", "trace.1"], os.listdir(server.folder.name)
    text = server.traced()
    assert text.startswith(b"state 0 0 77 256 9 "), text
    restart(server, *RESUME, "--whole")
    assert server.talk(INIT + readdir(50) + statfs(51)) == INIT_REPLY + directory.readdir(50) + directory.statfs(51)
    assert server.ended() == (b"", "", 0) and server.traced() == text and len(os.listdir(server.folder.name)) == 2


if __name__ == "__main__":
    sys.exit(tries.main("serve/whole", globals()))
