"""A mount with --resume: its server is killed, and another one goes on with the trace. TRY_MOUNT_KILLS says how often it is killed at random moments
(10), by TRY_MOUNT_SEED."""
import ctypes, mmap, os, random, select, shutil, signal, struct, subprocess, tempfile, threading, time
from collections import Counter
from report.times import read_times
from report.trace import read_trace
from tests.mount.ends import held_and_waited_for, mounts_again
from tests.mount.kit import *

KILLS = int(os.environ.get("TRY_MOUNT_KILLS", 10))
LIBC = ctypes.CDLL(None)
SEED = int(os.environ.get("TRY_MOUNT_SEED", 0)) or random.randrange(1 << 30)


def built(name):
    """A program that is built beside this file."""
    subprocess.run(["cc", "-O2", "-Wall", "-Wextra", "-o", f"{WORK}/{name}", f"{TOP}/tests/mount/{name}.c"], check=True, timeout=5 * PATIENCE)
    return f"{WORK}/{name}"


def starting_often(name="lockd_mount_often", *more):
    """A carrier that starts its server again as often as it ends, with the sanitizers if there are any."""
    checks = ["-g", "-fsanitize=address,undefined", "-fno-sanitize-recover=undefined"] if os.environ.get("LOCKD_MOUNT_CHECKED") else []
    subprocess.run([f"{TOP}/programs/mount/build", f"{WORK}/{name}", "-DMOST_RESTARTS=100000", *more, *checks], check=True, timeout=5 * PATIENCE)
    return f"{WORK}/{name}"


class Resumed(Mount):
    """A mount with a new FILE, or with this one."""

    def __init__(self, *words, file=None, **how):
        self.file = file or tempfile.mkdtemp(dir=WORK) + "/file"
        super().__init__("--resume", self.file, *words, **how)

    def servers(self):
        return [pid for pid, words in children_of(self.running.pid) if b"serve" in words]

    def count(self):
        """How many times it has gone on with another server."""
        return self.output().count("the mount goes on")

    def goes_on(self, count):
        """Waits until it has done so this many times."""
        until(lambda: self.count() >= count or self.running.poll() is not None)
        assert self.running.poll() is None, self.output()

    def cut(self, how=signal.SIGKILL):
        """Kills the server, and waits until it has gone on with another one."""
        before = self.count()
        os.kill(self.server(), how)
        self.goes_on(before + 1)

    def lines(self):
        with open(self.file, "rb") as it:
            return it.read().split(b"\n")[:-1]

    def has(self, end):
        """Whether a line of FILE ends so."""
        return any(line.endswith(end) for line in self.lines())


class Gate:
    """A program that is the server once `open` was called, and until then is to wait: `words` is the environment that names it."""

    def __init__(self):
        self.folder = tempfile.mkdtemp(dir=WORK)
        self.program = f"{self.folder}/lockd"
        with open(self.program, "w", encoding="ascii") as it:
            it.write(f'#!/bin/sh\nwhile [ -e {self.folder}/shut ]; do sleep 0.01; done\nexec "$REAL_LOCKD" "$@"\n')
        os.chmod(self.program, 0o700)
        self.words = {"LOCKD": self.program, "REAL_LOCKD": os.environ["LOCKD"]}

    def shut(self):
        with open(f"{self.folder}/shut", "w", encoding="ascii"):
            pass

    def open(self):
        os.unlink(f"{self.folder}/shut")


# ---- Kills at random moments ----

def kill_at_random(mount, chance, is_over):
    """Kills a server now and then, most often while it serves: some before they listen, or read their file."""
    killed = 0
    while killed < KILLS and not is_over():
        before = mount.count()
        time.sleep(chance.choice((0.003, 0.03, 0.3)) * chance.random())
        for pid in mount.servers():
            # One that was killed before may just be gone.
            killed += outcome(os.kill, pid, signal.SIGKILL) is None
        if chance.random() < 0.8:
            mount.goes_on(before + 1)
    return killed


def asked_once(lines):
    """Each unique stands in one `ask`, but that of a batch of FORGETs, which stands in one for each node, one after another. How many orders, and batches.
    The kernel itself may send an INTERRUPT twice: who is interrupted queues it, and so does the read of its request."""
    asks = [line.split() for line in lines if line.startswith(b"ask ")]
    count, last = Counter(it[2] for it in asks), {}
    for at, it in enumerate(asks):
        if count[it[2]] > 1 + (it[7] == b"interrupt"):
            assert it[7] == b"forget" and last.get(it[2], at - 1) == at - 1, (it, count[it[2]])
            last[it[2]] = at
    forgets = Counter((it[2], it[3]) for it in asks if it[7] == b"forget")
    same([it for it, times in forgets.items() if times > 1], [])
    return len(asks), len(last)


def has_room(folder, count):
    """Whether so many files can be made, which are removed again."""
    made = [outcome(os.open, f"{folder}/made{at}", os.O_RDWR | os.O_CREAT) for at in range(count)]
    for at, fd in enumerate(made):
        if isinstance(fd, int):
            os.close(fd)
            os.unlink(f"{folder}/made{at}")
    return all(isinstance(fd, int) for fd in made)


def held_at_the_end(mount, *rules):
    with open(mount.file, "rb") as lines:
        ran = subprocess.run([os.environ["LOCKD"], "locks", *rules], stdin=lines, capture_output=True, text=True, check=True, timeout=PATIENCE)
    return ran.stdout.splitlines()[1:]


def try_a_server_that_is_killed_at_random_moments():
    """8 processes on 4 files notice nothing but a pause. Each unlock, close and FORGET was taken: there is room for as many files as before, and no lock."""
    chance, program, rules = random.Random(SEED), built("sections"), ("--files", "64")
    mount = Resumed(*rules, program=starting_often())
    running = subprocess.Popen([program, mount.folder, "8", str(SEED)], stdin=subprocess.PIPE, stdout=subprocess.PIPE, stderr=subprocess.PIPE, text=True)
    killed = kill_at_random(mount, chance, lambda: running.poll() is not None)
    # A request was interrupted, one was refused, and orders came between the kills.
    until(lambda: running.poll() is not None or (len(mount.lines()) > 20 * KILLS and mount.has(b" err 4") and mount.has(b" err 11")))
    said, wrong = running.communicate(timeout=PATIENCE)
    same((wrong, running.returncode), ("", 0))
    until(lambda: has_room(mount.folder, 60))
    ended = mount.end()
    orders, batches = asked_once(mount.lines())
    print(f"{killed} kills (seed {SEED}), {orders} orders, {batches} batches; sections, interrupted, refused: {said}", end="", flush=True)
    same((ended, killed >= KILLS, held_at_the_end(mount, *rules)), ((0, "legal"), True, []))


try_a_server_that_is_killed_at_random_moments.seconds = 10 * PATIENCE + 4 * KILLS


# ---- Who waits ----

def parked(mount, path, kind, count, grants):
    """Processes that wait for the lock of a file, one after another. Each writes its number to the pipe when it gets it, and lets go."""
    made = []
    for at in range(count):
        before = mount.lines()
        pid = os.fork()
        if not pid:
            fd = os.open(path, os.O_RDWR)
            said = outcome(fcntl.flock, fd, ALONE) if kind == "flock" else outcome(record, fd, WRITE, 0, 0, True)
            os.write(grants, struct.pack("i", at if said is None else -1))
            os._exit(0)
        made.append(pid)
        until(lambda: any(b" setlkw " in line for line in mount.lines()[len(before):]))
    return made


def try_a_hundred_parked_processes_and_one_kill():
    """They are granted in their old order."""
    mount, kinds = Resumed(), {"flock": (ALONE, NOT_HELD), "record": (WRITE, UNLOCK)}
    holders, pipes, waiting = {}, {}, {}
    for kind, (lock, _) in kinds.items():
        (holders[kind],), pipes[kind] = children(f"{mount.folder}/{kind}", 1), os.pipe()
        same(holders[kind].ask(kind, "a", lock), "ok")
        waiting[kind] = parked(mount, f"{mount.folder}/{kind}", kind, 50, pipes[kind][1])
    mount.cut()
    same(select.select([it[0] for it in pipes.values()], [], [], 0.1)[0], [])
    for kind, (_, unlock) in kinds.items():
        same(holders[kind].ask(kind, "a", unlock), "ok")
        for pid in waiting[kind]:
            os.waitpid(pid, 0)
        same([it[0] for it in struct.iter_unpack("i", os.read(pipes[kind][0], 4096))], [*range(50)])
        holders[kind].kill()
    same(mount.end(), (0, "legal"))


def try_a_signal_reaches_a_waiter_after_a_kill():
    mount = Resumed()
    for kind, word, more in ("flock", ALONE, ()), ("record", WRITE, (0, 0, True)):
        one, two, three = children(f"{mount.folder}/{kind}", 3)
        same(one.ask(kind, "a", word), "ok")
        for it in two, three:
            it.begin(kind, "a", word, *more)
            assert it.waits()
        mount.cut()
        assert two.waits() and three.waits()
        os.kill(two.pid, signal.SIGUSR1)
        same(two.answer(), "EINTR")
        three.kill()
        one.kill()
        same(two.ask(kind, "a", word), "ok")
        two.kill()
    same(mount.end(), (0, "legal"))


def try_calls_and_signals_while_there_is_no_server():
    """They wait until there is one."""
    gate = Gate()
    mount = Resumed(**gate.words)
    one, two = held_and_waited_for(mount)
    (three,) = children(f"{mount.folder}/held", 1)
    gate.shut()
    os.kill(mount.server(), signal.SIGKILL)
    until(lambda: "and is started again" in mount.output())
    os.kill(two.pid, signal.SIGUSR1)
    three.begin("flock", "a", ALONE)
    one.begin("record", "a", WRITE)
    assert three.waits() and two.waits() and one.waits()
    gate.open()
    same([two.answer(), one.answer()], ["EINTR", "ok"])
    assert three.waits()
    same([one.ask("flock", "a", NOT_HELD), three.answer()], ["ok", "ok"])
    for it in one, two, three:
        it.kill()
    same(mount.end(), (0, "legal"))


def unnamed(folder, name):
    """A descriptor of a file that isn't open and has no name any more: it is forgotten when this is closed, and that waits for no reply."""
    os.close(os.open(f"{folder}/{name}", os.O_RDWR | os.O_CREAT))
    fd = os.open(f"{folder}/{name}", os.O_PATH)
    os.unlink(f"{folder}/{name}")
    return fd


def mapped(folder, name, locks=False):
    """The address at which an open file is mapped that has no descriptor any more: it is closed when this is unmapped, and that waits for no reply."""
    fd = os.open(f"{folder}/{name}", os.O_RDWR | os.O_CREAT)
    if locks:
        ofd(fd, WRITE)
    LIBC.mmap.restype = ctypes.c_void_p
    address = LIBC.mmap(None, 4096, mmap.PROT_READ, mmap.MAP_PRIVATE, fd, 0)
    os.close(fd)
    os.unlink(f"{folder}/{name}")
    return ctypes.c_void_p(address)


def try_messages_that_the_server_had_not_read():
    """Each is sent again: a request, a signal, a batch of FORGETs, a RELEASE, and one that the carrier sends a FLUSH for."""
    mount = Resumed("--files", "9")
    one, two = held_and_waited_for(mount)
    (three,) = children(f"{mount.folder}/held", 1)
    gone, closed, locked = [unnamed(mount.folder, f"gone{at}") for at in range(5)], mapped(mount.folder, "closed"), mapped(mount.folder, "locked", locks=True)
    server = mount.server()
    stop(server, mount.running.pid)
    for it in gone:
        os.close(it)
    LIBC.munmap(closed, 4096)
    os.kill(two.pid, signal.SIGUSR1)
    three.begin("flock", "a", ALONE)
    mount.running.send_signal(signal.SIGCONT)
    assert three.waits() and two.waits()
    os.kill(server, signal.SIGKILL)
    same(two.answer(), "EINTR")
    assert three.waits()
    server = mount.server()
    stop(server)
    LIBC.munmap(locked, 4096)
    one.begin("flock", "a", NOT_HELD)
    assert one.waits()
    os.kill(server, signal.SIGKILL)
    same([one.answer(), three.answer()], ["ok", "ok"])
    for it in one, two, three:
        it.kill()
    until(lambda: has_room(mount.folder, 8))
    same((mount.end(), held_at_the_end(mount, "--files", "9")), ((0, "legal"), []))
    assert asked_once(mount.lines())[1], "no batch"


# A program that stands for `lockd` makes heads of some rules.
A_HEAD = """
if sys.argv[1] == "state":
    sys.exit(print("state 0 0 9 9 9 9 2 1\\ngo"))
"""
# A server that has no names. It notes each message, and dies twice: after a half of its reply to a LOOKUP of `sent`, and after a half of a LOOKUP of `read`.
# One that REFUSES refuses all, from the second INIT on.
FALTERS = f"""{A_HEAD}
import os, signal, socket, sys
from tests import fuse
""" + """
if sys.argv[1] != "serve":
    sys.exit(print("legal"))
open(sys.argv[sys.argv.index("--resume") + 1], "a").close()
notes = open(os.environ["NOTES"], "a+")
notes.seek(0)
life = notes.read().count(" 26 ") + 1
if os.path.exists("socket"):
    os.unlink("socket")
listening = socket.socket(socket.AF_UNIX)
listening.bind("socket")
listening.listen()
connection = listening.accept()[0]
while True:
    head = connection.recv(fuse.HEADER, socket.MSG_WAITALL)
    if len(head) < fuse.HEADER:
        break
    length, opcode, unique = fuse.length_of(head), fuse.opcode_of(head), fuse.unique_of(head)
    half = life == 2 and opcode == fuse.LOOKUP and not unique & fuse.UNIQUE_RESEND
    body = connection.recv(2 if half else length - len(head), socket.MSG_WAITALL)
    print(life, opcode, unique, file=notes, flush=True)
    if half:
        os.kill(os.getpid(), signal.SIGKILL)
    unique &= ~fuse.UNIQUE_RESEND
    reply = fuse.reply(unique, fuse.ENOENT if opcode == fuse.LOOKUP else 0)
    if life > 1 and "REFUSES" in os.environ:
        reply = fuse.reply(unique, fuse.EPROTO)
    elif opcode == fuse.INIT:
        reply = fuse.init_reply(unique, flags=fuse.POSIX_LOCKS | fuse.FLOCK_LOCKS)
    elif opcode == fuse.GETATTR:
        reply = fuse.attr_reply(unique, 1, 0o40755, 2, 0, 0)
    if life == 1 and b"sent" in body:
        connection.sendall(reply[:9])
        os.kill(os.getpid(), signal.SIGKILL)
    connection.sendall(reply)
"""


def faltering():
    """The environment of such a server."""
    folder = tempfile.mkdtemp(dir=WORK)
    write_server(f"{folder}/lockd", FALTERS)
    return {"LOCKD": f"{folder}/lockd", "NOTES": f"{folder}/notes"}


def try_halves_of_messages_and_replies():
    """They are dropped. To each server INIT goes first, and then what has no reply, marked, and whole."""
    env = faltering()
    mount, lives = Resumed(**env), {}
    same([outcome(os.stat, f"{mount.folder}/{name}") for name in ("sent", "read")], ["ENOENT"] * 2)
    same(mount.end(), (0, "legal"))
    with open(env["NOTES"], encoding="ascii") as it:
        for life, *message in (map(int, line.split()) for line in it):
            lives.setdefault(life, []).append(tuple(message))
    same(sorted(lives), [1, 2, 3])
    for life in 1, 2:
        same(lives[life + 1][:2], [lives[1][0], (1, lives[life][-1][1] | 1 << 63)])


def try_a_server_that_refuses_init_after_the_first():
    mount = Resumed(REFUSES="", **faltering())
    same(outcome(os.stat, f"{mount.folder}/sent"), "ECONNABORTED")
    same(mount.end(lambda: None), (3, "legal"))
    mount.says("the server refused INIT: Protocol error")
    assert not mount.is_mounted()


# ---- What goes on with the mount ----

def try_locks_times_and_counts_after_a_kill():
    times = tempfile.mkdtemp(dir=WORK) + "/times"
    mount = Resumed("--times", times, "--count", "--fair", "--files", "300")
    mount.says(f"its trace is {mount.file}\n")
    one, two = children(f"{mount.folder}/held", 2)
    same(one.ask("record", "a", WRITE), "ok")
    two.begin("record", "a", WRITE, 0, 0, True)
    assert two.waits()
    mount.cut()
    until(lambda: "WRITE*" in listed(mount).stdout)
    rows = [line.split() for line in listed(mount).stdout.splitlines()]
    same([(row[0], row[1], row[-2], row[-1]) for row in rows[1:]], [("POSIX", "WRITE", "-", "held"), ("POSIX", "WRITE*", str(one.pid), "held")])
    mount.running.send_signal(signal.SIGUSR1)
    until(lambda: "lockd_mount: 1 files, 2 open; " in mount.output())
    same([one.ask("record", "a", UNLOCK), two.answer()], ["ok", "ok"])
    one.kill()
    two.kill()
    same(mount.end(), (0, "legal"))
    mount.says("messages of the kernel, opcode and how many: 1:")
    with open(times, "rb") as it:
        asks, tells = read_times(it.read())
    for order in read_trace(b"".join(it + b"\n" for it in mount.lines())).orders:
        same(len(asks.found[order.unique]), 1)
        for reply in order.replies:
            same(len(tells.found[reply.unique]), 1)


def try_an_upgrade():
    """The program is replaced, and the server ended by SIGTERM."""
    folder = tempfile.mkdtemp(dir=WORK)
    program = f"{folder}/lockd"
    os.symlink(os.environ["LOCKD"], program)
    mount = Resumed(LOCKD=program)
    one, two = held_and_waited_for(mount)
    with open(f"{program}.new", "w", encoding="ascii") as it:
        it.write(f'#!/bin/sh\necho "$1" >> {folder}/used\nexec {os.environ["LOCKD"]} "$@"\n')
    os.chmod(f"{program}.new", 0o755)
    os.replace(f"{program}.new", program)
    mount.cut(signal.SIGTERM)
    mount.says("the server was killed by SIGTERM, and is started again")
    assert two.waits()
    same([one.ask("flock", "a", NOT_HELD), two.answer()], ["ok", "ok"])
    one.kill()
    two.kill()
    same(mount.end(), (0, "legal"))
    with open(f"{folder}/used", encoding="ascii") as it:
        same(it.read().split(), ["serve", "check"])


# ---- Ends ----

def lost(mount, one, two, status, *said):
    """The mount ends, since no server comes, for this reason: one process loses its lock, and another one its wait."""
    found, _ = mount.end(lambda: None)
    mount.says(*said, "the server ended", "their locks are lost", f"{mount.folder} stays unusable")
    same((found, two.answer()), (status, "ECONNABORTED"))
    same(outcome(os.open, f"{mount.folder}/held", os.O_RDWR), "ENOTCONN")
    for it in one, two:
        it.kill()
    mounts_again(mount.folder)


def try_six_kills_within_a_minute():
    mount = Resumed()
    one, two = held_and_waited_for(mount)
    for _ in range(5):
        mount.cut()
    os.kill(mount.server(), signal.SIGKILL)
    lost(mount, one, two, 1, "was killed by SIGKILL: it was started again 5 times within a minute, and isn't any more")
    same(mount.output().splitlines()[-1], "legal")


def try_a_file_that_was_changed():
    mount = Resumed()
    one, two = held_and_waited_for(mount)
    with open(mount.file, "r+b") as it:
        it.write(b"x")
    os.kill(mount.server(), signal.SIGKILL)
    lost(mount, one, two, 3, "bad line 1", "the server ended with status 2 before it listened", f"can't go on with {mount.file}")


def try_a_file_that_is_gone_or_cut():
    """A server that knows less than the one before doesn't follow it, since two would have one lock."""
    def cut(file):
        # The mount sees how long it is every three seconds.
        time.sleep(7)
        os.truncate(file, os.path.getsize(file) // 2)

    def replace(file):
        os.replace(shutil.copy(file, f"{file}.copy"), file)

    for spoil, status, became in (os.remove, 3, "was moved or removed"), (cut, 1, "was cut"), (replace, 1, "was replaced"):
        mount = Resumed()
        one, two = held_and_waited_for(mount)
        spoil(mount.file)
        os.kill(mount.server(), signal.SIGKILL)
        lost(mount, one, two, status, f"{mount.file} {became}: another server wouldn't know all locks")


def try_killed_just_behind_a_cut():
    """Nobody has looked at FILE, which ends with an order before those of locks."""
    mount = Resumed(program=starting_often("lockd_mount_rests", "-DTICK=60000"))
    one, two = held_and_waited_for(mount)
    with open(mount.file, "rb") as it:
        text = it.read()
    os.truncate(mount.file, text.rindex(b"\nask ", 0, text.index(b" setlk")) + 1)
    os.kill(mount.server(), signal.SIGKILL)
    lost(mount, one, two, 1, f"{mount.file} lacks the last lock: another server wouldn't know all locks")


def try_killed_once_its_file_was_put_back():
    """Before the mount has looked at it: another server goes on with the copy."""
    def empty(file):
        with open(f"{file}.empty", "xb"):
            pass
        os.replace(f"{file}.empty", file)

    for spoil, became in (os.remove, "was moved or removed"), (empty, "was replaced"):
        mount = Resumed()
        one, two = held_and_waited_for(mount)
        spoil(mount.file)
        until(lambda: f"{mount.file} {became}, and is there again\n" in mount.output())
        mount.cut()
        assert two.waits()
        same([one.ask("flock", "a", NOT_HELD), two.answer()], ["ok", "ok"])
        for it in one, two:
            it.kill()
        same(mount.end(), (0, "legal"))


def try_a_file_that_is_gone_or_cut_is_told_within_seconds():
    """While the server runs, and once. One that was removed is put back, and behind one that was cut a new piece begins. That of `--trace` is put back, too."""
    plain = f"{tempfile.mkdtemp(dir=WORK)}/trace"
    removed, cut, traced = mounts = Resumed(), Resumed(), Mount("--trace", plain)
    for mount in mounts:
        shell(mount, "flock held echo in", "in")
    os.remove(removed.file)
    os.truncate(cut.file, 9)
    os.remove(plain)
    lines = {removed: (f"{removed.file} was moved or removed, and is there again\n",),
             cut: (f"{cut.file} was cut\n", f"{cut.file} goes on in a new piece\n"), traced: (f"{plain} was moved or removed, and is there again\n",)}
    until(lambda: all(it in mount.output() for mount in (removed, cut) for it in lines[mount]))
    for mount in mounts:
        shell(mount, "flock held echo in", "in")
    # It isn't told again.
    time.sleep(4)
    same([mount.end() for mount in mounts], 3 * [(0, "legal")])
    for mount, told in lines.items():
        same([mount.output().count(it) for it in told], len(told) * [1])


def try_a_program_that_is_gone():
    gate = Gate()
    mount = Resumed(**gate.words)
    one, two = held_and_waited_for(mount)
    os.unlink(gate.program)
    os.kill(mount.server(), signal.SIGKILL)
    # It judges no trace any more, either.
    lost(mount, one, two, 3, "the server ended with status 127 before it listened", f"{gate.program} can't go on with {mount.file}")


def try_term_while_the_server_is_started():
    def ends():
        gate = Gate()
        mount = Resumed(**gate.words)
        one, two = held_and_waited_for(mount)
        gate.shut()
        os.kill(mount.server(), signal.SIGKILL)
        until(lambda: "and is started again" in mount.output())
        begun = time.monotonic()
        mount.term()
        same(two.answer(), "ECONNABORTED")
        until(lambda: mount.running.poll() is not None or "their locks are lost" in mount.output())
        return (gate, mount, one, two), time.monotonic() - begun
    gate, mount, one, two = soon(5, ends)
    gate.open()
    same(mount.end(lambda: None), (4, "legal"))
    same(mount.servers(), [])
    one.kill()
    two.kill()


def try_term_waits_for_a_server_that_open_files_need():
    gate = Gate()
    mount = Resumed("--grace", str(PATIENCE), **gate.words)
    (one,) = children(f"{mount.folder}/held", 1)
    same(one.ask("flock", "a", ALONE), "ok")
    gate.shut()
    os.kill(mount.server(), signal.SIGKILL)
    until(lambda: "and is started again" in mount.output())
    mount.term()
    time.sleep(0.3)
    gate.open()
    until(lambda: f"waiting {PATIENCE} seconds" in mount.output())
    os.kill(mount.server(), signal.SIGKILL)
    mount.goes_on(2)
    same(one.ask("close", "a"), "ok")
    same(mount.end(lambda: None), (0, "legal"))


# ---- Words and files ----

def try_what_cannot_be_resumed():
    folder, new = tempfile.mkdtemp(dir=WORK), tempfile.mkdtemp(dir=WORK) + "/file"
    both = "--resume goes with one worker, and without --trace"
    wanted = [(f"{__file__} isn't an empty file: name a new one", "--resume", __file__), ("isn't an empty file", "--resume", folder),
              (both, "--resume", new, "--workers", "2"), (both, "--resume", new, "--trace", "none"), (both, "--trace", new, "--resume", new),
              ("no folder for /no/such/file", "--resume", "/no/such/file"), ("takes go-on, and with", "--resume", new, "--trace-full", "go-on"),
              ("takes go-on, and with", "--trace", new, "--trace-full", "wait")]
    for said, *words in wanted:
        contains(refusal(*words, folder=folder), said)
    same(os.path.exists(new), False)
    mount = Mount("--workers", "1", "--resume", new, "--trace-full", "wait", folder=folder)
    same(mount.end(), (0, "legal"))
    contains(refusal("--resume", new, folder=folder), "isn't an empty file")


def try_an_empty_file_that_is_there():
    with tempfile.NamedTemporaryFile(dir=WORK) as it:
        mount = Resumed(file=it.name)
        shell(mount, "flock job echo in", "in")
        mount.cut()
        shell(mount, "flock job echo in", "in")
        same(mount.end(), (0, "legal"))


# ---- The head of a new file ----

HEAD = b"state 0 0 16384 1024 4096 4096 2 1\ngo\n"


def text_of(path):
    with open(path, "rb") as it:
        return it.read()


def told_of(command, file, *words):
    """What `lockd check` or `lockd locks` says of it, and its status."""
    with open(file, "rb") as lines:
        ran = subprocess.run([os.environ["LOCKD"], command, *words], stdin=lines, capture_output=True, text=True, timeout=PATIENCE)
    return ran.stdout, ran.returncode


def try_a_file_names_its_rules():
    """From its first line on. Who judges it needs none, and is told of others."""
    for words, line in ((), HEAD[:-4]), (("--fair", "--files", "300", "--parked", "7"), b"state 0 1 16384 7 300 4096 2 1"):
        mount = Resumed(*words)
        same(mount.lines()[:2], [line, b"go"])
        held = [os.open(f"{mount.folder}/{at}", os.O_RDWR | os.O_CREAT) for at in range(300)]
        mount.cut()
        same(has_room(mount.folder, 1), not words)
        for fd in held:
            os.close(fd)
        same(mount.end(), (0, "legal"))
        same([told_of("check", mount.file), told_of("check", mount.file, "--files", "4095"), told_of("locks", mount.file)[1]],
             [("legal\n", 0), ("differs 1\n", 1), 0])


def slow(command, folder):
    """A program that doesn't do this until it may: `FOLDER/go` is there."""
    path = f"{folder}/lockd"
    with open(path, "w", encoding="ascii") as it:
        it.write(f'#!/bin/sh\n[ "$1" != {command} ] || {{ : > {folder}/begun; until [ -e {folder}/go ]; do sleep 0.01; done; }}\n'
                 f'exec {os.environ["LOCKD"]} "$@"\n')
    os.chmod(path, 0o700)
    return path


def beginning(file, program):
    """A carrier that waits for this."""
    it = subprocess.Popen([PROGRAM, "--resume", file, tempfile.mkdtemp(dir=WORK)], stdout=subprocess.DEVNULL, stderr=subprocess.PIPE, text=True,
                          env={**os.environ, "TMPDIR": WORK, "LOCKD": program})
    until(lambda: os.path.exists(f"{os.path.dirname(program)}/begun"))
    return it


def try_a_carrier_that_ends_before_its_file_has_a_head():
    """By a kill or a signal: the file is as it was, and another carrier takes it. It also takes one with its head alone."""
    for was_there in False, True:
        for how, status in (signal.SIGKILL, -signal.SIGKILL), (signal.SIGTERM, 2):
            folder = tempfile.mkdtemp(dir=WORK)
            file, program = f"{folder}/file", slow("state", folder)
            if was_there:
                open(file, "x").close()
            it = beginning(file, program)
            it.send_signal(how)
            same((it.wait(PATIENCE), os.path.exists(file) and text_of(file)), (status, was_there and b""))
            open(f"{folder}/go", "x").close()
            it.stderr.close()
            mount = Resumed(file=file)
            same((mount.end(), text_of(file).startswith(HEAD + b"ask ")), ((0, "legal"), True))
    with open(file, "wb") as it:
        it.write(HEAD)
    mount = Resumed(file=file)
    same((mount.end(), text_of(file).startswith(HEAD + b"ask ")), ((0, "legal"), True))


def try_two_carriers_that_begin_with_one_file():
    """One of them has it. The other one leaves it as it is, whether it has no head by then, no server, or ends before."""
    for was_there in False, True:
        for command, ends, said in ("state", False, "/file is in use by another server"), ("serve", False, "cannot trace"), ("serve", True, "ended before anything"):
            folder = tempfile.mkdtemp(dir=WORK)
            file, program = f"{folder}/file", slow(command, folder)
            if was_there:
                open(file, "x").close()
            one = beginning(file, program)
            mount = Resumed(file=file)
            shell(mount, "flock job echo in", "in")
            before = text_of(file)
            if ends:
                one.terminate()
            else:
                open(f"{folder}/go", "x").close()
            contains(one.communicate(timeout=PATIENCE)[1], said)
            same((one.returncode, text_of(file)[:len(before)]), (2, before))
            mount.cut()
            same(mount.end(), (0, "legal"))


def try_a_mount_that_fails_leaves_its_file_as_it_was():
    folder = tempfile.mkdtemp(dir=WORK)
    path = f"{folder}/lockd"
    write_server(path, f"{A_HEAD}sys.exit(2)\n")
    for words, env, said in [((), {"LOCKD": path}, "the server ended with status 2 before it listened"), (("--runs", "0"), {}, "state` ended with status 2; nothing"),
                             ((), {"LOCKD": "/bin/true"}, "state` prints no head"), ((), {"LOCKD": "/bin/false"}, "state` ended with status 1; nothing")]:
        for was_there in False, True:
            file = f"{tempfile.mkdtemp(dir=WORK)}/file"
            if was_there:
                open(file, "x").close()
            contains(refusal("--resume", file, *words, folder=tempfile.mkdtemp(dir=WORK), **env), said)
            same(os.path.exists(file) and text_of(file), was_there and b"")
    # Other lines stay, also if they are a head by other rules.
    for text in HEAD.replace(b"16384", b"16383"), HEAD + b"x", HEAD[:-1], b"\n":
        with open(file, "wb") as it:
            it.write(text)
        contains(refusal("--resume", file, folder=tempfile.mkdtemp(dir=WORK)), f"{file} isn't an empty file: name a new one")
        same(text_of(file), text)


# ---- A full disk ----

def full_disk():
    """A folder on a small disk, whose file `rest` takes all of it."""
    disk = tempfile.mkdtemp(dir=WORK)
    subprocess.run(["mount", "-t", "tmpfs", "-o", "size=64k", "none", disk], check=True, timeout=PATIENCE)
    return disk


def fill(disk):
    with open(f"{disk}/rest", "wb", buffering=0) as rest:
        while outcome(rest.write, bytes(4096)) == 4096:
            pass


def lock_often(mount):
    for _ in range(100):
        shell(mount, "flock job true", "")


def try_calls_wait_while_the_disk_is_full():
    """The server is killed meanwhile, too. No lock is lost, and no line."""
    disk = full_disk()
    mount = Resumed(file=f"{disk}/file")
    (one,) = children(f"{mount.folder}/held", 1)
    same(one.ask("flock", "a", ALONE), "ok")
    fill(disk)
    locking = threading.Thread(target=lock_often, args=(mount,), daemon=True)
    locking.start()
    until(lambda: f"cannot write {mount.file}: " in mount.output())
    os.kill(mount.server(), signal.SIGKILL)
    time.sleep(0.5)
    assert locking.is_alive() and mount.running.poll() is None, mount.output()
    os.unlink(f"{disk}/rest")
    locking.join(3 * PATIENCE)
    same((locking.is_alive(), outcome(shell, mount, "flock -n held true || echo held", "held")), (False, None))
    one.kill()
    same(mount.end(), (0, "legal"))
    asked_once(mount.lines())
    unmount(disk)


def try_a_new_file_on_a_full_disk():
    """Nothing is mounted, and nothing is left."""
    disk = full_disk()
    fill(disk)
    contains(refusal("--resume", f"{disk}/file", folder=tempfile.mkdtemp(dir=WORK)), f"cannot write {disk}/file: No space left on device")
    same(os.listdir(disk), ["rest"])
    unmount(disk)


def try_a_full_disk_may_end_it():
    disk = full_disk()
    mount = Resumed("--trace-full", "end", file=f"{disk}/file")
    fill(disk)
    locking = subprocess.Popen(["sh", "-c", "while flock job true; do :; done"], cwd=mount.folder, stderr=subprocess.DEVNULL)
    status, _ = mount.end(lambda: None)
    locking.wait(PATIENCE)
    mount.says("trace failed", "the server ended with status 2\n")
    same(("is started again" in mount.output(), status), (False, 1))
    subprocess.run(["umount", "-l", disk], check=True, timeout=PATIENCE)
