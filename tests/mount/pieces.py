"""A mount with --rotate: its server begins new pieces of the trace while processes lock. It is killed near such a moment twice as often as
TRY_MOUNT_KILLS says (10), by TRY_MOUNT_SEED."""
import ctypes, os, random, re, select, shutil, signal, struct, subprocess, tempfile, time
from collections import Counter
from tests.mount.ends import held_and_waited_for
from tests.mount.kit import *
from tests.mount.resumed import A_HEAD, KILLS, SEED, Resumed, asked_once, built, has_room, held_at_the_end, lost, starting_often

LIBC = ctypes.CDLL(None)
IN_MOVED_TO, IN_CREATE = 0x80, 0x100
STRUCT_EVENT = "iIII"
PAIRS = 16500  # so many locks and unlocks have some 65,536 orders and replies, after which a piece is due
TICK = 0.2  # seconds: so often a mount looks at its trace here


def looking_often():
    """A carrier that does so, and starts its server again as often as it ends."""
    return starting_often("lockd_mount_looks", f"-DTICK={TICK * 1000:.0f}")


class InPieces(Resumed):
    """A mount whose server begins a piece as often as it may, and keeps two. `kept` has all that were seen in a row, the oldest first."""

    def __init__(self, *words, **how):
        super().__init__("--rotate", "1", "--keep", "2", *words, **how)
        self.room, self.kept, self.turns = os.path.dirname(self.file), [], 0
        self.events = LIBC.inotify_init1(os.O_NONBLOCK)
        assert LIBC.inotify_add_watch(self.events, self.room.encode(), IN_CREATE | IN_MOVED_TO) > 0

    def happens(self, patience=PATIENCE):
        """The names that files got in the trace's folder by now, one at least if patience is left. A piece that has got its number is kept."""
        select.select([self.events], [], [], patience)
        some, names = outcome(os.read, self.events, 1 << 16), []
        while isinstance(some, bytes) and some:
            *_, size = struct.unpack_from(STRUCT_EVENT, some)
            names.append(some[struct.calcsize(STRUCT_EVENT):][:size].rstrip(b"\0").decode())
            some = some[struct.calcsize(STRUCT_EVENT) + size:]
        for name in names:
            self.turns += name == "file"
            if name[5:].isdigit():
                self.keep(name)
        return names

    def keep(self, name):
        path = f"{tempfile.mkdtemp(dir=WORK)}/{name}"
        if outcome(os.link, f"{self.room}/{name}", path) == "ENOENT":
            # It was removed by then, so that those before it don't stand in a row with those after it.
            self.kept.clear()
        else:
            self.kept.append(path)

    def turn(self, count=1):
        """Waits until so many pieces more have begun."""
        wanted = self.turns + count
        until(lambda: self.happens(0.1) is not None and self.turns >= wanted)

    def pieces(self):
        """The numbers of those that stand before FILE."""
        return sorted(int(it[5:]) for it in os.listdir(self.room) if it[5:].isdigit())

    def told(self):
        """What it says of its trace at SIGUSR1."""
        before = len(self.output())
        self.running.send_signal(signal.SIGUSR1)
        until(lambda: re.search(f"trace {self.file}: (.*)\n", self.output()[before:]))
        return re.search(f"trace {self.file}: (.*)\n", self.output()[before:])[1]


def busy(mount):
    """A process that locks a file of its own, as often as it is told to."""
    (it,) = children(f"{mount.folder}/busy", 1)
    return it


def fill(it, count=1):
    """Has it lock so often that so many pieces begin, and no more."""
    same(it.ask("often", "a", count * PAIRS), "ok")


# ---- Kills near turns ----

def moment(mount):
    """Where in a turn its server was killed just now."""
    last = max(mount.pieces(), default=0)
    is_linked = outcome(os.path.samefile, f"{mount.file}.{last}", mount.file) is True
    return "linked" if is_linked else "in a head" if os.path.exists(f"{mount.file}.new") else "between"


def begins_a_piece(mount, is_linked):
    """Waits until FILE.new is made, or FILE is linked. Gives the server: to look for it takes longer than a turn may."""
    servers, last = [], time.monotonic() + PATIENCE
    while not servers or not any(it[5:].isdigit() if is_linked else it == "file.new" for it in mount.happens(0.02)):
        servers = mount.servers()
        assert time.monotonic() < last, f"no piece begins: {mount.output()}"
    return servers[-1]


def kill_near_a_turn(mount, chance):
    """Kills the server in the midst of a turn, or soon after, perhaps as soon as it was started. Gives where it was."""
    if chance.random() < 0.5:
        mount.happens(0)
    server = begins_a_piece(mount, chance.random() < 0.5)
    last = time.monotonic() + chance.choice((0, 0.0005, 0.005, 0.05)) * chance.random()
    while time.monotonic() < last:
        pass
    if outcome(os.kill, server, signal.SIGKILL):
        return "gone"
    until(lambda: state_of(f"/proc/{server}") in "XZ")
    return moment(mount)


def try_a_server_that_is_killed_as_it_begins_pieces():
    """One holds a lock for all the time, and another waits for it. The pieces are one history, which has each order once."""
    chance, rules = random.Random(SEED), ("--files", "64")
    program, moments = built("sections"), Counter()
    mount = InPieces(*rules, program=looking_often())
    one, two = held_and_waited_for(mount)
    (three,) = children(f"{mount.folder}/held", 1)
    locking = busy(mount)
    locking.begin("often", "a", 1 << 40)
    running = subprocess.Popen([program, mount.folder, "4", str(SEED)], stdin=subprocess.PIPE, stdout=subprocess.PIPE, stderr=subprocess.PIPE, text=True)
    while sum(moments.values()) < 2 * KILLS and running.poll() is None:
        moments[kill_near_a_turn(mount, chance)] += 1
        if chance.random() < 0.5:
            same(three.ask("flock", "a", ALONE | AT_ONCE), "EAGAIN")
    same(three.ask("flock", "a", ALONE | AT_ONCE), "EAGAIN")
    mount.turn(2)
    locking.kill()
    said, wrong = running.communicate(timeout=PATIENCE)
    same((wrong, running.returncode), ("", 0))
    assert two.waits()
    same([one.ask("flock", "a", NOT_HELD), two.answer()], ["ok", "ok"])
    for it in one, two, three:
        it.kill()
    until(lambda: has_room(mount.folder, 58))
    ended = mount.end()
    mount.happens(0)
    orders, _ = asked_once(lines_of(*mount.kept, mount.file))
    print(f"{dict(moments)} kills (seed {SEED}), {mount.turns} turns, {orders} orders; sections, ..: {said}", end="", flush=True)
    same((ended, sorted(os.listdir(mount.room)), held_at_the_end(mount, *rules)), ((0, "legal"), ["file", os.path.basename(mount.kept[-1])], []))
    same(judged(*rules, *mount.kept, mount.file), "legal\n")


try_a_server_that_is_killed_as_it_begins_pieces.seconds = 10 * PATIENCE + 8 * KILLS


def lines_of(*paths):
    lines = []
    for path in paths:
        with open(path, "rb") as it:
            lines += it.read().split(b"\n")[:-1]
    return lines


def judged(*words):
    return subprocess.run([os.environ["LOCKD"], "check", *words], capture_output=True, text=True, timeout=10 * PATIENCE).stdout


# ---- What is told of the trace ----

def says_of_its_trace(mount):
    """What it has said unasked, in words behind its path."""
    return re.findall(f"the trace {mount.file} (.*?)[:\n]", mount.output())


def try_what_becomes_of_pieces_is_told():
    """Turns say nothing. What is spoilt is told once, and once more when that changes. What the server does of it the server says."""
    mount, wanted = InPieces(program=looking_often()), []

    def told(*more, quick=()):
        """This is told, but what stands in `quick` only if the server hasn't mended it by then."""
        until(lambda: more[-1:] == tuple(says_of_its_trace(mount)[-1:]) or more[-1:] == quick[-1:] or not more)
        # It isn't told again.
        time.sleep(3 * TICK)
        found = says_of_its_trace(mount)[len(wanted):]
        assert found in ([*more], [it for it in more if it not in quick]), found
        wanted.extend(found)

    def server_said(line):
        until(lambda: f"{mount.file} {line}\n" in mount.output())

    it = busy(mount)
    fill(it, 4)
    told()
    same(mount.told(), f"1 piece before, {os.path.getsize(mount.file)} bytes")
    os.rename(mount.file, f"{mount.file}.away")
    server_said("was moved or removed, and is there again")
    told("was moved or removed", "is whole again", quick=("was moved or removed", "is whole again"))
    os.unlink(f"{mount.file}.away")
    os.link(mount.file, f"{mount.file}.away")
    os.replace(shutil.copy(mount.file, f"{mount.file}.copy"), mount.file)
    told("was replaced")
    os.replace(f"{mount.file}.away", mount.file)
    told("is whole again")
    (last,) = mount.pieces()
    os.rename(f"{mount.file}.{last}", f"{mount.file}.away")
    told("lacks the piece before it, or a part of that")
    same(mount.told(), f"0 pieces before, {os.path.getsize(mount.file)} bytes")
    fill(it)
    told("is whole again")
    os.truncate(mount.file, os.path.getsize(mount.file) // 2)
    server_said("goes on in a new piece")
    told("was cut", "lacks the piece before it, or a part of that", quick=("was cut",))
    fill(it)
    told("is whole again")
    # What the server says of pieces is passed on.
    os.mkdir(f"{mount.file}.new")
    fill(it)
    mount.happens(0)
    same(mount.output().count(f"no new piece of {mount.file}: "), 1)
    os.rmdir(f"{mount.file}.new")
    it.begin("often", "a", 1)
    mount.turn()
    same(it.answer(), "ok")
    it.kill()
    same(mount.end(), (0, "legal"))


def goes_on_behind_a_gap(mount, one, two, ended=(0, "legal")):
    """A new server has the lock of one process, and the wait of another. This is what the mount says at its end."""
    mount.cut()
    until(lambda: f"{mount.file} goes on behind a gap: " in mount.output())
    assert two.waits()
    contains(listed(mount).stdout, " WRITE* ")
    same([one.ask("flock", "a", NOT_HELD), two.answer()], ["ok", "ok"])
    for it in one, two:
        it.kill()
    same(mount.end(), ended)


def try_a_piece_that_a_new_server_wants_is_gone():
    """FILE is short: who was answered before its head isn't known without it."""
    mount = InPieces()
    it = busy(mount)
    fill(it)
    it.kill()
    one, two = held_and_waited_for(mount)
    (last,) = mount.pieces()
    os.unlink(f"{mount.file}.{last}")
    goes_on_behind_a_gap(mount, one, two)


def try_a_server_that_is_killed_behind_a_cut():
    """The piece that was cut is judged only with --rotate."""
    for words, ended in ((), (0, "legal")), (("--rotate", "1", "--keep", "2"), (3, "bad line 1 of 1")):
        mount = Resumed(*words)
        one, two = held_and_waited_for(mount)
        os.truncate(mount.file, 9)
        until(lambda: f"{mount.file} goes on in a new piece\n" in mount.output())
        goes_on_behind_a_gap(mount, one, two, ended)


# ---- Other limits ----

class Allowing(Resumed):
    """A mount where 16 files may be made, until its program says otherwise."""

    def __init__(self, *words):
        self.notes = tempfile.mkdtemp(dir=WORK)
        self.allow(16)
        with open(f"{self.notes}/lockd", "w", encoding="ascii") as it:
            it.write(f'#!/bin/sh\necho "$@" > {self.notes}/words\n'
                     f'exec {os.environ["LOCKD"]} $(sed "s/--files 16/--files $(cat {self.notes}/files)/" {self.notes}/words)\n')
        os.chmod(f"{self.notes}/lockd", 0o700)
        super().__init__("--files", "16", *words, LOCKD=f"{self.notes}/lockd")

    def allow(self, files):
        with open(f"{self.notes}/files", "w", encoding="ascii") as it:
            print(files, file=it)

    def started(self):
        """The words with which its program was started last."""
        with open(f"{self.notes}/words", encoding="ascii") as it:
            return it.read().split()

    def fill(self):
        """As many files as there may be. Two processes have one: one has locked it, and another waits for it."""
        both = held_and_waited_for(self)
        for at in range(15):
            os.close(os.open(f"{self.folder}/{at}", os.O_RDWR | os.O_CREAT))
        same(has_room(self.folder, 1), False)
        return both


def try_a_server_with_greater_limits_keeps_all_locks():
    """The next one makes room, and begins a piece at once. The end judges all in a row, each by its own limits."""
    for words in (), ("--rotate", "1"):
        mount = Allowing(*words)
        one, two = mount.fill()
        mount.allow(64)
        mount.cut()
        assert two.waits()
        same((has_room(mount.folder, 48), has_room(mount.folder, 49)), (True, False))
        same(("WRITE*" in listed(mount).stdout, sorted(os.listdir(os.path.dirname(mount.file)))), (True, ["file", "file.1"]))
        if words:
            it = busy(mount)
            fill(it)
            until(lambda: os.path.exists(f"{mount.file}.2"))
            it.kill()
        same([one.ask("flock", "a", NOT_HELD), two.answer()], ["ok", "ok"])
        for it in one, two:
            it.kill()
        same((mount.end(), mount.started()), ((0, "legal"), ["check", *[f"{mount.file}.1", f"{mount.file}.2", mount.file][:2 * len(words)]]))


def try_a_server_with_limits_that_do_not_fit():
    """No lock is lost for want of room: the mount ends, and FILE stays as it was."""
    mount = Allowing()
    one, two = mount.fill()
    before = mount.lines()
    mount.allow(15)
    os.kill(mount.server(), signal.SIGKILL)
    lost(mount, one, two, 1, "cannot trace\n", "the server ended with status 2 before it listened", f"can't go on with {mount.file}")
    same((mount.lines(), os.listdir(os.path.dirname(mount.file))), (before, ["file"]))


# ---- Words and names ----

LIMITS = "--runs", "16384", "--parked", "1024", "--files", "4096", "--open", "4096"


def words_handed_on(*words):
    """Those that the server is started with behind the trace's path and --allow-gap, but for the limits of each mount."""
    folder, file, at = tempfile.mkdtemp(dir=WORK), tempfile.mkdtemp(dir=WORK) + "/file", tempfile.mkdtemp(dir=WORK)
    write_server(f"{folder}/lockd", f"print(*sys.argv[1:], file=open({folder!r} + '/words', 'w'))\n{A_HEAD}sys.exit(2)\n")
    contains(refusal("--resume", file, *words, folder=at, LOCKD=f"{folder}/lockd"), "the server ended with status 2 before it listened")
    same(os.path.exists(file), False)
    with open(f"{folder}/words", encoding="ascii") as it:
        handed = it.read().partition(f"serve socket --resume {file} --allow-gap")[2].split()
    same(tuple(handed[-len(LIMITS):]), LIMITS)
    return handed[:-len(LIMITS)]


def try_sizes_of_pieces():
    for size, count in ("1", 1), ("4294967295", 4294967295), ("1K", 1 << 10), ("256M", 256 << 20), ("4095M", 4095 << 20), ("3G", 3 << 30):
        same(words_handed_on("--rotate", size), ["--rotate", str(count)])
    same(words_handed_on("--rotate", "1", "--keep", "2", "--fair"), ["--rotate", "1", "--keep", "2", "--fair"])
    folder, new = tempfile.mkdtemp(dir=WORK), tempfile.mkdtemp(dir=WORK) + "/file"
    for size in "4G", "4294967296", "4096M", "99999999999999999999", "99999999999999999999G":
        contains(refusal("--resume", new, "--rotate", size, folder=folder), f"--rotate: `{size}` is too much: take at most 4294967295 bytes")
    for size in "", "0", "0K", "K", "-1", "+1", " 1", "1k", "1KB", "1.5G", "0x10":
        contains(refusal("--resume", new, "--rotate", size, folder=folder), f"and not `{size}`")
    for count in "", "0", "1", "4294967296", "2K":
        contains(refusal("--resume", new, "--rotate", "1", "--keep", count, folder=folder), f"--keep: a number from 2 to 4294967295, and not `{count}`")
    for said, *words in [("--rotate goes with --resume FILE", "--rotate", "1"), ("--rotate goes with --resume FILE", "--trace", new, "--rotate", "1"),
                         ("--keep goes with --rotate SIZE", "--resume", new, "--keep", "2"), ("--keep goes with --rotate SIZE", "--keep", "2")]:
        contains(refusal(*words, folder=folder), f"{said}; `lockd_mount --help` tells the options")
    same(os.path.exists(new), False)


def try_a_name_of_a_piece_that_is_taken():
    """That file stays. Other names are none of a piece's."""
    folder, room = tempfile.mkdtemp(dir=WORK), tempfile.mkdtemp(dir=WORK)
    for name in "file.01", "file.0", "file.x", "file.1x", "file.-1", "file1", "other.1":
        open(f"{room}/{name}", "x").close()
    mount = Mount("--resume", f"{room}/file", "--rotate", "1M", folder=folder)
    same(mount.end(), (0, "legal"))
    os.unlink(f"{room}/file")
    open(f"{room}/file.12", "x").close()
    contains(refusal("--resume", f"{room}/file", "--rotate", "1", "--keep", "2", folder=folder), f"{room}/file.12 is there already", "name another FILE")
    same((os.path.exists(f"{room}/file"), os.path.exists(f"{room}/file.12")), (False, True))
    # Without pieces it is no matter.
    mount = Mount("--resume", f"{room}/file", folder=folder)
    same(mount.end(), (0, "legal"))
