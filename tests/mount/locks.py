"""Locks of a mount: shell scripts, record locks, and random calls beside a file system in memory."""
import fcntl, os, random, shutil, signal, tempfile, time
from tests.model import LAST, RECORD, Model
from tests.mount.kit import *


# ---- Shell scripts ----

def try_shell_redirection_and_flock(mount):
    shell(mount, "exec 9>lock; flock 9; echo one; (exec 8>lock; flock -n 8 || echo refused); exec 9>&-; exec 8>lock; flock 8; echo two",
          "one refused two")


def try_shell_opens_a_file_again_in_each_way(mount):
    shell(mount, "exec 9>ways; exec 9>ways; exec 9>>ways; exec 9<>ways; exec 9<ways; flock -n 9; echo $?; : > ways; echo $?", "0 0")


def try_shell_flock_without_waiting(mount):
    """Nobody waits until the first one's file is closed, and of several workers another one may take the next order."""
    shell(mount, "flock job sh -c 'flock -n job echo in || echo $?'; until flock -n job echo in; do sleep 0.01; done", "1 in")


def try_shell_shared_locks(mount):
    shell(mount, "flock -s shared sh -c 'flock -sn shared echo both; flock -xn shared echo in || echo alone'", "both alone")


def try_shell_flock_with_a_time(mount):
    shell(mount, "flock timed sh -c 'flock -w 1 timed echo in || echo late'; (flock timed sleep 0.5) & sleep 0.1; "
                 f"flock -w {PATIENCE} timed echo in; wait", "late in")


def try_shell_lock_goes_with_an_exit(mount):
    shell(mount, "sh -c 'exec 9>gone; flock 9; exit 3'; echo $?; flock -w 60 gone echo free", "3 free")


def try_shell_lock_goes_with_a_killed_process(mount):
    shell(mount, "sh -c 'exec 9>gone; flock 9; exec sleep 100' & while flock -n gone true; do sleep 0.01; done; echo held; "
                 "kill -9 $!; wait $! 2> /dev/null; flock -w 60 gone echo free", "held free")


def try_shell_twenty_count_under_flock(mount, folder=None):
    counter = f"{folder or WORK}/counted{len(os.listdir(WORK))}"
    shell(mount, f"echo 0 > {counter}; for one in $(seq 20); do "
                 f"(for each in $(seq 10); do flock count sh -c 'read n < {counter}; echo $((n + 1)) > {counter}'; done) & done; "
                 f"wait; cat {counter}", "200")


# ---- Record locks ----

def try_twenty_count_under_fcntl(mount):
    counter = f"{WORK}/by_fcntl"
    with open(counter, "w", encoding="ascii") as it:
        it.write("0")
    made = []
    for _ in range(20):
        pid = os.fork()
        if not pid:
            signal.signal(signal.SIGALRM, signal.SIG_DFL)
            signal.alarm(19 * PATIENCE)
            fd = os.open(f"{mount.folder}/by_fcntl", os.O_RDWR | os.O_CREAT)
            for _ in range(50):
                record(fd, WRITE, 5, 1, True)
                with open(counter, encoding="ascii") as it:
                    count = int(it.read())
                with open(counter, "w", encoding="ascii") as it:
                    it.write(str(count + 1))
                record(fd, UNLOCK, 5, 1)
            os._exit(0)
        made.append(pid)
    same([os.waitpid(pid, 0)[1] for pid in made], [0] * 20)
    with open(counter, encoding="ascii") as it:
        same(it.read(), "1000")


def try_ranges_are_split_and_joined(mount):
    one, two = children(f"{mount.folder}/ranges", 2)
    same(one.ask("record", "a", WRITE, 0, 100), "ok")
    same(one.ask("record", "a", UNLOCK, 40, 20), "ok")
    same(two.ask("asked", "a", WRITE, 0, 0), (WRITE, 0, 40, one.pid))
    same(two.ask("asked", "a", WRITE, 50, 0), (WRITE, 60, 40, one.pid))
    same(two.ask("record", "a", WRITE, 40, 20), "ok")
    same(two.ask("record", "a", UNLOCK, 0, 0), "ok")
    same(one.ask("record", "a", WRITE, 40, 20), "ok")
    same(two.ask("asked", "a", READ, 99, 1), (WRITE, 0, 100, one.pid))
    same(one.ask("record", "a", READ, 0, 0), "ok")
    same(two.ask("asked", "a", WRITE, 1 << 62, 1), (READ, 0, 0, one.pid))
    same(two.ask("asked", "a", READ, 0, 0), None)


def try_a_lock_is_upgraded_and_downgraded(mount):
    one, two = children(f"{mount.folder}/grades", 2)
    same([it.ask("record", "a", READ) for it in (one, two)], ["ok", "ok"])
    same(one.ask("record", "a", WRITE), "EAGAIN")
    same(two.ask("record", "a", UNLOCK), "ok")
    same(one.ask("record", "a", WRITE), "ok")
    same(two.ask("record", "a", READ), "EAGAIN")
    two.begin("record", "a", READ, 0, 0, True)
    assert two.waits()
    same(one.ask("record", "a", READ), "ok")
    same(two.answer(), "ok")


def try_getlk_tells_the_holder(mount):
    one, two = children(f"{mount.folder}/holder", 2)
    same(two.ask("asked", "a", WRITE, 0, 10), None)
    same(one.ask("record", "a", WRITE, 3, 4), "ok")
    same(two.ask("asked", "a", READ, 0, 10), (WRITE, 3, 4, one.pid))
    same(one.ask("asked", "a", READ, 0, 10), None)


def try_what_the_way_of_opening_forbids(mount):
    (one,), (two,) = children(f"{mount.folder}/ways", 1), children(f"{mount.folder}/ways", 1, os.O_WRONLY)
    same(one.ask("open", "r", f"{mount.folder}/ways", os.O_RDONLY), "ok")
    same([one.ask("record", "r", WRITE), two.ask("record", "a", READ)], ["EBADF", "EBADF"])


def try_record_locks_go_with_any_descriptor(mount):
    one, two = children(f"{mount.folder}/any", 2)
    same(one.ask("open", "b", f"{mount.folder}/any", os.O_RDONLY), "ok")
    same(one.ask("record", "a", WRITE), "ok")
    same(two.ask("record", "a", WRITE), "EAGAIN")
    same(one.ask("close", "b"), "ok")
    same(two.ask("record", "a", WRITE), "ok")


def try_record_locks_go_with_the_process(mount):
    one, two = children(f"{mount.folder}/process", 2)
    same(one.ask("record", "a", WRITE), "ok")
    two.begin("record", "a", WRITE, 0, 0, True)
    assert two.waits()
    one.kill()
    same(two.answer(), "ok")


def deadlock(mount, count):
    """Process 0 waits for 1, 1 for 2, and so on: the last is told, and then each gets its lock when the next gives way."""
    circle = children(f"{mount.folder}/circle{count}", count)
    for at, child in enumerate(circle):
        same(child.ask("record", "a", WRITE, at, 1), "ok")
    for at, child in enumerate(circle[:-1]):
        child.begin("record", "a", WRITE, at + 1, 1, True)
        assert child.waits()
        until(lambda: mount.lets_wait(child))
    same(circle[-1].ask("record", "a", WRITE, 0, 1, True), "EDEADLK")
    for child, before in zip(circle[::-1], circle[-2::-1]):
        same(child.ask("record", "a", UNLOCK), "ok")
        same(before.answer(), "ok")


def try_deadlock_of_2(mount):
    deadlock(mount, 2)


def try_deadlock_of_3(mount):
    deadlock(mount, 3)


def try_deadlock_of_12(mount):
    deadlock(mount, 12)


def try_a_signal_ends_a_wait(mount):
    one, two, three = children(f"{mount.folder}/signal", 3)
    same([one.ask("record", "a", WRITE), one.ask("flock", "a", ALONE)], ["ok", "ok"])
    for words in ("record", "a", WRITE, 0, 0, True), ("flock", "a", ALONE):
        two.begin(*words)
        three.begin(*words)
        assert two.waits() and three.waits()
        os.kill(two.pid, signal.SIGUSR1)
        same(two.answer(), "EINTR")
        same(one.ask(*words[:2], *((UNLOCK,) if words[0] == "record" else (NOT_HELD,))), "ok")
        same(three.answer(), "ok")


def try_a_waiting_process_is_killed(mount):
    for words in ("record", "a", WRITE, 0, 0, True), ("flock", "a", ALONE):
        one, two, three = children(f"{mount.folder}/killed", 3)
        same(one.ask(*words), "ok")
        two.begin(*words)
        assert two.waits()
        two.kill()
        one.kill()
        same(three.ask(*words), "ok")


# ---- Beside a file system in memory ----

# Locks begin and end within so many bytes, or go on to the last byte of all.
CELLS = 64


class Files:
    """The files `x` and `y` of the model. An owner is the place of a process."""

    def __init__(self):
        self.model, self.nodes = Model(range(CELLS + 1)), {"x": 2, "y": 3}
        for name in self.nodes:
            self.reply(name, "create", 0, 0o644, name.encode().hex())

    def reply(self, name, op, *words):
        """What one order is told, of the open file where it needs one."""
        node = self.nodes[name]
        return self.model.take(1, node, op, *([] if op == "create" else [node - 1]), *words)[0][1]

    def record(self, name, at, kind, start, end):
        return {"ok": "ok", f"err {errno.EAGAIN}": "EAGAIN"}[self.reply(name, "setlk", at, start, end, kind, at, RECORD)]

    def is_right(self, name, at, kind, start, end, told, pids):
        """Whether this is a lock of another that excludes the one asked for, as long as it can be."""
        asked_for, _ = self.model.request(1, self.nodes[name], self.nodes[name] - 1, at, start, end, kind, at, RECORD)
        locks = [(it.kind, it.start, 0 if it.end == LAST else it.end - it.start + 1, pids[it.owner]) for it in self.model.in_the_way(asked_for)]
        return told in locks if told else not locks


def try_5000_random_calls_of_fcntl(mount):
    chance, files = random.Random(34), Files()
    memory = tempfile.mkdtemp(dir="/dev/shm")
    team = [Child() for _ in range(4)]
    pids, held = [it.pid for it in team], set()
    told, others = 0, 0
    try:
        for call in as_often(5000):
            at, name = chance.randrange(4), chance.choice(["x", "y"])
            start = chance.randrange(CELLS)
            length = chance.choice([0, *range(1, 30)])
            length = min(length, CELLS - start)
            end = start + length - 1 if length else LAST
            kind = chance.choice([READ, WRITE, UNLOCK])
            if (at, name) not in held:
                held.add((at, name))
                words = "open", name, os.O_RDWR | os.O_CREAT
            else:
                words = chance.choice([("record", name, kind, start, length)] * 12 +
                                      [("asked", name, min(kind, WRITE), start, length)] * 5 + [("close", name)])
            found = []
            for folder in mount.folder, memory:
                key = f"{folder}/random_{name}"
                found.append(team[at].ask(words[0], key, *((key, words[2]) if words[0] == "open" else words[2:])))
            if words[0] == "asked":
                told += found[0] is not None
                others += found[0] != found[1]
                right = [files.is_right(name, at, words[2], start, end, it, pids) for it in found]
                assert right == [True, True], f"call {call}, {words}: {found}, {right}"
                continue
            assert found[0] == found[1], f"call {call}, {words}: {found[0]} on the mount, {found[1]} in memory"
            if words[0] == "record":
                same(found[0], files.record(name, at, kind, start, end))
            elif words[0] == "close":
                held.discard((at, name))
                files.reply(name, "flush", at)
    finally:
        shutil.rmtree(memory)
    assert told > (call + 1) // 50, (told, call)
    print(f"fcntl: {told} times F_GETLK told a lock, {others} times another one than in memory, each rightly", flush=True)


def try_5000_random_calls_of_flock(mount):
    """A conversion that is refused loses the old lock in memory, and on the mount it doesn't: the next call drops it."""
    chance = random.Random(35)
    memory = tempfile.mkdtemp(dir="/dev/shm")
    team = [Child() for _ in range(4)]
    files, lost = {}, 0
    try:
        for call in as_often(5000):
            at, name = chance.randrange(4), chance.choice(["x", "y", "x2", "y2"])
            kind = chance.choice([SHARED, SHARED, ALONE, NOT_HELD])
            if (at, name) not in files:
                words, files[at, name] = ("open", os.O_RDWR | os.O_CREAT), NOT_HELD
            else:
                words = chance.choice([("flock", kind | AT_ONCE)] * 12 + [("close",)])
            found = [team[at].ask(words[0], f"{folder}/{name}", *((f"{folder}/whole_{name[0]}",) if words[0] == "open" else ()), *words[1:])
                     for folder in (mount.folder, memory)]
            assert found[0] == found[1], f"call {call}, {words}: {found[0]} on the mount, {found[1]} in memory"
            if words[0] == "close":
                del files[at, name]
            elif words[0] == "flock" and found[0] == "ok":
                files[at, name] = kind
            elif words[0] == "flock" and files[at, name] != NOT_HELD:
                lost += 1
                files[at, name] = NOT_HELD
                same([team[at].ask("flock", f"{folder}/{name}", NOT_HELD) for folder in (mount.folder, memory)], ["ok", "ok"])
    finally:
        shutil.rmtree(memory)
    print(f"flock: {lost} conversions were refused, on both", flush=True)


# ---- Locks of open file descriptions ----

def both(mount, tries):
    """The same on the mount and in memory."""
    memory = tempfile.mkdtemp(dir="/dev/shm")
    try:
        for folder in mount.folder, memory:
            tries(f"{folder}/ofd")
    finally:
        shutil.rmtree(memory)


def try_ofd_lock_goes_with_the_last_close_of_its_description(mount):
    def tries(path):
        one, two = children(path, 2)
        same(one.ask("open", "b", path, os.O_RDWR), "ok")
        one.ask("dup", "a", "a2")
        same(one.ask("ofd", "a", WRITE, 0, 10), "ok")
        same(one.ask("ofd", "b", READ, 5, 1), "EAGAIN")
        # Another descriptor of the file and one of the description are closed: it stays.
        same([one.ask("close", "b"), one.ask("close", "a"), two.ask("ofd", "a", WRITE, 9, 1)], ["ok", "ok", "EAGAIN"])
        same([two.ask("open", "b", path, os.O_RDWR), two.ask("ofd", "b", WRITE, 10, 1)], ["ok", "ok"])
        same(one.ask("close", "a2"), "ok")
        until(lambda: two.ask("ofd", "a", WRITE, 9, 1) == "ok")
        same(two.ask("ofd", "a", WRITE, 10, 1), "EAGAIN")
        same(two.ask("close", "b"), "ok")
        until(lambda: two.ask("ofd", "a", WRITE, 10, 1) == "ok")
        one.kill()
        two.kill()
    both(mount, tries)


def try_getlk_of_a_description_names_no_process(mount):
    """F_OFD_GETLK finds the lock, and its pid is -1, also for a lock of a process, which in memory it names. F_GETLK names who set a lock of a description."""
    one, two = children(f"{mount.folder}/ofd_getlk", 2)
    same([one.ask("ofd", "a", WRITE, 3, 4), one.ask("record", "a", WRITE, 20, 5)], ["ok", "ok"])
    for start, length, found in (0, 10, (WRITE, 3, 4)), (20, 1, (WRITE, 20, 5)), (100, 0, None):
        same([two.ask("asked", "a", READ, start, length, it) for it in (OFD_GETLK, fcntl.F_GETLK)], [found and (*found, it) for it in (-1, one.pid)])
    same(one.ask("asked", "a", READ, 0, 10, OFD_GETLK), None)


def try_ofd_lock_of_a_killed_process_goes_to_one_who_waits(mount):
    def tries(path):
        one, two = children(path, 2)
        same(one.ask("ofd", "a", WRITE), "ok")
        two.begin("ofd", "a", WRITE, 0, 0, True)
        assert two.waits() if path.startswith(mount.folder) else not time.sleep(0.1)
        one.kill()
        same(two.answer(), "ok")
        two.kill()
    both(mount, tries)


def try_ofd_lock_is_inherited_and_no_lock_of_the_process(mount):
    def tries(path):
        fd = os.open(path, os.O_RDWR | os.O_CREAT)
        ofd(fd, WRITE)
        heir = Child()
        other = os.open(path, os.O_RDWR)
        same([outcome(ofd, other, READ), outcome(record, other, WRITE)], ["EAGAIN", "EAGAIN"])
        os.close(fd)
        same(outcome(ofd, other, READ), "EAGAIN")
        heir.kill()
        until(lambda: outcome(ofd, other, WRITE) is None)
        os.close(other)
    both(mount, tries)


def try_ofd_locks_beside_a_lock_of_a_process(mount):
    """A FLUSH for a description's owner takes no lock of a process away, nor the other way round."""
    def tries(path):
        one, two = children(path, 2)
        same([one.ask("record", "a", WRITE, 0, 1), two.ask("ofd", "a", WRITE, 1, 1)], ["ok", "ok"])
        same([two.ask("open", "b", path, os.O_RDWR), two.ask("close", "a")], ["ok", "ok"])
        until(lambda: one.ask("record", "a", WRITE, 1, 1) == "ok")
        same(two.ask("ofd", "b", WRITE, 0, 1), "EAGAIN")
        one.kill()
        two.kill()
    both(mount, tries)
