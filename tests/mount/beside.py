"""Random calls of files and folders on a mount, and on a file system in memory beside it: both have to answer and to show the same.

A call is its user, its name and its words. A path in them is below the top of either folder, and an open file is a place of a table. So any
part of a run of calls is a run, too, and one that goes wrong is made shorter before it is printed. TRY_MOUNT_SEED names other calls.
"""
import collections, ctypes, os, random, shutil, stat, subprocess, tempfile, time
from typing import Callable, NamedTuple
from tests.mount.files import other_user
from tests.mount.kit import *

CALLS, RUN, PLACES, SHORTENS = 10_000, 200, range(4), 20
GROUP, GROUPS = 34, os.getgroups()
LONG = "n" * 255
NAMES = ["a", "b", "c", "d", LONG]
FLAGS = {name: getattr(os, name) for name in ("O_WRONLY", "O_RDWR", "O_CREAT", "O_EXCL", "O_TRUNC", "O_DIRECTORY", "O_NOFOLLOW", "O_APPEND",
                                              "O_TMPFILE")}
BY_PATH, BY_FILE = ("unlink", "mkdir", "rmdir", "mknod", "mkfifo", "chmod", "chown", "truncate"), ("fchmod", "fchown", "ftruncate", "read")
UTIME_NOW, UTIME_OMIT = (1 << 30) - 1, (1 << 30) - 2
AT_FDCWD, AT_EACCESS, CLOCK_REALTIME_COARSE = -100, 0x200, 5
LIBC = ctypes.CDLL(None, use_errno=True)


class Call(NamedTuple):
    is_user: bool
    name: str
    words: tuple

    def __str__(self):
        words = [repr(it) for it in self.words]
        if self.name == "open":
            words[2] = "|".join(name for name, it in FLAGS.items() if self.words[2] & it == it) or "O_RDONLY"
        if self.name in ("open", "mkdir", "mknod", "chmod", "fchmod", "umask"):
            words[-1] = oct(self.words[-1])
        return f"{'user' if self.is_user else 'root'}: {self.name}({', '.join(words)})"


# ---- What differs ----

def makes_inside(call):
    """Whether it would make something in a folder of the folder."""
    path = call.words[1] if call.name == "open" else call.words[0]
    return "/" in path.strip("/").removeprefix("./") and (call.name != "open" or bool(call.words[2] & os.O_CREAT))


def asks_for_no_name(call):
    return call.words[2] & os.O_TMPFILE == os.O_TMPFILE


def sets_a_size(call):
    return call.words[1] > 0


def set_times(memory, call, _):
    checked(LIBC.utimensat(AT_FDCWD, os.fsencode(memory.at(call.words[0])), (Timespec * 2)((0, UTIME_OMIT), (0, UTIME_NOW)), 0))


def drop_group_bit(memory, call, _):
    if os.stat(memory.top).st_mode & stat.S_ISGID:
        path = memory.at(call.words[0])
        os.chmod(path, stat.S_IMODE(os.stat(path).st_mode) & ~stat.S_ISGID)


def keep_bits(memory, call, before):
    fd = memory.opened[call.words[0]]
    it = os.fstat(fd)
    lost = next((older.st_mode & ~it.st_mode for older in before.values() if older.st_ino == it.st_ino), 0)
    if lost:
        os.chmod(fd, stat.S_IMODE(it.st_mode | lost))


class Refusal(NamedTuple):
    """A mount rejects calls with an error that memory does. `page` is how docs/MOUNT.md says it."""
    page: str
    error: str
    calls: str
    is_it: Callable = lambda _: True


class Effect(NamedTuple):
    """Calls have another effect on a mount. A function gives them the same in memory, when they are done there."""
    page: str
    calls: str
    does: Callable


REFUSALS = [
    Refusal("rename, fallocate, extended attributes, O_TMPFILE | EOPNOTSUPP", "EOPNOTSUPP", "rename"),
    Refusal("extended attributes, O_TMPFILE | EOPNOTSUPP", "EOPNOTSUPP", "open", asks_for_no_name),
    Refusal("link, symlink, mkfifo | EPERM", "EPERM", "link symlink mkfifo"),
    Refusal("write, a size that isn't 0 | EFBIG", "EFBIG", "truncate", sets_a_size),
    Refusal("nothing can be made in such a folder (EPERM)", "EPERM", "open mkdir mknod", makes_inside),
]
EFFECTS = [
    Effect("`truncate` sets the times of a file also if its size was 0", "truncate", set_times),
    Effect("A folder doesn't take S_ISGID from the one that it is made in", "mkdir", drop_group_bit),
    Effect("O_TRUNC never takes S_ISUID and S_ISGID from a file", "open", keep_bits),
]
# `shown` leaves out the sizes of folders, memory is mounted with `noatime`, and no file has S_ISGID without S_IXGRP.
LEFT_OUT = ["times are real, sizes 0", "Reads and lists set no access time", "Without S_IXGRP, S_ISGID may stay at a truncate and a chown, too"]


# ---- A folder ----

class Timespec(ctypes.Structure):
    _fields_ = [("seconds", ctypes.c_long), ("nanoseconds", ctypes.c_long)]


def is_error(answer):
    return isinstance(answer, str)


def checked(said):
    if said < 0:
        raise OSError(ctypes.get_errno(), "")
    return said


def become(user):
    """Takes a user and groups. The saved user stays root, so that there is a way back."""
    if user:
        os.setgroups([GROUP])
        os.setresgid(user, user, 0)
        os.setresuid(user, user, 0)
    else:
        os.setresuid(0, 0, 0)
        os.setresgid(0, 0, 0)
        os.setgroups(GROUPS)


def shown(it):
    """What has to be the same on both of what stat says of a file. The size of a folder is 0 on a mount, and in memory tells of its names."""
    return oct(it.st_mode), it.st_nlink, it.st_uid, it.st_gid, 0 if stat.S_ISDIR(it.st_mode) else it.st_size, it.st_blocks, it.st_blksize


def times_of(it):
    return {"atime": it.st_atime_ns, "mtime": it.st_mtime_ns, "ctime": it.st_ctime_ns}


class Folder:
    """A folder, and files that are open in it. A call is a function of it or of `os`."""

    def __init__(self, top):
        self.top, self.opened = top, {}

    def at(self, path):
        return f"{self.top}/{path}"

    def does(self, call):
        """What it gives, or the name of its error."""
        if call.is_user:
            become(NOBODY)
        try:
            return outcome(self.do, call.name, *call.words)
        except KeyError:
            return "no file is open there"
        finally:
            if call.is_user:
                become(0)

    def do(self, name, first, *words):
        if name in BY_PATH:
            return getattr(os, name)(self.at(first), *words)
        if name in BY_FILE:
            return getattr(os, name)(self.opened[first], *words)
        return getattr(self, name)(first, *words)

    def open(self, place, path, flags, mode):
        self.put(place, os.open(self.at(path), flags, mode))

    def dup(self, place, other):
        self.put(other, os.dup(self.opened[place]))

    def put(self, place, fd):
        if place in self.opened:
            os.close(self.opened[place])
        self.opened[place] = fd

    def close(self, place):
        os.close(self.opened.pop(place))

    def link(self, path, other):
        os.link(self.at(path), self.at(other))

    def symlink(self, path):
        os.symlink("a", self.at(path))

    def rename(self, path, other):
        os.rename(self.at(path), self.at(other))

    def utimensat(self, path, *times):
        checked(LIBC.utimensat(AT_FDCWD, os.fsencode(self.at(path)), (Timespec * 2)(*times), 0))

    def futimens(self, place, *times):
        checked(LIBC.futimens(self.opened[place], (Timespec * 2)(*times)))

    def stat(self, path):
        return shown(os.stat(self.at(path)))

    def lstat(self, path):
        return shown(os.lstat(self.at(path)))

    def fstat(self, place):
        return shown(os.fstat(self.opened[place]))

    def access(self, path, mode, flags):
        checked(LIBC.faccessat(AT_FDCWD, os.fsencode(self.at(path)), mode, flags))

    @staticmethod
    def umask(mode):
        os.umask(mode)

    def list(self, path):
        fd = os.open(self.at(path), os.O_RDONLY | os.O_DIRECTORY)
        try:
            return self.list_of(fd)
        finally:
            os.close(fd)

    def flist(self, place):
        os.lseek(self.opened[place], 0, os.SEEK_SET)
        return self.list_of(self.opened[place])

    @staticmethod
    def list_of(fd):
        """The names, their types, and whether the list's numbers are those that stat says."""
        found, room = [], ctypes.create_string_buffer(4096)
        while size := checked(LIBC.getdents64(fd, room, 4096)):
            at = 0
            while at < size:
                number, _, length, kind = struct.unpack_from("QQHB", room, at)
                name = room[at + 19:at + length].partition(b"\0")[0].decode()
                it = outcome(lambda: os.lstat(name, dir_fd=fd))
                found.append((name, kind, it if is_error(it) else it.st_ino == number))
                at += length
        return sorted(found)

    # ---- Not as a call ----

    def seen(self):
        """What stat says of the folder, its names and its open files."""
        found = {key: outcome(os.lstat, self.at(key)) for key in [".", *NAMES]}
        found.update((place, os.fstat(self.opened[place])) for place in PLACES if place in self.opened)
        return {key: it for key, it in found.items() if not is_error(it)}

    def clear(self, mode):
        for place in list(self.opened):
            self.close(place)
        for key, it in self.seen().items():
            if key in NAMES:
                (shutil.rmtree if stat.S_ISDIR(it.st_mode) else os.unlink)(self.at(key))
        os.chown(self.top, 0, 0)
        os.chmod(self.top, mode)

    def copy(self, other):
        """Takes the names of another one, with their modes and owners."""
        self.clear(0o755)
        for key, it in other.seen().items():
            if key in NAMES:
                (os.mkdir if stat.S_ISDIR(it.st_mode) else os.mknod)(self.at(key))
            if key in NAMES or key == ".":
                os.chown(self.at(key), it.st_uid, it.st_gid)
                os.chmod(self.at(key), stat.S_IMODE(it.st_mode))


def in_memory():
    top = tempfile.mkdtemp(dir=WORK)
    # The kernel keeps no time of a read for a mount.
    subprocess.run(["mount", "-t", "tmpfs", "-o", "noatime", "none", top], check=True, timeout=PATIENCE)
    return Folder(top)


# ---- Both ----

def files_of(seen):
    """What stat says of each, and the first that is the same file."""
    first = {}
    return {key: (*shown(it), first.setdefault(it.st_ino, key)) for key, it in seen.items()}


def faults_of_files(both):
    mount, memory = map(files_of, both)
    for key in {**mount, **memory}:
        if mount.get(key) != memory.get(key):
            yield f"{key}: {mount.get(key)} on the mount, {memory.get(key)} in memory"


def faults_of_times(before, after, earliest, latest):
    """Each time is the same on both, or as it was on both, or that of this call on both. Before and after are what was seen on both."""
    older = [{it.st_ino: times_of(it) for it in seen.values()} for seen in before]
    for key in after[0]:
        both = [seen[key] for seen in after]
        for name in times_of(both[0]):
            times = [times_of(it)[name] for it in both]
            stay = [seen.get(it.st_ino, {}).get(name) == time for seen, it, time in zip(older, both, times)]
            if times[0] != times[1] and not all(stay) and not all(earliest <= it <= latest for it in times):
                how = ["stays" if stays else "is that of the call" if earliest <= it <= latest else it for stays, it in zip(stay, times)]
                yield f"the {name} of {key}: {how[0]} on the mount, {how[1]} in memory"


class Both:
    """A mount's folder, one in memory, and a twin of that for calls which a mount refuses: memory is as before then."""

    def __init__(self, top, mode):
        self.mount, self.memory, self.twin, self.mode = Folder(top), in_memory(), in_memory(), mode
        self.done, self.known = collections.Counter(), collections.Counter()

    def seen(self):
        return self.mount.seen(), self.memory.seen()

    def in_memory(self, call, found, before):
        """What memory answers to the call, or what the mount has to by its documents. Memory shows then what the mount has to."""
        row = next((it for it in REFUSALS if found == it.error and call.name in it.calls.split() and it.is_it(call)), None)
        if row:
            self.twin.copy(self.memory)
            wanted = self.twin.does(call)
            self.known[row] += not is_error(wanted)
            return wanted if is_error(wanted) else found
        wanted = self.memory.does(call)
        for it in EFFECTS:
            if call.name in it.calls.split() and not is_error(wanted):
                it.does(self.memory, call, before)
        return wanted

    def step(self, call, before):
        earliest = time.clock_gettime_ns(CLOCK_REALTIME_COARSE)
        found = self.mount.does(call)
        wanted = self.in_memory(call, found, before[1])
        latest = time.time_ns()
        assert found == wanted, f"{found!r} on the mount, {wanted!r} in memory"
        after = self.seen()
        differ = [*faults_of_files(after)] or [*faults_of_times(before, after, earliest, latest)]
        assert not differ, "; ".join(differ)
        self.done[call.name, "refused" if is_error(found) else "done"] += 1
        return after

    def fault(self, run):
        """How many calls of a run were done when it went wrong, and how, or nothing."""
        for it in self.mount, self.memory:
            it.clear(self.mode)
        os.umask(0o022)
        before = self.seen()
        differ = [*faults_of_files(before)]
        if differ:
            return 0, "; ".join(differ)
        for count, call in enumerate(run, 1):
            try:
                before = self.step(call, before)
            except AssertionError as fault:
                return count, str(fault)
        return None

    def try_run(self, run, seed):
        fault = self.fault(run)
        if not fault:
            return
        assert fault[0], f"seed {seed}: {fault[1]}, before its first call"
        last, run, size = time.monotonic() + SHORTENS, run[:fault[0]], len(run) // 2
        while size and time.monotonic() < last:
            at = 0
            while at < len(run) and time.monotonic() < last:
                shorter = run[:at] + run[at + size:]
                found = self.fault(shorter)
                # What is wrong before the first call has stayed from an earlier run.
                if found and found[0]:
                    run, fault = shorter[:found[0]], found
                else:
                    at += size
            size //= 2
        raise AssertionError("\n    ".join([f"seed {seed}: {fault[1]}, after", *map(str, run)]).replace(LONG, "LONG"))


# ---- Random calls ----

def random_path(chance, name):
    """The folder above is only for calls that don't change it: it has the mount, and folders of other tries."""
    one, other = chance.choices(NAMES, [9, 9, 9, 9, 1], k=2)
    odd = [f"{one}/{other}", f"{one}/{other}", f"{one}/{other}/", f"{one}/", f"{one}/.", f"{one}/..", f"{one}/../{other}", f"./{one}", f"{one}//",
           LONG + "n", ".." if name in CHANGES_NAMES else f"{one}/./"]
    return chance.choices([one, ".", chance.choice(odd)], [30, 2, 10])[0]


def random_mode(chance, path=""):
    if path.endswith("."):
        return chance.choice([0o1777, 0o1777, 0o777, 0o3777, 0o2777, 0o2775, 0o3770, 0o755])
    mode = chance.choice([0o644, 0o666, 0o600, 0o640, 0o755, 0o777, 0o4755, 0o2755, 0o6777, 0o6711, 0o4666, 0o1666, chance.randrange(0o10000)])
    return mode | (stat.S_IXGRP if mode & stat.S_ISGID else 0)


def random_time(chance):
    seconds = chance.choice([0, 1, 5, -7, 1_700_000_000, 1 << 33])
    return chance.choice([(seconds, chance.choice([0, 1, 999_999_999])), (0, UTIME_NOW), (9, UTIME_OMIT)])


def random_owner(chance):
    return chance.choice([-1, -1, -1, 0, NOBODY, 12]), chance.choice([-1, -1, -1, 0, NOBODY, GROUP])


def random_flags(chance):
    flags = chance.choice([os.O_RDONLY, os.O_WRONLY, os.O_RDWR])
    for one, often in ("O_CREAT", 60), ("O_EXCL", 15), ("O_TRUNC", 25), ("O_DIRECTORY", 5), ("O_NOFOLLOW", 10), ("O_APPEND", 20):
        flags |= FLAGS[one] if chance.randrange(100) < often else 0
    return flags | (os.O_TMPFILE if not chance.randrange(20) else 0)


WORDS = {
    "open": (20, lambda chance, path, place: (place, path, random_flags(chance), random_mode(chance))),
    "close": (2, lambda chance, path, place: (place,)),
    "dup": (2, lambda chance, path, place: (place, chance.choice(PLACES))),
    "unlink": (5, lambda chance, path, place: (path,)),
    "mkdir": (6, lambda chance, path, place: (path, random_mode(chance))),
    "rmdir": (5, lambda chance, path, place: (path,)),
    "mknod": (4, lambda chance, path, place: (path, random_mode(chance) | chance.choice([0, stat.S_IFREG]))),
    "mkfifo": (1, lambda chance, path, place: (path,)),
    "link": (1, lambda chance, path, place: (path, random_path(chance, "link"))),
    "symlink": (1, lambda chance, path, place: (path,)),
    "rename": (2, lambda chance, path, place: (path, random_path(chance, "link"))),
    "chmod": (6, lambda chance, path, place: (path, random_mode(chance, path))),
    "fchmod": (3, lambda chance, path, place: (place, random_mode(chance))),
    "chown": (5, lambda chance, path, place: (path, *random_owner(chance))),
    "fchown": (2, lambda chance, path, place: (place, *random_owner(chance))),
    "utimensat": (6, lambda chance, path, place: (path, random_time(chance), random_time(chance))),
    "futimens": (3, lambda chance, path, place: (place, random_time(chance), random_time(chance))),
    "truncate": (4, lambda chance, path, place: (path, chance.choice([0, 0, 0, 5]))),
    "ftruncate": (2, lambda chance, path, place: (place, 0)),
    "stat": (3, lambda chance, path, place: (path,)),
    "lstat": (2, lambda chance, path, place: (path,)),
    "fstat": (2, lambda chance, path, place: (place,)),
    "access": (5, lambda chance, path, place: (path, chance.randrange(8), chance.choice([0, AT_EACCESS]))),
    "list": (5, lambda chance, path, place: (chance.choice([".", path]),)),
    "flist": (2, lambda chance, path, place: (place,)),
    "read": (2, lambda chance, path, place: (place, 100)),
    "umask": (1, lambda chance, path, place: (chance.choice([0, 0o022, 0o026, 0o066]),)),
}
ALWAYS_REFUSED, NEVER_REFUSED = ["rename", "link", "symlink", "mkfifo"], ["umask"]
CHANGES_NAMES = "unlink", "mkdir", "rmdir", "mknod", "mkfifo", "link", "symlink", "rename"


def random_run(seed, users):
    """Calls, of which as many in a hundred are a user's."""
    chance, names = random.Random(seed), [*WORDS]
    run = [Call(False, "chmod", (".", random_mode(chance, "."))), Call(False, "chown", (".", -1, chance.choice([0, NOBODY, GROUP])))]
    for name in chance.choices(names, [WORDS[name][0] for name in names], k=RUN - 2):
        run.append(Call(chance.randrange(100) < users, name, WORDS[name][1](chance, random_path(chance, name), chance.choice(PLACES))))
    return run


def random_calls(mount, mode, users):
    with open(f"{TOP}/docs/MOUNT.md", encoding="utf-8") as it:
        contains(" ".join(it.read().split()), *LEFT_OUT, *(it.page for it in [*REFUSALS, *EFFECTS]))
    first, both = int(os.environ.get("TRY_MOUNT_SEED", "0")), Both(mount.folder, mode)
    for number in as_often(CALLS // RUN):
        both.try_run(random_run(first + number, users), first + number)
    for it in both.mount, both.memory:
        it.clear(mode)
    same(mount.end(), (0, "legal"))
    if not first and number == CALLS // RUN - 1:
        same([it.page for it in REFUSALS if not both.known[it]], [])
        lacking = [name for name in WORDS if not both.done[name, "done"] and name not in ALWAYS_REFUSED]
        same(lacking + [name for name in WORDS if not both.done[name, "refused"] and name not in NEVER_REFUSED], [])
    done = sum(it for (_, how), it in both.done.items() if how == "done")
    print(f"{both.done.total()} random calls beside memory: {done} were done, {both.known.total()} refused by the mount alone", flush=True)


def try_random_calls_of_root_beside_memory():
    random_calls(Mount(), 0o755, 0)


def try_random_calls_of_a_user_beside_memory():
    if other_user():
        random_calls(Mount("--allow-other", mode=0o1777), 0o1777, 70)
