"""What the tries of a mount share: mounts, processes that do what they are told, and outcomes of calls.

A `Child` is another process, which opens and locks files where it is told to. Each wait has an end, by `PATIENCE`.
"""
import errno, fcntl, os, re, shutil, signal, struct, subprocess, sys, tempfile, time
from multiprocessing import Pipe

TOP = os.path.dirname(os.path.dirname(os.path.dirname(os.path.abspath(__file__))))
PROGRAM = os.environ.get("LOCKD_MOUNT", f"{TOP}/programs/mount/out/lockd_mount")
PATIENCE = 60  # seconds that a step may take: the gate may run on a slow machine
WORK = os.environ.get("TRY_MOUNT_WORK") or tempfile.mkdtemp(prefix="try_mount.")
READ, WRITE, UNLOCK = fcntl.F_RDLCK, fcntl.F_WRLCK, fcntl.F_UNLCK
SHARED, ALONE, NOT_HELD, AT_ONCE = fcntl.LOCK_SH, fcntl.LOCK_EX, fcntl.LOCK_UN, fcntl.LOCK_NB
STRUCT_FLOCK = "hhqqi4x"
OFD_GETLK = 36  # Python has no name for it
NOBODY = 65534
AS_USER = os.geteuid() != 0
UMOUNT = ["fusermount3", "-u"] if AS_USER else ["umount"]


class Mount:
    """A lock directory, mounted by lockd_mount, at `folder`."""

    def __init__(self, *words, folder=None, program=PROGRAM, refused=False, mode=0o755, errors=subprocess.STDOUT, **env):
        self.folder = folder or tempfile.mkdtemp(dir=WORK)
        if not folder:
            os.chmod(self.folder, mode)
        self.words = words
        for _ in range(3):
            self.said = tempfile.TemporaryFile("w+", dir=WORK)
            self.running = subprocess.Popen([program, *words, "--", self.folder], stdout=self.said, stderr=errors,
                                            env={**os.environ, "TMPDIR": WORK, **env})
            until(lambda: "mounted at" in self.output() or self.running.poll() is not None)
            # On a busy machine a server with many files may take longer to start than it is given.
            if "the server doesn't answer INIT" not in self.output():
                break
        if self.running.poll() is not None and "Operation not permitted" in self.output() and not refused:
            print(f"mount/kit: not tried: {self.output()}", file=sys.stderr, end="")
            os._exit(77)
        assert (self.running.poll() is None) != refused, self.output()

    def output(self):
        return os.pread(self.said.fileno(), os.fstat(self.said.fileno()).st_size, 0).decode()

    def says(self, *words):
        for word in words:
            assert word in self.output(), f"{word!r} isn't in {self.output()!r}"

    def server(self):
        """The number of the process that is `lockd serve`."""
        return next(pid for pid, words in children_of(self.running.pid) if b"serve" in words)

    def end(self, how=None):
        """Unmounts, or ends otherwise. Gives the status and the words of the last line. A long trace is judged meanwhile."""
        if how:
            how()
        else:
            has_closed_files(self.folder)
            unmount(self.folder)
        status = self.running.wait(timeout=10 * PATIENCE)
        return status, self.output().splitlines()[-1]

    def term(self):
        self.running.send_signal(signal.SIGTERM)

    def is_mounted(self):
        return is_mounted(self.folder)

    def lets_wait(self, child):
        """Whether the last order of a process in the trace is one that waits. Several workers take orders in any order, also after `Child.waits`."""
        trace = self.words[self.words.index("--trace") + 1] if "--trace" in self.words else re.search("its trace is (.*)\n", self.output())[1]
        with open(trace, "rb") as it:
            lines = [line.split() for line in it.read().split(b"\n")[:-1]]
        told = {line[1] for line in lines if line[0] == b"tell"}
        asked = [line for line in lines if line[0] == b"ask" and int(line[6]) == child.pid]
        return bool(asked) and asked[-1][7] == b"setlkw" and asked[-1][2] not in told


def number_of(mount):
    """The number that the kernel has for it, which it gives again to a later one."""
    with open("/proc/self/mountinfo", encoding="utf-8") as it:
        return next(line.split()[2] for line in it if line.split()[4] == mount.folder).partition(":")[2]


def abort(mount):
    with open(f"/sys/fs/fuse/connections/{number_of(mount)}/abort", "w", encoding="ascii") as it:
        it.write("1")


def can_abort():
    if not os.path.ismount("/sys/fs/fuse/connections"):
        print("not tried by fusectl: this kernel has none", flush=True)
    return os.path.ismount("/sys/fs/fuse/connections")


def listed(mount, *words):
    """What programs/lockd_locks says of the mount's folder."""
    return subprocess.run([f"{TOP}/programs/lockd_locks", *words, mount.folder], capture_output=True, text=True, timeout=PATIENCE)


def write_server(path, text):
    """Writes a program in Python that stands for `lockd` at this path. It finds the modules of tests/."""
    with open(path, "w", encoding="utf-8") as it:
        it.write(f"#!{sys.executable} -B\nimport sys\nsys.path.insert(0, {TOP!r})\n{text}")
    os.chmod(path, 0o700)


def children_of(parent):
    """The processes that it has started, with their words."""
    for pid in filter(str.isdigit, os.listdir("/proc")):
        try:
            with open(f"/proc/{pid}/stat", "rb") as stat, open(f"/proc/{pid}/cmdline", "rb") as line:
                if int(stat.read().rpartition(b")")[2].split()[1]) == parent:
                    yield int(pid), line.read().split(b"\0")
        except OSError:
            pass


def is_mounted(folder):
    with open("/proc/self/mountinfo", encoding="utf-8") as it:
        return any(line.split()[4] == folder for line in it)


def has_closed_files(folder):
    """Waits until the carrier has the RELEASE of each file that was closed so far. No process waits for one, but it goes before other messages."""
    outcome(os.stat, f"{folder}/missing")


def unmount(folder):
    """As `umount` does, and again while the folder is busy: each carrier that looks for open files goes through those of all mounts."""
    until(lambda: not subprocess.run([*UMOUNT, folder], capture_output=True, timeout=PATIENCE).returncode or not is_mounted(folder))


def as_often(count):
    """The numbers of so many rounds, or of as many as two minutes suffice for, and one at least."""
    last = time.monotonic() + 2 * PATIENCE
    for at in range(count):
        if at and time.monotonic() > last:
            print(f"{at} rounds in two minutes, and not {count}", flush=True)
            return
        yield at


def soon(seconds, function):
    """The function says what it gives, and in how many seconds. One of three times these are less: other programs may keep the processors for a while."""
    for _ in range(3):
        found, took = function()
        if took < seconds:
            return found
    raise AssertionError(f"it takes {took} seconds")


def refusal(*words, folder=None, program=PROGRAM, **env):
    """What lockd_mount says where it mounts nothing, which has to be soon."""
    def refused():
        begun = time.monotonic()
        ran = subprocess.run([program, *words, *([folder] if folder else [])], capture_output=True, text=True, timeout=PATIENCE,
                             env={**os.environ, "TMPDIR": WORK, **env})
        return ran, time.monotonic() - begun

    ran = soon(9, refused)
    same(ran.returncode, 2)
    return ran.stderr


def contains(text, *words):
    for word in words:
        assert word in text, f"{word!r} isn't in {text!r}"


def until(holds, patience=PATIENCE):
    last = time.monotonic() + patience
    while not holds():
        assert time.monotonic() < last, "out of patience"
        time.sleep(0.01)


def name_of(error):
    two_names = {errno.EDEADLK: "EDEADLK", errno.EOPNOTSUPP: "EOPNOTSUPP", errno.EAGAIN: "EAGAIN"}
    return two_names.get(error.errno) or errno.errorcode.get(error.errno, str(error.errno))


def outcome(function, *words):
    """What the call gives, or the name of its error."""
    try:
        return function(*words)
    except OSError as error:
        return name_of(error)


def asks_the_server(pid):
    try:
        with open(f"/proc/{pid}/stack", encoding="ascii") as it:
            return "fuse" in it.read()
    except OSError:
        return True


def record(fd, kind, start=0, length=0, waits=False):
    fcntl.fcntl(fd, fcntl.F_SETLKW if waits else fcntl.F_SETLK, struct.pack(STRUCT_FLOCK, kind, 0, start, length, 0))


def ofd(fd, kind, start=0, length=0, waits=False):
    """F_OFD_SETLK and F_OFD_SETLKW, which Python 3.8 doesn't name."""
    fcntl.fcntl(fd, 38 if waits else 37, struct.pack(STRUCT_FLOCK, kind, 0, start, length, 0))


def flock_often(fd, count):
    for _ in range(count):
        fcntl.flock(fd, ALONE)
        fcntl.flock(fd, NOT_HELD)


def asked(fd, kind, start=0, length=0, command=fcntl.F_GETLK):
    """What F_GETLK or OFD_GETLK says: nothing, or the kind, start, length and pid of a lock that is in the way."""
    told = struct.unpack(STRUCT_FLOCK, fcntl.fcntl(fd, command, struct.pack(STRUCT_FLOCK, kind, 0, start, length, 0)))
    return None if told[0] == UNLOCK else (told[0], *told[2:])


def interrupted(*_):
    raise InterruptedError(errno.EINTR, "a signal came")


class Child:
    """A process that does what it is told, one thing after another: `ask` waits for the answer, `begin` doesn't."""

    every = []

    def __init__(self):
        self.pipe, theirs = Pipe()
        self.pid = os.fork()
        if not self.pid:
            signal.signal(signal.SIGUSR1, interrupted)
            signal.signal(signal.SIGALRM, signal.SIG_DFL)
            self.pipe.close()
            try:
                self.serve(theirs)
            finally:
                os._exit(0)
        theirs.close()
        Child.every.append(self)

    def serve(self, pipe):
        fds = {}
        while True:
            word, key, *rest = pipe.recv()
            if word == "open":
                fds[key] = said = outcome(os.open, *rest)
                said = "ok" if isinstance(said, int) else said
            elif word == "close":
                said = outcome(os.close, fds.pop(key))
            elif word == "become":
                said = outcome(os.setuid, key)
            elif word == "call":
                said = outcome(getattr(os, key), *rest)
            elif word == "do":
                said = outcome(getattr(os, rest[0]), fds[key], *rest[1:])
            elif word == "dup":
                fds[rest[0]] = os.dup(fds[key])
                said = None
            else:
                said = outcome({"record": record, "asked": asked, "flock": fcntl.flock, "often": flock_often, "ofd": ofd}[word], fds[key], *rest)
            pipe.send("ok" if said is None and word != "asked" else said)

    def begin(self, *words):
        self.pipe.send(words)

    def answer(self, patience=PATIENCE):
        assert self.pipe.poll(patience), "no answer"
        return self.pipe.recv()

    def ask(self, *words):
        self.begin(*words)
        return self.answer()

    def waits(self):
        """Whether it has no answer, once it waits for one of the file system and a moment is over."""
        until(lambda: asks_the_server(self.pid) or self.pipe.poll(0))
        return not self.pipe.poll(0.1)

    def kill(self):
        os.kill(self.pid, signal.SIGKILL)
        self.pipe.close()
        until(lambda: os.waitpid(self.pid, os.WNOHANG)[0])
        Child.every.remove(self)


def children(path, count, flags=os.O_RDWR | os.O_CREAT):
    """Processes that each have the file open, as `a`."""
    made = [Child() for _ in range(count)]
    for child in made:
        assert child.ask("open", "a", path, flags) == "ok"
    return made


def same(found, wanted):
    assert found == wanted, f"{found!r}, and not {wanted!r}"


def shell(mount, script, wanted, status=0):
    """Has `sh` run the script in the folder, and compares what it prints."""
    ran = subprocess.run(["sh", "-c", script], cwd=mount.folder, stdout=subprocess.PIPE, stderr=subprocess.STDOUT, text=True,
                         timeout=19 * PATIENCE, stdin=subprocess.DEVNULL)
    same((ran.stdout.split(), ran.returncode), (wanted.split(), status))
    has_closed_files(mount.folder)


def stop(*pids):
    """Stops processes, and waits until each of their threads stands still."""
    for pid in pids:
        os.kill(pid, signal.SIGSTOP)
    for pid in pids:
        until(lambda: {state_of(f"/proc/{pid}/task/{it}") for it in os.listdir(f"/proc/{pid}/task")} == {"T"})


def state_of(folder):
    """The state of a thread or a process by its folder in /proc, or `X` where it is gone."""
    try:
        with open(f"{folder}/stat", encoding="ascii") as it:
            return it.read().rpartition(")")[2].split()[0]
    except OSError:
        return "X"


def copy_for_all(program, path):
    """A copy that each user may run. What was built may stand below a folder that only its owner may enter."""
    shutil.copyfile(program, path)
    os.chmod(path, 0o755)
    return path


def as_user(script, *words):
    """Runs this module as nobody, who mounts by fusermount3. Gives its status, or nothing where that can't be."""
    missing = [it for it in ("/usr/bin/python3", "fusermount3", "setpriv") if not shutil.which(it)]
    if missing:
        print(f"not tried as a user: there is no {missing[0]}", flush=True)
        return None
    # What nobody may read, run and write to.
    top, device = tempfile.mkdtemp(dir=WORK), tempfile.mkdtemp(dir=WORK) + "/fuse"
    for folder in "tests", "programs", "dist":
        shutil.copytree(f"{TOP}/{folder}", f"{top}/{folder}", ignore=shutil.ignore_patterns("out", "cases", "__pycache__"))
    subprocess.run(["chmod", "-R", "a+rX", top], check=True, timeout=PATIENCE)
    os.mkdir(f"{top}/programs/mount/out", 0o755)
    copy_for_all(PROGRAM, f"{top}/programs/mount/out/lockd_mount")
    copy_for_all(os.environ["LOCKD"], f"{top}/lockd")
    for name in "run", "tmp":
        os.mkdir(f"{top}/{name}")
        os.chown(f"{top}/{name}", NOBODY, NOBODY)
    os.chmod(WORK, 0o711)
    os.chmod(top, 0o755)
    os.mknod(device, 0o20666, os.makedev(10, 229))
    os.chmod(device, 0o666)
    subprocess.run(["mount", "--bind", device, "/dev/fuse"], check=True, timeout=PATIENCE)
    env = {key: it for key, it in os.environ.items() if key not in ("TRY_MOUNT_WORK", "LOCKD_MOUNT", "LOCKD_MOUNT_CHECKED")}
    env.update(LOCKD=f"{top}/lockd", TMPDIR=f"{top}/tmp", XDG_RUNTIME_DIR=f"{top}/run", HOME=top, PYTHONPATH=f"{top}/programs", PYTHONDONTWRITEBYTECODE="1")
    try:
        return subprocess.run(["setpriv", f"--reuid={NOBODY}", f"--regid={NOBODY}", "--clear-groups", "/usr/bin/python3", "-m", script, *words],
                              env=env, cwd=top).returncode
    finally:
        # A mount that a try has left may have it open.
        subprocess.run(["umount", "-l", "/dev/fuse"], check=True, timeout=PATIENCE)
