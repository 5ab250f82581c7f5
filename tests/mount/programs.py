"""What tests/mount/programs.sh runs in its namespace.

An entry is a program with the command by which it runs <inside> while it holds the lock at <lock>. Each is run by some at a
time, on three folders: a mount, a mount with --discard-writes, and a file system in memory. <inside> sees, outside of the
folder, whether another one is there.
"""
import os, shutil, socket, subprocess, sys, threading, time
from tests.mount.kit import *

AT_ONCE_HERE, ROUNDS, LONGEST = 3, 2, 60
PROGRAMS_AT_A_TIME = 6

# Each: what has to be installed (a command, or `python:`, `perl:`, `lua:`, `node:` and a module), on which folders it works
# (m: mount, d: mount with --discard-writes), and the command. `?` before a command: it is tried again until it gets the lock.
WORKS, DISCARDS, CANNOT = "md", "d", ""
PYTHON = "/usr/bin/python3 -c 'import subprocess, sys; {}' <lock> <inside>"
ENTRIES = {
    "flock(1)": ("flock", WORKS, "flock <lock> <inside>"),
    "flock(1), -n": ("flock", WORKS, "? flock -n <lock> <inside>"),
    "flock(1) by descriptor": ("flock", WORKS, "(flock 9; <inside>) 9> <lock>"),
    "setlock (daemontools)": ("setlock", WORKS, "setlock <lock> <inside>"),
    "chpst -l (runit)": ("chpst", WORKS, "chpst -l <lock> <inside>"),
    "chpst -L (runit)": ("chpst", WORKS, "? chpst -L <lock> <inside>"),
    "s6-setlock": ("s6-setlock", WORKS, "s6-setlock <lock> <inside>"),
    "with-lock-ex -w (chiark)": ("with-lock-ex", WORKS, "with-lock-ex -w <lock> <inside>"),
    "with-lock-ex -f (chiark)": ("with-lock-ex", WORKS, "? with-lock-ex -f <lock> <inside>"),
    "exim_lock -fcntl": ("exim_lock", WORKS, ": >> <lock>; exim_lock -q -fcntl -retries 500 -interval 1 <lock> <inside>"),
    "exim_lock -flock": ("exim_lock", WORKS, ": >> <lock>; exim_lock -q -flock -retries 500 -interval 1 <lock> <inside>"),
    "exim_lock -lockfile": ("exim_lock", CANNOT, ": >> <lock>; exim_lock -q -lockfile -retries 20 -interval 1 <lock> <inside>"),
    "runlock (cronutils)": ("runlock", WORKS, "runlock -t 30 -f <lock> <inside>"),
    "lckdo (moreutils)": ("lckdo", WORKS, "lckdo -w <lock> <inside>"),
    "daemonize -l": ("daemonize", WORKS, "? daemonize -l <lock> <inside>"),
    "socat, flock-ex": ("socat", WORKS, "socat -t 9 OPEN:<lock>,creat,rdwr,flock-ex EXEC:<inside>"),
    "socat, setlkw": ("socat", WORKS, "socat -t 9 OPEN:<lock>,creat,rdwr,f-setlkw-wr EXEC:<inside>"),
    "perl, flock": ("perl", WORKS, """perl -e 'use Fcntl ":flock"; open F, ">>", $ARGV[0] or die; flock F, LOCK_EX or die; exit system $ARGV[1]' <lock> <inside>"""),
    "File::FcntlLock (perl)": ("perl:File::FcntlLock", WORKS, "perl -MFile::FcntlLock -e 'open F, \"+>>\", $ARGV[0] or die; $l = File::FcntlLock->new(l_type => F_WRLCK); "
                               "$l->lock(*F, F_SETLKW) or die; exit system $ARGV[1]' <lock> <inside>"),
    "File::Flock (perl)": ("perl:File::Flock", WORKS, "perl -MFile::Flock -e '$l = File::Flock->new($ARGV[0]); exit system $ARGV[1]' <lock> <inside>"),
    "File::NFSLock (perl)": ("perl:File::NFSLock", CANNOT, "perl -MFile::NFSLock -MFcntl=:flock -e '$l = File::NFSLock->new($ARGV[0], LOCK_EX, 5) or die; exit system $ARGV[1]' <lock> <inside>"),
    "LockFile::Simple (perl)": ("perl:LockFile::Simple", CANNOT, "perl -MLockFile::Simple -e '$m = LockFile::Simple->make(-max => 8, -delay => 1, -nfs => 0, -warn => 0); "
                                "$l = $m->lock($ARGV[0]) or die; $s = system $ARGV[1]; $l->release; exit $s' <lock> <inside>"),
    "ruby, flock": ("ruby", WORKS, "ruby -e 'File.open(ARGV[0], \"a\") { |f| f.flock(File::LOCK_EX); exit system(ARGV[1]) }' <lock> <inside>"),
    "php, flock": ("php", WORKS, "php -r '$f = fopen($argv[1], \"c\"); flock($f, LOCK_EX) or exit(1); passthru($argv[2], $s); exit($s);' <lock> <inside>"),
    "python, fcntl.lockf": ("/usr/bin/python3", WORKS, PYTHON.format('import fcntl; f = open(sys.argv[1], "a"); fcntl.lockf(f, fcntl.LOCK_EX); sys.exit(subprocess.call(sys.argv[2]))')),
    "filelock (python)": ("python:filelock", WORKS, PYTHON.format('import filelock; l = filelock.FileLock(sys.argv[1]); l.acquire(poll_interval=0.01); sys.exit(subprocess.call(sys.argv[2]))')),
    "filelock, SoftFileLock": ("python:filelock", WORKS, PYTHON.format('import filelock; l = filelock.SoftFileLock(sys.argv[1]); l.acquire(poll_interval=0.01); s = subprocess.call(sys.argv[2]); l.release(); sys.exit(s)')),
    "fasteners (python)": ("python:fasteners", WORKS, PYTHON.format('import fasteners; l = fasteners.InterProcessLock(sys.argv[1]); l.acquire(); sys.exit(subprocess.call(sys.argv[2]))')),
    "portalocker (python)": ("python:portalocker", WORKS, PYTHON.format('import portalocker; l = portalocker.Lock(sys.argv[1], timeout=14, check_interval=0.01); l.acquire(); sys.exit(subprocess.call(sys.argv[2]))')),
    "zc.lockfile (python)": ("python:zc.lockfile", DISCARDS, "? " + PYTHON.format('import zc.lockfile; l = zc.lockfile.LockFile(sys.argv[1]); sys.exit(subprocess.call(sys.argv[2]))')),
    "lua, lfs.lock": ("lua:lfs", WORKS, "? AT=<lock> lua5.1 -e 'lfs = require \"lfs\"; f = io.open(os.getenv(\"AT\"), \"a\"); if not lfs.lock(f, \"w\") then os.exit(1) end; os.exit(os.execute(\"<inside>\"))'"),
    "lua, lfs.lock_dir": ("lua:lfs", CANNOT, "? AT=<folder> lua5.1 -e 'lfs = require \"lfs\"; l = lfs.lock_dir(os.getenv(\"AT\")); if not l then os.exit(1) end; s = os.execute(\"<inside>\"); l:free(); os.exit(s)'"),
    "proper-lockfile (node)": ("node:proper-lockfile", WORKS, ": >> <lock>; NODE_PATH=/usr/share/nodejs:/usr/lib/nodejs node -e 'const l = require(\"/usr/share/nodejs/proper-lockfile\"); l.lock(process.argv[1], {retries: {retries: 500, minTimeout: 10, maxTimeout: 20}})"
                               ".then(free => { const s = require(\"child_process\").spawnSync(process.argv[2]).status; free().then(() => process.exit(s)); }).catch(e => { console.error(e.message); process.exit(1); })' <lock> <inside>"),
    "sh, noclobber": ("sh", WORKS, "? (set -C; true > <lock>) && { <inside>; rm <lock>; }"),
    "sh, noclobber with its pid": ("sh", DISCARDS, "? (set -C; echo $$ > <lock>) && { <inside>; rm <lock>; }"),
    "sh, mkdir and rmdir": ("sh", WORKS, "? mkdir <lock>.d && { <inside>; rmdir <lock>.d; }"),
    "sh, ln -s": ("sh", CANNOT, "? ln -s $$ <lock> && { <inside>; rm <lock>; }"),
    "sh, ln": ("sh", CANNOT, ": >> <lock>.$$; ? ln <lock>.$$ <lock> && { <inside>; rm <lock>; }"),
    "dotlockfile (liblockfile)": ("dotlockfile", CANNOT, "? dotlockfile -r 0 <lock> && { <inside>; dotlockfile -u <lock>; }"),
    "lockfile-create (lockfile-progs)": ("lockfile-create", CANNOT, "? lockfile-create -r 0 -p <lock> && { <inside>; lockfile-remove <lock>; }"),
    "lockfile (procmail)": ("lockfile", CANNOT, "? lockfile -1 -r 0 <lock> && { <inside>; rm -f <lock>; }"),
    "sem (GNU parallel)": ("sem", CANNOT, "PARALLEL_HOME=<folder> HOME=<folder> sem --fg --id x <inside>"),
}
WHY = {
    "exim_lock -lockfile": "renames and links", "File::NFSLock (perl)": "links", "LockFile::Simple (perl)": "reads its pid back",
    "lua, lfs.lock_dir": "a symbolic link", "sh, ln -s": "a symbolic link", "sh, ln": "a link", "dotlockfile (liblockfile)": "links",
    "lockfile-create (lockfile-progs)": "links", "lockfile (procmail)": "links", "sem (GNU parallel)": "folders with files",
    "start-stop-daemon, pid file": "reads its pid back", "sqlite3, its own files": "data", "ping_pong (ctdb)": "sets a size",
}


def installed(what):
    kind, _, module = what.partition(":")
    if not module:
        return shutil.which(what) is not None
    probe = {"python": ["/usr/bin/python3", "-c", f"import {module}"], "perl": ["perl", f"-M{module}", "-e1"], "lua": ["lua5.1", "-l", module],
             "node": ["node", "-e", f"require('/usr/share/nodejs/{module}')"]}[kind]
    return shutil.which(probe[0]) is not None and subprocess.run(probe, capture_output=True, stdin=subprocess.DEVNULL, env={**os.environ, "NODE_PATH": "/usr/share/nodejs:/usr/lib/nodejs"}).returncode == 0


class Ground:
    """A folder outside of all, for what <inside> sees of one program on one folder."""

    def __init__(self, folder):
        self.folder = folder
        self.at = tempfile.mkdtemp(dir=WORK)
        os.chmod(self.at, 0o777)
        self.inside = f"{self.at}/inside"
        with open(self.inside, "w", encoding="ascii") as it:
            it.write(f"#!/bin/sh\nmkdir {self.at}/one || echo broken >> {self.at}/broken\nsleep 0.02\nrmdir {self.at}/one\necho >> {self.at}/done\n")
        os.chmod(self.inside, 0o755)

    def count(self):
        try:
            return os.path.getsize(f"{self.at}/done")
        except OSError:
            return 0

    def verdict(self, wanted):
        if os.path.exists(f"{self.at}/broken"):
            return "breaks"
        return "works" if self.count() == wanted else "fails"


def contended(entry, name, folder):
    """How an entry goes in a folder: `works`, `fails`, or `breaks` where two were inside at once."""
    ground = GROUNDS[name, folder]
    lock = f"{folder}/{''.join(it for it in name if it.isalnum())}"
    command = entry[2].replace("<inside>", ground.inside).replace("<lock>", lock).replace("<folder>", folder)
    first, _, tried_again = command.rpartition("? ")
    if command != tried_again:
        command = f"{first}until {tried_again}; do sleep 0.01; test ! -e {ground.at}/stop || exit 1; done"
    script = f"exec 2>> {ground.at}/errors < /dev/null > /dev/null; for round in {' '.join('1' * ROUNDS)}; do {command} || exit 1; done"
    running = [subprocess.Popen(["sh", "-c", script], start_new_session=True, cwd="/") for _ in range(AT_ONCE_HERE)]
    # What is tried again and again has some seconds where it is to work, and less where it can't.
    last = time.monotonic() + (LONGEST if works_on(entry[1], folder) else 2)
    while time.monotonic() < last and ground.count() < AT_ONCE_HERE * ROUNDS and any(it.poll() is None for it in running):
        time.sleep(0.02)
    while time.monotonic() < last and ground.count() < AT_ONCE_HERE * ROUNDS and "daemonize" in command:
        time.sleep(0.02)
    open(f"{ground.at}/stop", "w", encoding="ascii").close()
    for it in running:
        try:
            it.wait(1 if ground.count() < AT_ONCE_HERE * ROUNDS else LONGEST)
        except subprocess.TimeoutExpired:
            pass
        try:
            os.killpg(it.pid, 9)
        except OSError:
            pass
        it.wait()
    return ground.verdict(AT_ONCE_HERE * ROUNDS), f"{ground.at}/errors"


# ---- Those that take another shape ----

def ping_pong(folder):
    """Two of them pass a lock to and fro, for some seconds."""
    running = [subprocess.Popen(["timeout", "4", "ping_pong", f"{folder}/ping_pong", "3"], stdout=subprocess.PIPE, stderr=subprocess.STDOUT, text=True) for _ in range(2)]
    said = [it.communicate(timeout=LONGEST)[0] for it in running]
    rates = [max([int(word) for word in it.replace("\r", " ").split() if word.isdigit()], default=0) for it in said]
    return "works" if min(rates) > 10 else "fails"


def within(seconds, holds):
    """Whether it holds once, within so many seconds."""
    last = time.monotonic() + seconds
    while not holds():
        if time.monotonic() > last:
            return False
        time.sleep(0.02)
    return True


def free_port():
    with socket.socket() as it:
        it.bind(("127.0.0.1", 0))
        return it.getsockname()[1]


def rsync(folder):
    """`max connections` is 1: the second is refused as long as the first is there."""
    port, config = free_port(), f"{tempfile.mkdtemp(dir=WORK)}/rsyncd.conf"
    with open(config, "w", encoding="ascii") as it:
        it.write(f"lock file = {folder}/rsyncd.lock\nuse chroot = no\nmax connections = 1\n[module]\npath = /usr/share\nread only = yes\n")
    serving = subprocess.Popen(["rsync", "--daemon", "--no-detach", "--address", "127.0.0.1", f"--port={port}", f"--config={config}"], stderr=subprocess.DEVNULL)

    def asked():
        it = socket.create_connection(("127.0.0.1", port), timeout=LONGEST)
        stream = it.makefile("rw", newline="\n")
        stream.readline()
        stream.write("@RSYNCD: 31.0\nmodule\n")
        stream.flush()
        return it, stream.readline()

    def is_served():
        it, said = asked()
        it.close()
        return "OK" in said

    def is_up():
        try:
            socket.create_connection(("127.0.0.1", port)).close()
            return True
        except OSError:
            return False

    try:
        until(is_up)
        first, said = asked()
        second, refused = asked()
        second.close()
        first.close()
        comes_free = within(LONGEST, is_served)
    finally:
        serving.kill()
        serving.wait()
    return "works" if "OK" in said and "max connections" in refused and comes_free else "fails"


def dpkg(folder):
    """Its lock is a link to a file of the folder: it is refused while another process has the lock."""
    at = tempfile.mkdtemp(dir=WORK)
    for name in "updates", "info":
        os.mkdir(f"{at}/{name}")
    for name in "status", "available":
        open(f"{at}/{name}", "w", encoding="ascii").close()
    for name in "lock", "lock-frontend":
        os.close(os.open(f"{folder}/dpkg-{name}", os.O_RDWR | os.O_CREAT))
        os.symlink(f"{folder}/dpkg-{name}", f"{at}/{name}")
    ask = ["dpkg", f"--admindir={at}", "--configure", "-a"]
    holder = Child()
    holder.ask("open", "a", f"{folder}/dpkg-lock", os.O_RDWR)
    holder.ask("record", "a", WRITE)
    held = subprocess.run(ask, capture_output=True, text=True)
    holder.kill()
    free = subprocess.run(ask, capture_output=True, text=True)
    return "works" if held.returncode and "lock" in held.stderr and not free.returncode else "fails"


def lvm(folder):
    """Its locking folder is this one: it waits for P_global."""
    os.close(os.open(f"{folder}/P_global", os.O_RDWR | os.O_CREAT, 0o600))
    ask = ["lvm", "vgs", "--config", f'global {{ locking_dir="{folder}" wait_for_locks=0 }} devices {{ scan="/nonexistent" use_devicesfile=0 }}']
    holder = Child()
    holder.ask("open", "a", f"{folder}/P_global", os.O_RDWR)
    holder.ask("flock", "a", ALONE)
    held = subprocess.run(ask, capture_output=True, text=True, timeout=LONGEST)
    holder.kill()
    # Nobody waits until the file is closed.
    comes_free = within(LONGEST, lambda: not subprocess.run(ask, capture_output=True, timeout=LONGEST).returncode)
    return "works" if held.returncode and comes_free else "fails"


def start_stop_daemon(folder):
    """The second start has to see the first one's pid."""
    begin = ["start-stop-daemon", "--start", "--quiet", "--background", "--make-pidfile", "--pidfile", f"{folder}/ssd.pid", "--exec", "/bin/sleep", "--", "300"]
    statuses = []

    def is_begun():
        """The process whose number is in the file is the one that was to begin."""
        pid = outcome(lambda: open(f"{folder}/ssd.pid", encoding="ascii").read().strip())
        return pid.isdigit() and os.path.basename(outcome(os.readlink, f"/proc/{pid}/exe")) == "sleep"

    for _ in range(2):
        statuses.append(subprocess.run(begin, capture_output=True, cwd="/").returncode)
        within(LONGEST if works_on(CANNOT, folder) else 0.3, is_begun)
    found = subprocess.run(["start-stop-daemon", "--status", "--pidfile", f"{folder}/ssd.pid"], capture_output=True).returncode
    return "works" if statuses == [0, 1] and found == 0 else "breaks" if statuses == [0, 0] else "fails"


def sqlite(folder):
    ran = subprocess.run(["sqlite3", f"{folder}/base", "create table t(x); insert into t values(1); select * from t;"], capture_output=True, text=True)
    return "works" if ran.stdout == "1\n" else "fails"


OTHERS = {
    "ping_pong (ctdb)": ("ping_pong", DISCARDS, ping_pong),
    "rsync --daemon, max connections": ("rsync", WORKS, rsync),
    "dpkg, its lock elsewhere": ("dpkg", WORKS, dpkg),
    "lvm, locking_dir": ("lvm", WORKS, lvm),
    "start-stop-daemon, pid file": ("start-stop-daemon", CANNOT, start_stop_daemon),
    "sqlite3, its own files": ("sqlite3", CANNOT, sqlite),
}

# They want root by themselves.
FOR_ROOT = "dpkg", "lvm"

# ---- All of it ----

FOLDERS = {}
# They are made before any thread starts a program: no program can be run that another one, just forked, has open to be written.
GROUNDS = {}


def works_on(where, folder):
    return folder == FOLDERS["memory"] or {FOLDERS["mount"]: "m", FOLDERS["discards"]: "d"}[folder] in where


def tried(name, entry):
    """How it goes in each folder, and the words of its errors."""
    found, errors = {}, {}
    for at, folder in FOLDERS.items():
        try:
            if callable(entry[2]):
                found[at] = entry[2](folder)
            else:
                found[at], path = contended(entry, name, folder)
                with open(path, encoding="utf-8", errors="replace") as it:
                    errors[at] = it.read(400)
        except Exception as fault:
            found[at], errors[at] = "fails", repr(fault)
    return found, errors


def as_expected(entry, found):
    return found["memory"] == "works" and all((found[at] == "works") == (letter in entry[1]) for at, letter in (("mount", "m"), ("discards", "d")))


def cells(entry, found, name):
    if found["mount"] == "works":
        return "works", ""
    why = WHY.get(name, "")
    if found["discards"] == "works":
        return "with `--discard-writes`", why or "writes its pid"
    return "can't", why + (", and takes the lock for stale with `--discard-writes`" if found["discards"] == "breaks" else "")


def main():
    words = [it for it in sys.argv[1:] if not it.startswith("--")]
    if "--user" in sys.argv and not AS_USER:
        status = as_user("tests.mount.programs", *sys.argv[1:])
        shutil.rmtree(WORK, ignore_errors=True)
        return 77 if status is None else status
    every = {name: it for name, it in {**ENTRIES, **OTHERS}.items() if not words or any(word in name for word in words)}
    if AS_USER:
        every = {name: it for name, it in every.items() if not name.startswith(FOR_ROOT)}
    missing = [name for name, it in every.items() if not installed(it[0])]
    if not AS_USER:
        if subprocess.run(["mount", "-t", "tmpfs", "none", "/run"]).returncode:
            print("mount/programs: not tried: nothing can be mounted here", file=sys.stderr)
            return 77
    mounts = [Mount("--trace", "none"), Mount("--trace", "none", "--discard-writes")]
    FOLDERS.update({"mount": mounts[0].folder, "discards": mounts[1].folder, "memory": tempfile.mkdtemp(dir="/dev/shm")})
    results, lock, left = {}, threading.Lock(), [it for it in every if it not in missing]
    GROUNDS.update(((name, folder), Ground(folder)) for name in left if not callable(every[name][2]) for folder in FOLDERS.values())

    def work():
        while True:
            with lock:
                if not left:
                    return
                name = left.pop(0)
            results[name] = tried(name, every[name])

    threads = [threading.Thread(target=work) for _ in range(PROGRAMS_AT_A_TIME)]
    for it in threads:
        it.start()
    for it in threads:
        it.join()
    for it in mounts:
        it.end(it.term)
    shutil.rmtree(FOLDERS["memory"], ignore_errors=True)
    wrong = 0
    for name in every:
        if name in missing:
            continue
        found, errors = results[name]
        if "--table" in sys.argv:
            print("| {} | {} | {} |".format(name, *cells(every[name], found, name)))
        if not as_expected(every[name], found):
            wrong += 1
            print(f"{name}: {found}, {errors}", flush=True)
    if missing:
        print("not installed: " + ", ".join(missing))
    shutil.rmtree(WORK, ignore_errors=True)
    print(f"{len(results) - wrong} as expected, {wrong} not, {len(missing)} not installed")
    return 1 if wrong else 0


sys.exit(main())
