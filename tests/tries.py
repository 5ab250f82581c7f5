"""What the scripts share that try the built program: the program, a server with a client of it, its first messages, and how tries are run.

`fuse.py` says how messages and replies are laid out.
"""
import contextlib
import os
import re
import resource
import select
import signal
import socket
import subprocess
import sys
import tempfile
import time
import weakref
from concurrent.futures import ThreadPoolExecutor

from tests import fuse

TOP = os.path.dirname(os.path.dirname(os.path.realpath(__file__)))
PROGRAM = os.path.realpath(os.environ.get("LOCKD", f"{TOP}/crates/lockd/out/lockd"))
PATIENCE = 60
NOT_TRIED = 77


def line_of(bytes_):
    """The line of hex that spells these bytes."""
    return f"{bytes_.hex()}\n"


INIT, INIT_REPLY, CREATE = fuse.init(1), fuse.init_reply(1), fuse.create(2)
replies = fuse.errors


def lock(opcode, unique, owner, byte, kind):
    """GETLK, SETLK or SETLKW of one byte of the first file."""
    return fuse.lock(opcode, unique, owner, byte, byte, kind)


def setlk(unique):
    """A write lock on byte 0 of the first file, or its unlock, in turn."""
    return lock(fuse.SETLK, unique, 7, 0, 1 + unique % 2)


def take(client, size):
    """So many bytes from the server, or all up to its end."""
    found = bytearray()
    while len(found) < size:
        more = client.recv(min(size - len(found), 1 << 16))
        if not more:
            break
        found += more
    return bytes(found)


def text_of(path):
    with open(f"{TOP}/{path}", encoding="utf-8") as file:
        return file.read()


def cases(text):
    """The titles and the lines of the cases in a text. One begins with a line of `# ` and its title. A line that ends with a backslash goes on in the next."""
    found = re.split(r"^# (.*)\n", text.replace("\\\n", ""), flags=re.M)
    return [*zip(found[1::2], found[2::2])]


def marked(case, mark):
    """The lines of a case that begin with a mark of two letters, without it."""
    return "".join(f"{line[2:]}\n" for line in case.splitlines() if line[:2] in (mark, mark.strip()))


def wait_until(is_so):
    last = time.monotonic() + PATIENCE
    while not is_so():
        assert time.monotonic() < last, f"waited {PATIENCE} seconds"
        time.sleep(0.01)


def is_listening(path):
    """Whether a server listens at the path. Linux lists its socket with this flag then; the socket's file is there a moment before."""
    with open("/proc/net/unix", "rb") as file:
        rows = [line.split(maxsplit=7) for line in file]
    return any(row[3] == b"00010000" and row[7:] == [os.fsencode(path) + b"\n"] for row in rows)


def each(what, rows):
    """Does it with each row, some at a time. Gives what each gave."""
    with ThreadPoolExecutor(4) as pool:
        return [*pool.map(lambda row: what(*row), rows)]


def run(*words, text=b"", **how):
    return subprocess.run([PROGRAM, *words], input=text, capture_output=True, timeout=PATIENCE, **how)


def peak(process):
    """The most memory that it has had so far, in kilobytes. What `wait4` says of it would count this script too, which it was started from."""
    with open(f"/proc/{process.pid}/status", encoding="ascii") as file:
        return next(int(line.split()[1]) for line in file if line.startswith("VmHWM:"))


def states_of(process):
    """The states of its threads, each by one letter: `S` sleeps until something comes."""
    folder, found = f"/proc/{process.pid}/task", set()
    for it in os.listdir(folder):
        with open(f"{folder}/{it}/stat", encoding="ascii") as file:
            found.add(file.read().rsplit(")", 1)[1].split()[0])
    return found


def limited(most_bytes):
    """What a program does before it starts, so that its files can have so many bytes, and no more."""
    def limit():
        signal.signal(signal.SIGXFSZ, signal.SIG_IGN)
        resource.setrlimit(resource.RLIMIT_FSIZE, (most_bytes, most_bytes))

    return limit


def fills_up(*words, text, left):
    """What is told, and the status, where the output takes so many bytes."""
    with tempfile.TemporaryFile() as full:
        how = {"input": text, "stdout": full, "stderr": subprocess.PIPE, "timeout": PATIENCE, "preexec_fn": limited(left)}
        ran = subprocess.run([PROGRAM, *words], check=False, **how)
    return ran.stderr, ran.returncode


def fails_to_read(*words, text):
    """What is printed and told, and the status, where the input has this text and then fails: its other end goes with a byte unread."""
    near, far = socket.socketpair()
    with near:
        near.sendall(b"x")
        far.sendall(text)
        far.close()
        ran = subprocess.run([PROGRAM, *words], stdin=near, capture_output=True, timeout=PATIENCE, check=False)
    return ran.stdout, ran.stderr, ran.returncode


def judged(trace, *options):
    return run("check", *options, text=trace).stdout.decode()


class Server:
    """A server with these options, and a folder of its own. With `workers=None` it has its default number of them, and with `traced` its file
    has this text when it starts. `pieces` are the texts of older pieces, by their numbers."""

    def __init__(self, *options, workers=1, printed=subprocess.PIPE, before=None, env=None, program=PROGRAM, traced=None, pieces=None):
        self.folder = tempfile.TemporaryDirectory(prefix="try-lockd-")
        os.chmod(self.folder.name, 0o777)
        self.path, self.file = f"{self.folder.name}/socket", f"{self.folder.name}/trace"
        for path, text in ((self.file, traced), *((f"{self.file}.{number}", text) for number, text in (pieces or {}).items())):
            if text is not None:
                with open(path, "wb") as file:
                    file.write(text)
        number = ["--workers", str(workers)] if workers else []
        self.words = [program, "serve", self.path, *number, *(it.format(file=self.file) for it in options)]
        self.start(printed, before, env)

    def start(self, printed=subprocess.PIPE, before=None, env=None):
        """Starts it, also once more after its end."""
        self.serving = subprocess.Popen(self.words, stdout=printed, stderr=subprocess.PIPE, preexec_fn=before, env=env)
        # So that none is left behind where a try fails.
        weakref.finalize(self, self.serving.kill)

    def listens(self):
        """Waits until it does, or has ended."""
        wait_until(lambda: is_listening(self.path) or self.serving.poll() is not None)

    def connect(self):
        """A connection, once it listens."""
        last = time.monotonic() + PATIENCE
        while True:
            client = socket.socket(socket.AF_UNIX)
            client.settimeout(PATIENCE)
            try:
                client.connect(self.path)
                return client
            except (FileNotFoundError, ConnectionRefusedError):
                client.close()
                if time.monotonic() > last or self.serving.poll() is not None:
                    raise
                time.sleep(0.01)

    def talk(self, sent, begins=lambda: True):
        """Sends these bytes as soon as this is so, closes its side, and gives all that comes. A server that leaves some unread may reset the connection."""
        came = bytearray()
        with self.connect() as client, contextlib.suppress(ConnectionError):
            wait_until(begins)
            client.sendall(sent)
            client.shutdown(socket.SHUT_WR)
            while more := client.recv(1 << 16):
                came += more
        return bytes(came)

    def session(self, count):
        """A session with so many locks and unlocks, 64 at a time. Gives the error numbers of their replies."""
        errors = []
        with self.connect() as client:
            client.sendall(INIT + CREATE)
            take(client, 80 + 160)
            for first in range(3, 3 + count, 64):
                uniques = range(first, min(first + 64, 3 + count))
                client.sendall(b"".join(map(setlk, uniques)))
                errors += [error for _, error in replies(take(client, 16 * len(uniques)))]
        return errors

    def ended(self):
        """What it printed, what it told, and its status."""
        printed, told = self.serving.communicate(timeout=PATIENCE)
        return printed, told.decode(), self.serving.returncode

    def tells(self, count=1):
        """What it tells next, once that has so many lines, or less at its end."""
        told, fd = b"", self.serving.stderr.fileno()
        while told.count(b"\n") < count and select.select([fd], [], [], PATIENCE)[0] and (more := os.read(fd, 4096)):
            told += more
        return told.decode()

    def traced(self):
        with open(self.file, "rb") as file:
            return file.read()


def main(script, names):
    """Runs each function `try_..` of a script, or those that its words name, prints how each ended, and ends with `N passed, M failed`. The status is 1
    where M isn't 0, 2 where one that is named isn't there, and 77 where there is no program."""
    if not os.access(PROGRAM, os.X_OK):
        print(f"{script}: not tried: there is no program at {PROGRAM}", file=sys.stderr)
        return NOT_TRIED
    failed = 0
    tries = {name: it for name, it in names.items() if name.startswith("try_")}
    lacking = [it for it in sys.argv[1:] if it.startswith("try_") and it not in tries]
    if lacking:
        print(f"{script}: tries none of {', '.join(lacking)}", file=sys.stderr)
        return 2
    tries = {name: tries[name] for name in sys.argv[1:] if name in tries} or tries
    for name, it in tries.items():
        try:
            said = it()
            print(f"{name}: passed" if said is None else f"{name}: {said}")
        except Exception as error:
            failed += 1
            print(f"{name}: FAILED: {type(error).__name__} {error}")
    print(f"{len(tries) - failed} passed, {failed} failed")
    return 1 if failed else 0
