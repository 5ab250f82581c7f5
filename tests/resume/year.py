"""Tries `lockd serve --resume FILE --rotate 4194304 --keep 2` of the built program by many orders, in ten sessions one after another: a hundredth of what a
busy job runner asks for in a year. What it takes must not grow. `bench/year.sh` runs the whole year.

It wants a C compiler for the client of `bench/peers.sh`. `tries.py` says how it ends.
"""
import collections
import contextlib
import os
import shutil
import socket
import statistics
import subprocess
import sys
import tempfile
import time

from tests import tries
from tests.tries import INIT, INIT_REPLY, PROGRAM, peak, run, take

ORDERS, SESSIONS, LONGEST = 300_000, 10, 3600
BYTES = 1 << 22
# What lines that are written together, and a head, may have.
MORE = 1 << 20
# A restart may hold the last orders and replies of two pieces, 4 MB each.
TWICE = 6 << 20

# What stands after a session: the number of the last piece before FILE; the most bytes of all pieces, and of memory, while it went on; and how many
# seconds a server takes from its start to its first reply.
Taken = collections.namedtuple("Taken", "number disk memory restart")


class Year:
    def __init__(self, folder, orders):
        self.folder, self.each = folder, orders // SESSIONS
        self.file, self.socket, self.client = f"{folder}/trace", f"{folder}/socket", f"{folder}/client"
        self.words = [PROGRAM, "serve", self.socket, "--resume", self.file, "--rotate", str(BYTES), "--keep", "2"]
        subprocess.run(["cc", "-O2", "-o", self.client, f"{tries.TOP}/bench/peers/client.c"], check=True)

    def sessions(self):
        """What it takes, after each session."""
        for _ in range(SESSIONS):
            with subprocess.Popen(self.words) as serving:
                # The client asks a tenth more first.
                asking = subprocess.Popen([self.client, "fuse", self.socket, "64", str(self.each * 10 // 11)], stdout=subprocess.DEVNULL)
                disk, memory = self.most_until_the_end(serving)
                assert asking.wait(LONGEST) == 0
            assert serving.returncode == 0, serving.returncode
            *older, last = sorted(self.pieces())
            assert last == 0 and len(older) <= 1 or last and older == [0], (older, last)
            yield Taken(last, disk, memory, statistics.median(self.restart() for _ in range(5)))

    def pieces(self):
        """The numbers of all pieces, and 0 for FILE."""
        return [int(it[6:] or 0) for it in os.listdir(self.folder) if it == "trace" or it[6:].isdecimal()]

    def most_until_the_end(self, serving):
        """The most bytes of all that stands beside FILE, and of its memory, asked again and again until it ends."""
        disk = memory = 0
        while serving.poll() is None:
            try:
                memory = max(memory, 1024 * peak(serving))
            except (StopIteration, OSError):
                break
            disk = max(disk, self.on_disk())
            time.sleep(0.005)
        return disk, memory

    def on_disk(self):
        """A file with two names counts once."""
        sizes = {}
        for it in os.listdir(self.folder):
            with contextlib.suppress(FileNotFoundError):
                at = os.stat(f"{self.folder}/{it}")
                sizes[at.st_ino] = at.st_size if it.startswith("trace") else 0
        return sum(sizes.values())

    def restart(self):
        begun = time.perf_counter()
        with subprocess.Popen(self.words) as serving, socket.socket(socket.AF_UNIX) as client:
            while client.connect_ex(self.socket):
                assert serving.poll() is None
                time.sleep(0.0005)
            client.sendall(INIT)
            assert take(client, len(INIT_REPLY)) == INIT_REPLY
            seconds = time.perf_counter() - begun
        assert serving.returncode == 0
        return seconds

    def judged(self):
        """What `lockd check` says of its pieces in a row."""
        names = [f"{self.file}.{it}" if it else self.file for it in sorted(self.pieces(), key=lambda it: it or 1 << 64)]
        return run("check", *names).stdout.decode()


def try_a_hundredth_of_a_year():
    """Two pieces stay, none is much longer than it may be, and memory stays."""
    with tempfile.TemporaryDirectory(prefix="try-lockd-") as folder:
        year = Year(folder, ORDERS)
        taken = list(year.sessions())
        assert taken[-1].number >= ORDERS * 50 // BYTES, taken
        # While the older of three goes, the newest has little.
        assert max(it.disk for it in taken) <= 2 * BYTES + 2 * MORE, taken
        assert os.path.getsize(year.file) <= BYTES + MORE
        assert max(it.memory for it in taken) <= taken[0].memory + TWICE, taken
        assert year.judged() == "legal\n"
    return f"{taken[-1].number} pieces, at most {max(it.disk for it in taken) / 1e6:.1f} MB on the disk"


def main():
    if not shutil.which("cc"):
        print("resume/year: not tried: there is no C compiler", file=sys.stderr)
        return tries.NOT_TRIED
    return tries.main("resume/year", globals())


if __name__ == "__main__":
    sys.exit(main())
