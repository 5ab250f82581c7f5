"""Serves more than two million orders by the built `lockd serve`, past each count at which a server that counts wrongly would give up, and has
`lockd check` judge a trace that comes with 100,000 reads. Wants a C compiler; where there is none it says so, with status 77.

`bench/peers/client.c` checks each reply, and `lockd check` judges the trace. `ORDERS=10000000 tests/run serve/millions` takes some minutes, and gigabytes.
"""
import contextlib
import os
import shutil
import socket
import subprocess
import sys
import tempfile

from tests import tries
from tests.tries import PROGRAM, TOP, Server

WORK = tempfile.TemporaryDirectory(prefix="millions-")
CLIENT = f"{WORK.name}/client"
# The client asks a tenth more.
ORDERS = int(os.environ.get("ORDERS", "2000000"))
LONGEST = 600 + ORDERS // 1_000
# More than 65,536. The traces of so many orders come with some 2,000.
READS = ORDERS // 20


def serve(workers, *options, printed=subprocess.DEVNULL):
    """So many orders, each with its reply, 16 under way: so few that workers find none now and then."""
    server = Server(*options, workers=workers, printed=printed)
    server.listens()
    subprocess.run([CLIENT, "fuse", server.path, "16", str(ORDERS)], check=True, stdout=subprocess.DEVNULL, timeout=LONGEST)
    told = server.serving.communicate(timeout=LONGEST)[1]
    assert (told, server.serving.returncode) == (b"", 0), (told, server.serving.returncode)
    return server


def is_whole(path):
    """The trace is legal, and has two lines for each order."""
    with open(path, "rb") as trace:
        ran = subprocess.run([PROGRAM, "check"], check=False, stdin=trace, capture_output=True, timeout=LONGEST)
        assert (ran.stdout, ran.stderr, ran.returncode) == (b"legal\n", b"", 0), (ran.stdout, ran.stderr, ran.returncode)
        trace.seek(0)
        lines = sum(piece.count(b"\n") for piece in iter(lambda: trace.read(1 << 20), b""))
    assert lines >= 2 * ORDERS, lines
    return f"{lines} lines"


def try_one_worker_into_a_file():
    server = serve(1, "--trace", "{file}")
    return is_whole(server.file)


def try_four_workers_in_memory():
    printed = f"{WORK.name}/printed"
    with open(printed, "wb") as file:
        serve(4, printed=file)
    return is_whole(printed)


def try_an_order_with_each_read():
    """`check` judges up to the last line, a reply that nobody is owed, though each read gives it no more than an order and its reply."""
    near, far = socket.socketpair(socket.AF_UNIX, socket.SOCK_SEQPACKET)
    with near:
        near.settimeout(LONGEST)
        with far:
            judging = subprocess.Popen([PROGRAM, "check"], stdin=far, stdout=subprocess.PIPE, stderr=subprocess.PIPE)
        with contextlib.suppress(BrokenPipeError, ConnectionResetError):
            for unique in range(READS):
                near.send(f"ask 0 {unique} 1 0 0 0 lookup 61\ntell {unique} err 2\n".encode())
            near.send(b"tell 0 ok\n")
    found = *judging.communicate(timeout=LONGEST), judging.returncode
    assert found == (f"differs {2 * READS + 1}\n".encode(), b"", 1), found
    return f"{READS} reads"


def main():
    compiler = shutil.which("cc")
    if not compiler:
        print("serve/millions: not tried: there is no C compiler", file=sys.stderr)
        return tries.NOT_TRIED
    subprocess.run([compiler, "-O2", "-o", CLIENT, f"{TOP}/bench/peers/client.c"], check=True)
    return tries.main("serve/millions", globals())


if __name__ == "__main__":
    sys.exit(main())
