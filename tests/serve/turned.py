"""Tries streams of which one byte was changed on the way: each byte of stored sessions is 0, 255, and itself with one bit turned, in turn.

The built `lockd bytes` serves each. It ends with status 0, or with 2 and one line for a fault of the stream, and each line that it
printed is a whole reply. `tries.py` says how it ends. A number behind the script's name says of how many bytes one is changed.
"""
import re
import sys
from concurrent.futures import ThreadPoolExecutor

from tests import fuse, tries
from tests.tries import INIT, cases, marked, replies, run, text_of

FAULTS = re.compile(r"(cut|bad length \d+)\n")
STEP = int(sys.argv[1]) if len(sys.argv) > 1 else 1


def sessions():
    """The messages of each stored session, behind an INIT."""
    found = [INIT + bytes.fromhex(marked(case, "> ")) for _, case in cases(text_of("tests/cases/streams.txt"))]
    assert len(found) == 13, len(found)
    return found


def whole():
    """The messages of a whole session with folders and lists."""
    return INIT + b"".join([fuse.mkdir(2, b"d"), fuse.mknod(3, b"f"), fuse.readdir(4), fuse.readdir(5, node=2), fuse.statfs(6), fuse.rmdir(7, b"d"),
                            fuse.rmdir(8, b"f"), fuse.readdir(9, 2)])


def changed():
    """Each stream and the options of its session. The INIT is changed in one session alone."""
    for number, (stream, *options) in enumerate([*((it,) for it in sessions()), (whole(), "--whole")]):
        for at in range(len(INIT) if number else 0, len(stream), STEP):
            for byte in {0, 255, stream[at] ^ 1 << at % 8} - {stream[at]}:
                yield stream[:at] + bytes([byte]) + stream[at + 1:], options


def is_sound(stream, options):
    ran = run("bytes", *options, text=stream.hex().encode() + b"\n")
    told = ran.stderr.decode()
    assert (ran.returncode, told) == (0, "") or ran.returncode == 2 and FAULTS.fullmatch(told), (stream.hex(), ran)
    for line in ran.stdout.decode().splitlines():
        assert len(replies(bytes.fromhex(line))) == 1, (stream.hex(), line)


def try_each_byte():
    with ThreadPoolExecutor(4) as pool:
        count = sum(1 for _ in pool.map(lambda it: is_sound(*it), changed()))
    return f"{count} streams"


if __name__ == "__main__":
    sys.exit(tries.main("serve/turned", globals()))
