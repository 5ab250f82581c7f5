#!/bin/sh
# How much memory `lockd serve` takes where it holds as much as its rules allow: under the standard rules, by the limits of a mount, with 65,536 files
# and open files, and with as many locks too; with 1 and 4 workers, and no trace. Prints its megabytes (VmRSS) once all is held, and sees that one
# more of each is refused.
set -eu
. "$(dirname "$0")/../dev/built_lockd.sh"
LOCKD=$program python3 - <<'END'
import sys

sys.dont_write_bytecode = True
sys.path.insert(0, ".")
from tests import fuse
from tests.fuse import BARE_SIZE, CREATE_SIZE, ENFILE, ENOLCK, ENOSPC, INIT_SIZE, OPEN_SIZE, SETLK, WRITE_LOCK
from tests.tries import INIT, Server, replies, take

AT_A_TIME = 64
FILES = ["--files", "65536", "--open", "65536"]
MOUNT = ["--files", "4096", "--open", "4096", "--runs", "16384", "--parked", "1024"]
CASES = {"the standard rules": ([], 256, 1_024, 4_096), "the limits of a mount": (MOUNT, 4_096, 4_096, 16_384), "65536 files and open files": (FILES, 65_536, 65_536, 4_096),
         "65536 files, open files and locks": ([*FILES, "--runs", "65536"], 65_536, 65_536, 65_536)}

def create(unique, number):
    return fuse.create(unique, b"%d" % number)

def lock(unique, node, fh, byte):
    return fuse.lock(SETLK, unique, 7, byte, byte, WRITE_LOCK, node, fh)

def asked(client, messages, size):
    """The replies, of so many bytes each, to messages that all go well."""
    found = []
    for first in range(0, len(messages), AT_A_TIME):
        few = messages[first:first + AT_A_TIME]
        client.sendall(b"".join(few))
        told = take(client, size * len(few))
        assert not any(error for _, error in replies(told)), replies(told)
        found += [told[at:at + size] for at in range(0, len(told), size)]
    return found

def megabytes(options, files, opens, runs, workers):
    server = Server("--trace", "none", *options, workers=workers)
    with server.connect() as client:
        asked(client, [INIT], INIT_SIZE)
        made = [*map(fuse.made_of, asked(client, [create(2 + it, it) for it in range(files)], CREATE_SIZE))]
        asked(client, [fuse.open_(2, made[it % files][0]) for it in range(opens - files)], OPEN_SIZE)
        asked(client, [lock(2, *made[it % files], 2 * (it // files)) for it in range(runs)], BARE_SIZE)
        for one_more, error in (create(2, files), ENOSPC), (fuse.open_(2, made[0][0]), ENFILE), (lock(2, *made[0], 1 << 40), ENOLCK):
            client.sendall(one_more)
            assert replies(take(client, BARE_SIZE)) == [(2, error)]
        with open(f"/proc/{server.serving.pid}/status", encoding="ascii") as it:
            held = next(int(line.split()[1]) for line in it if line.startswith("VmRSS"))
    assert server.ended()[1:] == ("", 0)
    return held / 1_000

for name, case in CASES.items():
    few, many = (megabytes(*case, workers) for workers in (1, 4))
    print(f"{name}: {few:.1f} MB with 1 worker, {many:.1f} MB with 4", flush=True)
END
