#!/bin/sh
# What a standby has of a trace whose disk is copied at each write, as a replicated block device does (docs/SCALE.md). The disk is a file, with ext4 on a loop
# device, and `lockd serve --resume` keeps its trace there. Right after the reply to the last of so many SETLKs (1,000 without an argument), each of another byte,
# the disk is copied, and then the server is killed. A second server resumes from the copy, and a client asks it by GETLK for each byte. Prints how many of the
# locks it knows, with the disk mounted by `-o sync` and without. Wants root, loop devices and mkfs.ext4, and else ends with status 77.
#
#     bench/spread_standby.sh [LOCKS]
set -eu
. "$(dirname "$0")/../dev/built_lockd.sh"
apart='unshare --mount --propagation private --pid --fork --kill-child --mount-proc'
[ "$(id -u)" -eq 0 ] && [ -c /dev/loop-control ] && command -v mkfs.ext4 > /dev/null && $apart true 2> /dev/null || {
    echo 'spread_standby.sh: not tried: no root, no loop devices or no mkfs.ext4' >&2
    exit 77
}
LOCKD=$(realpath "$program") $apart python3 - "$work" "${1:-1000}" <<'END'
import os, shutil, subprocess, sys

sys.dont_write_bytecode = True
sys.path.insert(0, ".")
from tests import fuse
from tests.fuse import BARE_SIZE, CREATE_SIZE, GETLK, INIT_SIZE, NO_LOCK, SETLK, WRITE_LOCK
from tests.tries import CREATE, INIT, Server, lock, replies, take

WORK, LOCKS = sys.argv[1], int(sys.argv[2])
HOLDER, OTHER = 7, 8


def mounted(disk, *options):
    folder = f"{disk}.mounted"
    os.makedirs(folder, exist_ok=True)
    subprocess.run(["mount", "-o", ",".join(["loop", *options]), disk, folder], check=True)
    return folder


def made(name, *options):
    disk = f"{WORK}/{name}"
    with open(disk, "wb") as it:
        it.truncate(64 << 20)
    subprocess.run(["mkfs.ext4", "-q", disk], check=True)
    return disk, mounted(disk, *options)


def resumed(folder):
    return Server("--resume", f"{folder}/trace", workers=None)


def known(folder):
    """How many of the bytes are locked, says a server that resumes from the trace in this folder."""
    server = resumed(folder)
    with server.connect() as client:
        client.sendall(INIT)
        take(client, INIT_SIZE)
        count = 0
        for at in range(LOCKS):
            client.sendall(lock(GETLK, LOCKS + 3 + at, OTHER, at, WRITE_LOCK))
            head = take(client, BARE_SIZE)
            reply = head + take(client, fuse.length_of(head) - len(head))
            count += not fuse.error_of(reply) and fuse.lock_of(reply)[2] != NO_LOCK
    server.serving.kill()
    server.serving.wait()
    return count


def given(name, *options):
    """How many of the locks that a server gave a standby knows, from a copy of the disk as it was at the last reply."""
    disk, folder = made(name, *options)
    server = resumed(folder)
    with server.connect() as client:
        client.sendall(INIT + CREATE)
        take(client, INIT_SIZE + CREATE_SIZE)
        for at in range(LOCKS):
            client.sendall(lock(SETLK, 3 + at, HOLDER, at, WRITE_LOCK))
            assert replies(take(client, BARE_SIZE)) == [(3 + at, 0)]
        shutil.copyfile(disk, f"{disk}.copy")
        server.serving.kill()
        server.serving.wait()
    subprocess.run(["umount", folder], check=True)
    standby = mounted(f"{disk}.copy")
    count = known(standby)
    subprocess.run(["umount", standby], check=True)
    return count


for name, options in ("with -o sync", ["sync"]), ("without", []):
    print(f"{name}: the standby knows {given(name.replace(' ', '_'), *options)} of {LOCKS} locks", flush=True)
END
