#!/bin/sh
# Prints the processor time that `lockd serve` uses, with 1, 4 and 16 workers, while its client says nothing for 2
# seconds. The client has sent an INIT and a CREATE and has both replies, so the reader and a worker have worked and
# wait again. The time is that of all threads, user and system, by /proc/PID/stat, which counts in ticks of 10 ms. It
# has to be about 0.
set -eu
. "$(dirname "$0")/../dev/built_lockd.sh"
python3 - "$program" "$work" <<'END'
import os, socket, subprocess, sys, time

sys.dont_write_bytecode = True
sys.path.insert(0, ".")
from tests import fuse
from tests.tries import CREATE, INIT

PROGRAM, WORK = sys.argv[1:]
SILENCE, PATIENCE = 2, 10

# Tries again for a while, since the server may not listen yet.
def connected(path):
    last = time.monotonic() + PATIENCE
    while True:
        client = socket.socket(socket.AF_UNIX)
        client.settimeout(PATIENCE)
        try:
            client.connect(path)
            return client
        except (FileNotFoundError, ConnectionRefusedError):
            client.close()
            if time.monotonic() > last:
                raise
            time.sleep(0.01)

# Sends a message and waits for its reply, which has this size and no error.
def ask(client, sent, unique, size):
    client.sendall(sent)
    reply = client.recv(size, socket.MSG_WAITALL)
    assert len(reply) == size and fuse.errors(reply) == [(unique, 0)], reply

# The process's name, in parentheses, may hold spaces; utime and stime are the 12th and 13th fields behind it.
def used_ms(pid):
    with open(f"/proc/{pid}/stat") as stat:
        fields = stat.read().rpartition(")")[2].split()
    return (int(fields[11]) + int(fields[12])) * 1000 // os.sysconf("SC_CLK_TCK")

def idle_ms(workers):
    path = f"{WORK}/socket{workers}"
    serving = subprocess.Popen([PROGRAM, "serve", path, "--workers", str(workers)], stdout=subprocess.DEVNULL)
    try:
        with connected(path) as client:
            ask(client, INIT, 1, fuse.INIT_SIZE)
            ask(client, CREATE, 2, fuse.CREATE_SIZE)
            before = used_ms(serving.pid)
            time.sleep(SILENCE)
            used = used_ms(serving.pid) - before
        assert serving.wait(timeout=PATIENCE) == 0
    finally:
        serving.kill()
        serving.wait()
    return used

for workers in 1, 4, 16:
    print(f"workers {workers}: {idle_ms(workers)} ms of processor time in {SILENCE} s of silence (aim: about 0)")
END
