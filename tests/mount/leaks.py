"""Many calls take neither memory nor descriptors of the program that carries messages: a million, or as many as
TRY_MOUNT_CALLS says. They are fewer where 40 seconds, or as many as TRY_MOUNT_SECONDS says, don't suffice."""
import os, subprocess, tempfile
from tests.mount.kit import *

CALLS = int(os.environ.get("TRY_MOUNT_CALLS", 1_000_000))
SECONDS = int(os.environ.get("TRY_MOUNT_SECONDS", 40))


def taken(pid):
    """Kilobytes of memory that are written to, and open files."""
    with open(f"/proc/{pid}/status", encoding="ascii") as it:
        size = next(int(line.split()[1]) for line in it if line.startswith("RssAnon"))
    return size, len(os.listdir(f"/proc/{pid}/fd"))


def take_no_memory(calls, *words):
    """A mount takes no more memory after so many calls than after 20,000."""
    program = tempfile.mkdtemp(dir=WORK) + "/calls"
    subprocess.run(["cc", "-O2", "-Wall", "-Wextra", "-o", program, f"{TOP}/tests/mount/calls.c"], check=True, timeout=5 * PATIENCE)
    mount = Mount(*words, "--discard-writes")

    def call(calls):
        running = [subprocess.Popen([program, mount.folder, str(at), str(calls // 2), str(SECONDS)], stdout=subprocess.PIPE, text=True) for at in range(2)]
        made = [it.communicate()[0] for it in running]
        same([it.returncode for it in running], [0, 0])
        return sum(map(int, made))

    call(20_000)
    before = taken(mount.running.pid)
    made = call(calls)
    if made < calls:
        print(f"{made} calls in {SECONDS} seconds, and not {calls}", flush=True)
    after = taken(mount.running.pid)
    assert after[0] < before[0] + 256 and after[1] == before[1], f"{before}, and then {after}"
    same(mount.end()[0], 0)


def try_many_calls_take_no_memory():
    take_no_memory(CALLS, "--trace", "none")


def try_many_calls_leave_no_copy():
    """Of a message that was answered, where the server may be started again."""
    take_no_memory(CALLS // 20, "--resume", tempfile.mkdtemp(dir=WORK) + "/file", "--no-check")


try_many_calls_take_no_memory.seconds = try_many_calls_leave_no_copy.seconds = 2 * SECONDS + 10 * PATIENCE


def try_random_messages_and_replies():
    program = f"{WORK}/turned"
    parts = [f"{TOP}/programs/mount/{it}.c" for it in ("messages", "replies", "answers", "names", "opens", "kept", "say")]
    built = subprocess.run(["cc", "-g", "-O1", "-std=gnu11", "-Wall", "-Wextra", "-Wconversion", "-fsanitize=address,undefined", "-fno-sanitize-recover=undefined",
                            "-pthread", "-o", program, f"{TOP}/tests/mount/turned.c", *parts], capture_output=True, text=True, timeout=5 * PATIENCE)
    if built.returncode:
        print("not tried: this compiler has no sanitizers", flush=True)
        return
    same(built.stderr, "")
    ran = subprocess.run([program, "300000"], capture_output=True, text=True, timeout=4 * PATIENCE)
    same((ran.returncode, ran.stderr[:500]), (0, ""))


try_random_messages_and_replies.seconds = 10 * PATIENCE
