"""How a mount begins, what is refused, and servers that do what none should."""
import os, re, shutil, signal, socket, subprocess, tempfile, time
from tests.mount.kit import *

# A server that says what its first word tells. It answers INIT, and that a name isn't there.
BAD_SERVER = """
import os, select, socket, sys, time
from tests import fuse
HOW = sys.argv[0].rpartition("/")[2]
if sys.argv[1] != "serve":
    print("legal")
    sys.exit(0)
if HOW == "ends":
    sys.exit(2)
if HOW == "never_listens":
    time.sleep(100)
if HOW == "swaps":
    os.rename(os.environ["SWAPPED"], os.environ["SWAPPED"] + ".old")
    os.symlink(os.environ["ELSEWHERE"], os.environ["SWAPPED"])
listening = socket.socket(socket.AF_UNIX)
listening.bind(sys.argv[2])
listening.listen()
if "--trace" in sys.argv and sys.argv[sys.argv.index("--trace") + 1] != "none":
    open(sys.argv[sys.argv.index("--trace") + 1], "x").close()
connection = listening.accept()[0]
# The mount may go before it has read all that came.
sys.excepthook = lambda kind, *_: os._exit(0 if kind in (BrokenPipeError, ConnectionResetError) else 1)
while True:
    head = connection.recv(fuse.HEADER, socket.MSG_WAITALL)
    if len(head) < fuse.HEADER:
        break
    length, opcode, unique = fuse.length_of(head), fuse.opcode_of(head), fuse.unique_of(head)
    message = head + connection.recv(length - len(head), socket.MSG_WAITALL) if length > len(head) else head
    reply = fuse.reply(unique)
    if {fuse.LOOKUP: "no_lookup", fuse.INIT: "no_init"}.get(opcode) == HOW:
        continue
    if opcode == fuse.INIT and HOW == "refuses_init":
        reply = fuse.reply(unique, fuse.EPROTO)
    elif opcode == fuse.INIT and HOW == "bad_length":
        reply = fuse.with_length(reply, 8)
    elif opcode == fuse.INIT and HOW == "ends_at_init":
        break
    elif opcode == fuse.INIT:
        reply = fuse.init_reply(unique, flags=fuse.POSIX_LOCKS | fuse.FLOCK_LOCKS)
    elif HOW == "ends_at_lookup":
        break
    elif HOW == "bad_later" and b"later" in message:
        reply = fuse.with_length(reply, 9)
    elif HOW == "bad_bodies" and b"body" in message:
        reply = fuse.reply(unique, body=bytes(7))
    elif opcode == fuse.CREATE:
        reply = fuse.create_reply(unique, 2, 0o100644, 1, 0, 0, 1)
    elif opcode == fuse.FLUSH and unique >> 62 and HOW == "no_flush":
        continue
    elif opcode == fuse.FLUSH and unique >> 62:
        time.sleep(0.3)
        if select.select([connection], [], [], 0)[0]:
            sys.exit(5)
    elif opcode in (fuse.RELEASE, fuse.FLUSH, fuse.SETLK):
        pass
    elif opcode == fuse.GETATTR:
        reply = fuse.attr_reply(unique, 1, 0o40755, 2, 0, 0)
    else:
        reply = fuse.reply(unique, fuse.ENOENT)
    if opcode not in fuse.NO_REPLY:
        connection.sendall(reply)
"""


def bad_server(how):
    path = f"{tempfile.mkdtemp(dir=WORK)}/{how}"
    write_server(path, BAD_SERVER)
    return path


def mounts():
    with open("/proc/self/mountinfo", encoding="utf-8") as it:
        return [line.split()[4] for line in it if " fuse.lockd " in line and WORK in line]


# ---- Words ----

def try_help_and_version():
    ran = subprocess.run([PROGRAM, "--help"], capture_output=True, text=True, timeout=PATIENCE)
    same((ran.returncode, ran.stdout.startswith("use: lockd_mount [OPTIONS] [--] FOLDER\n"), ran.stderr), (0, True, ""))
    ran = subprocess.run([PROGRAM, "--version"], capture_output=True, text=True, timeout=PATIENCE)
    same((ran.returncode, bool(re.fullmatch(r"lockd_mount \d+\.\d+\.\d+( \([0-9a-f]{12}\))?\n", ran.stdout))), (0, True))


def try_completions_and_help_name_the_same_options():
    with open(f"{TOP}/dist/lockd.bash", encoding="utf-8") as it:
        completed = re.findall(r"--[a-z-]+", re.search("_lockd_mount.*?local words='(.*?)'", it.read(), re.S)[1])
    helped = subprocess.run([PROGRAM, "--help"], capture_output=True, text=True, timeout=PATIENCE).stdout
    same(sorted(completed), sorted({*re.findall(r"--[a-z][a-z-]*", helped.replace("lockd serve --help", ""))}))


def try_what_cannot_be_mounted():
    folder = tempfile.mkdtemp(dir=WORK)
    wanted = [
        ("no folder at /no/such/folder", "/no/such/folder"), ("no folder at", __file__), ("workers: a number from 1 to 16", folder, "--workers", "17"),
        (f"a file is at {__file__} already", folder, "--trace", __file__), ("no folder for /no/such/trace", folder, "--trace", "/no/such/trace"),
        ("--runs", folder, "--runs", "0"), ("requires an argument", folder, "--parked"), ("no folder", ), ("more than one folder", folder, folder),
        ("unrecognized option", folder, "--nothing"), ("mode (octal)", folder, "--mode", "9"), ("grace", folder, "--grace", "-1"),
        ("files: a number from 1 to 65536", folder, "--files", "65537"), ("open: a number from 1 to 65536", folder, "--open", "0"),
        ("no folder at --help", "--", "--help"), ("--trace-full", folder, "--trace-full", "never"), ("no folder", ""),
        ("has a newline", folder, "--trace", f"{folder}.a\nb"), ("has a newline", folder, "--resume", f"{folder}.a\nb"),
    ]
    for said, *words in wanted:
        contains(refusal(*words), said)
    contains(refusal(folder=folder, LOCKD="/no/such/program"), "no program at /no/such/program")
    contains(refusal(folder=folder, TMPDIR="/no/such/tmp"), "cannot make a folder in /no/such/tmp")
    assert folder not in mounts()


def try_files_in_the_folder_are_refused():
    folder = tempfile.mkdtemp(dir=WORK)
    os.mkdir(f"{folder}/below")
    for words in ["--trace", f"{folder}/t"], ["--resume", f"{folder}/below/r"], ["--times", f"{folder}/below/../t"]:
        contains(refusal("--nonempty", *words, folder=folder), words[1], f"is in {folder}")
    contains(refusal("--nonempty", folder=folder, TMPDIR=f"{folder}/below"), f"is in {folder}")
    same(os.listdir(folder), ["below"])
    assert folder not in mounts()


def try_a_folder_that_is_not_empty():
    folder = tempfile.mkdtemp(dir=WORK)
    with open(f"{folder}/data", "w", encoding="ascii") as it:
        it.write("data")
    contains(refusal(folder=folder), "isn't empty", "--nonempty")
    mount = Mount("--nonempty", folder=folder)
    same(os.listdir(folder), [])
    same(mount.end(), (0, "legal"))
    same(os.listdir(folder), ["data"])


def record_of(folder):
    """The file that has the record of a mount at this path, by `hash_of` of names.c."""
    number = 14695981039346656037
    for it in folder.encode():
        number = (number ^ it) * 1099511628211 % 2**64
    return f"/run/lockd_mount/{number:016x}"


def try_a_folder_that_is_mounted_already():
    mount = Mount()
    for words in (), ("--nonempty",), ("--grace", "5"):
        contains(refusal(*words, folder=mount.folder), "is mounted by lockd_mount already")
    os.symlink(mount.folder, f"{mount.folder}.link")
    contains(refusal(folder=f"{mount.folder}.link"), "is mounted by lockd_mount already")
    os.mkdir(f"{mount.folder}/inside")
    contains(refusal(folder=f"{mount.folder}/inside"), "is in a folder that is mounted by lockd_mount")
    # Another path of the same folder.
    beside = tempfile.mkdtemp(dir=WORK)
    (one,) = children(f"{mount.folder}/held", 1)
    same(one.ask("flock", "a", ALONE), "ok")
    one.kill()
    same(mount.end(), (0, "legal"))
    subprocess.run(["mount", "--bind", mount.folder, beside], check=True, timeout=PATIENCE)
    again = Mount(folder=mount.folder)
    contains(refusal(folder=beside), f"another lockd_mount has {beside}")
    same([os.path.exists(record_of(it)) for it in (again.folder, beside)], [True, False])
    same(again.end(), (0, "legal"))
    unmount(beside)


def try_two_begin_at_once():
    folder = tempfile.mkdtemp(dir=WORK)
    begun = [subprocess.Popen([PROGRAM, "--trace", "none", folder], stdout=subprocess.PIPE, stderr=subprocess.PIPE, text=True) for _ in range(6)]
    until(lambda: sum(it.poll() is None for it in begun) == 1 and is_mounted(folder))
    time.sleep(0.2)
    (left,) = [it for it in begun if it.poll() is None]
    same(([it.returncode for it in begun if it is not left], mounts().count(folder)), ([2] * 5, 1))
    same(left.stdout.readline(), f"mounted at {folder}\n")
    left.terminate()
    same(left.wait(PATIENCE), 0)


def try_a_path_through_a_link_and_with_odd_letters():
    folder = f"{tempfile.mkdtemp(dir=WORK)}/a b\tc\\d"
    os.mkdir(folder)
    os.symlink(folder, f"{WORK}/through")
    mount = Mount(folder=f"{WORK}/through/")
    mount.says(f"mounted at {folder}\n")
    contains(refusal(folder=folder), "is mounted by lockd_mount already")
    shell(mount, "flock job echo in", "in")
    same(mount.end(lambda: mount.term()), (0, "legal"))
    same(outcome(os.listdir, folder), [])
    os.unlink(f"{WORK}/through")


def try_a_link_put_in_the_folders_place_does_nothing():
    folder, elsewhere = tempfile.mkdtemp(dir=WORK), tempfile.mkdtemp(dir=WORK)
    said = refusal(folder=folder, LOCKD=bad_server("swaps"), SWAPPED=folder, ELSEWHERE=elsewhere)
    contains(said, "isn't where it was")
    same([it for it in mounts() if it.startswith((folder, elsewhere))], [])


def try_the_kind_of_file_system():
    mount = Mount()
    with open("/proc/self/mountinfo", encoding="utf-8") as it:
        (line,) = [line for line in it if line.split()[4] == mount.folder]
    kind, source, options = line.partition(" - ")[2].split()
    same((kind, source, "default_permissions" in options, "nosuid" in line and "nodev" in line), ("fuse.lockd", "lockd", True, True))
    same(mount.end(), (0, "legal"))


def try_the_source_of_a_mount_is_what_is_said():
    mount = Mount("--source", "an odd,\\word")
    with open("/proc/self/mounts", encoding="utf-8") as it:
        same([line.split()[0] for line in it if line.split()[1] == mount.folder], [r"an\040odd,\134word"])
    contains(refusal(folder=mount.folder), "is mounted by lockd_mount already")
    same(mount.end(), (0, "legal"))
    contains(refusal("--source", "", folder=mount.folder), "--source takes a name")


# ---- The service manager ----

def comes(listening, words):
    """Waits for a message to the service manager that has these words. A status is told now and then, too."""
    while words not in (said := listening.recv(4096).decode()):
        assert said.startswith("STATUS="), said


def try_ready_is_said_to_the_service_manager():
    for at in f"{WORK}/notify", f"@{WORK}/notify":
        listening = socket.socket(socket.AF_UNIX, socket.SOCK_DGRAM)
        listening.bind(at.replace("@", "\0"))
        listening.settimeout(PATIENCE)
        mount = Mount(NOTIFY_SOCKET=at)
        contains(listening.recv(4096).decode(), "READY=1\n", f"STATUS=mounted at {mount.folder}")
        if at[0] != "@":
            shell(mount, "flock job true", "")
            comes(listening, "STATUS=1 files, 0 open; ")
        same(mount.end(mount.term), (0, "legal"))
        comes(listening, "STOPPING=1")
    listening.close()
    listening = socket.socket(socket.AF_UNIX, socket.SOCK_DGRAM)
    listening.bind(f"{WORK}/notify2")
    listening.setblocking(False)
    refusal(folder=tempfile.mkdtemp(dir=WORK), LOCKD=bad_server("refuses_init"), NOTIFY_SOCKET=f"{WORK}/notify2")
    same(outcome(listening.recv, 4096), "EAGAIN")


def try_the_unit():
    unit = tempfile.mkdtemp(dir=WORK) + "/lockd.service"
    with open(f"{TOP}/dist/lockd.service", encoding="utf-8") as it:
        text = it.read()
    contains(text, "Type=notify", "OOMScoreAdjust=", "Restart=on-failure", "\nSyslogIdentifier=lockd_mount\n")
    # It waits for open files, and then for the server, before it is killed.
    stop, grace = (int(re.search(it, text)[1]) for it in (r"TimeoutStopSec=(\d+)", r"--grace (\d+)"))
    assert stop > grace + 30
    if not shutil.which("systemd-analyze"):
        return
    with open(unit, "w", encoding="utf-8") as it:
        it.write(re.sub(r"/usr/local/\S*lockd_mount", PROGRAM, text))
    ran = subprocess.run(["systemd-analyze", "verify", "--man=no", unit], capture_output=True, text=True, timeout=PATIENCE)
    same((ran.returncode, [it for it in ran.stderr.splitlines() if "lockd" in it]), (0, []))


def try_standard_files_that_are_closed():
    """The mount has /dev/null for each, and its server has what it has else."""
    for closed in (0,), (1,), (2,), (0, 1, 2):
        folder, closes = tempfile.mkdtemp(dir=WORK), " ".join(f"{it}>&-" for it in closed)
        listening = socket.socket(socket.AF_UNIX, socket.SOCK_DGRAM)
        listening.bind(f"{folder}.notify")
        listening.settimeout(PATIENCE)
        begun = subprocess.Popen(["sh", "-c", f'exec "$@" {closes}', "sh", PROGRAM, "--trace", "none", folder], stdout=subprocess.DEVNULL,
                                 stderr=subprocess.DEVNULL, env={**os.environ, "TMPDIR": WORK, "NOTIFY_SOCKET": f"{folder}.notify"})
        contains(listening.recv(4096).decode(), "READY=1\n")
        (server,) = [pid for pid, words in children_of(begun.pid) if b"serve" in words]
        same([os.readlink(f"/proc/{begun.pid}/fd/{it}") for it in closed], ["/dev/null"] * len(closed))
        same([os.readlink(f"/proc/{server}/fd/{it}").partition(":")[0] for it in range(3)], ["/dev/null", "/dev/null", "pipe"])
        begun.terminate()
        same(begun.wait(PATIENCE), 0)


# ---- Servers that fail ----

def refused_by(how, *said, **env):
    folder = tempfile.mkdtemp(dir=WORK)
    contains(refusal(folder=folder, LOCKD=bad_server(how), **env), *said)
    same((is_mounted(folder), outcome(os.rmdir, folder)), (False, None))


def try_a_server_that_refuses_init():
    refused_by("refuses_init", "the server refuses INIT: Protocol error", "nothing is mounted")


def try_a_kernel_that_is_too_old():
    """A library makes this kernel's INIT that of an older one."""
    library = f"{WORK}/older.so"
    subprocess.run(["cc", "-O2", "-Wall", "-Wextra", "-shared", "-fPIC", "-o", library, f"{TOP}/tests/mount/older.c"],
                   check=True, timeout=5 * PATIENCE)
    folder = tempfile.mkdtemp(dir=WORK)
    contains(refusal(folder=folder, LD_PRELOAD=library), "this kernel speaks FUSE 7.27, and 7.31 is wanted", "nothing is mounted")
    assert not is_mounted(folder)


def try_a_server_that_ends_before_it_is_ready():
    refused_by("ends", "the server ended with status 2 before it listened", "can't serve; nothing is mounted\n")
    refused_by("ends_at_init", "the server ended before INIT was agreed", "nothing is mounted")
    refused_by("ends_at_lookup", "no name could be looked up", "nothing is mounted")
    refused_by("bad_length", "the server sent a reply of a length that none has", "nothing is mounted")


def try_term_before_it_is_mounted():
    folder = tempfile.mkdtemp(dir=WORK)
    begun = subprocess.Popen([PROGRAM, folder], stdout=subprocess.PIPE, stderr=subprocess.PIPE, text=True,
                             env={**os.environ, "TMPDIR": WORK, "LOCKD": bad_server("never_listens")})
    until(lambda: list(children_of(begun.pid)))
    time.sleep(0.2)
    begun.terminate()
    said, wrong = begun.communicate(timeout=PATIENCE)
    same((begun.returncode, said, is_mounted(folder)), (2, "", False))
    contains(wrong, "ended before anything was mounted")


def try_a_carrier_that_is_killed_as_its_server_starts_leaves_none():
    begun = subprocess.Popen([PROGRAM, "--resume", f"{WORK}/never", tempfile.mkdtemp(dir=WORK)], env={**os.environ, "TMPDIR": WORK, "LOCKD": bad_server("never_listens")})
    until(lambda: list(children_of(begun.pid)))
    (server,) = [pid for pid, _ in children_of(begun.pid)]
    begun.kill()
    begun.wait(PATIENCE)
    until(lambda: state_of(f"/proc/{server}") in ("X", "Z"))


def try_a_carrier_that_is_killed_before_it_writes_its_record():
    """The mount is dead, and no record tells of it. Nobody has a lock there."""
    library, folder = f"{WORK}/killed.so", tempfile.mkdtemp(dir=WORK)
    subprocess.run(["cc", "-O2", "-Wall", "-Wextra", "-shared", "-fPIC", "-o", library, f"{TOP}/tests/mount/killed.c"], check=True, timeout=5 * PATIENCE)
    ran = subprocess.run([PROGRAM, "--trace", "none", folder], env={**os.environ, "TMPDIR": WORK, "LD_PRELOAD": library}, timeout=PATIENCE)
    same((ran.returncode, is_mounted(folder), outcome(os.listdir, folder)), (-signal.SIGKILL, True, "ENOTCONN"))
    mount = Mount("--trace", "none", folder=folder)
    same((mounts().count(folder), outcome(os.listdir, folder)), (1, []))
    same(mount.end(), (0, "lockd_mount: the folder was unmounted"))


def try_the_copy_of_a_mount_whose_carrier_was_killed():
    """A bind mount has the locks of the first path, and a carrier there is refused. Once both are dead, the next carrier takes the copy away, too."""
    mount, beside = Mount("--trace", "none"), tempfile.mkdtemp(dir=WORK)
    subprocess.run(["mount", "--bind", mount.folder, beside], check=True, timeout=PATIENCE)
    contains(refusal(folder=beside), "is mounted by lockd_mount already")
    (one,) = children(f"{beside}/held", 1)
    mount.end(mount.running.kill)
    for folder in mount.folder, beside:
        contains(refusal(folder=folder), "an earlier mount", str(one.pid))
    one.kill()
    for folder in beside, mount.folder:
        again = Mount("--trace", "none", folder=folder)
        same(outcome(os.listdir, folder), [])
        same(again.end(), (0, "lockd_mount: the folder was unmounted"))
        same(is_mounted(folder), False)


def try_ready_is_not_said_before_init_and_a_lookup_are_answered():
    for how in "no_init", "no_lookup":
        folder, listening = tempfile.mkdtemp(dir=WORK), socket.socket(socket.AF_UNIX, socket.SOCK_DGRAM)
        listening.bind(f"{WORK}/notify_{how}")
        listening.setblocking(False)
        begun = subprocess.Popen([PROGRAM, folder], stdout=subprocess.PIPE, stderr=subprocess.PIPE, text=True,
                                 env={**os.environ, "TMPDIR": WORK, "LOCKD": bad_server(how), "NOTIFY_SOCKET": f"{WORK}/notify_{how}"})
        until(lambda: is_mounted(folder))
        time.sleep(0.5)
        same((begun.poll(), outcome(listening.recv, 4096)), (None, "EAGAIN"))
        begun.terminate()
        said, wrong = begun.communicate(timeout=PATIENCE)
        same((begun.returncode, said, is_mounted(folder), outcome(listening.recv, 4096)), (2, "", False, "EAGAIN"))
        same(wrong, "lockd_mount: a signal ended it as it started; nothing is mounted\n")


def try_a_reply_of_a_bad_length():
    mount = Mount(LOCKD=bad_server("bad_later"))
    outcome(os.stat, f"{mount.folder}/later")
    same(mount.end(lambda: None), (3, "legal"))
    mount.says("lockd_mount: the server sent a reply of a length that none has\n")
    assert not mount.is_mounted()


def try_no_message_goes_before_the_reply_to_a_flush_of_the_carrier():
    """It would be taken first by one of several workers, and the owner may be that of the next open file."""
    mount = Mount(LOCKD=bad_server("answers"))
    fd = os.open(f"{mount.folder}/held", os.O_RDWR | os.O_CREAT)
    ofd(fd, WRITE)
    os.close(fd)
    same(outcome(os.stat, f"{mount.folder}/another"), "ENOENT")
    same(mount.end(), (0, "legal"))


def try_a_flush_that_is_never_answered_keeps_nobody_from_the_end():
    for how in [Mount.term] + [abort] * can_abort():
        mount = Mount(LOCKD=bad_server("no_flush"))
        fd = os.open(f"{mount.folder}/held", os.O_RDWR | os.O_CREAT)
        ofd(fd, WRITE)
        os.close(fd)
        time.sleep(0.2)
        same(mount.end(lambda: how(mount)), (0, "legal"))


def try_a_reply_that_the_kernel_refuses_is_said_at_once():
    mount, begun = Mount(LOCKD=bad_server("bad_bodies")), time.monotonic()
    same([outcome(os.stat, f"{mount.folder}/body{at}") for at in range(20)], ["EIO"] * 20)
    mount.says("the kernel refused a reply: Invalid argument; 1 so far")
    # Once a second at most.
    assert mount.output().count("refused a reply") <= 3 + time.monotonic() - begun

    def counted():
        mount.running.send_signal(signal.SIGUSR1)
        time.sleep(0.05)
        return "20 refused by the kernel" in mount.output()

    until(counted)
    same(mount.end(), (0, "legal"))


def try_the_program_is_found():
    """Beside `lockd`, wherever that is."""
    folder = tempfile.mkdtemp(dir=WORK)
    shutil.copy(PROGRAM, f"{folder}/lockd_mount")
    env = {key: it for key, it in os.environ.items() if key != "LOCKD"}
    ran = subprocess.run([f"{folder}/lockd_mount", tempfile.mkdtemp(dir=WORK)], capture_output=True, text=True, timeout=PATIENCE, env=env)
    same(ran.returncode, 2)
    contains(ran.stderr, "no program `lockd` beside")
    shutil.copy(os.environ["LOCKD"], f"{folder}/lockd")
    at = tempfile.mkdtemp(dir=WORK)
    begun = subprocess.Popen([f"{folder}/lockd_mount", "--trace", "none", at], stdout=subprocess.PIPE, stderr=subprocess.DEVNULL, env=env, text=True)
    same(begun.stdout.readline(), f"mounted at {at}\n")
    begun.terminate()
    same(begun.wait(PATIENCE), 0)


# ---- Who isn't root ----

def try_a_user_mounts_by_fusermount3():
    if not shutil.which("fusermount3"):
        print("not tried: there is no fusermount3", flush=True)
        return
    device = tempfile.mkdtemp(dir=WORK) + "/fuse"
    os.mknod(device, 0o20666, os.makedev(10, 229))
    os.chmod(device, 0o666)
    subprocess.run(["mount", "--bind", device, "/dev/fuse"], check=True, timeout=PATIENCE)
    home = tempfile.mkdtemp(dir=WORK)
    os.chmod(WORK, 0o711)
    os.chown(home, NOBODY, NOBODY)
    carrier, server = copy_for_all(PROGRAM, f"{home}/lockd_mount"), copy_for_all(os.environ["LOCKD"], f"{home}/lockd")
    script = f"""
        cd {home}; mkdir locks run; XDG_RUNTIME_DIR={home}/run TMPDIR={home}; export XDG_RUNTIME_DIR TMPDIR
        begin() {{ rm -f said; {carrier} "$@" locks > said 2>&1 & until grep -qs "mounted at" said; do sleep 0.01; kill -0 $! || exit 9; done; }}
        begin; flock -n locks/a echo in; ls locks; chmod 600 locks/a; stat -c %a,%U locks/a; {carrier} locks 2>&1 | grep -c already
        fusermount3 -u locks; wait $!; echo $?
        begin --source 'a,b'; grep -o '^a,b ' /proc/mounts; kill $!; wait $!; echo $?
        begin; exec 9> locks/a; flock 9; kill $!; wait $!; echo $?; {carrier} locks 2>&1 | grep -c earlier; exec 9>&-
        begin; exec 9> locks/a; flock 9; kill -9 $!; wait $! 2> /dev/null; (: > locks/a) 2> /dev/null || echo dead; exec 9>&-
        begin; kill $!; wait $!; echo $?; tail -n 1 said; ls locks"""
    ran = subprocess.run(["setpriv", f"--reuid={NOBODY}", f"--regid={NOBODY}", "--clear-groups", "sh", "-c", script], text=True, cwd=home,
                         stdout=subprocess.PIPE, stderr=subprocess.STDOUT, timeout=5 * PATIENCE, stdin=subprocess.DEVNULL, env={**os.environ, "LOCKD": server})
    subprocess.run(["umount", "-l", "/dev/fuse"], check=True, timeout=PATIENCE)
    same(ran.stdout.split(), "in a 600,nobody 1 0 a,b 0 4 1 dead 0 legal".split())
