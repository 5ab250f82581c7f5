"""What the tries of the package share: the root folder, commands and processes in it, and a shell that follows a page."""
import contextlib, glob, os, re, subprocess, sys, time

TOP = os.path.dirname(os.path.dirname(os.path.dirname(os.path.abspath(__file__))))
WORK = os.environ["TRY_PACKAGE_WORK"]
ROOT = f"{WORK}/root"
UPPER = f"{WORK}/written"
PATIENCE = 300  # seconds that a step may take: the gate may run on a slow machine
NOT_TRIED = 77
# No variable of this machine goes into the root folder.
ENVIRONMENT = {"PATH": "/usr/local/sbin:/usr/local/bin:/usr/sbin:/usr/bin:/sbin:/bin", "HOME": "/root", "LANG": "C.UTF-8"}


def same(found, wanted):
    assert found == wanted, f"{found!r}, and not {wanted!r}"


def until(holds, what):
    last = time.monotonic() + PATIENCE
    while not holds():
        assert time.monotonic() < last, f"out of patience: {what}"
        time.sleep(0.01)


def text_of(path):
    with open(path, encoding="utf-8") as file:
        return file.read()


VERSION = text_of(f"{TOP}/VERSION").strip()


def printed_here(*words):
    return subprocess.run(words, capture_output=True, text=True, check=True, timeout=PATIENCE).stdout


# ---- The root folder ----

def mount(*words):
    subprocess.run(["mount", *words], check=True, timeout=PATIENCE, capture_output=True)


def over(name):
    """A folder of this machine, below what is written to it in the root folder."""
    os.makedirs(f"{UPPER}/{name}/upper")
    os.makedirs(f"{UPPER}/{name}/work")
    os.mkdir(f"{ROOT}/{name}")
    mount("-t", "overlay", "overlay", "-o", f"lowerdir=/{name},upperdir={UPPER}/{name}/upper,workdir={UPPER}/{name}/work", f"{ROOT}/{name}")


def put(path, text):
    with open(f"{ROOT}/{path}", "w", encoding="utf-8") as file:
        file.write(text)


def make_root():
    for folder in ROOT, UPPER:
        os.mkdir(folder)
        mount("-t", "tmpfs", "-o", "mode=0755", "tmpfs", folder)
    for name in "usr", "bin", "sbin", "lib", "lib32", "lib64", "libx32":
        if os.path.islink(f"/{name}"):
            os.symlink(os.readlink(f"/{name}"), f"{ROOT}/{name}")
        elif os.path.isdir(f"/{name}"):
            over(name)
    for name in "dev", "etc", "home", "proc", "root", "run", "run/mount", "srv", "tmp", "var", "var/lib":
        os.mkdir(f"{ROOT}/{name}")
    os.chmod(f"{ROOT}/tmp", 0o1777)
    # What was installed on this machine by hand isn't there.
    mount("-t", "tmpfs", "tmpfs", f"{ROOT}/usr/local")
    mount("-t", "proc", "proc", f"{ROOT}/proc")
    for name in "null", "zero", "urandom", "fuse":
        put(f"dev/{name}", "")
        mount("--bind", f"/dev/{name}", f"{ROOT}/dev/{name}")
    for name in "ld.so.cache", "alternatives":
        if os.path.exists(f"/etc/{name}"):
            subprocess.run(["cp", "-a", f"/etc/{name}", f"{ROOT}/etc/{name}"], check=True, timeout=PATIENCE)
    put("etc/passwd", "root:x:0:0:root:/root:/bin/sh\nnobody:x:65534:65534:nobody:/nonexistent:/usr/sbin/nologin\n")
    put("etc/group", "root:x:0:\nnogroup:x:65534:\n")
    os.symlink("/proc/self/mounts", f"{ROOT}/etc/mtab")


def make_dpkg(package):
    """The packages that ours needs are installed in the root folder, as they are on this machine, but with no list of their files."""
    for name in "info", "updates", "triggers":
        os.makedirs(f"{ROOT}/var/lib/dpkg/{name}")
    needed, native = printed_here("dpkg-deb", "-f", package, "Depends"), printed_here("dpkg", "--print-architecture").strip()
    names = re.findall(r"([a-z][a-z0-9.+-]+)(?: \(.*?\))?(?:, |$)", needed.strip())
    fields = "Package", "Status", "Architecture", "Version", "Maintainer", "Description"
    form = "".join(f"{it}: ${{{it}}}\n" for it in fields)
    put("var/lib/dpkg/status", "".join(f"{printed_here('dpkg-query', '-W', '-f', form, f'{it}:{native}')}\n" for it in names))
    for name in names:
        put(f"var/lib/dpkg/info/{name}.list", "/.\n")


def below(top, is_left_out=lambda path: False):
    for at, folders, names in os.walk(top):
        folders[:] = [it for it in folders if not is_left_out(f"{at}/{it}")]
        yield from (f"{at}/{it}" for it in [*folders, *names])


def written():
    """What is in the root folder and not on this machine, and what is missing of this machine. The files of dpkg and of mount(8) don't count."""
    found = {*below(ROOT, lambda path: os.path.ismount(path) or path in (f"{ROOT}/var/lib/dpkg", f"{ROOT}/run/mount")), *below(f"{ROOT}/usr/local")}
    for upper in glob.glob(f"{UPPER}/*/upper"):
        name = os.path.basename(os.path.dirname(upper))
        found.update(it for it in below(upper) if os.path.islink(it) or not os.path.isdir(it) or not os.path.isdir(f"/{name}{it[len(upper):]}"))
    return found


def begins():
    """The root folder, with what it has before anything is installed."""
    try:
        make_root()
    except subprocess.CalledProcessError as error:
        print(f"package/kit: not tried: {error.stderr.decode().strip()}", file=sys.stderr)
        sys.exit(NOT_TRIED)
    return written()


# ---- Commands in it ----

def inside(*words, **how):
    return subprocess.run(["chroot", ROOT, *words], **{"env": ENVIRONMENT, "stdin": subprocess.DEVNULL, "capture_output": True, "text": True, "timeout": PATIENCE, **how})


def printed(*words):
    ran = inside(*words)
    assert ran.returncode == 0, f"{' '.join(words)}: status {ran.returncode}, {ran.stderr!r}"
    return ran.stdout


@contextlib.contextmanager
def started(*words, **how):
    with subprocess.Popen(["chroot", ROOT, *words], env=ENVIRONMENT, stdin=subprocess.PIPE, stdout=subprocess.PIPE, **how) as process:
        try:
            yield process
        finally:
            process.kill()


def processes(name):
    """The processes of this name, each with that of its parent."""
    found = {}
    for pid in filter(str.isdigit, os.listdir("/proc")):
        try:
            state = text_of(f"/proc/{pid}/stat")
        except OSError:
            continue
        before, _, after = state.rpartition(")")
        if before.partition("(")[2] == name and after.split()[0] != "Z":
            found[int(pid)] = int(after.split()[1])
    return found


def is_mounted(folder):
    name = re.sub(r"[\\ \t\n]", lambda it: f"\\{ord(it[0]):03o}", f"{ROOT}{folder}")
    return any(line.split()[4] == name for line in text_of("/proc/self/mountinfo").splitlines())


def until_all_have_ended():
    until(lambda: not processes("lockd_mount") and not processes("lockd"), "lockd_mount runs on")


def the_server():
    """The server and the carrier, once there is one that has begun."""
    found = {}

    def is_one():
        found.clear()
        found.update(processes("lockd"))
        return len(found) == 1
    until(is_one, "there isn't one server")
    return [*found.items()][0]


def is_of_before(pid):
    """Whether the process is of a program that isn't installed any more."""
    return os.readlink(f"/proc/{pid}/exe").endswith("(deleted)")


# ---- What README says ----

class Shell:
    """A shell in the root folder, which gets a command once all is there that the one before has to write."""

    def __init__(self):
        self.shell = subprocess.Popen(["chroot", ROOT, "bash"], env=ENVIRONMENT, stdin=subprocess.PIPE, stdout=subprocess.PIPE, stderr=subprocess.PIPE)
        os.set_blocking(self.shell.stdout.fileno(), False)
        self.came = ""

    def reads(self):
        self.came += (self.shell.stdout.read() or b"").decode()
        return self.came

    def follows(self, command, wanted):
        """Behind what a command writes stands its status, between zero bytes."""
        self.came = ""
        self.shell.stdin.write(f"{command}\nprintf '\\0%d\\0' $?\n".encode())
        self.shell.stdin.flush()
        last = time.monotonic() + PATIENCE
        while not (re.search("\0(\\d+)\0", self.reads()) and len(re.sub("\0\\d+\0", "", self.came)) >= len(wanted)):
            assert time.monotonic() < last and self.shell.poll() is None, f"{command!r} wrote {self.came!r}"
            time.sleep(0.01)
        status = re.search("\0(\\d+)\0", self.came)[1]
        written_now = re.sub("\0\\d+\0", "", self.came)
        if written_now != wanted or (status != "0" and not wanted):
            self.shell.kill()
            raise AssertionError(f"{command!r} wrote {written_now!r} with status {status}, and told {self.shell.stderr.read()!r}")

    def ends(self):
        self.shell.stdin.close()
        same((self.shell.wait(timeout=PATIENCE), self.shell.stdout.read() or b""), (0, b""))


def commands(page, heading):
    """The commands of a section, each with the output that is shown of it."""
    section = re.search(rf"^## {heading}\n(.*?)^## ", text_of(page), re.M | re.S)[1]
    for block in re.findall(r"^```console.*?\n(.*?)^```", section, re.M | re.S):
        found = re.split(r"^\$ ((?:.*\\\n)*.*)\n", block, flags=re.M)
        yield from zip(found[1::2], found[2::2])
