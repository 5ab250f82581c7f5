"""What tests/package/package.sh runs in its namespace: each function whose name begins with `try_` is one thing that is tried, in this order."""
import contextlib, glob, gzip, hashlib, os, re, shlex, shutil, signal, stat, subprocess, sys, tempfile, time, traceback

from tests.package.kit import *


def package(name, **environment):
    return subprocess.run([f"{TOP}/dist/package", f"{WORK}/{name}"], capture_output=True, text=True, timeout=PATIENCE, env={**os.environ, **environment})


def made(name, **environment):
    """A package, and where it is."""
    ran = package(name, **environment)
    same((ran.returncode, ran.stderr), (0, ""))
    return ran.stdout.strip()


def try_two_packages_have_the_same_bytes():
    """With other times, time zone and umask, and beside an older lockd_mount of the same version."""
    one = made("package")
    same(os.path.basename(one), f"lockd_{VERSION}_{printed_here('dpkg', '--print-architecture').strip()}.deb")
    lockd, older = shutil.copy(os.environ["LOCKD"], f"{WORK}/lockd"), f"{WORK}/lockd_mount"
    with open(older, "w", encoding="ascii") as file:
        file.write(f"#!/bin/sh\necho lockd_mount {VERSION}\n")
    os.chmod(older, 0o755)
    before = os.umask(0o077)
    two = made("package_again", TZ="Asia/Tokyo", TMPDIR=WORK, LOCKD=lockd, LOCKD_MOUNT=older)
    os.umask(before)
    with open(one, "rb") as first, open(two, "rb") as second:
        assert first.read() == second.read(), "the second package has other bytes"


def try_a_program_that_is_older_than_its_sources():
    lockd = shutil.copy(os.environ["LOCKD"], f"{WORK}/lockd_of_before")
    os.utime(lockd, (0, 0))
    ran = package("of_before", LOCKD=lockd)
    same((ran.returncode, f"{lockd} is older than {TOP}/crates/" in ran.stderr, os.path.exists(f"{WORK}/of_before")), (2, True, False))


def the_package():
    return glob.glob(f"{WORK}/package/*.deb")[0]


def installs():
    if not os.path.exists(f"{ROOT}/var/lib/dpkg"):
        make_dpkg(the_package())
    shutil.copy(the_package(), f"{ROOT}/tmp/lockd.deb")
    ran = inside("dpkg", "--force-unsafe-io", "-i", "/tmp/lockd.deb")
    os.remove(f"{ROOT}/tmp/lockd.deb")
    same((ran.returncode, ran.stderr), (0, ""))


def try_lintian_finds_no_error():
    """Its warnings are said, and fail nothing: another version has others. It leaves files in its TMPDIR."""
    if not shutil.which("lintian"):
        return "not tried, since lintian isn't installed"
    ran = subprocess.run(["lintian", "--allow-root", "--fail-on", "error", the_package()], capture_output=True, text=True, timeout=PATIENCE,
                         env={**os.environ, "TMPDIR": WORK})
    same((ran.returncode, ran.stdout + ran.stderr if ran.returncode else ""), (0, ""))
    return ran.stdout.strip().replace("\n", "; ")


def try_what_is_installed():
    installs()
    same(printed("dpkg-query", "-W", "-f", "${db:Status-Abbrev}${Version}", "lockd"), f"ii {VERSION}")
    same(printed("lockd", "--version").split()[:2], ["lockd", VERSION])
    same(printed("lockd_mount", "--version").split()[:2], ["lockd_mount", VERSION])
    for it in "lockd", "lockd_mount", "lockd_locks", "lockd_report":
        same(printed("bash", "-c", f". /usr/share/bash-completion/completions/{it} && complete -p {it}").count("\n"), 1)
    about = f"{ROOT}/usr/share/doc/lockd"
    for page in "README.md", "docs/MOUNT.md", "docs/COMMANDS.md":
        for link in re.findall(r"\]\((?!http)([^)#]+)", text_of(f"{about}/{page}")):
            assert os.path.isfile(f"{about}/{os.path.dirname(page)}/{link}"), f"{page}: {link} isn't installed"
    with gzip.open(f"{about}/changelog.gz", "rt", encoding="utf-8") as file:
        first, *lines, _ = file.read().splitlines()
    same(first, f"lockd ({VERSION}) unstable; urgency=medium")
    same([it for it in lines if not re.fullmatch(r"|  [*[] .{,75}|    \S.{,74}", it)], [])


def try_each_man_page_names_the_options():
    """Those of `lockd` are compared by tests/commands/man.sh."""
    for name, section in ("lockd_mount", 8), ("lockd_locks", 1), ("lockd_report", 1):
        if section == 1 and not os.path.exists(f"{ROOT}/usr/bin/python3"):
            continue
        with gzip.open(f"{ROOT}/usr/share/man/man{section}/{name}.{section}.gz", "rt", encoding="utf-8") as file:
            options = re.search(r"^\.SH OPTIONS\n(.*?)^\.SH ", re.sub(r"\\f.|\\(?=-)", "", file.read()), re.M | re.S)[1]
        named, helped = ({*re.findall(r"(?<![\w-])--?[a-z][a-z-]*", it)} for it in (options, printed(name, "--help")))
        same((name, sorted(named ^ helped)), (name, []))


def try_what_readme_says():
    shell = Shell()
    for command, wanted in [("cd /usr/share/doc/lockd", ""), *commands(f"{ROOT}/usr/share/doc/lockd/README.md", "Try it")]:
        shell.follows(command, wanted)
        if command.startswith("umount"):
            until_all_have_ended()
    shell.ends()
    for it in glob.glob(f"{ROOT}/tmp/*"):
        shutil.rmtree(it) if os.path.isdir(it) else os.remove(it)


def try_what_mount_refuses():
    os.makedirs(f"{ROOT}/srv/locks/file")
    for option, status, said in [("ro", 1, "no option ro"), ("nothing=1", 1, "no option nothing=1"), ("fair=1", 1, "fair takes no value"),
                                 ("mode", 1, "mode takes a value"), ("resume=", 1, "resume takes a value"), ("mode=9", 32, "nothing is mounted"), ("rw", 32, "isn't empty"),
                                 ("trace-full=refuse", 32, "refuse isn't for a mount")]:
        ran = inside("mount", "-t", "fuse.lockd", "-o", option, "none", "/srv/locks")
        same((ran.returncode, said in ran.stderr, is_mounted("/srv/locks")), (status, True, False))
    shutil.rmtree(f"{ROOT}/srv/locks")
    until_all_have_ended()
    same(glob.glob(f"{ROOT}/tmp/*"), [])


def try_mounts_that_begin_in_one_second():
    """Two at a time, and twice, by a clock that stands still: each FILE has a name of its own."""
    os.mkdir(f"{ROOT}/usr/local/bin")
    put("usr/local/bin/date", "#!/bin/sh\necho 1000\n")
    os.chmod(f"{ROOT}/usr/local/bin/date", 0o755)
    os.mkdir(f"{ROOT}/srv/traces")
    folders = "/srv/one", "/srv/two"
    for folder in folders:
        os.mkdir(f"{ROOT}{folder}")
    for count in 2, 4:
        with contextlib.ExitStack() as stack:
            begun = [stack.enter_context(started("mount", "-t", "fuse.lockd", "-o", "resume=/srv/traces/trace,times=/srv/traces/times", "none", it,
                                                 stderr=subprocess.STDOUT)) for it in folders]
            same([(it.wait(timeout=PATIENCE), it.stdout.read()) for it in begun], [(0, b"")] * 2)
        for folder in folders:
            printed("flock", f"{folder}/job", "true")
            printed("umount", folder)
        until_all_have_ended()
        for kind in "trace", "times":
            files = glob.glob(f"{ROOT}/srv/traces/{kind}.1000*")
            same((len(files), all(map(os.path.getsize, files))), (count, True))
    for it in "/usr/local/bin/date", *(f"/srv/traces/{it}" for it in os.listdir(f"{ROOT}/srv/traces")):
        os.remove(f"{ROOT}{it}")
    for it in "/usr/local/bin", "/srv/traces", *folders:
        os.rmdir(f"{ROOT}{it}")


def try_a_signal_to_mount_before_a_carrier_is_there():
    """It comes as the helper of mount(8) has made its folder, and then its pipe. Nothing is left."""
    os.mkdir(f"{ROOT}/usr/local/bin")
    os.mkdir(f"{ROOT}/srv/locks")
    for name in "mktemp", "mkfifo":
        put(f"usr/local/bin/{name}", f'#!/bin/sh\n/usr/bin/{name} "$@"\nkill $PPID\n')
        os.chmod(f"{ROOT}/usr/local/bin/{name}", 0o755)
        ran = inside("/sbin/mount.fuse.lockd", "none", "/srv/locks", "-o", "trace=none")
        same((name, ran.returncode, ran.stderr, is_mounted("/srv/locks"), glob.glob(f"{ROOT}/tmp/*")), (name, 32, "", False, []))
        until_all_have_ended()
        os.remove(f"{ROOT}/usr/local/bin/{name}")
    for it in "/usr/local/bin", "/srv/locks":
        os.rmdir(f"{ROOT}{it}")


def sources():
    """What /proc/mounts has of our mounts: the source and the folder of each."""
    return [line.split()[:2] for line in printed("cat", "/proc/mounts").splitlines() if line.split()[2] == "fuse.lockd"]


def try_a_second_mount_of_all_does_nothing():
    """The line of fstab is that of MOUNT.md. A dead mount is mounted anew by its folder's name."""
    line, source, folder = re.search(r"^((\S+) (/srv/\S+) fuse\.lockd .*)$", text_of(f"{TOP}/docs/MOUNT.md"), re.M).groups()
    os.mkdir(f"{ROOT}{folder}")
    put("etc/fstab", f"{line}\n")
    for _ in range(2):
        ran = inside("mount", "-a")
        same((ran.returncode, ran.stdout, ran.stderr, sources()), (0, "", "", [[source, folder]]))
    os.kill(the_server()[1], signal.SIGKILL)
    until_all_have_ended()
    for words, fails in (("-a",), True), ((folder,), False):
        printed("mount", *words)
        same((inside("flock", f"{folder}/job", "true").returncode != 0, sources()), (fails, [[source, folder]]))
    printed("umount", folder)
    until_all_have_ended()
    for it in glob.glob(f"{ROOT}/var/lib/locks.*"):
        os.remove(it)
    os.remove(f"{ROOT}/etc/fstab")
    os.rmdir(f"{ROOT}{folder}")
    left, = glob.glob(f"{ROOT}/tmp/lockd_mount.*")
    shutil.rmtree(left)


def try_an_upgrade_while_a_lock_is_held():
    """By a line of fstab, for a folder with a space in its name."""
    os.makedirs(f"{ROOT}/srv/my locks")
    put("etc/fstab", "none /srv/my\\040locks fuse.lockd allow_other,mode=1777,nofail,resume=/srv/trace,x-systemd.requires-mounts-for=/srv 0 0\n")
    printed("mount", "/srv/my locks")
    same((is_mounted("/srv/my locks"), stat.S_IMODE(os.stat(f"{ROOT}/srv/my locks").st_mode)), (True, 0o1777))
    job = "/srv/my locks/job"
    with started("flock", job, "sh", "-c", "echo held; cat") as holder:
        same(holder.stdout.readline(), b"held\n")
        with started("flock", job, "echo", "got") as waiter:
            waits = lambda: re.findall(r"^FLOCK +WRITE\*.* job$", printed("lockd_locks", "/srv/my locks"), re.M)
            if os.path.exists(f"{ROOT}/usr/bin/python3"):
                until(waits, "no process waits for the lock")
            installs()
            server, carrier = the_server()
            assert is_of_before(server), "the program wasn't replaced"
            printed("pkill", "-x", "-P", str(carrier), "lockd")
            until(lambda: processes("lockd").keys() - {server}, "no other server was started")
            same((the_server()[1], is_of_before(the_server()[0])), (carrier, False))
            same((inside("flock", "-n", job, "true").returncode, waiter.poll()), (1, None))
            holder.stdin.close()
            same((waiter.wait(timeout=PATIENCE), waiter.stdout.read()), (0, b"got\n"))
    printed("umount", "/srv/my locks")
    until_all_have_ended()
    trace, = glob.glob(f"{ROOT}/srv/trace.*")
    with open(trace, "rb") as lines:
        same(inside("lockd", "check", stdin=lines).stdout, "legal\n")
    os.remove(trace)
    os.remove(f"{ROOT}/etc/fstab")
    os.rmdir(f"{ROOT}/srv/my locks")


def try_the_package_needs_what_each_debian_has():
    needed = printed_here("dpkg-deb", "-f", the_package(), "Depends")
    same(sorted({*re.findall(r"([a-z][a-z0-9.+-]+)(?: \(.*?\))?(?:, |$)", needed.strip())} - {"libc6", "libgcc-s1"}), [])


def words_of(unit, key, folder, name):
    """The words of a command of a unit, as systemd makes them of its text."""
    line = re.search(rf"^{key}=[-:]*(.*)$", text_of(unit), re.M)[1]
    fill = {"%%": "%", "%f": folder, "%i": name}
    return [re.sub("%.", lambda it: fill[it[0]], word) for word in shlex.split(line)]


def try_what_the_template_unit_starts():
    """For a folder whose path has to be escaped."""
    folder, name = "/srv/it's \"my\" $HOME `x` %f", r"srv-it\x27s\x20\x22my\x22\x20\x24HOME\x20\x60x\x60\x20\x25f"
    if shutil.which("systemd-escape"):
        same(printed_here("systemd-escape", "-p", folder).strip(), name)
    unit = f"{ROOT}/usr/lib/systemd/system/lockd@.service"
    os.mkdir(f"{ROOT}/var/lib/lockd")
    printed(*words_of(unit, "ExecStartPre", folder, name))
    with started(*words_of(unit, "ExecStart", folder, name), stderr=subprocess.DEVNULL) as carrier:
        same(carrier.stdout.readline().decode(), f"mounted at {folder}\n")
        same((is_mounted(folder), len(glob.glob(f"{ROOT}/var/lib/lockd/{glob.escape(name)}.[0-9]*"))), (True, 1))
        before = the_server()[0]
        reload = words_of(unit, "ExecReload", folder, name)
        same([inside(*reload, env={**ENVIRONMENT, "MAINPID": str(it)}).returncode for it in (before, carrier.pid)], [1, 0])
        until(lambda: processes("lockd").keys() - {before}, "no other server was started")
        printed("flock", f"{folder}/job", "true")
        carrier.terminate()
        same((carrier.wait(timeout=PATIENCE), is_mounted(folder)), (0, False))
    os.rmdir(f"{ROOT}{folder}")


def try_systemd_takes_the_units():
    if not shutil.which("systemd-analyze"):
        return "systemd-analyze isn't installed"
    there = f"{WORK}/units"
    os.mkdir(there)
    for name, unit in ("lockd", "lockd"), (r"lockd@srv-my\x20locks", "lockd@"):
        text = text_of(f"{ROOT}/usr/lib/systemd/system/{unit}.service")
        with open(f"{there}/{name}.service", "w", encoding="utf-8") as file:
            file.write(text.replace("/usr/bin/lockd_mount", f"{ROOT}/usr/bin/lockd_mount"))
        ran = subprocess.run(["systemd-analyze", "verify", "--man=no", f"{there}/{name}.service"], capture_output=True, text=True, timeout=PATIENCE)
        same((ran.returncode, [it for it in ran.stderr.splitlines() if "lockd" in it]), (0, []))


def try_nothing_is_left():
    same(inside("dpkg", "--force-unsafe-io", "-P", "lockd").returncode, 0)
    is_as_before()


def is_as_before():
    same(sorted(written() ^ BEFORE), [])


# ---- dist/install ----

def install(*words, status=0):
    """What it says on standard error."""
    ran = subprocess.run([f"{TOP}/dist/install", *words, ROOT], capture_output=True, text=True, timeout=PATIENCE)
    same((ran.returncode, ran.stderr if not status else ""), (status, ""))
    return ran.stderr


def uninstalls_nothing(prefix, *said):
    before = written()
    told = install("--uninstall", prefix, status=2)
    same(([it for it in said if it not in told], sorted(before ^ written())), ([], []))


def try_an_installation():
    """Twice in each place, by two spellings of it. What is in use isn't removed."""
    os.mkdir(f"{ROOT}/srv/locks")
    for prefix in "/usr/local", "/srv/of/ours":
        install(f"/{prefix.replace('/', '//')}/")
        put(f"{prefix}/share/lockd/of_an_older_one", "")
        with open(f"{ROOT}{prefix}/share/lockd/installed", "a", encoding="utf-8") as file:
            file.write(f"{hashlib.sha256().hexdigest()} {prefix}/share/lockd/of_an_older_one\n")
        install(prefix)
        printed(f"{prefix}/sbin/mount.fuse.lockd", "none", "/srv/locks", "-o", "trace=none")
        server, carrier = the_server()
        same([os.readlink(f"/proc/{it}/exe") for it in (server, carrier)], [f"{ROOT}{prefix}/bin/{it}" for it in ("lockd", "lockd_mount")])
        printed("flock", "/srv/locks/job", "true")
        uninstalls_nothing(prefix, f"process {server}: ", f"process {carrier}: {prefix}/bin/lockd_mount ", "unmount the folders")
        printed("umount", "/srv/locks")
        until_all_have_ended()
        wants = f"{ROOT}/etc/systemd/system/multi-user.target.wants"
        os.makedirs(wants)
        os.symlink(f"{prefix}/lib/systemd/system/lockd@.service", f"{wants}/lockd@srv-locks.service")
        uninstalls_nothing(prefix, "unit lockd@srv-locks.service, which is enabled")
        shutil.rmtree(f"{ROOT}/etc/systemd")
        install("--uninstall", prefix)
    os.rmdir(f"{ROOT}/srv/locks")
    os.rmdir(f"{ROOT}/run/lockd_mount")
    is_as_before()


LIST = "/usr/local/share/lockd/installed"
PAGE = "/usr/local/share/man/man1/lockd.1"


def changes(page):
    """The user changes an installed file. What it was."""
    before = text_of(f"{ROOT}{page}")
    put(page, "of another\n")
    return before


def names_what_stays(page, *words, status, said):
    told = install(*words, status=status)
    same((f"{ROOT}{page} " in told, said in told, told.count("\n"), text_of(f"{ROOT}{page}")), (True, True, 1, "of another\n"))


def files_of(prefix):
    return sorted(it[len(ROOT):] for it in below(f"{ROOT}{prefix}") if not os.path.isdir(it))


def try_an_installation_touches_no_file_of_others():
    """One that is there before, and one that was changed. The list keeps that one, and removes it once it is as it was again."""
    install("/usr/local")
    line, before = f"{hashlib.sha256(text_of(f'{ROOT}{PAGE}').encode()).hexdigest()} {PAGE}", changes(PAGE)
    for words, status, said in [(("/usr/local",), 2, "is in the way"), (("--uninstall", "/usr/local"), 1, "it stays")] * 2:
        names_what_stays(PAGE, *words, status=status, said=said)
    same(files_of("/usr/local"), [LIST, PAGE])
    folders = [f"folder {it[len(ROOT):]}" for it in below(f"{ROOT}/usr/local") if os.path.isdir(it)]
    same(sorted(text_of(f"{ROOT}{LIST}").splitlines()), sorted([line, *folders]))
    put(PAGE, before)
    install("--uninstall", "/usr/local")
    is_as_before()


def try_prefixes_that_are_none():
    for prefix in "usr/local", "/usr/../local", "/usr/./local", "/usr/my local":
        same("PREFIX" in install(prefix, status=2), True)
    is_as_before()


def try_a_changed_file_that_the_user_removes():
    """After an uninstallation; the list goes with it."""
    install("/usr/local")
    changes(PAGE)
    install("--uninstall", "/usr/local", status=1)
    os.remove(f"{ROOT}{PAGE}")
    install("--uninstall", "/usr/local")
    is_as_before()


def try_a_changed_file_that_a_newer_installation_lacks():
    """It stays, and the list has it, also after the next installation."""
    older = "/usr/local/share/lockd/of_an_older_one"
    install("/usr/local")
    put(older, "as it was\n")
    with open(f"{ROOT}{LIST}", "a", encoding="utf-8") as file:
        file.write(f"{hashlib.sha256(text_of(f'{ROOT}{older}').encode()).hexdigest()} {older}\n")
    before = changes(older)
    for _ in range(2):
        ran = subprocess.run([f"{TOP}/dist/install", "/usr/local", ROOT], capture_output=True, text=True, timeout=PATIENCE)
        same((ran.returncode, ran.stderr), (0, f"install: {ROOT}{older} isn't as this script installed it: it stays\n"))
    names_what_stays(older, "--uninstall", "/usr/local", status=1, said="it stays")
    same(files_of("/usr/local"), [LIST, older])
    put(older, before)
    install("--uninstall", "/usr/local")
    is_as_before()


def try_a_list_without_checksums():
    """The line says what to remove."""
    os.makedirs(f"{ROOT}/usr/local/share/lockd")
    put("usr/local/share/lockd/other", "")
    put(LIST, "".join(f"/usr/local/share/{it}\n" for it in ("", "lockd/", "lockd/other")))
    for words in ("/usr/local",), ("--uninstall", "/usr/local"):
        told = install(*words, status=2)
        same((told.startswith(f"install: {ROOT}{LIST} has no checksums"), told.count("\n"), files_of("/usr/local")), (True, 1, [LIST, "/usr/local/share/lockd/other"]))
        same((f"Remove the files that it lists, below {ROOT}, then those of its folders" in told, told.endswith("and then it\n")), (True, True))
    shutil.rmtree(f"{ROOT}/usr/local/share")
    is_as_before()


def try_an_installation_and_the_package():
    """The package is installed over what dist/install has installed. All files that it has stay its own."""
    install("/usr")
    installs()
    told = install("--uninstall", "/usr", status=1).splitlines()
    same((len(told) > 50, [it for it in told if not it.endswith("belongs to the package lockd: it stays")]), (True, []))
    same(printed("dpkg", "--verify", "lockd"), "")
    same("belongs to the package lockd; remove it first" in install("/usr", status=2), True)
    try_nothing_is_left()


# ---- systemd itself ----

INIT = "/lib/systemd/systemd"
START = """
echo $$ > {group}/cgroup.procs
exec unshare --cgroup --mount --uts --ipc --propagation private --pid --fork --kill-child sh -c '
    mount -t proc proc {root}/proc && mount -t sysfs -o ro sysfs {root}/sys && mount -t cgroup2 cgroup2 {root}/sys/fs/cgroup &&
    mount --rbind {root}/dev {root}/dev && exec chroot {root} {init} --unit=tried.target --log-target=null --show-status=0'
"""
TARGET = "[Unit]\nRequires=tried.service\n"
SERVICE = """[Unit]
DefaultDependencies=no
[Service]
ExecStart=/bin/bash /root/tried.sh
StandardOutput=file:/root/tried.out
StandardError=file:/root/tried.out
"""
WRITTEN = r"""lockd.service: locked
lockd@srv-my\x20locks.service: locked
after a reload: held
after an upgrade: held
at the end: free
fstab: locked
fstab: after /var/lib
fstab: unmounted
removed
0
"""


def is_removed(group):
    try:
        for at, _, _ in os.walk(group, topdown=False):
            os.rmdir(at)
    except OSError:
        # A process is still on its way out.
        return False
    return True


def try_systemd_itself():
    """It is the first process of a namespace, in the root folder, with a group of processes of its own."""
    groups = [line.split()[4] for line in text_of("/proc/self/mountinfo").splitlines() if " - cgroup2 " in line]
    if not groups or not os.path.exists(f"{ROOT}{INIT}"):
        return "there is no systemd, or no cgroup2"
    installs()
    shutil.copy(the_package(), f"{ROOT}/srv/lockd.deb")
    shutil.copy(f"{TOP}/tests/package/systemd.sh", f"{ROOT}/root/tried.sh")
    for folder in "etc/systemd/system", "srv/by fstab", "sys", "var/tmp":
        os.makedirs(f"{ROOT}/{folder}")
    for path, text in {"etc/systemd/system/tried.target": TARGET, "etc/systemd/system/tried.service": SERVICE, "etc/machine-id": "1" * 32 + "\n",
                       "etc/fstab": "none /srv/by\\040fstab fuse.lockd allow_other,mode=1777,noauto,resume=/var/lib/trace,x-systemd.requires-mounts-for=/var/lib 0 0\n"}.items():
        put(path, text)
    group = tempfile.mkdtemp(prefix="try_package.", dir=groups[0])
    try:
        subprocess.run(["sh", "-c", START.format(group=group, root=ROOT, init=INIT)], timeout=PATIENCE, env={**ENVIRONMENT, "container": "chroot"})
    finally:
        until(lambda: is_removed(group), f"{group} stays")
    return same(text_of(f"{ROOT}/root/tried.out"), WRITTEN)


def main():
    tries = [(name, it) for name, it in globals().items() if name.startswith("try_") and (it != try_systemd_itself or "--systemd" in sys.argv)]
    failed = 0
    for name, it in tries:
        begun = time.monotonic()
        try:
            said = it()
            if said or "-v" in sys.argv:
                print(f"{name}: {said or 'passed'} ({time.monotonic() - begun:.1f} s)", flush=True)
        except Exception as fault:
            failed += 1
            lines = ", ".join(str(it.lineno) for it in traceback.extract_tb(fault.__traceback__)[1:])
            print(f"{name}: {type(fault).__name__}: {fault} (lines {lines})", flush=True)
    print(f"{len(tries) - failed} passed, {failed} failed")
    return 1 if failed else 0


BEFORE = begins()
sys.exit(main())
