"""What programs see of a mount beside its locks: names, attributes, sizes, folders, and errors."""
import array, fcntl, os, select, socket, subprocess, time
from tests.mount.kit import *


# ---- Files ----

def try_unlink_while_open(mount):
    path = f"{mount.folder}/unlinked"
    one, two = children(path, 2)
    same(one.ask("record", "a", WRITE), "ok")
    os.unlink(path)
    same(outcome(os.stat, path), "ENOENT")
    same(two.ask("record", "a", WRITE), "EAGAIN")
    three, four = children(path, 2)
    same(three.ask("record", "a", WRITE), "ok")
    same(four.ask("record", "a", WRITE), "EAGAIN")
    same(one.ask("close", "a"), "ok")
    same([two.ask("record", "a", WRITE), four.ask("record", "a", READ)], ["ok", "EAGAIN"])


def folders(mount):
    return [it for it in os.scandir(mount.folder) if it.is_dir()]


def try_attributes(mount):
    path = f"{mount.folder}/attributes"
    os.close(os.open(path, os.O_RDWR | os.O_CREAT | os.O_EXCL, 0o640))
    found, root = os.stat(path), os.stat(mount.folder)
    same((oct(found.st_mode), found.st_size, found.st_nlink, found.st_uid), ("0o100640", 0, 1, os.getuid()))
    same((oct(root.st_mode), root.st_nlink, root.st_uid), ("0o40755", 2 + len(folders(mount)), os.getuid()))
    same(outcome(os.open, path, os.O_RDWR | os.O_CREAT | os.O_EXCL), "EEXIST")
    same(outcome(os.open, f"{mount.folder}/{'n' * 255}", os.O_RDWR | os.O_CREAT) > 0, True)
    same(outcome(os.open, f"{mount.folder}/{'n' * 256}", os.O_RDWR | os.O_CREAT), "ENAMETOOLONG")


def try_errors_of_what_it_does_not_do(mount):
    path = f"{mount.folder}/undone"
    fd = os.open(path, os.O_RDWR | os.O_CREAT)
    wanted = [
        ("EOPNOTSUPP", os.rename, path, path + "r"), ("EPERM", os.symlink, "a", path + "s"), ("EPERM", os.link, path, path + "l"),
        ("EPERM", os.mkfifo, path + "f"), ("EFBIG", os.truncate, path, 5), ("EFBIG", os.ftruncate, fd, 1), ("EFBIG", os.write, fd, b"a"),
        ("ENOTDIR", os.rmdir, path), ("E2BIG", os.setxattr, path, "user.a", bytes(60000)), ("EOPNOTSUPP", os.setxattr, path, "user.a", b"a"),
        ("EOPNOTSUPP", os.getxattr, path, "user.a"), ("EOPNOTSUPP", os.open, mount.folder, os.O_TMPFILE | os.O_RDWR),
        ("EFBIG", os.posix_fallocate, fd, 0, 5), ("ENOTTY", fcntl.ioctl, fd, 0x5401), ("ENOTDIR", os.open, f"{path}/x", os.O_RDONLY),
        ("ENOTDIR", os.listdir, path), (b"", os.read, fd, 10), (None, os.fsync, fd), (0, os.lseek, fd, 0, os.SEEK_END),
    ]
    found = [(error, function.__name__, outcome(function, *words)) for error, function, *words in wanted]
    same([it for it in found if it[0] != it[2]], [])
    os.close(fd)


def try_nothing_says_that_the_kernel_lacks_it(mount):
    """ENOSYS, "Function not implemented", reads as a broken kernel."""
    path, flags = f"{mount.folder}/lacks", 0x80086601
    fd, other = os.open(path, os.O_RDWR | os.O_CREAT), os.open(f"{path}_not", os.O_RDWR | os.O_CREAT)
    folder, listening = os.open(mount.folder, os.O_RDONLY), socket.socket(socket.AF_UNIX)
    calls = [
        (fcntl.ioctl, fd, flags, bytes(8)), (fcntl.ioctl, folder, flags, bytes(8)), (fcntl.ioctl, fd, 1, bytes(8)),
        (os.lseek, fd, 0, os.SEEK_DATA), (os.lseek, fd, 0, os.SEEK_HOLE), (os.copy_file_range, fd, other, 5),
        (os.sendfile, other, fd, 0, 5), (os.posix_fadvise, fd, 0, 0, os.POSIX_FADV_DONTNEED), (os.fdatasync, fd),
        (os.fsync, folder), (os.access, path, os.W_OK), (os.readlink, path),
        (os.listxattr, path), (os.removexattr, path, "user.a"), (os.getxattr, path, "system.posix_acl_access"),
        (os.setxattr, path, "system.posix_acl_access", b"\2\0\0\0"), (os.mknod, f"{path}_node", 0o60600, 0x700),
        (listening.bind, f"{path}_socket"), (select.select, [fd], [fd], [], 0), (fcntl.flock, folder, ALONE | AT_ONCE),
        (fcntl.fcntl, fd, fcntl.F_SETLEASE, READ), (os.replace, path, f"{path}_not"),
    ]
    found = [(function.__name__, outcome(function, *words)) for function, *words in calls]
    for it in fd, other, folder:
        os.close(it)
    listening.close()
    same([it for it in found if it[1] == "ENOSYS"], [])
    same([it[1] for it in found if it[0] in ("bind", "mknod")], ["EPERM", "EPERM"])


def try_files_that_the_kernel_lets_go_at_once():
    mount = Mount()
    for _ in as_often(3):
        names = [f"{mount.folder}/let_go{at}" for at in range(200)]
        for name in names:
            os.close(os.open(name, os.O_RDWR | os.O_CREAT))
        # It forgets what it knows of the folder's files, by a BATCH_FORGET.
        subprocess.run(["mount", "-i", "-o", "remount", mount.folder], check=True, timeout=PATIENCE)
        for name in names:
            os.unlink(name)
    same(mount.end(), (0, "legal"))


def try_a_burst_of_closing_files_takes_no_lock_away(mount):
    path = f"{mount.folder}/burst"
    for _ in as_often(5):
        # Files that are under way in a socket are closed by the kernel all at once, without a FLUSH.
        here, there = socket.socketpair()
        fds = [os.open(path, os.O_RDWR | os.O_CREAT) for _ in range(900)]
        for fd in fds:
            fcntl.flock(fd, SHARED)
            fcntl.flock(fd, NOT_HELD)
        for at in range(0, 900, 225):
            here.sendmsg([b"x"], [(socket.SOL_SOCKET, socket.SCM_RIGHTS, array.array("i", fds[at:at + 225]))])
        for fd in fds:
            os.close(fd)
        here.close()
        there.close()
        fds = []
        for _ in range(20):
            fds.append(os.open(path, os.O_RDWR))
            fcntl.flock(fds[-1], SHARED)
        time.sleep(0.2)
        for fd in fds[1:]:
            fcntl.flock(fd, NOT_HELD)
        other = os.open(path, os.O_RDWR)
        same(outcome(fcntl.flock, other, ALONE | AT_ONCE), "EAGAIN")
        for fd in [*fds, other]:
            os.close(fd)


def lock_by_a_new_file(path):
    fd = os.open(path, os.O_RDWR)
    try:
        ofd(fd, WRITE)
    finally:
        os.close(fd)


def try_a_burst_of_closing_files_takes_no_ofd_lock_away(mount):
    """A new open file may stand where an old one stood, and has its owner, while the old one's RELEASE waits."""
    path = f"{mount.folder}/ofd_burst"
    for _ in as_often(5):
        here, there = socket.socketpair()
        fds = [os.open(path, os.O_RDWR | os.O_CREAT) for _ in range(900)]
        for fd in fds:
            ofd(fd, READ, 100, 1)
        for at in range(0, 900, 225):
            here.sendmsg([b"x"], [(socket.SOL_SOCKET, socket.SCM_RIGHTS, array.array("i", fds[at:at + 225]))])
        for fd in fds:
            os.close(fd)
        here.close()
        there.close()
        fds = []
        for at in range(20):
            fds.append(os.open(path, os.O_RDWR))
            ofd(fds[-1], READ, at, 1)
        other = os.open(path, os.O_RDWR)
        time.sleep(0.2)
        lost = [at for at in range(20) if outcome(ofd, other, WRITE, at, 1) != "EAGAIN"]
        same(lost, [])
        for fd in [*fds, other]:
            os.close(fd)
    until(lambda: not outcome(lock_by_a_new_file, path))


# ---- What programs see ----

def try_ls_find_and_globs_while_files_come_and_go(mount):
    os.mkdir(f"{mount.folder}/many.d")
    for at in range(120):
        os.close(os.open(f"{mount.folder}/listed{at:03}{'n' * 90}", os.O_RDWR | os.O_CREAT))
    shell(mount, "ls | grep -c listed; set -- listed*; echo $#; find . -name 'listed*' -type f | wc -l; find . -name '*.d' -type d; ls -a | head -n 2",
          "120 120 120 ./many.d . ..")
    seen = []
    with os.scandir(mount.folder) as it:
        for at, entry in enumerate(it):
            seen.append(entry.name)
            # What goes and comes meanwhile: the others are told once each.
            if at == 10:
                for gone in range(100, 120):
                    os.unlink(f"{mount.folder}/listed{gone:03}{'n' * 90}")
                os.close(os.open(f"{mount.folder}/late", os.O_RDWR | os.O_CREAT))
    listed = [it for it in seen if it.startswith("listed")]
    assert len(listed) == len(set(listed)) and {f"listed{at:03}{'n' * 90}" for at in range(100)} <= set(listed)
    for at in range(100):
        os.unlink(f"{mount.folder}/listed{at:03}{'n' * 90}")
    os.unlink(f"{mount.folder}/late")
    os.rmdir(f"{mount.folder}/many.d")
    same([it for it in os.listdir(mount.folder) if it.startswith(("listed", "many", "late"))], [])


def try_seekdir_goes_back_to_where_it_was(mount):
    import ctypes
    libc = ctypes.CDLL(None, use_errno=True)
    libc.opendir.restype, libc.telldir.restype = ctypes.c_void_p, ctypes.c_long
    libc.readdir.restype = ctypes.c_void_p
    names = [f"seek{at}" for at in range(5)]
    for name in names:
        os.close(os.open(f"{mount.folder}/{name}", os.O_RDWR | os.O_CREAT))
    stream = ctypes.c_void_p(libc.opendir(mount.folder.encode()))

    def following():
        found = libc.readdir(stream)
        return ctypes.string_at(found + 19).decode() if found else None

    while following() != "seek1":
        pass
    place = libc.telldir(stream)
    same(following(), "seek2")
    while following():
        pass
    os.unlink(f"{mount.folder}/seek2")
    libc.seekdir(stream, ctypes.c_long(place))
    same([following(), following(), following()], ["seek3", "seek4", None])
    libc.closedir(stream)


def try_df(mount):
    # The kernel still forgets what was unlinked before.
    until(lambda: os.statvfs(mount.folder).f_ffree >= 4096 - len(os.listdir(mount.folder)))
    before = os.statvfs(mount.folder)
    same((before.f_files, before.f_namemax, before.f_blocks), (4096, 255, 0))
    os.close(os.open(f"{mount.folder}/counted", os.O_RDWR | os.O_CREAT))
    same(os.statvfs(mount.folder).f_ffree, before.f_ffree - 1)
    shell(mount, "df . | tail -n 1 | cut -d ' ' -f 1; df --output=itotal . | tail -n 1", "lockd 4096")


def try_touch_and_sizes(mount):
    path = f"{mount.folder}/touched"
    shell(mount, "touch touched && touch touched && : > touched && > touched && truncate -s 0 touched && stat -c %s touched", "0")
    fd = os.open(path, os.O_RDWR | os.O_TRUNC)
    same([outcome(os.ftruncate, fd, 0), outcome(os.ftruncate, fd, 7), outcome(os.truncate, path, 1 << 40)], [None, "EFBIG", "EFBIG"])
    os.utime(path, ns=(5, 1700000000123456789))
    os.utime(fd, (7, 8))
    found = os.stat(path)
    same((found.st_atime_ns, found.st_mtime_ns, found.st_size), (7 * 10**9, 8 * 10**9, 0))
    os.close(fd)


def try_times_of_a_file(mount):
    path, begun = f"{mount.folder}/times", time.time() - 0.1
    os.close(os.open(path, os.O_RDWR | os.O_CREAT))
    found = os.stat(path)
    assert all(begun <= it <= time.time() + 0.1 for it in (found.st_mtime, found.st_ctime, found.st_atime)), found
    shell(mount, "find . -name times -mmin +60; find . -name times -mmin -1; touch -d '3 hours ago' times; find . -name times -mmin +60; "
                 ": > later; find . -newer times -name later; test times -ot later && echo older", "./times ./times ./later older")
    os.close(os.open(path, os.O_WRONLY | os.O_TRUNC))
    assert os.stat(path).st_mtime >= begun
    before = os.stat(mount.folder).st_mtime_ns
    os.unlink(path)
    assert os.stat(mount.folder).st_mtime_ns > before >= begun


def try_modes_and_owners_are_kept(mount):
    path = f"{mount.folder}/kept"
    fd = os.open(path, os.O_RDWR | os.O_CREAT, 0o666)
    os.chmod(path, 0o4751)
    os.chown(path, 12, 34)
    found = os.stat(path)
    same((found.st_uid, found.st_gid, oct(found.st_mode & 0o777)), (12, 34, "0o751"))
    os.fchmod(fd, 0o600)
    os.close(fd)
    shell(mount, "ls -ln kept | cut -d ' ' -f 1,3,4; flock kept echo in; stat -c %a kept", "-rw------- 12 34 in 600")


def try_empty_folders_as_locks(mount):
    path = f"{mount.folder}/lock.d"
    os.mkdir(path, 0o750)
    found = os.stat(path)
    same((oct(found.st_mode), found.st_nlink, found.st_size, os.listdir(path)), ("0o40750", 2, 0, []))
    wanted = [
        ("EEXIST", os.mkdir, path), ("EEXIST", os.open, path, os.O_RDWR | os.O_CREAT | os.O_EXCL), ("EISDIR", os.open, path, os.O_RDWR | os.O_CREAT),
        ("EISDIR", os.unlink, path), ("EPERM", os.open, f"{path}/x", os.O_RDWR | os.O_CREAT), ("EPERM", os.mkdir, f"{path}/x"),
        ("ENOENT", os.stat, f"{path}/x"), ("ENOENT", os.rmdir, f"{path}/x"), ("EPERM", os.symlink, "a", f"{path}/x"),
        (None, os.chmod, path, 0o700), (None, os.utime, path, (1, 2)), (None, os.rmdir, path), ("ENOENT", os.rmdir, path), ("ENOENT", os.stat, path),
    ]
    found = [(error, function.__name__, outcome(function, *words)) for error, function, *words in wanted]
    same([it for it in found if it[0] != it[2]], [])
    os.mkdir(path)
    at = os.open(path, os.O_RDONLY | os.O_DIRECTORY)
    os.rmdir(path)
    same([outcome(os.listdir, at), outcome(os.open, path, os.O_RDONLY)], [[], "ENOENT"])
    os.close(at)
    shell(mount, "mkdir -p lock.d && rm -r lock.d; mkdir -m 700 lock.d; stat -c %a lock.d; rmdir lock.d; ls -d lock.d 2> /dev/null || echo gone", "700 gone")


def try_mkdir_leaves_no_open_file(mount):
    for _ in as_often(1500):
        os.mkdir(f"{mount.folder}/again.d")
        os.rmdir(f"{mount.folder}/again.d")
    os.mknod(f"{mount.folder}/made", 0o100600)
    shell(mount, "stat -c %F made; flock made echo in; rm made", "regular empty file in")


def try_twenty_count_under_mkdir(mount):
    counter = f"{WORK}/by_mkdir{mount.running.pid}"
    shell(mount, f"echo 0 > {counter}; for one in $(seq 20); do (for each in 1 2 3; do until mkdir held.d 2> /dev/null; do sleep 0.05; done; "
                 f"read n < {counter}; echo $((n + 1)) > {counter}; rmdir held.d; done) & done; wait; cat {counter}", "60")


def try_twenty_count_under_noclobber(mount):
    counter = f"{WORK}/by_noclobber{mount.running.pid}"
    shell(mount, f"echo 0 > {counter}; for one in $(seq 20); do (set -C; for each in 1 2 3; do until true 2> /dev/null > held; do sleep 0.05; done; "
                 f"read n < {counter}; echo $((n + 1)) >| {counter}; rm held; done) & done; wait; cat {counter}", "60")


def try_an_owner_written_into_its_lock(mount):
    """The file is made before the write fails, as on any full disk."""
    shell(mount, "(echo $$ > owner) 2> /dev/null || echo refused; test -e owner && test ! -s owner && echo empty; cat owner; rm owner", "refused empty")


def try_discard_writes():
    mount = Mount("--discard-writes")
    path = f"{mount.folder}/owner"
    shell(mount, "echo $$ > owner && echo more >> owner && cat owner && stat -c %s owner; dd if=/dev/zero of=owner bs=100k count=2 2> /dev/null; "
                 "stat -c %s owner; truncate -s 5 owner; cp /etc/passwd owner; wc -c < owner", "0 0 0")
    fd = os.open(path, os.O_RDWR)
    os.utime(path, (1, 1))
    same([os.write(fd, b"123"), os.pread(fd, 10, 0), os.fstat(fd).st_size, os.lseek(fd, 0, os.SEEK_END)], [3, b"", 0, 0])
    same([os.write(fd, bytes(4096)), os.pread(fd, 10, 0), os.stat(path).st_size, os.posix_fallocate(fd, 0, 5)], [4096, b"", 0, None])
    assert os.stat(path).st_mtime > time.time() - PATIENCE
    same(outcome(fcntl.flock, fd, ALONE | AT_ONCE), None)
    os.close(fd)
    same(mount.end(), (0, "legal"))


# ---- Who may ----

def other_user():
    """A process of nobody's, or nothing where there can't be one."""
    os.chmod(WORK, 0o711)
    other = Child()
    if other.ask("become", NOBODY) == "ok" and other.ask("open", "a", WORK, os.O_PATH) == "ok":
        return other
    print("not tried: this machine lets no process become another user who reaches the folder", flush=True)
    return None


def try_another_user_without_allow_other():
    mount = Mount()
    os.close(os.open(f"{mount.folder}/theirs", os.O_RDWR | os.O_CREAT))
    other = other_user()
    if other:
        same(other.ask("open", "a", f"{mount.folder}/theirs", os.O_RDWR), "EACCES")
        other.kill()
    same(mount.end(), (0, "legal"))


def try_permissions_of_others():
    mount = Mount("--allow-other", mode=0o1777)
    same(oct(os.stat(mount.folder).st_mode), "0o41777")
    for name, mode in ("private", 0o600), ("public", 0o666), ("readable", 0o644):
        os.close(os.open(f"{mount.folder}/{name}", os.O_RDWR | os.O_CREAT))
        os.chmod(f"{mount.folder}/{name}", mode)
    os.mkdir(f"{mount.folder}/held.d")
    other, at = other_user(), mount.folder
    if not other:
        same(mount.end(), (0, "legal"))
        return
    wanted = [
        ("EACCES", "open", "a", f"{at}/private", os.O_RDWR), ("EACCES", "open", "a", f"{at}/private", os.O_RDONLY),
        ("EACCES", "open", "a", f"{at}/readable", os.O_WRONLY), ("ok", "open", "r", f"{at}/readable", os.O_RDONLY),
        ("ok", "flock", "r", ALONE | AT_ONCE), ("ok", "open", "p", f"{at}/public", os.O_RDWR), ("ok", "record", "p", WRITE),
        ("EPERM", "call", "unlink", f"{at}/private"), ("EPERM", "call", "unlink", f"{at}/public"), ("EPERM", "call", "rmdir", f"{at}/held.d"),
        ("EPERM", "call", "chmod", f"{at}/public", 0o600), ("EPERM", "call", "chown", f"{at}/public", NOBODY, NOBODY),
        ("EACCES", "call", "utime", f"{at}/private"), ("ok", "call", "utime", f"{at}/public"), ("EPERM", "call", "utime", f"{at}/public", (1, 1)),
        ("EACCES", "call", "truncate", f"{at}/readable", 0), ("ok", "open", "m", f"{at}/mine", os.O_RDWR | os.O_CREAT | os.O_EXCL, 0o600),
        ("ok", "call", "chmod", f"{at}/mine", 0o640), ("EPERM", "call", "chown", f"{at}/mine", 0, 0), ("ok", "call", "unlink", f"{at}/mine"),
        ("ok", "call", "mkdir", f"{at}/mine.d"), ("ok", "call", "rmdir", f"{at}/mine.d"), ("EPERM", "call", "chmod", at, 0o777),
    ]
    found = [(words, other.ask(*words[1:])) for words in wanted]
    same([it for it in found if it[0][0] != it[1]], [])
    other.kill()
    same(mount.end(), (0, "legal"))


def try_mode_and_owner_of_the_folder():
    mount = Mount("--allow-other", mode=0o700)
    same(oct(os.stat(mount.folder).st_mode), "0o40700")
    other = other_user()
    if other:
        same(other.ask("open", "a", f"{mount.folder}/x", os.O_RDWR | os.O_CREAT), "EACCES")
        os.chmod(mount.folder, 0o1777)
        same(other.ask("open", "a", f"{mount.folder}/x", os.O_RDWR | os.O_CREAT), "ok")
        other.kill()
    same(mount.end(), (0, "legal"))
    mount = Mount("--allow-other", "--mode", "2770", "--uid", "12", "--gid", "34")
    found = os.stat(mount.folder)
    same((oct(found.st_mode), found.st_uid, found.st_gid), ("0o42770", 12, 34))
    os.close(os.open(f"{mount.folder}/x", os.O_RDWR | os.O_CREAT))
    same(os.stat(f"{mount.folder}/x").st_gid, 34)
    same(mount.end(), (0, "legal"))
