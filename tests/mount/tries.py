"""What tests/mount/mount.sh runs in its namespace: each function of the modules beside it whose name begins with `try_` is one thing
that is tried. Those that take a mount share one, with 1 worker and with 4; the others, some at a time, have their own.
"""
import os, resource, signal, subprocess, sys, time, traceback
from tests.mount import begins, beside, ends, files, leaks, limits, locks, pieces, resumed, times
from tests.mount.kit import *

AT_A_TIME = 4


class TooLong(Exception):
    pass


def out_of_time(*_):
    raise TooLong("it takes too long")


def close_files():
    """Closes what is left open below a mount."""
    for fd in os.listdir("/proc/self/fd"):
        at = outcome(os.readlink, f"/proc/self/fd/{fd}")
        if at.startswith(WORK + "/") and at.count("/") > WORK.count("/") + 1:
            os.close(int(fd))


def passes(name, function, *words):
    """Whether it goes well. Its processes are killed at the end, and its files are closed."""
    signal.alarm(getattr(function, "seconds", 20 * PATIENCE))
    begun = time.monotonic()
    try:
        function(*words)
        well = True
    except BaseException as fault:
        where = traceback.extract_tb(fault.__traceback__)
        lines = ", ".join(str(it.lineno) for it in where[1:])
        print(f"{name}: {type(fault).__name__}: {fault} (lines {lines})", flush=True)
        well = False
    signal.alarm(0)
    for child in list(Child.every):
        try:
            child.kill()
        except (AssertionError, OSError):
            Child.every.remove(child)
    close_files()
    if "-v" in sys.argv:
        print(f"{name}: {time.monotonic() - begun:.1f} s", flush=True)
    return well


def beside_each_other(tries):
    """How each went, in processes of their own."""
    left, running, outcomes = list(tries.items()), {}, []
    while left or running:
        while left and len(running) < AT_A_TIME:
            name, function = left.pop(0)
            pid = os.fork()
            if not pid:
                os._exit(0 if passes(name, function) else 1)
            running[pid] = name
        pid, status = os.wait()
        if running.pop(pid, None):
            if os.waitstatus_to_exitcode(status) == 77:
                sys.exit(77)
            outcomes.append(status == 0)
    return outcomes


def chosen(names):
    words = [it for it in sys.argv[1:] if it != "-v"]
    return [it for it in names if not words or any(word in it for word in words)]


def verdict(mount, wanted=(0, "legal")):
    same(mount.end(), wanted)


def prepare():
    signal.signal(signal.SIGALRM, out_of_time)
    resource.setrlimit(resource.RLIMIT_NOFILE, (8192, 8192))
    if AS_USER:
        return
    # Records of mounts stay in this namespace, and connections can be aborted.
    if subprocess.run(["mount", "-t", "tmpfs", "none", "/run"]).returncode:
        print("mount/tries: not tried: nothing can be mounted here", file=sys.stderr)
        sys.exit(77)
    if not os.path.ismount("/sys/fs/fuse/connections"):
        subprocess.run(["mount", "-t", "fusectl", "none", "/sys/fs/fuse/connections"])


def shared(names, every, workers, program=PROGRAM):
    """How those went that share a mount with so many workers."""
    names = chosen(names)
    if not names:
        return []
    mount, whose = Mount("--workers", workers, program=program), f"{workers} workers" + (", as a user" if AS_USER else "")
    outcomes = [passes(f"{name}, {whose}", every[name], mount) for name in names]
    outcomes.append(passes(f"the trace, {whose}", verdict, mount))
    print(f"{whose}: {mount.output().splitlines()[-1]}", flush=True)
    return outcomes


def main():
    prepare()
    every = {}
    for module in leaks, resumed, pieces, locks, files, beside, limits, ends, begins, times:
        every.update((name, it) for name, it in vars(module).items() if name.startswith("try_") and callable(it))
    alone = [name for name, it in every.items() if not it.__code__.co_argcount]
    together = [name for name in every if name not in alone]
    if AS_USER:
        # A user can't give a file away, and the rest is tried by root.
        outcomes = shared([it for it in together if "owners" not in it and "random" not in it], every, "1")
    else:
        outcomes = shared(together, every, "1")
        outcomes += shared([it for it in together if "random" not in it], every, "4", os.environ.get("LOCKD_MOUNT_CHECKED") or PROGRAM)
        outcomes += beside_each_other({name: every[name] for name in chosen(alone)})
        if chosen(together):
            outcomes += [it == 0 for it in [as_user("tests.mount.tries", *sys.argv[1:])] if it is not None]
    print(f"{sum(outcomes)} passed, {len(outcomes) - sum(outcomes)} failed", flush=True)
    return 0 if outcomes and all(outcomes) else 1


sys.exit(main())
