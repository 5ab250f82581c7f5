"""The toolchain's command `rt` as a module, so that the scripts here read crates and edits as it does.

python3 dev/kit.py prints how many checks this machine holds at a time.
"""
import importlib.machinery
import importlib.util
import os
import shutil
import sys

sys.dont_write_bytecode = True
TOP = os.path.dirname(os.path.dirname(os.path.realpath(__file__)))


def stop(why):
    print(why, file=sys.stderr)
    sys.exit(2)


def load():
    """Gives `rt` as a module, at the top of the repository, or ends with status 2 where it isn't installed."""
    found = shutil.which("rt")
    if not found:
        stop("rt isn't installed")
    loader = importlib.machinery.SourceFileLoader("rt", os.path.realpath(found))
    made = importlib.util.module_from_spec(importlib.util.spec_from_loader("rt", loader))
    loader.exec_module(made)
    os.chdir(TOP)
    return made


def crates(rt, names=()):
    """Gives the crates of these names, or all, lowest first."""
    found = rt.rtlib.crates_below(TOP)
    lacking = {*names} - {it.name for it in found}
    if lacking:
        stop(f"no crate is named {', '.join(sorted(lacking))}")
    return [it for it in found if not names or it.name in names]


def lanes(rt):
    """How many checks are held at a time: one a processor, and 4 GB of free memory for each."""
    return max(1, min(rt.processors(), rt.free() // 4_000_000_000))


if __name__ == "__main__":
    print(lanes(load()))
