"""Makes the library of `calls.c`, by which a program's calls of some kinds are counted, move few bytes, fail and are noted, and by which it dies at one;
or that of `turns.c`, which does the same to the calls by which a server begins a new piece of its trace."""
import errno
import itertools
import os
import shutil
import subprocess
import sys
import tempfile

from tests import tries

WORK = tempfile.TemporaryDirectory(prefix="try-calls-")
LIBRARY, NUMBERS = f"{WORK.name}/calls.so", itertools.count()
ANY = 1 << 32


def environment(notes="", **kinds):
    """That of a program whose calls of each of these kinds move so many bytes at most, or any number if that is 0. Behind that may stand the number of
    the first call that fails, that of the last one, and their error, or 0 if they move nothing. They are noted in this file."""
    return {**os.environ, "LD_PRELOAD": LIBRARY, "NOTES": notes, **{kind: " ".join(map(str, it)) for kind, it in kinds.items()}}


def refusing(number, counts=""):
    """That of a program whose allocation of this number is refused, from 1, or none if it is 0. At its end this file says how many there were."""
    return {**environment(allocate=[0, number, number, errno.ENOMEM]), "COUNTS": counts}


def dying(how, number):
    """That of a program that dies `before` its call of this number, `after` it, or after `half` of it: those of files and sockets alone count."""
    return {**environment(), "DIES": f"{how} {number}"}


def turning(notes="", dies="", fails=(), most=0):
    """That of a server with the library of `turns.c`, which says what these are. Each that fails is a kind, its numbers and its error."""
    return {**os.environ, "LD_PRELOAD": LIBRARY, "NOTES": notes, "DIES": dies, "FAILS": ",".join(" ".join(map(str, it)) for it in fails), "MOST": str(most)}


def new_notes():
    return f"{WORK.name}/notes.{next(NUMBERS)}"


def noted(notes):
    """A line for each call: its kind, and how many bytes it moved, or minus its error."""
    with open(notes, encoding="ascii") as file:
        return file.read().splitlines()


def allocations(counts):
    """How many a program asked for, by the file that it left."""
    return next(int(line.split()[1]) for line in noted(counts) if line.startswith("allocate "))


def main(script, names, library="calls"):
    """As `tries.main`, once this library is made. The status is 77 if there is no C compiler."""
    compiler = shutil.which("cc")
    if not compiler:
        print(f"{script}: not tried: there is no C compiler", file=sys.stderr)
        return tries.NOT_TRIED
    subprocess.run([compiler, "-shared", "-fPIC", "-O1", "-fno-builtin", "-o", LIBRARY, f"{tries.TOP}/tests/shims/{library}.c"], check=True)
    return tries.main(script, names)
