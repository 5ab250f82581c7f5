"""The worked scripts, as the traces that they give: those that are stored in `tests/cases/scripts.txt`, and those that reach the limits."""
import re

from tests.tries import cases, text_of

CREATED = "ask 0 1 1 0 0 0 create 0 420 61\n"
MADE = "tell 1 made 2 33188 1 0 0 1\n"
THREE = CREATED + MADE + """\
ask 0 2 2 0 0 0 setlk 1 7 0 9 1 11 0
tell 2 ok
ask 0 3 2 0 0 0 setlk 1 8 9 9 0 12 0
tell 3 err 11
"""


def asks(trace):
    """The script of a trace: its ask lines."""
    return "".join(line for line in trace.splitlines(True) if line.startswith("ask "))


def trace_of(case):
    return "".join(re.findall(r"^(?:ask|tell) .*\n", case, re.M))


def stored():
    """The title of each stored script, its trace, and whether that is quiet."""
    found = [(title, trace_of(case), "not quiet" not in case) for title, case in cases(text_of("tests/cases/scripts.txt"))]
    assert len(found) == 28, len(found)
    return found


def limits():
    """The title of each script that reaches a limit, and its trace."""
    return [(it.__name__, it()) for it in (full_directory, all_files_open, no_room_for_locks, no_room_to_wait, longest_name)]


def made(unique, name, node, fh):
    return f"ask 0 {unique} 1 0 0 0 create 0 420 {name.encode().hex()}\ntell {unique} made {node} 33188 1 0 0 {fh}\n"


def runs(count):
    """A file, and a write lock of its owner 7 on three bytes of each four: so many."""
    return CREATED + MADE + "".join(f"ask 0 {it + 2} 2 0 0 0 setlk 1 7 {4 * it} {4 * it + 2} 1 11 0\ntell {it + 2} ok\n" for it in range(count))


def full_directory():
    """256 files fill the directory, and 1,024 opens its open files; the first test that fails gives the error."""
    files = "".join(made(it, f"{it:03}", it + 1, it) for it in range(1, 257))
    opens = "".join(made(it + 1, "001", 2, it) for it in range(257, 1025))
    return files + """\
ask 0 257 1 0 0 0 create 0 420 323537
tell 257 err 28
""" + opens + """\
ask 0 1026 1 0 0 0 create 0 420 303031
tell 1026 err 23
ask 0 1027 1 0 0 0 create 1 420 303031
tell 1027 err 17
ask 0 1028 1 0 0 0 create 0 420 323537
tell 1028 err 28
"""


def all_files_open():
    """A free name, and no more open files."""
    return "".join(made(it, "a", 2, it) for it in range(1, 1025)) + "ask 0 1025 1 0 0 0 create 0 420 62\ntell 1025 err 23\n"


def no_room_for_locks():
    """4,096 runs are all that there is room for: a lock that would make one more is refused, and so is an unlock that would cut one in two; a lock over
    all of them is set."""
    return runs(4096) + """\
ask 0 4098 2 0 0 0 setlk 1 7 1 1 2 11 0
tell 4098 err 37
ask 0 4099 2 0 0 0 setlk 1 8 20000 20000 0 12 0
tell 4099 err 37
ask 0 4100 2 0 0 0 getlk 1 8 0 0 1 12 0
tell 4100 lock 0 2 1 11
ask 0 4101 2 0 0 0 setlk 1 7 0 16383 1 11 0
tell 4101 ok
ask 0 4102 2 0 0 0 getlk 1 8 9 9 0 12 0
tell 4102 lock 0 16383 1 11
"""


def no_room_to_wait():
    """256 requests wait, and no more can. An interrupt makes room for one. One that would close a circle is told so, whether there is room or not. Closing the
    file ends them all."""
    return (CREATED + MADE + "ask 0 2 2 0 0 0 setlk 1 7 0 0 1 11 0\ntell 2 ok\n"
            + "".join(f"ask 0 {it} 2 0 0 0 setlkw 1 {1000 + it} 0 0 1 12 0\n" for it in range(3, 259)) + """\
ask 0 259 2 0 0 0 setlk 1 1003 5 5 1 12 0
tell 259 ok
ask 0 260 2 0 0 0 setlkw 1 7 5 5 1 11 0
tell 260 err 35
ask 0 261 2 0 0 0 setlkw 1 2000 0 0 1 12 0
tell 261 err 37
ask 0 262 2 0 0 0 interrupt 258
tell 258 err 4
ask 0 263 2 0 0 0 setlkw 1 2000 0 0 1 12 0
ask 0 264 2 0 0 0 release 1 0 0
tell 264 ok
""" + "".join(f"tell {it} err 9\n" for it in [*range(3, 258), 263]))


def longest_name():
    """A name of 255 bytes."""
    return f"ask 0 1 1 0 0 0 create 0 420 {'61' * 255}\n{MADE}"
