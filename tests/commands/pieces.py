"""Tries the commands of the built `lockd` that read a text and write one, where each read and each write takes a few bytes, fails or is interrupted, and where
the text or a line of it is long.

`calls.c` is preloaded to the program; it wants a C compiler. `tries.py` says how it ends.
"""
import errno
import sys

from tests import calls
from tests import tries
from tests import worked
from tests.tries import cases, line_of, marked, run, text_of
from tests.worked import CREATED, MADE, THREE, asks

SIZES = 1, 2, 7, 31, 32, 33, 100, 1000
INIT, INIT_REPLY = line_of(tries.INIT), line_of(tries.INIT_REPLY)
# The head that goes on behind the worked trace.
HEAD = "state 6 0 4096 256 256 1024 3 2\nnode 2 1 1 33188 0 0 61\nfile 1 2\nlock 2 7 0 9 1 11 0\ngo\n"
# Each command, what it reads, and what it prints then.
WRITERS = (["script"], asks(THREE), THREE), (["bytes"], INIT, INIT_REPLY), (["state"], THREE, HEAD), (["state"], HEAD, HEAD)
EXAMPLES = *WRITERS, (["check", "--quiet"], THREE, "legal\nquiet\n"), (["check", "--quiet"], HEAD, "legal\nquiet\n")
JUDGES = ["check"], ["check", "--quiet"], ["check", "--cut"]


def ends(words, text, printed, told="", status=None, most=0, reads=0, writes=0, error=0):
    """The command prints and tells this, if its reads and writes take so many bytes, and the read or write of this number fails with this error. Behind it
    each fails, if the error isn't EINTR. If no status is named, it is 2 where something is told, and else 0."""
    read, write = ((most, it, it if error == errno.EINTR else calls.ANY, error) if it else (most,) for it in (reads, writes))
    ran = run(*words, text=text if isinstance(text, bytes) else text.encode(), env=calls.environment(read=read, write=write))
    wanted = (printed, told, (2 if told else 0) if status is None else status)
    assert (ran.stdout.decode(), ran.stderr.decode(), ran.returncode) == wanted, (words, read, write, ran)


def try_scripts_in_pieces():
    """Each worked script gives its trace, which is legal."""
    found = worked.stored()
    for size in SIZES:
        for _, trace, quiet in found:
            ends(["script"], asks(trace), trace, most=size)
            ends(["check", "--quiet"], trace, f"legal\n{'' if quiet else 'not '}quiet\n", most=size)
    return f"{len(found)} scripts, each in pieces of {len(SIZES)} sizes"


def try_hex_sessions_in_pieces():
    found = cases(text_of("tests/cases/bytes.txt"))
    assert len(found) == 20, len(found)
    for size in 1, 7, 100:
        for _, case in found:
            read, printed = marked(case, "> ").replace("INIT\n", INIT), marked(case, "< ").replace("INIT\n", INIT_REPLY)
            ends(marked(case, "$ ").split(), read, printed, marked(case, "! "), most=size)
    return f"{len(found)} sessions"


def try_traces_in_pieces():
    """Whole, and cut off in the second line."""
    for size in SIZES:
        ends(["check", "--quiet"], THREE, "legal\nquiet\n", most=size)
        ends(["check"], THREE[:40], "", "bad line 2\n", most=size)
        ends(["check", "--cut"], THREE[:40], "begins\n", most=size)


def try_heads_in_pieces():
    """Whole, and cut off in each line of the head, whose end is missing then."""
    for size in SIZES:
        for words, text, printed in EXAMPLES:
            if HEAD in (text, printed):
                ends(words, text, printed, most=size)
        for end in range(0, len(HEAD), 7):
            lines = HEAD[:end].count("\n")
            judged, listed = ("begins\n", ("", f"differs {lines + 1}\n", 1)) if lines else ("legal\n", ("[]\n",))
            ends(["check", "--cut"], HEAD[:end], judged, most=size)
            ends(["locks", "--json"], HEAD[:end], *listed, most=size)


def try_lines_that_are_too_long():
    """A line of so many bytes more than a good beginning is bad, however it comes. One with no newline may be cut off."""
    lengths = [(it, size) for it in (677, 678, 679, 1500) for size in (1, 700)] + [(it, size) for it in (65_000, 65_536, 200_000) for size in (4096, 0)]
    for more, size in lengths:
        text = f"{CREATED}{MADE}ask 0 2 2 0 0 0 setlk {'1' * more}"
        for words in JUDGES:
            ends(words, f"{text}\ntell 1 ok\nx\n", "", "bad line 3\n", most=size)
        ends(["check"], text, "", "bad line 3\n", most=size)
        ends(["check", "--cut"], text, "legal\n", most=size)
        ends(["script"], f"{CREATED}ask 0 2 2 0 0 0 setlk {'1' * more}\nx\n", "", "bad line 2\n", most=size)


def try_an_input_of_more_than_a_mebibyte():
    """It has a bad line at its end, and nothing is printed before that is read."""
    text = "ask 0 2 1 0 0 0 lookup 6161\n" * 40_000
    assert len(text) > 1 << 20
    for size in 0, 4096:
        ends(["script"], f"{text}x\n", "", "bad line 40001\n", most=size)


def reads_of(text):
    """How many reads of eight bytes take a text, with the one that finds its end."""
    return -(-len(text) // 8) + 1


def try_each_read_of_a_command_fails():
    """That is told, whatever came before, and nothing is printed."""
    count = 0
    for words, text in [*((words, text) for words, text, _ in WRITERS), *((words, it) for words in JUDGES for it in (THREE, HEAD, "tell 1 ok\n", "x\n"))]:
        for number in range(1, reads_of(text) + 1):
            ends(words, text, "", "read failed\n", most=8, reads=number, error=errno.EIO)
            count += 1
    return f"{count} fail"


def try_each_read_is_interrupted():
    """It is tried again. That each of these is made is seen by `try_each_read_of_a_command_fails`."""
    for words, text, printed in EXAMPLES:
        for number in range(1, reads_of(text) + 1):
            ends(words, text, printed, most=8, reads=number, error=errno.EINTR)


def try_each_write_fails_or_is_interrupted():
    """One that is interrupted is tried again. Behind one that fails nothing is printed."""
    for words, text, printed in EXAMPLES:
        for number in range(1, reads_of(printed)):
            ends(words, text, printed, most=8, writes=number, error=errno.EINTR)
            ends(words, text, printed[:8 * (number - 1)], "write failed\n", most=8, writes=number, error=errno.EIO)


OTHERS = "judged by --runs 4096 --parked 256 --files 256 --open 1024: perhaps it was made by other rules\n"
NO_REPLY_IS_DUE = "line 1 of standard input: tell 1 ok\nthe rules want an order there: no reply is due\n" + OTHERS
NEITHER = "bad line 2\nline 2 of standard input: x\nit begins with x, and with neither ask nor tell\n"
UNENDED = "bad line 4\nline 4 of standard input: tell 2 o\nno newline ends it: check --cut drops the end of a trace that was cut off\n"
A_REPLY = f"bad line 2\nline 2 of standard input: {MADE}a script has orders alone: leave out the replies\n"
BAD = "tell 1 ok\nx\ny\n"


def try_what_is_said_of_lines_in_pieces():
    """`--verbose` counts the lines, or says what is wrong with one, as of a whole text. With `--at` no line behind is looked at."""
    at = ["locks", "--verbose", "--json", "--at"]
    for size in 1, 7, 32, 1000:
        for words, text, printed, told, status in (
                (["check", "-v"], "", "legal\n", "0 lines, 0 orders\n", 0),
                (["check", "-v"], THREE, "legal\n", "6 lines, 3 orders\n", 0),
                (["check", "-v"], THREE[:THREE.rindex("tell")], "differs 6\n", f"line 6 of standard input is missing\nthe rules want: tell 3 err 11\n{OTHERS}", 1),
                (["check", "-v"], THREE[:THREE.index("tell 2 ok") + 8], "", UNENDED, 2),
                (["check", "-v"], "tell 1 ok\ntell 2 ok\n", "differs 1\n", NO_REPLY_IS_DUE, 1),
                (["check", "-v"], BAD, "", NEITHER, 2),
                (["script", "-v"], CREATED, CREATED + MADE, "1 line, 1 order\n", 0),
                (["script", "-v"], THREE, "", A_REPLY, 2),
                ([*at, "0"], BAD, "[]\n", "0 lines, 0 orders\n", 0),
                ([*at, "1"], BAD, "", f"differs 1\n{NO_REPLY_IS_DUE}", 1),
                ([*at, "2"], BAD, "", NEITHER, 2),
                ([*at, "2"], THREE, "[]\n", "2 lines, 1 order\n", 0)):
            ends(words, text, printed, told, status, most=size)


def try_what_is_said_of_the_second_read():
    for option, why in ([], ""), (["-v"], "standard input can't be read: connection reset\n"):
        for command, text in ("script", asks(THREE)), ("bytes", INIT), ("check", THREE):
            ends([command, *option], text, "", f"read failed\n{why}", most=8, reads=2, error=errno.ECONNRESET)


if __name__ == "__main__":
    sys.exit(calls.main("commands/pieces", globals()))
