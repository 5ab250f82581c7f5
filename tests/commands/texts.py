"""Tries what `script`, `bytes` and `check` of the built `lockd` read, what they write, and how they end.

The texts stand in `tests/cases`, and `worked.py` has the scripts that reach the limits. `tries.py` says how it ends.
"""
import os
import resource
import select
import signal
import socket
import sys
import tempfile
from concurrent.futures import ThreadPoolExecutor

from tests import fuse
from tests import tries
from tests import worked
from tests.tries import cases, fails_to_read, fills_up, line_of, marked, run, text_of
from tests.worked import CREATED, MADE, THREE, asks

INIT_BYTES, INIT, INIT_REPLY = tries.INIT, line_of(tries.INIT), line_of(tries.INIT_REPLY)


def is_so(words, text, printed, told=""):
    """The command prints this and tells that. Its status is 2 where something is told, else 1 where a trace differs, and else 0."""
    ran = run(*words, text=text if isinstance(text, bytes) else text.encode())
    status = 2 if told else 1 if printed.startswith("differs") else 0
    assert (ran.stdout.decode(), ran.stderr.decode(), ran.returncode) == (printed, told, status), (words, ran)


def are_so(name, count):
    """Each case of a file of such cases is so, and there are so many."""
    found = cases(text_of(f"tests/cases/{name}.txt"))
    for _, case in found:
        read, printed = marked(case, "> ").replace("INIT\n", INIT), marked(case, "< ").replace("INIT\n", INIT_REPLY)
        is_so(marked(case, "$ ").split(), read, printed, marked(case, "! "))
    assert len(found) == count, len(found)


def answers(trace, *options, quiet=True):
    """The script of a trace gives this trace, which is legal, and quiet or not."""
    is_so(["script", *options], asks(trace), trace)
    is_so(["check", "--quiet", *options], trace, f"legal\n{'' if quiet else 'not '}quiet\n")


def try_worked_scripts():
    found = worked.stored()
    for _, trace, quiet in found:
        answers(trace, quiet=quiet)
    assert len(found) == 28, len(found)
    answers("")


def try_scripts_under_rules():
    found, differ = cases(text_of("tests/cases/rules.txt")), 0
    for _, case in found:
        trace = worked.trace_of(case)
        answers(trace, *marked(case, "$ ").split())
        for line, *others in map(str.split, marked(case, "~ ").splitlines()):
            is_so(["check", *others], trace, f"differs {line}\n")
            differ += 1
    assert (len(found), differ) == (15, 16), (len(found), differ)


def try_no_more_nodes_and_then_files():
    answers(worked.full_directory())


def try_no_more_open_files():
    answers(worked.all_files_open())


def try_no_room_for_locks():
    answers(worked.no_room_for_locks())


def try_room_for_one_more_run():
    """Of 4,097 runs there is room for one more: an unlock cuts one in two, and then no other lock is set."""
    trace = worked.runs(4096) + """\
ask 0 4098 2 0 0 0 setlk 1 7 1 1 2 11 0
tell 4098 ok
ask 0 4099 2 0 0 0 setlk 1 8 20000 20000 0 12 0
tell 4099 err 37
"""
    answers(trace, "--runs", "4097")
    is_so(["check", "--quiet"], trace, "differs 8196\n")


def try_an_owner_for_each_run():
    """4,096 owners have a read lock each, which is all that there is room for: one more is refused. A longer lock of the first is set. A GETLK of an owner
    without a lock is told that one, as the least owner's. Behind an unlock there is room again."""
    answers(CREATED + MADE
            + "".join(f"ask 0 {it + 2} 2 0 0 0 setlk 1 {it} 0 0 0 11 0\ntell {it + 2} ok\n" for it in range(4096)) + """\
ask 0 4098 2 0 0 0 setlk 1 4096 0 0 0 11 0
tell 4098 err 37
ask 0 4099 2 0 0 0 setlk 1 0 0 1 0 11 0
tell 4099 ok
ask 0 4100 2 0 0 0 getlk 1 5000 1 1 1 12 0
tell 4100 lock 0 1 0 11
ask 0 4101 2 0 0 0 setlk 1 3 0 0 2 11 0
tell 4101 ok
ask 0 4102 2 0 0 0 setlk 1 4096 0 0 0 11 0
tell 4102 ok
""")


def try_no_room_to_wait():
    """The owner of one that waits asks for another lock, so the trace isn't quiet."""
    answers(worked.no_room_to_wait(), quiet=False)


def try_the_longest_name_of_a_file():
    answers(worked.longest_name())
    is_so(["script"], asks(worked.longest_name()).replace("420 61", "420 6161"), "", "bad line 1\n")


def refuses_lines(command, good, rows):
    """Each row has words and a bad line, with `|` between them. It is the first or the third line of a text, whose others are good or come behind it."""
    for row in rows.strip("\n").split("\n"):
        line = row.split("|", 1)[1]
        is_so([command], f"{line}\n{good}", "", "bad line 1\n")
        is_so([command], f"{good}{good}{line}\nzz\n", "", "bad line 3\n")
    return f"{rows.count('|')} refused"


def try_scripts_with_a_bad_line():
    for text, line in (b"ask 0 1 ", 1), (f"{CREATED}{CREATED.strip()}".encode(), 2), (b"\xff\n", 1):
        is_so(["script"], text, "", f"bad line {line}\n")
    return refuses_lines("script", CREATED, """
a zero before the mode|ask 0 1 1 0 0 0 create 0 0420 61
a zero before the worker|ask 00 1 1 0 0 0 create 0 420 61
a plus sign|ask 0 +1 1 0 0 0 create 0 420 61
a minus sign|ask 0 -1 1 0 0 0 create 0 420 61
two spaces|ask 0 1  1 0 0 0 create 0 420 61
a space at the front| ask 0 1 1 0 0 0 create 0 420 61
a space at the end|ask 0 1 1 0 0 0 create 0 420 61\x20
a carriage return|ask 0 1 1 0 0 0 create 0 420 61\r
a tab|ask 0 1 1\t0 0 0 create 0 420 61
upper case hex|ask 0 1 1 0 0 0 create 0 420 6A
an odd number of digits|ask 0 1 1 0 0 0 create 0 420 616
a name that is no hex|ask 0 1 1 0 0 0 create 0 420 6g
a name with a zero byte|ask 0 1 1 0 0 0 create 0 420 610062
no name|ask 0 1 1 0 0 0 create 0 420\x20
a unique past 2^64 - 1|ask 0 18446744073709551616 1 0 0 0 create 0 420 61
a uid past 2^32 - 1|ask 0 1 1 4294967296 0 0 create 0 420 61
a lock type past 2^32 - 1|ask 0 2 2 0 0 0 setlk 1 7 0 9 4294967296 11 0
flags past 2^32 - 1|ask 0 2 2 0 0 0 setlk 1 7 0 9 1 11 4294967296
a seventeenth worker|ask 16 1 1 0 0 0 create 0 420 61
a mode past octal 777|ask 0 1 1 0 0 0 create 0 512 61
a flag that is no 0 or 1|ask 0 1 1 0 0 0 create 2 420 61
an unknown order|ask 0 1 1 0 0 0 symlink 0 420 61
a mode past 2^32 - 1|ask 0 1 1 0 0 0 mkdir 4294967296 61
a file that is made without a mode|ask 0 1 1 0 0 0 mknod 61
a flag before a mode|ask 0 1 1 0 0 0 mkdir 0 420 61
a mode of a name that goes|ask 0 1 1 0 0 0 rmdir 0 61
a message that is no order|ask 0 1 1 0 0 0 destroy
an order that isn't taken|ask 0 2 2 0 0 0 setlkw 1 7 0 9 1 11
an order in upper case|ask 0 1 1 0 0 0 CREATE 0 420 61
an unknown word|asks 0 1 1 0 0 0 create 0 420 61
a field too few|ask 0 2 2 0 0 0 setlk 1 7 0 9 1 11
a field too many|ask 0 2 2 0 0 0 setlk 1 7 0 9 1 11 0 0
a field of a getattr|ask 0 2 2 0 0 0 getattr 1
a drop that is no 0 or 1|ask 0 2 2 0 0 0 release 1 2 7
a forget past 2^64 - 1|ask 0 2 2 0 0 0 forget 18446744073709551616
no order|ask 0 1 1 0 0 0
an empty line|
a reply|tell 1 ok
""")


def try_sessions():
    are_so("bytes", 20)
    for text in "", "\n":
        is_so(["bytes"], text, "")
    # A line end and an empty line stand inside the message.
    is_so(["bytes"], f"{INIT[:2]}\n\n{INIT[2:]}", INIT_REPLY)


def try_the_longest_message():
    """A LOOKUP of a name of 8,151 letters, in a message of 8,192 bytes: ENAMETOOLONG."""
    lookup = fuse.lookup(2, b"a" * 8151)
    is_so(["bytes"], INIT + line_of(lookup), f"{INIT_REPLY}10000000dcffffff0200000000000000\n")


def try_hex_with_a_bad_line():
    is_so(["bytes"], INIT.strip(), "", "bad line 1\n")
    is_so(["bytes"], f"{INIT}38", "", "bad line 2\n")
    return refuses_lines("bytes", INIT, """
a letter that is no digit|3g
an odd number of digits|380
one digit|3
a space|38 00
a carriage return|38\r
a prefix|0x38
a letter beyond ASCII|3\u00e9
""")


def try_traces():
    are_so("check", 22)
    is_so(["check"], "ask 0 1 1 0 0 0 open", "", "bad line 1\n")
    is_so(["check", "--cut"], "no line at all", "legal\n")
    is_so(["check", "--cut"], "tell 1 ok\ntell 1 o", "differs 1\n")


def try_a_trace_that_is_cut_after_each_byte():
    """It is a beginning, and legal where it has as many replies as orders. Judged as a whole one it has to be whole."""
    for end in range(len(THREE) + 1):
        text = THREE[:end]
        lines = text.count("\n")
        is_so(["check", "--cut"], text, "begins\n" if lines % 2 else "legal\n")
        is_so(["check", "--cut", "--quiet"], text, "begins\n" if lines % 2 else "legal\nquiet\n")
        if text and text[-1] != "\n":
            is_so(["check"], text, "", f"bad line {lines + 1}\n")
        else:
            is_so(["check"], text, f"differs {lines + 1}\n" if lines % 2 else "legal\n")


def try_a_cut_trace_that_is_not_quiet():
    is_so(["check", "--cut", "--quiet"], CREATED + MADE + """\
ask 0 2 2 0 0 0 setlk 1 7 0 0 1 11 0
tell 2 ok
ask 0 3 2 0 0 0 setlkw 1 8 0 0 1 12 0
ask 0 4 2 0 0 0 setlk 1 8 5 5 0 12 0
tell 4 ok
tell 4""", "legal\nnot quiet\n")


def try_reads_that_fail():
    """Behind so many lines the input fails. That is told, whatever these are, and nothing is printed."""
    for words, line in ((["script"], CREATED), (["script"], "\n"), (["bytes"], "\n"), (["check"], CREATED),
                        (["check", "--cut", "--quiet"], CREATED)):
        for count in 0, 1, 40:
            ran = fails_to_read(*words, text=line.encode() * count)
            assert ran == (b"", b"read failed\n", 2), (words, count, ran)


def try_writes_that_fail():
    """The output takes so many bytes and no more."""
    for command, text, most in ("script", CREATED, 40), ("bytes", INIT, 40), ("check", "", 5):
        for left in 0, 1, most:
            ran = fills_up(command, text=text.encode(), left=left)
            assert ran == (b"write failed\n", 2), (command, left, ran)


OTHERS = "judged by --runs 4096 --parked 256 --files 256 --open 1024: perhaps it was made by other rules\n"


def says(words, text, printed, told, status):
    """The command prints and tells this with `--verbose`, and without it no more than the fault's line."""
    for option, wanted in ([], told if status == 2 else ""), (["--verbose"], told):
        ran = run(*words, *option, text=text.encode())
        wanted = wanted if option or status != 2 else wanted[:wanted.index("\n") + 1]
        assert (ran.stdout.decode(), ran.stderr.decode(), ran.returncode) == (printed, wanted, status), (words, option, ran)


def try_what_is_said_of_good_lines():
    """A trace of nothing isn't taken for one of a session."""
    for text, counts in ("", "0 lines, 0 orders\n"), (CREATED + MADE, "2 lines, 1 order\n"), (THREE, "6 lines, 3 orders\n"):
        says(["check"], text, "legal\n", counts, 0)
        says(["check", "--cut"], text + "tel", "legal\n", counts, 0)
        says(["locks", "--json"], text, run("locks", "--json", text=text.encode()).stdout.decode(), counts, 0)
    for lines, counts in (0, "0 lines, 0 orders\n"), (3, "3 lines, 2 orders\n"), (9, "6 lines, 3 orders\n"):
        words = ["locks", "--at", str(lines)]
        says(words, THREE, run(*words, text=THREE.encode()).stdout.decode(), counts, 0)
        if lines < 7:
            says(words, f"{THREE}x\n", run(*words, text=THREE.encode()).stdout.decode(), counts, 0)
    says(["check", "--cut"], THREE + CREATED.replace("0 1 1", "0 4 1"), "begins\n", "7 lines, 4 orders\n", 0)
    says(["script"], asks(THREE), THREE, "3 lines, 3 orders\n", 0)
    says(["script"], CREATED, CREATED + MADE, "1 line, 1 order\n", 0)


def try_what_is_said_of_a_difference():
    """The line, and what the rules want in its place: another reply, a reply and no order, an order and no reply, or a line that is missing."""
    four = "tell 3 err 35\n"
    for text, n, line, wanted in ((THREE.replace("err 11", "err 35"), 6, f": {four}", "the rules want: tell 3 err 11\n"),
                                  (CREATED + CREATED, 2, f": {CREATED}", f"the rules want: {MADE}"),
                                  (THREE + four, 7, f": {four}", "the rules want an order there: no reply is due\n"),
                                  (CREATED, 2, " is missing\n", f"the rules want: {MADE}")):
        says(["check"], text, f"differs {n}\n", f"line {n} of standard input{line}{wanted}{OTHERS}", 1)
    ran = run("locks", "-v", text=(THREE + four).encode())
    assert ran.stderr.decode() == f"differs 7\nline 7 of standard input: {four}the rules want an order there: no reply is due\n{OTHERS}", ran


# Lines of heads, and what is wrong with them in a trace.
HEAD_LINES = """
state 0 0 4096 256|what stands behind state doesn't fit: see docs/TRACE.md
lock 7 31 0 9 01 11 0|01 has a zero in front
node 7 1 2 33188 0 0 61|what stands behind node doesn't fit: see docs/TRACE.md
go 1|what stands behind go doesn't fit: see docs/TRACE.md
"""


def try_what_is_said_of_a_bad_line():
    """Each row has a line, and what is wrong with it."""
    rows = """
ask 0 1 1 0 0 0 create 0 420 61\r|it has a carriage return: lines end with a newline alone
ask 0 1 1 0 0 0 create 0 420 61\0|it has the byte 0, which stands in no line
ask 0 1 1\t0 0 0 create 0 420 61|it has the byte 9, which stands in no line
ask 0 1 1 0 0 0 creat 0 420 61|no order is named creat
ask 0 1 1 0 0 0 destroy|no order is named destroy
aks 0 1 1 0 0 0 create 0 420 61|it begins with aks, and with neither ask nor tell
ask 0 18446744073709551616 1 0 0 0 open|18446744073709551616 is too great: the most is 18446744073709551615
ask 0 1 1 4294967296 0 0 open|4294967296 is too great: the most is 4294967295
ask 16 1 1 0 0 0 open|16 is too great: the most is 15
ask 0 2 2 0 0 0 forget 18446744073709551616|18446744073709551616 is too great: the most is 18446744073709551615
ask 0 01 1 0 0 0 open|01 has a zero in front
ask 0 +1 1 0 0 0 open|+1 is no number
ask 0 1  1 0 0 0 open|one space stands between words, and none at the ends
ask 0 1 1 0 0 0|words are missing at its end
ask 0 1|words are missing at its end
ask 0 2 2 0 0 0 setlk 1 7 0 9 1 11|what stands behind setlk doesn't fit: see docs/TRACE.md
ask 0 1 1 0 0 0 create 0 420 6A|the name of a file is written in lower case hex
ask 0 1 1 0 0 0 lookup 6A|the name of a file is written in lower case hex
ask 0 1 1 0 0 0 create 0 420 6g|what stands behind create doesn't fit: see docs/TRACE.md
ask 0 1 1 0 0 0 lookup Xyz|what stands behind lookup doesn't fit: see docs/TRACE.md
ask 0 1 1 0 0 0 lookup 61 6A|what stands behind lookup doesn't fit: see docs/TRACE.md
ask 0 1 1 0 0 0 create 2 420 61|2 is too great: the most is 1
ask 0 1 1 0 0 0 create 0 512 61|512 is too great: the most is 511
ask 0 1 1 0 0 0 create 0 rw 61|rw is no number
ask 0 1 1 0 0 0 mkdir 4294967296 61|4294967296 is too great: the most is 4294967295
ask 0 1 1 0 0 0 mknod 4294967296 61|4294967296 is too great: the most is 4294967295
ask 0 1 1 0 0 0 mkdir 0493 61|0493 has a zero in front
ask 0 1 1 0 0 0 mkdir rwx 61|rwx is no number
ask 0 1 1 0 0 0 mkdir 493 6A|the name of a file is written in lower case hex
ask 0 1 1 0 0 0 mknod 33188 6A|the name of a file is written in lower case hex
ask 0 1 1 0 0 0 rmdir 6A|the name of a file is written in lower case hex
ask 0 1 1 0 0 0 mknod 33188|what stands behind mknod doesn't fit: see docs/TRACE.md
ask 0 1 1 0 0 0 mkdir 493 616|what stands behind mkdir doesn't fit: see docs/TRACE.md
ask 0 1 1 0 0 0 rmdir 0 61|what stands behind rmdir doesn't fit: see docs/TRACE.md
ask 0 1 1 0 0 0 symlink 61 62|no order is named symlink
|it is empty
"""
    for row in rows.strip("\n").split("\n"):
        line, why = row.split("|")
        shown = line.replace("\r", "\\x0d").replace("\0", "\\x00").replace("\t", "\\x09")
        for command in "script", "check", "locks":
            says([command], f"{CREATED}{line}\n", "", f"bad line 2\nline 2 of standard input: {shown}\n{why}\n", 2)
    for row in HEAD_LINES.strip("\n").split("\n"):
        line, why = row.split("|")
        for command, told in ("script", "a script has orders alone: leave out the head"), ("check", why), ("locks", why):
            says([command], f"{CREATED}{line}\n", "", f"bad line 2\nline 2 of standard input: {line}\n{told}\n", 2)
    for line, why in (f"tell 1 okay\n", "no reply is named okay"), ("x" * 701 + "\n", "it is longer than any line of a trace"):
        shown = line[:699] + ".." if len(line) > 700 else line.strip()
        says(["check"], CREATED + line, "", f"bad line 2\nline 2 of standard input: {shown}\n{why}\n", 2)
    unended = "no newline ends it"
    says(["script"], CREATED + CREATED.strip(), "", f"bad line 2\nline 2 of standard input: {CREATED}{unended}\n", 2)
    unended += ": check --cut drops the end of a trace that was cut off"
    says(["check"], CREATED + MADE.strip(), "", f"bad line 2\nline 2 of standard input: {MADE}{unended}\n", 2)
    says(["script"], THREE, "", f"bad line 2\nline 2 of standard input: {MADE}a script has orders alone: leave out the replies\n", 2)
    return f"{rows.count('|')} lines"


def try_what_is_said_of_a_bad_line_of_hex():
    rows = ("38\r", "38\\x0d", "it has a carriage return: lines end with a newline alone"), ("3g", "3g", "g is no hex digit"), ("380", "380", "it has an odd number of hex digits"), ("38" * 400 + "3", ("38" * 400)[:699] + "..", "it has an odd number of hex digits")
    recv = ("recv 1001", "1001 is too great: the most is 1000"), ("recv 0", "recv waits for 1 to 1000 replies"), ("recv 01", "01 has a zero in front"), ("recv", "r is no hex digit")
    for words, found in (["bytes"], rows), (["drive", "/nowhere/at/all"], (*rows, *((line, line, why) for line, why in recv))):
        for line, shown, why in found:
            says(words, f"{INIT}{line}\n{INIT}", "", f"bad line 2\nline 2 of standard input: {shown}\n{why}\n", 2)
        says(words, INIT + INIT.strip(), "", f"bad line 2\nline 2 of standard input: {INIT}no newline ends it\n", 2)


def try_what_is_said_of_a_read_that_fails():
    ran = fails_to_read("check", "-v", text=CREATED.encode())
    assert ran == (b"", b"read failed\nstandard input can't be read: connection reset\n", 2), ran
    for command, text in ("script", CREATED), ("bytes", INIT):
        ran = fails_to_read(command, "-v", text=text.encode())
        assert ran == (b"", b"read failed\nstandard input can't be read: connection reset\n", 2), (command, ran)


def try_what_is_said_of_a_write_that_fails():
    """The output's reason, and of `serve` no word on a client that had all its replies."""
    why = "standard output can't be written: file too large\n"
    for command, text in ("script", CREATED), ("bytes", INIT), ("check", THREE), ("locks", THREE):
        ran = fills_up(command, "-v", text=text.encode(), left=3)
        assert ran == (f"write failed\n{why}".encode(), 2), (command, ran)
    for workers in 1, 4:
        with tempfile.TemporaryFile() as full:
            server = tries.Server("-v", workers=workers, printed=full, before=tries.limited(40))
            assert set(server.session(64)) == {0}
            _, told, status = server.ended()
            said = f"write failed\nthe client has closed its end\n{why}"
            assert (told, status) == (f"listening at {server.path}\na client is connected\n{said}", 2), told


def try_what_is_said_of_a_file_that_goes_on():
    """Behind `bad line` and `differs`, as `check` says it of the same lines."""
    with tempfile.NamedTemporaryFile(prefix="try-lockd-") as file:
        for text, told in ((CREATED + "x\n", f"bad line 2\nline 2 of {file.name}: x\nit begins with x, and with neither ask nor tell\n"),
                           (CREATED + CREATED, f"differs 2\nline 2 of {file.name}: {CREATED}the rules want: {MADE}{OTHERS}")):
            file.seek(0)
            file.truncate()
            file.write(text.encode())
            file.flush()
            says(["serve", "/nowhere/at/all", "--resume", file.name], "", "", told, 2)


def may_have(most, process=0):
    """Lets the files of a process have so many bytes, until they may have more; of this one, if none is named."""
    def limit():
        if not process:
            signal.signal(signal.SIGXFSZ, signal.SIG_IGN)
        resource.prlimit(process, resource.RLIMIT_FSIZE, (most, resource.RLIM_INFINITY))

    return limit


def told_by(server):
    """The next line that a server tells, waited for."""
    line, errors = b"", server.serving.stderr
    while not line.endswith(b"\n"):
        assert select.select([errors], [], [], tries.PATIENCE)[0], line
        more = os.read(errors.fileno(), 1)
        assert more, line
        line += more
    return line.decode()


def try_what_a_server_says():
    """It listens before a client connects, and says so. Without `--verbose` it says nothing."""
    for workers in 1, 4:
        quiet = tries.Server(workers=workers)
        assert set(quiet.session(64)) == {0} and quiet.ended()[1:] == ("", 0), quiet
    for options, workers, begun in (([], 1, ""), ([], 4, ""), (["--trace", "{file}"], 1, "the trace goes to"), (["--resume", "{file}"], None, "going on behind the lines of"),
                                    (["--trace", "{file}", "--rotate", "1"], None, "the trace goes to")):
        server = tries.Server(*options, "--verbose", workers=workers)
        if begun:
            assert told_by(server) == f"{begun} {server.file}\n"
        assert told_by(server) == f"listening at {server.path}\n"
        assert set(server.session(64)) == {0}
        _, told, status = server.ended()
        assert (told, status) == ("a client is connected\nthe client has closed its end\n", 0), (options, told)


def try_what_is_said_of_a_client_with_replies_unread():
    for workers in 1, 4:
        server = tries.Server("-v", workers=workers)
        with server.connect() as client:
            client.sendall(tries.INIT)
            assert select.select([client], [], [], tries.PATIENCE)[0]
        _, told, status = server.ended()
        said = ["read failed", "the client's messages can't be read: connection reset", "it closed its end with replies unread: it has to read them first"]
        assert (told.splitlines()[2:], status) == (said, 2), told


def try_what_is_said_of_a_session_that_its_client_does_not_end():
    """After a DESTROY or a message of a bad length the client is there. It has closed its end if it stops inside a message."""
    for message, ends, close in ((fuse.destroy(9), "", False), (b"\x01" + INIT_BYTES[1:], "bad length 1\n", False), (INIT_BYTES[:20], "cut\n", True)):
        for workers in 1, 4:
            server = tries.Server("-v", workers=workers)
            with server.connect() as client:
                client.sendall(INIT_BYTES)
                tries.take(client, 80)
                client.sendall(message)
                if close:
                    client.shutdown(socket.SHUT_WR)
                tries.take(client, 1 << 16)
                _, told, status = server.ended()
            end = "the client has closed its end" if close else "the server ended the session"
            assert (told, status) == (f"listening at {server.path}\na client is connected\n{ends}{end}\n", 2 if ends else 0), told


def try_what_is_said_of_a_client_that_takes_no_replies():
    """It has closed its end for reading, so each write fails. The server reads on to the end."""
    for workers in 1, 4:
        server = tries.Server("-v", workers=workers)
        with server.connect() as client:
            client.shutdown(socket.SHUT_RD)
            client.sendall(INIT_BYTES)
            client.shutdown(socket.SHUT_WR)
            _, told, status = server.ended()
        said = ["write failed", "the client has closed its end", "replies can't be written to the client: broken pipe",
                "it closed its end before they came: it has to wait for them"]
        assert (told.splitlines()[2:], status) == (said, 2), told


def try_what_is_said_of_a_trace_that_goes():
    """Behind `trace failed`: another file is in its place. Before that, that it can't be put back."""
    for options, workers in (["--trace", "{file}"], 1), (["--trace", "{file}"], 4), (["--resume", "{file}"], None):
        server = tries.Server(*options, "-v", workers=workers)
        with server.connect() as client:
            client.sendall(INIT_BYTES)
            tries.take(client, 80)
            with open(f"{server.file}.other", "wb") as file:
                file.write(b"another\n")
            os.replace(f"{server.file}.other", server.file)
        _, told, status = server.ended()
        stays = f"{server.file} was replaced, and can't be put back: another file is there"
        why = f"{server.file}: it was cut or written to, or is gone: another file is there, or none"
        assert ({*told.splitlines()[3:]}, status) == ({stays, "trace failed", "the client has closed its end", why}, 2), told
        assert told.index(stays) < told.index("trace failed") < told.index(why), told


def try_when_a_file_is_written_again():
    """That is told once all that waits is written, and not of a write that takes some of it while the file is full."""
    for options, workers in (["--resume", "{file}"], None), (["--trace", "{file}", "--trace-full", "refuse"], 2):
        server = tries.Server(*options, workers=workers, before=may_have(1_000))
        with ThreadPoolExecutor() as pool:
            asking = pool.submit(server.session, 64)
            told = told_by(server)
            assert told.startswith(f"cannot write {server.file}: "), told
            for most in 1_001, 1_002, 1_003:
                may_have(most, server.serving.pid)()
                tries.wait_until(lambda: os.path.getsize(server.file) == most)
                assert not select.select([server.serving.stderr], [], [], 0.3)[0], told_by(server)
            may_have(resource.RLIM_INFINITY, server.serving.pid)()
            asking.result(tries.PATIENCE)
        assert server.ended() == (b"", f"{server.file} is written again\n", 0)


if __name__ == "__main__":
    sys.exit(tries.main("commands/texts", globals()))
