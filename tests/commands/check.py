"""Tries the lines that `lockd check` reads, good and bad ones, and what it says after each line of a trace.

A trace may come in pieces, or be cut at each byte. The texts stand in `tests/cases`. `tries.py` says how it ends.
"""
import os
import re
import socket
import subprocess
import sys

from tests import tries
from tests.tries import cases, marked, run, text_of

LAST = 2**63 - 1
MOST = 2**64 - 1


def gives(words, text, printed, told=b"", status=None):
    """The command prints this and tells that."""
    ran = run(*words, text=text)
    wanted = printed, told, (2 if told else 1 if printed.startswith(b"differs") else 0) if status is None else status
    assert (ran.stdout, ran.stderr, ran.returncode) == wanted, (words, text[-300:], ran)


def is_bad(text, number, *commands):
    """This line is the first bad one."""
    for words in commands or (["check"], ["check", "--cut", "--quiet"]):
        gives(words, text, b"", b"bad line %d\n" % number)


def orders_of(trace):
    return b"".join(line for line in trace.splitlines(True) if line.startswith(b"ask "))


# ---- lines

def lines_of(begins, count):
    """The lines of the cases in `lines.txt` whose titles begin so. There are so many."""
    text = "".join(marked(case, "> ") for title, case in cases(text_of("tests/cases/lines.txt")) if title.startswith(begins))
    found = [re.sub(rb"\\x(..)", lambda it: bytes.fromhex(it[1].decode()), line) for line in text.encode().splitlines()]
    assert len(found) == count, len(found)
    return found


def try_good_lines():
    """An order stands at the front of its own trace as it was read. A reply is read, and is owed to nobody."""
    orders, replies = lines_of("good orders", 32), lines_of("good replies", 25)
    for line in orders:
        ran = run("script", text=line + b"\n")
        assert (ran.stdout[:len(line) + 1], ran.stderr, ran.returncode) == (line + b"\n", b"", 0), (line, ran)
        gives(["check"], ran.stdout, b"legal\n")
    for line in replies:
        gives(["check"], line + b"\n", b"differs 1\n")
        is_bad(line, 1, ["check"])
    gives(["check"], b"".join(it + b"\n" for it in orders + replies), b"differs 2\n")


def try_bad_lines():
    """Each is the first line, and the third behind two good ones. A bad line behind it makes no difference."""
    good, bad = b"tell 1 ok\n", lines_of("bad ", 171)
    for line in bad:
        is_bad(line + b"\n" + good, 1)
        is_bad(good + good + line + b"\n" + good + b"\n", 3)
    return f"{len(bad)} lines"


def try_lines_that_do_not_end():
    """They are bad, unless the trace may be cut."""
    for text, number in (b"tell 1 ok", 1), (b"tell 1 ok\ntell 2 ok\ntell 3 o", 3), (b"tell 1 ok\ntell", 2):
        is_bad(text, number, ["check"])
        gives(["check", "--cut"], text, b"legal\n" if number == 1 else b"differs 1\n")


def try_the_longest_name():
    for length in 254, 255, 256, 257, 700, 70_000:
        line = b"ask 0 1 1 0 0 0 lookup " + b"61" * length + b"\n"
        if length > 255:
            is_bad(line, 1, ["check"], ["script"])
        else:
            gives(["script"], line, line + b"tell 1 err 2\n")
            gives(["check"], line + b"tell 1 err 2\n", b"legal\n")


def is_whole(trace, lines):
    """The orders of a trace of so many lines give this trace, which is legal."""
    assert trace.count(b"\n") == lines, trace.count(b"\n")
    gives(["script"], orders_of(trace), trace)
    gives(["check"], trace, b"legal\n")


def try_many_lines():
    """Locks of 40,000 bytes in a row. And 20,000 orders that find nothing, with great numbers, and names of any length."""
    made = b"ask 0 1 1 0 0 0 create 0 420 61\ntell 1 made 2 33188 1 0 0 1\n"
    locks = (b"ask 0 %d 2 0 0 0 setlk 1 7 %d %d 1 11 0\ntell %d ok\n" % (it + 2, it, it, it + 2) for it in range(40_000))
    is_whole(made + b"".join(locks), 80_002)
    rows = []
    for it in range(10_000):
        name = bytes([97 + it % 26]).hex().encode() * (it % 256) or b"-"
        lock = b"%d setlk 1 %d %d %d 1 4294967295 0" % (it + 2, MOST - it, it, LAST)
        for unique, words, error in (MOST - 2 * it, b"1 unlink " + name, 2), (MOST - 2 * it - 1, lock, 9):
            node, _, op = words.partition(b" ")
            rows.append(b"ask 15 %d %s 4294967295 4294967294 4294967293 %s\ntell %d err %d\n" % (unique, node, op, unique, error))
    is_whole(b"".join(rows), 40_000)


# ---- stored traces

def judged_cases():
    """The cases of `judged.txt` by their titles: the rules of each, and its lines with their marks."""
    found = {}
    for title, case in cases(text_of("tests/cases/judged.txt")):
        lines = [(line[0], line[2:].encode() + b"\n") for line in case.splitlines() if line[:2] in ("= ", "! ", "? ", "x ")]
        before = marked(case, "^ ").strip()
        found[title] = marked(case, "$ ").split(), (found[before][1] if before else []) + lines
    return found


def try_what_is_said_after_each_line():
    """Of the lines up to each, as a whole trace, and as one that may be cut, also inside a line. A legal trace is what its orders give."""
    counts, found = dict.fromkeys("=!?x", 0), judged_cases()
    for rules, lines in found.values():
        text, marks = b"", ""
        for mark, line in [("=", b""), *lines]:
            text, marks = text + line, marks + mark * bool(line)
            differs = b"differs %d\n" % (marks.find("x") + 1)
            said = {"=": b"legal\nquiet\n", "!": b"legal\nnot quiet\n", "?": b"begins\n", "x": differs}[mark]
            for cut in b"", b"tell 1 o":
                gives(["check", "--cut", "--quiet", *rules], text + cut, said)
            gives(["check", "--quiet", *rules], text, b"differs %d\n" % (len(marks) + 1) if mark == "?" else said)
            counts[mark] += 1
        if mark in "=!":
            gives(["script", *rules], orders_of(text), text)
    assert len(found) == 34 and min(counts.values()) >= 8, (len(found), counts)
    return f"{len(found)} traces, " + ", ".join(f"{count} of {mark}" for mark, count in counts.items())


# ---- a trace in pieces

def in_pieces(text, most, *words):
    """What is printed and told, and the status, where each read gets so many bytes at most. All are read, or the connection were reset."""
    near, far = socket.socketpair(socket.AF_UNIX, socket.SOCK_SEQPACKET)
    with near:
        near.settimeout(tries.PATIENCE)
        with far:
            reading = subprocess.Popen([tries.PROGRAM, *words], stdin=far, stdout=subprocess.PIPE, stderr=subprocess.PIPE)
        for at in range(0, len(text), most):
            near.send(text[at:at + most])
        near.shutdown(socket.SHUT_WR)
        found = *reading.communicate(timeout=tries.PATIENCE), reading.returncode
        assert near.recv(1) == b""
    return found


def try_a_trace_in_pieces_that_is_cut_after_each_byte():
    """It is a beginning or legal, by its whole lines, whether it comes in bytes, in pieces, or whole."""
    _, lines = judged_cases()["two are granted at once"]
    text, said = b"".join(line for _, line in lines), [b"legal\n", *(b"begins\n" if mark == "?" else b"legal\n" for mark, _ in lines)]
    for end in range(len(text) + 1):
        for most in 1, 7, 1000:
            found = in_pieces(text[:end], most, "check", "--cut")
            assert found == (said[text[:end].count(b"\n")], b"", 0), (end, most, found)
    return f"{len(text) + 1} traces"


def hears(text, at, lines, orders):
    """So many lines are taken of the first ones that are wanted, in pieces too."""
    for most in 1, 7, 1000:
        _, told, status = in_pieces(text, most, "locks", "-v", *at)
        assert (told, status) == (f"{lines} line{'s' * (lines != 1)}, {orders} order{'s' * (orders != 1)}\n".encode(), 0), (at, most, told)


def try_first_lines():
    """As many are taken as are wanted, and what is cut off is none. A bad line counts if it is wanted. The others are read too."""
    lines = [line for _, line in judged_cases()["a lock is waited for"][1]]
    for at in range(11):
        wanted = lines[:at]
        hears(b"".join(lines), ["--at", str(at)] if at < 10 else [], len(wanted), orders_of(b"".join(wanted)).count(b"\n"))
    cut = b"".join(lines[:2]) + b"ask 0 2 2 0 0 0 setl"
    for at, taken in (["--at", "1"], 1), (["--at", "2"], 2), (["--at", "3"], 2), ([], 2):
        hears(cut, at, taken, 1)
    hears(b"ask 0", ["--at", "0"], 0, 0)
    bad = lines[0] + lines[1].replace(b" 2 ", b" two ") + lines[2]
    hears(bad, ["--at", "0"], 0, 0)
    hears(bad, ["--at", "1"], 1, 1)
    for words in ["locks", "--at", "2"], ["locks", "--at", "3"], ["locks"], ["check"], ["check", "--cut"]:
        for most in 1, 7, 1000:
            assert (found := in_pieces(bad + lines[0], most, *words)) == (b"", b"bad line 2\n", 2), (words, most, found)


def try_inputs_that_cannot_be_read():
    """A folder, a file that can't be read at its front, a connection that is reset behind a bad line: that is told, and nothing else."""
    for words in ["check"], ["check", "--cut", "--quiet"], ["script"]:
        for path in "/", "/proc/self/mem":
            fd = os.open(path, os.O_RDONLY)
            ran = subprocess.run([tries.PROGRAM, *words], stdin=fd, capture_output=True, timeout=tries.PATIENCE, check=False)
            os.close(fd)
            assert (ran.stdout, ran.stderr, ran.returncode) == (b"", b"read failed\n", 2), (words, path, ran)
        assert tries.fails_to_read(*words, text=b"x\n") == (b"", b"read failed\n", 2), words


if __name__ == "__main__":
    sys.exit(tries.main("commands/check", globals()))
