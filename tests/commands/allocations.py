"""Refuses each allocation of `lockd script`, `check`, `bytes` and `locks` of the built program in turn, and those of a test in Rattle.

A run ends with status 2, `no memory` on standard error and nothing on standard output, or else prints all that it prints otherwise. A session may
refuse an order in place of that. It then answers ENOMEM, or EAGAIN if the order is an INTERRUPT, or nothing if it is a FORGET, and goes on as if the
order had never come. `tests/shims/calls.c` refuses; it wants a C compiler and the GNU C library. `tries.py` says how it ends.
"""
import os
import subprocess
import sys
import tempfile

from tests import calls, fuse, worked
from tests.tries import PATIENCE, TOP, each, line_of, run, text_of

# How many allocations are refused, the last ones. A session of thousands of lines has that many before them, one to read each line.
MOST = 160
# The number of lines of a history at which it grows again. Its first order makes room for 4,096 lines, and each order wants room for 258.
FULL = 3_839
# A FORGET of a node that isn't there.
FORGET_NOTHING = line_of(fuse.forget(255, 99))
TEST_PATIENCE = 20 * PATIENCE


def printed(*words, text):
    ran = run(*words, text=text.encode())
    assert (ran.stderr, ran.returncode) == (b"", 0), (words, ran)
    return ran.stdout.decode()


# ---- orders that a session refuses

def session(lines):
    """The replies to messages, each in a line."""
    return printed("bytes", text="".join(lines)).splitlines(True)


def refusal(line):
    """The reply to a message that is an order, if it is refused."""
    sent = bytes.fromhex(line)
    error = {fuse.FORGET: None, fuse.INTERRUPT: fuse.EAGAIN}.get(fuse.opcode_of(sent), fuse.ENOMEM)
    return [line_of(fuse.reply(fuse.unique_of(sent), error))] if error else []


def with_refusal(lines, number):
    """What is printed if the order in one line of a session is refused: what the lines before it give, its refusal, and what else they and the lines
    behind it give."""
    before, without = session(lines[:number - 1]), session(lines[:number - 1] + lines[number:])
    return "".join(before + refusal(lines[number - 1]) + without[len(before):])


def filled(lines, number):
    """The same session with the history full when the order in one line of it comes: as many FORGETs that do nothing stand in front of it. The first
    line is an INIT, which is no line of the history."""
    taken = number - 3 + len(session(lines[:number - 1]))
    return lines[:number - 1] + [FORGET_NOTHING] * (FULL - taken) + lines[number - 1:]


# ---- allocations

def refuse_each(what, *words, text, refusable=()):
    """Refuses the last allocations of a command, each in turn. The orders in some lines of its input may be refused, and each of them has to be.
    Gives what it prints otherwise, and what came of it."""
    counts = calls.new_notes()
    wanted = run(*words, text=text.encode(), env=calls.refusing(0, counts))
    assert (wanted.stderr, wanted.returncode) == (b"", 0), (what, wanted)
    lines, count = text.splitlines(True), calls.allocations(counts)
    refused = {with_refusal(lines, it).encode(): it for it in refusable}

    def refuse(number):
        ran = run(*words, text=text.encode(), env=calls.refusing(number))
        if (ran.stdout, ran.stderr, ran.returncode) == (b"", b"no memory\n", 2):
            return "no memory"
        assert (ran.stderr, ran.returncode) == (b"", 0), (what, number, ran)
        if ran.stdout == wanted.stdout:
            return "all"
        assert ran.stdout in refused, (what, number, "other replies", ran.stdout)
        return refused[ran.stdout]

    came = each(refuse, zip(range(max(1, count - MOST + 1), count + 1)))
    found = [it for it in came if it not in ("no memory", "all")]
    assert {*found} == {*refusable}, (what, found, refusable)
    return wanted.stdout.decode(), f"{what}: {len(came)} refused, {came.count('no memory')} with no memory, {len(found)} refused an order"


def told(sayings):
    return "".join(f"\n  {it}" for it in sayings)


def refuse_script(what, script):
    """Refuses each allocation of a script, and then of `check` on its trace. Gives the trace, and what came of both."""
    trace, of_script = refuse_each(f"script, {what}", "script", text=script)
    return trace, [of_script, refuse_each(f"check, {what}", "check", text=trace)[1]]


def try_each_allocation_of_a_script_and_its_check():
    """The stored run of the program."""
    trace, of_script = refuse_each("script", "script", text=text_of("crates/lockd/stdin"))
    assert trace == text_of("crates/lockd/stdout")
    return told([of_script, refuse_each("check --quiet", "check", "--quiet", text=trace)[1]])


def try_each_allocation_of_scripts_that_wait():
    """Two examples, and three worked scripts, which give their traces."""
    sayings = []
    for name in "a_lock_is_waited_for", "a_file_lives_while_it_is_open":
        sayings += refuse_script(name, text_of(f"examples/{name}.txt"))[1]
    stored = {title: trace for title, trace, _ in worked.stored()}
    for title in ("the oldest waiter is served first", "a grant that turns a write lock into a read lock frees another waiter",
                  "a file with a waiter on another is unlinked and forgotten"):
        trace, said = refuse_script(title, worked.asks(stored[title]))
        assert trace == stored[title], title
        sayings += said
    return told(sayings)


# Two owners have locks on node 2, which lost its name, and one on node 3, for which two others wait.
HELD_AND_WAITED_FOR = """\
ask 0 1 1 0 0 0 create 0 420 61
ask 0 2 1 0 0 0 create 0 420 62
ask 0 3 2 0 0 0 setlk 1 7 0 0 0 11 1
ask 0 4 2 0 0 0 setlk 1 8 0 3 0 12 0
ask 0 5 3 0 0 0 setlk 2 7 0 9 1 11 0
ask 0 6 3 0 0 0 setlkw 2 8 9 20 0 12 0
ask 0 7 3 0 0 0 setlkw 2 9 4 9 1 13 0
ask 0 8 1 0 0 0 unlink 61
"""


def try_each_allocation_of_a_list():
    sayings = []
    for rules in [], ["--fair"]:
        trace = printed("script", *rules, text=HELD_AND_WAITED_FOR)
        for form in [], ["--json"]:
            listed, said = refuse_each(" ".join(["locks", *rules, *form]), "locks", *rules, *form, text=trace)
            sayings.append(said)
        assert listed.count('"waits":true') == 2, listed
    return told(sayings)


def try_each_allocation_of_pieces():
    """A trace, and twice the head behind it."""
    trace = printed("script", text=HELD_AND_WAITED_FOR)
    head = printed("state", text=trace)
    with tempfile.TemporaryDirectory() as folder:
        for name, text in ("1", trace), ("2", head), ("3", head):
            with open(f"{folder}/{name}", "w", encoding="ascii") as file:
                file.write(text)
        said, why = refuse_each("check PIECE..", "check", *(f"{folder}/{it}" for it in "123"), text="")
    assert said == "legal\n", said
    return told([why])


def try_each_allocation_of_a_head():
    sayings = []
    for rules in [], ["--fair"]:
        trace = printed("script", *rules, text=HELD_AND_WAITED_FOR)
        head, said = refuse_each(" ".join(["state", *rules]), "state", *rules, text=trace)
        assert head.endswith("\ngo\n") and head.count("\nwait ") == 2, head
        sayings.append(said)
    return told(sayings)


def refuse_session(what, lines, *refusable):
    return refuse_each(f"bytes, {what}", "bytes", text="".join(lines), refusable=refusable)[1]


def try_each_allocation_of_a_session():
    return refuse_session("two locks", text_of("examples/two_locks.hex").splitlines(True), 2)


def try_each_allocation_of_a_session_in_which_requests_wait():
    """Also with a history that is full at each of its orders."""
    lines = text_of("examples/waiting.hex").splitlines(True)
    sayings = [refuse_session("waiting", lines, 2)]
    for number in range(4, len(lines) + 1):
        full = filled(lines, number)
        moved = number + len(full) - len(lines)
        # Orders are kept apart from lines, so there is room for as many more as there were replies before, but the INIT's.
        later = moved + len(session(lines[:number - 1])) - 1
        sayings.append(refuse_session(f"waiting, no room at line {number}", full, 2, moved, *([later] if later <= len(full) else [])))
    return told(sayings)


# ---- a test in Rattle

def refuse_test(crate, name):
    """Refuses each allocation of a test, a built one. It tries again what says that there is no memory. So it ends well, and asks for more allocations
    than it does otherwise."""
    program = f"{TOP}/crates/{crate}/out/{crate}_tests"
    if not (os.environ.get("LOCKD") and os.access(program, os.X_OK)):
        subprocess.run(["rt", "test"], cwd=f"{TOP}/crates/{crate}", stdout=subprocess.DEVNULL, check=True)

    def allocations(number):
        counts = calls.new_notes()
        ran = subprocess.run([program, name], env=calls.refusing(number, counts), capture_output=True, timeout=TEST_PATIENCE, check=False)
        assert ran.returncode == 0, (name, number, ran)
        return calls.allocations(counts)

    count = allocations(0)
    few = [it for it in each(allocations, zip(range(1, count + 1))) if it <= count]
    assert count and not few, (name, count, few)
    return f"{count} refused"


def try_each_allocation_of_a_trace_that_is_read_and_printed():
    """In memory, by a test whose program the tests leave."""
    return refuse_test("fl_stream_tests", "tests::refused::a_trace_is_read_and_printed_by_the_second_try")


if __name__ == "__main__":
    sys.exit(calls.main("commands/allocations", globals()))
