"""Tries heads: what `lockd state` prints behind a trace, and what `check`, `locks` and `serve --resume` make of traces that begin with a head.

Random traces are cut behind an order's replies, and go on behind the head of their first part as they do behind that part. `tries.py` says
how it ends.
"""
import os
import random
import sys
import tempfile

from tests import fuse, tries
from tests.commands.changes import random_script
from tests.tries import INIT, Server, run

RULES = b"0 4096 256 256 1024"


def said(*words, text):
    """What a command prints, if it ends well and tells nothing."""
    ran = run(*words, text=text)
    assert (ran.stderr, ran.returncode) == (b"", 0), (words, text, ran)
    return ran.stdout


def traces(count):
    return [said("script", text=random_script(seed).encode()) for seed in range(count)]


def cuts(trace):
    """Where orders begin, and the end."""
    lines = trace.splitlines(True)
    return [*(at for at, line in enumerate(lines) if line.startswith(b"ask ")), len(lines)], lines


def parts_of(head):
    """Its first line, its other lines in whichever order they stand, and those that wait in theirs."""
    first, *parts, last = head.splitlines()
    assert last == b"go", head
    return first, sorted(it for it in parts if not it.startswith(b"wait ")), [it for it in parts if it.startswith(b"wait ")]


def differs(words, text, number):
    ran = run(*words, text=text)
    stream = ran.stdout if words[0] == "check" else ran.stderr
    assert (stream, ran.returncode) == (b"differs %d\n" % number, 1), (words, text, ran)


# ---- behind a trace

def try_random_traces_go_on_behind_a_head():
    """The second part of a trace is legal behind the head of the first, leads to the same, and has the same locks."""
    numbers, waited, tried = random.Random(3), 0, 0
    for trace in traces(60):
        places, lines = cuts(trace)
        for at in numbers.sample(places, 4):
            head = said("state", text=b"".join(lines[:at]))
            assert said("check", text=head) == b"legal\n", head
            waited += b"\nwait " in head
            piece = head + b"".join(lines[at:])
            assert said("check", text=piece) == b"legal\n", piece
            assert parts_of(said("state", text=piece)) == parts_of(said("state", text=trace)), (trace, at)
            assert said("locks", text=piece) == said("locks", text=trace), (trace, at)
            tried += 1
    assert waited > 80, waited
    return f"{tried} pieces, {waited} of which begin with requests that wait"


def try_a_change_behind_a_head_is_found():
    """A reply that differs is found in its piece, by its line there."""
    numbers = random.Random(4)
    for trace in traces(30):
        places, lines = cuts(trace)
        at = numbers.choice(places[:-20])
        head = said("state", text=b"".join(lines[:at]))
        replies = [place for place in range(at, len(lines)) if lines[place].startswith(b"tell ")]
        place = numbers.choice(replies)
        words = lines[place].split()
        changed = [*lines[at:place], b"tell %s err 99\n" % words[1], *lines[place + 1:]]
        ran = run("check", text=head + b"".join(changed))
        assert ran.returncode in (1, 2), ran
        # 99 is no error of a reply, so the line is bad; EPROTO is one, and no order gets it.
        changed = [*lines[at:place], b"tell %s err 71\n" % words[1], *lines[place + 1:]]
        differs(["check"], head + b"".join(changed), len(head.splitlines()) + place - at + 1)


def try_the_head_of_an_example():
    """Of a file with a lock, for which another owner waits."""
    orders = [b"ask 0 1 1 0 0 0 create 0 420 61\n", b"ask 0 2 2 0 0 0 setlk 1 7 0 9 1 11 0\n", b"ask 0 3 2 0 0 0 setlkw 1 8 5 5 1 12 0\n"]
    trace = said("script", text=b"".join(orders))
    assert said("state", text=trace) == (
        b"state 5 " + RULES + b" 3 2\nnode 2 1 1 33188 0 0 61\nfile 1 2\nlock 2 7 0 9 1 11 0\nwait 3 2 1 8 5 5 1 12 0\ngo\n"), trace
    assert said("state", text=b"") == b"state 0 " + RULES + b" 2 1\ngo\n"


def try_a_file_without_a_name_keeps_its_place():
    """A file that was unlinked while it was open is told, and its name is free."""
    orders = [b"ask 0 1 1 0 0 0 create 0 420 61\n", b"ask 0 2 1 0 0 0 unlink 61\n", b"ask 0 3 1 0 0 0 create 1 384 61\n"]
    head = said("state", text=said("script", text=b"".join(orders)))
    assert parts_of(head)[1] == [b"file 1 2", b"file 2 3", b"node 2 1 0 33188 0 0 61", b"node 3 1 1 33152 0 0 61"], head


def try_folders_in_a_head():
    """A folder is a node with the mode of one, with its name or without. Behind the head it is one: it can't be opened, and can be removed."""
    orders = [b"ask 0 1 1 5 6 0 mkdir 1023 64\n", b"ask 0 2 1 0 0 0 mkdir 448 65\n", b"ask 0 3 1 0 0 0 rmdir 65\n", b"ask 0 4 1 0 0 0 mknod 2468 66\n",
              b"ask 0 5 1 0 0 0 lookup 64\n"]
    head = said("state", text=said("script", text=b"".join(orders)))
    assert parts_of(head) == (b"state 10 " + RULES + b" 5 1", [b"node 2 2 1 17407 5 6 64", b"node 3 1 0 16832 0 0 65", b"node 4 1 1 35236 0 0 66"], []), head
    behind = b"""\
ask 0 20 2 0 0 0 open
tell 20 err 21
ask 0 21 3 0 0 0 open
tell 21 err 21
ask 0 22 3 0 0 0 getattr
tell 22 attr 3 16832 0 0 0
ask 0 23 2 0 0 0 getattr
tell 23 attr 2 17407 2 5 6
ask 0 24 2 0 0 0 mkdir 511 67
tell 24 err 1
ask 0 25 2 0 0 0 lookup 67
tell 25 err 2
ask 0 26 1 0 0 0 unlink 64
tell 26 err 21
ask 0 27 1 0 0 0 mkdir 511 64
tell 27 err 17
ask 0 28 1 0 0 0 rmdir 66
tell 28 err 20
ask 0 29 1 0 0 0 rmdir 64
tell 29 ok
ask 0 30 1 0 0 0 mkdir 511 65
tell 30 entry 5 16895 2 0 0
"""
    assert said("check", text=head + behind) == said("check", "--whole", text=head + behind) == b"legal\n", said("check", text=head + behind)
    assert said("state", text=head) == head and said("locks", "--json", text=head + behind) == b"[]\n"
    for one, other in (b"17407 5 6 64\n", b"33791 5 6 64\n"), (b"16832 0 0 65\n", b"33216 0 0 65\n"):
        assert run("check", text=head.replace(one, other) + behind).returncode == 1, other


def try_traces_that_have_no_head_behind_them():
    """One that isn't legal, lacks replies, has a bad line, or is cut off."""
    trace = said("script", text=b"ask 0 1 1 0 0 0 create 0 420 61\n")
    for text, number in ((b"tell 1 ok\n", 1), (trace.splitlines(True)[0], 2), (trace + trace, 4)):
        differs(["state"], text, number)
    for text, told in ((b"ask\n", b"bad line 1\n"), (trace + b"ask 0 2", b"bad line 3\n")):
        ran = run("state", text=text)
        assert (ran.stdout, ran.stderr, ran.returncode) == (b"", told, 2), (text, ran)


# ---- bad heads

def head(*parts, rules=RULES, node=9, fh=14, go=b"go\n"):
    return b"state 0 %s %d %d\n" % (rules, node, fh) + b"".join(it + b"\n" for it in parts) + go


NODE, FILE, LOCK = b"node 7 1 1 33188 1000 1000 6a6f62", b"file 12 7", b"lock 7 31 0 9 1 11 0"
WAIT = b"wait 5000 7 12 32 5 5 1 12 0"


def try_parts_that_do_not_fit():
    """The number of the first line that doesn't."""
    assert said("check", text=head(NODE, FILE, LOCK, WAIT)) == b"legal\n"
    for number, parts, how in (
            (1, [], {"rules": b"0 0 256 256 1024"}), (1, [], {"rules": b"0 4096 1025 256 1024"}), (1, [], {"node": 1}), (1, [], {"fh": 0}),
            (2, [b"node 9 1 1 33188 0 0 61"], {}), (2, [b"node 1 1 1 33188 0 0 61"], {}), (2, [b"node 0 1 1 33188 0 0 61"], {}),
            (3, [NODE, NODE], {}), (3, [NODE, b"node 8 1 1 33188 0 0 6a6f62"], {}),
            (2, [FILE], {}), (3, [NODE, b"file 14 7"], {}), (3, [NODE, b"file 0 7"], {}), (4, [NODE, FILE, FILE], {}),
            (3, [NODE, b"lock 7 31 9 0 1 11 0"], {}), (3, [NODE, b"lock 7 31 0 9223372036854775808 1 11 0"], {}),
            (4, [NODE, LOCK, b"lock 7 32 9 9 0 12 0"], {}), (3, [NODE, WAIT], {}), (5, [NODE, LOCK, WAIT, WAIT], {}),
            (5, [NODE, LOCK, WAIT, b"lock 7 31 20 29 1 11 0"], {}), (3, [NODE, b"state 0 " + RULES + b" 9 14"], {})):
        differs(["check"], head(*parts, **how), number)
    for text, number in ((head(NODE, go=b""), 3), (head(NODE) + head(NODE), 4), (head(NODE) + NODE + b"\n", 4), (NODE + b"\n", 1), (b"go\n", 1),
                         (b"ask 0 1 1 0 0 0 lookup 61\ntell 1 err 2\n" + head(), 3), (head(NODE, go=b"") + b"ask 0 1 1 0 0 0 lookup 61\n", 3)):
        differs(["check"], text, number)
        differs(["state"], text, number)
    assert said("check", "--cut", text=head(NODE, go=b"")) == b"begins\n"
    differs(["locks"], head(NODE, go=b""), 3)


def try_a_head_names_its_rules():
    """So they need not be said. Each that is said has to be the head's, but --whole, which no head names."""
    few = ["--fair", "--runs", "17", "--parked", "3", "--files", "9", "--open", "8"]
    text = head(NODE, FILE, LOCK, WAIT, rules=b"1 17 3 9 8") + b"ask 0 6000 7 0 0 0 setlkw 12 33 5 5 1 13 0\n"
    for words in [], few, few[:1], few[1:3], few[3:5], few[5:7], few[7:], ["--whole"], ["--whole", *few]:
        assert said("check", *words, text=text) == b"legal\n", words
        assert said("state", *words, text=text) == said("state", text=text), words
        assert said("locks", *words, text=text) == said("locks", text=text), words
    assert said("state", text=text).startswith(b"state 1 1 17 3 9 8 9 14\n")
    for words in ["--runs", "18"], ["--parked", "2"], ["--files", "256"], ["--open", "1024"], [*few[:7], "--open", "9"]:
        for command in "check", "state", "locks":
            differs([command, *words], text, 1)
    differs(["check", "--fair"], head(), 1)
    for words in [], ["--whole"]:
        ran = run("check", "-v", "--open", "9", *words, text=text)
        assert ran.stderr.endswith(b"\njudged by --fair --runs 17 --parked 3 --files 9 --open 9: perhaps it was made by other rules\n"), ran


def try_bad_lines_of_heads():
    for line in (b"state 0 0 4096 256 256 1024 9", b"state 0 2 4096 256 256 1024 9 14", b"node 7 1 1 33188 0 0", b"node 7 1 2 33188 0 0 61", b"file 12", b"file 12 7 ",
                 b"lock 7 31 0 9 2 11 0", b"lock 7 31 0 9 1 11 2", b"wait 5000 7 12 32 5 5 1 12", b"go ", b"go 1", b"node 07 1 1 33188 0 0 61",
                 b"lock 18446744073709551616 31 0 9 1 11 0", b"state 0 0 4294967296 256 256 1024 9 14"):
        ran = run("check", text=line + b"\n")
        assert (ran.stdout, ran.stderr, ran.returncode) == (b"", b"bad line 1\n", 2), (line, ran)


def try_rules_that_a_head_names():
    """A head is judged by the rules that it names."""
    fair = ["--fair", "--runs", "7", "--parked", "3", "--files", "5", "--open", "9"]
    found = said("state", *fair, text=b"")
    assert found == b"state 0 1 7 3 5 9 2 1\ngo\n", found
    assert said("check", *fair, text=found) == said("check", text=found) == b"legal\n"


# ---- pieces in a row

# The orders of a file with a lock, for which another owner waits, and what is there then.
WAITED_FOR = b"ask 0 1 1 0 0 0 create 0 420 61\nask 0 2 2 0 0 0 setlk 1 7 0 9 1 11 0\nask 0 3 2 0 0 0 setlkw 1 8 5 5 1 12 0\n"
LET_GO = b"ask 0 4 2 0 0 0 setlk 1 7 0 9 2 11 0\ntell 4 ok\ntell 3 ok\n"
# Each has more room than those before, so that what fits the first fits all.
ROOMY = RULES, b"0 8192 256 256 1024", b"0 8192 512 4096 1024", b"0 65536 1024 65536 65536"


def under(rules, text):
    """A head, and what stands behind it, that names these rules in place of its own."""
    begin, rest = text.split(b"\n", 1)
    words = begin.split()
    return b" ".join([*words[:2], rules, *words[7:]]) + b"\n" + rest


def in_pieces(trace, places, rules=()):
    """A trace that is cut before these lines: each piece but the first begins with the head behind the one before, perhaps by such rules."""
    lines, found = trace.splitlines(True), []
    for at, (begin, end) in enumerate(zip([0, *places], [*places, len(lines)])):
        head = said("state", text=found[-1]) if found else b""
        found.append((under(rules[at], head) if found and rules else head) + b"".join(lines[begin:end]))
    return found


def judged(pieces, *words):
    """What `check` says of the pieces in these files."""
    with tempfile.TemporaryDirectory() as folder:
        paths = [os.path.join(folder, str(number)) for number in range(1, len(pieces) + 1)]
        for path, text in zip(paths, pieces):
            with open(path, "wb") as file:
                file.write(text)
        ran = run("check", *words, *paths)
        return ran.stdout.decode(), ran.stderr.decode().replace(folder + "/", ""), ran.returncode


def try_pieces_in_a_row():
    """Random traces, cut at up to four places behind an order's replies."""
    numbers, count = random.Random(5), 0
    for trace in traces(40):
        places, lines = cuts(trace)
        found = in_pieces(trace, sorted(numbers.sample(places[1:-1], numbers.randrange(1, 5))))
        assert judged(found) == ("legal\n", "", 0), found
        assert judged(found[1:]) == ("legal\n", "", 0), found
        count += len(found)
        # A reply that differs is found in its piece.
        at = numbers.randrange(len(found))
        rows = found[at].splitlines(True)
        replies = [place for place, it in enumerate(rows) if it.startswith(b"tell ")]
        if replies:
            place = numbers.choice(replies)
            rows[place] = b"tell %s err 71\n" % rows[place].split()[1]
            assert judged([*found[:at], b"".join(rows), *found[at + 1:]]) == (f"differs {place + 1} of {at + 1}\n", "", 1)
        if len(found) > 2:
            assert judged([found[0], *found[2:]])[0] == "differs 1 of 2\n", "a piece is missing"
    return f"{count} pieces"


def try_seams_that_do_not_fit():
    """The first line, if its numbers differ, and the head's last one, if it tells anything else."""
    first = said("script", text=WAITED_FOR)
    ended = said("state", text=first)
    begin, node, file, lock, wait, go = ended.splitlines(True)
    assert judged([first, ended]) == ("legal\n", "", 0)
    assert judged([first, ended, said("state", text=ended)]) == ("legal\n", "", 0)
    for wrong in b"state 4 ", b"state 6 ":
        assert judged([first, ended.replace(b"state 5 ", wrong)]) == ("differs 1 of 2\n", "", 1), wrong
    for wrong in begin.replace(b" 3 2\n", b" 4 2\n"), begin.replace(b" 3 2\n", b" 3 3\n"):
        assert judged([first, ended.replace(begin, wrong)]) == ("differs 1 of 2\n", "", 1), wrong
    for parts in ([node, file, lock], [node, file], [node], [], [node.replace(b" 1 1 ", b" 2 1 "), file, lock, wait], [node, file, lock.replace(b" 0 9 ", b" 0 8 "), wait],
                  [node, file, lock, wait.replace(b" 12 0", b" 13 0")], [node, file, lock, wait, b"wait 9 2 1 9 5 5 1 12 0\n"],
                  [node, file, lock.replace(b" 0 9 ", b" 5 5 "), wait], [node.replace(b" 61\n", b" 62\n"), file, lock, wait]):
        text = begin + b"".join(parts) + go
        assert said("check", text=text) == b"legal\n", text
        assert judged([first, text]) == (f"differs {len(parts) + 2} of 2\n", "", 1), text
    # A lock may be told in two parts, and parts in another order.
    for parts in [node, file, lock.replace(b" 0 9 ", b" 5 9 "), lock.replace(b" 0 9 ", b" 0 4 "), wait], [node, lock, file, wait]:
        assert judged([first, begin + b"".join(parts) + go]) == ("legal\n", "", 0), parts
    assert judged([first, first]) == ("differs 1 of 2\n", "", 1)
    assert judged([first, b""])[2] == 1
    assert judged([first, begin + node]) == ("differs 3 of 2\n", "", 1)
    assert judged([first[:first.rindex(b"ask")] + b"ask 0 3 2 0 0 0 getattr\n", ended])[0] == "differs 6 of 1\n"
    assert judged([first, ended + b"x\n"]) == ("", "bad line 7 of 2\n", 2)
    assert judged([first, ended], "--runs", "4095")[0] == "differs 1 of 2\n"


def try_rules_that_change_in_a_row():
    """Each piece is judged by the rules that its head names, whatever those of the others are."""
    first = said("state", text=b"") + said("script", text=WAITED_FOR)
    ended = said("state", text=first)
    for rules, other in ((b"0 8192 256 256 1024", RULES), (b"0 4096 1024 65536 2048", b"0 2 1 1 1"), (b"1 4096 256 256 1024", b"0 8192 512 512 2048"),
                         (b"1 2 1 1 1", b"1 4096 256 2 2")):
        second = under(rules, ended) + LET_GO
        assert judged([first, under(rules, ended), ended]) == ("legal\n", "", 0), "they change back"
        third = under(other, said("state", text=second)) + b"ask 0 5 1 0 0 0 create 0 420 62\n"
        told = b"tell 5 made 3 33188 1 0 0 2\n", b"tell 5 err 28\n"
        right, wrong = told if other != b"0 2 1 1 1" else told[::-1]
        assert judged([first, second, third + right]) == ("legal\n", "", 0), (rules, other)
        # By rules with more room, or less, the reply differs.
        line = len((third + wrong).splitlines())
        assert judged([first, second, third + wrong]) == (f"differs {line} of 3\n", "", 1), (rules, other)


def try_random_rows_whose_rules_change():
    """Random traces, cut in pieces of which each has its own rules, with more room than the trace needs."""
    numbers, count = random.Random(6), 0
    for trace in traces(30):
        places, _ = cuts(trace)
        places = sorted(numbers.sample(places[1:-1], numbers.randrange(1, 5)))
        rules = [numbers.choice(ROOMY) for _ in range(len(places) + 1)]
        found = in_pieces(said("state", text=b"") + trace, [it + 2 for it in places], rules)
        assert judged(found) == ("legal\n", "", 0), found
        count += sum(one != other for one, other in zip([RULES, *rules[1:]], rules[1:]))
        at = numbers.randrange(1, len(found))
        begin, *rest = found[at].splitlines(True)
        parts = rest.index(b"go\n")
        if parts:
            # A part of what was there is missing, behind a change of rules or not.
            del rest[numbers.randrange(parts)]
            ran = judged([*found[:at], begin + b"".join(rest), *found[at + 1:]])
            assert ran[0].startswith("differs ") and ran[0].endswith(f" of {at + 1}\n") and ran[1:] == ("", 1), (ran, found)
    assert count > 30, count
    return f"{count} changes of rules"


def try_a_state_that_does_not_fit_other_rules():
    """The first part of the head for which there is no room, or that needn't wait; and its `go`, if anything is missing."""
    orders = WAITED_FOR + b"ask 0 5 1 0 0 0 create 0 420 62\nask 0 6 3 0 0 0 setlk 2 9 0 9 1 13 0\nask 0 7 3 0 0 0 setlkw 2 8 5 5 1 12 0\n"
    first = said("state", text=b"") + said("script", text=orders)
    ended = said("state", text=first)
    rows = ended.splitlines(True)
    assert judged([first, under(b"0 2 2 2 2", ended)]) == ("legal\n", "", 0), ended
    for rules, word in (b"0 1 256 256 1024", b"lock "), (b"0 4096 1 256 1024", b"wait "), (b"0 4096 256 1 1024", b"node "), (b"0 4096 256 256 1", b"file "):
        _, line = (at for at, it in enumerate(rows, 1) if it.startswith(word))
        assert judged([first, under(rules, ended)]) == (f"differs {line} of 2\n", "", 1), (rules, line)
    # Each part in turn is missing behind a change of rules. One that isn't wanted by those behind it is missed at `go`.
    for rules in b"1 4096 256 256 1024", b"0 8192 512 512 2048":
        for at, row in enumerate(rows[1:-1], 1):
            if not row.startswith((b"node ", b"lock ")):
                text = under(rules, b"".join(rows[:at] + rows[at + 1:]))
                assert judged([first, text]) == (f"differs {len(rows) - 1} of 2\n", "", 1), (rules, row)
        for other in ended.replace(b" 0 9 1 11 0\n", b" 0 8 1 11 0\n"), ended.replace(b" 0 9 1 11 0\n", b" 0 9 1 14 0\n"):
            assert judged([first, under(rules, other)]) == (f"differs {len(rows)} of 2\n", "", 1), (rules, other)
        assert judged([first, under(rules, ended).replace(b"state 10 ", b"state 9 ", 1)]) == ("differs 1 of 2\n", "", 1), rules


def try_a_request_that_waits_by_fair_rules_alone():
    """By others it needn't wait, so it doesn't fit them."""
    orders = WAITED_FOR + b"ask 0 4 2 0 0 0 setlkw 1 9 5 20 1 13 0\n"
    fair = said("state", "--fair", text=b"") + said("script", "--fair", text=orders.replace(b"0 9 1 11 0", b"0 5 1 11 0"))
    ended = said("state", text=fair)
    assert judged([fair, under(RULES, ended)]) == ("legal\n", "", 0), "the lock blocks both"
    orders = orders.replace(b"setlkw 1 9 5 20 1 13 0", b"setlkw 1 9 15 20 1 13 0").replace(b"setlkw 1 8 5 5 1 12 0", b"setlkw 1 8 5 15 1 12 0")
    fair = said("state", "--fair", text=b"") + said("script", "--fair", text=orders)
    ended = said("state", text=fair)
    waits = [at for at, it in enumerate(ended.splitlines(), 1) if it.startswith(b"wait ")]
    assert len(waits) == 2 and judged([fair, ended]) == ("legal\n", "", 0), ended
    assert judged([fair, under(RULES, ended)]) == (f"differs {waits[1]} of 2\n", "", 1), ended


def try_rules_that_are_said_of_a_row():
    """They hold for all pieces, so a head that names others differs. What isn't said is each head's own."""
    first = said("state", text=b"") + said("script", text=WAITED_FOR)
    second = under(b"1 4096 300 256 1024", said("state", text=first))
    third = under(b"0 4096 300 256 2048", second)
    row = [first, second, third]
    for words, found in (([], "legal"), (["--runs", "4096"], "legal"), (["--files", "256", "--runs", "4096"], "legal"), (["--parked", "256"], "differs 1 of 2"),
                         (["--parked", "300"], "differs 1 of 1"), (["--open", "1024"], "differs 1 of 3"), (["--fair"], "differs 1 of 1"),
                         (["--runs", "4095"], "differs 1 of 1")):
        ran = judged(row, *words)
        assert ran == (f"{found}\n", "", 0 if found == "legal" else 1), (words, ran)
    # The rules of the piece that was read last are told.
    for at, rules in (2, "--fair --runs 4096 --parked 300 --files 256 --open 1024"), (3, "--runs 4096 --parked 300 --files 256 --open 2048"):
        texts = [*row[:at - 1], row[at - 1] + b"tell 9 ok\n", *row[at:]]
        line = len(texts[at - 1].splitlines())
        _, told, status = judged(texts, "-v")
        assert status == 1 and told.startswith(f"line {line} of {at}: tell 9 ok\n") and told.endswith(f"\njudged by {rules}: perhaps it was made by other rules\n"), told


def try_more_of_a_row():
    """How many pieces there are, and what the last one has; or that it doesn't go on from the one before."""
    first = said("state", text=b"") + said("script", text=WAITED_FOR)
    second = said("state", text=first) + LET_GO
    lines, orders = len(second.splitlines()), LET_GO.count(b"ask ")
    assert judged([first, second], "-v") == ("legal\n", f"2 pieces, the last one with {lines} lines, {orders} order{'s' * (orders > 1)}\n", 0)
    for more in b"", b"tell 9 ok\n":
        assert judged([second, second + more], "-v") == ("differs 1 of 2\n", "2 doesn't go on from what is there after the piece before it\n", 1)


def try_a_first_piece_without_a_head():
    """Is judged by the rules of the piece behind it, and alone by the standard ones."""
    few = b"0 4096 256 1 1024"
    trace = said("script", "--files", "1", text=b"ask 0 1 1 0 0 0 create 0 420 61\nask 0 2 1 0 0 0 create 0 420 62\n")
    head = said("state", "--files", "1", text=trace)
    assert head.startswith(b"state 4 " + few), head
    assert judged([trace]) == judged([trace, under(RULES, head)]) == ("differs 4 of 1\n", "", 1)
    assert judged([trace, head]) == judged([trace, head, under(RULES, head)]) == ("legal\n", "", 0)
    assert judged([trace], "--files", "1") == ("legal\n", "", 0)
    assert judged([trace, under(RULES, head)], "--files", "1") == ("differs 1 of 2\n", "", 1)
    assert judged([b"", head])[0] == "differs 1 of 2\n"
    assert judged([trace, b"", head])[0] == "differs 1 of 2\n"


def try_pieces_in_pipes():
    """They can't be read twice: what is read ahead of each is judged, too."""
    first = said("state", text=b"") + said("script", text=WAITED_FOR)
    row = [first, under(b"1 4096 300 256 1024", said("state", text=first)) + LET_GO]
    for texts, found, status in (row, b"legal\n", 0), ([row[0], row[1] + b"tell 9 ok\n"], b"differs 10 of 2\n", 1), ([b"x\n", row[1]], b"", 2):
        ends = [os.pipe() for _ in texts]
        for (_, write), text in zip(ends, texts):
            os.write(write, text)
            os.close(write)
        ran = run("check", *(f"/dev/fd/{read}" for read, _ in ends), pass_fds=[read for read, _ in ends])
        for read, _ in ends:
            os.close(read)
        assert (ran.stdout, ran.returncode) == (found, status), ran


def try_pieces_that_cannot_be_read():
    ran = run("check", "/nowhere/1", "/nowhere/2")
    assert (ran.stdout, ran.returncode) == (b"", 2) and ran.stderr.startswith(b"read failed\n/nowhere/1: "), ran
    for words in ["--quiet"], ["--cut"]:
        ran = run("check", *words, "/nowhere/1")
        assert (ran.stdout, ran.returncode) == (b"", 2) and b"error: " in ran.stderr, ran
    ran = run("check", "-v", "/dev/null", "/")
    assert (ran.stdout, ran.returncode) == (b"", 2) and ran.stderr.startswith(b"read failed\n/: "), ran


def try_a_server_goes_on_behind_a_head():
    """What it tells is there: a lock keeps another away, and the request that waits for it gets it."""
    told = head(NODE, FILE, LOCK, WAIT)
    server = Server("--resume", "{file}", workers=None, traced=told)
    came = server.talk(INIT + fuse.lock(fuse.SETLK, 6000, 33, 0, 0, fuse.WRITE_LOCK, 7, 12) + fuse.lock(fuse.SETLK, 6001, 31, 0, 9, fuse.NO_LOCK, 7, 12))
    assert fuse.errors(came) == [(1, 0), (6000, fuse.EAGAIN), (6001, 0), (5000, 0)], fuse.errors(came)
    assert server.ended() == (b"", "", 0)
    assert server.traced() == told + b"""\
ask 0 6000 7 0 0 0 setlk 12 33 0 0 1 11 0
tell 6000 err 11
ask 0 6001 7 0 0 0 setlk 12 31 0 9 2 11 0
tell 6001 ok
tell 5000 ok
"""


if __name__ == "__main__":
    sys.exit(tries.main("commands/states", globals()))
