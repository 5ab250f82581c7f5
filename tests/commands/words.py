"""Tries command lines of the built `lockd`.

Those that it has to refuse: each word and option twice, missing, empty, too long, misspelled, and beside options that exclude it. Each ends with
status 2, text on standard error and nothing on standard output, and listens nowhere. And those with rules, which have to reach what answers orders. `tries.py` says how it ends.
"""
import fcntl
import os
import shutil
import socket
import subprocess
import sys
import tempfile

from tests import tries
from tests.fuse import SETLK, SETLKW
from tests.tries import CREATE, INIT, lock, run

NOWHERE = "/nowhere/at/all"
LONG = "x" * 5_000
TOO_LONG_FOR_A_SOCKET = "/tmp/" + "x" * 103
CREATED = b"ask 0 1 1 0 0 0 create 0 420 61\n"
OPTIONS = {"--workers": "2", "--trace": "none", "--resume": NOWHERE, "--rotate": "1", "--keep": "2", "--trace-full": "refuse"}
MISFIT = "error: '--trace-full' takes go-on or refuse with '--trace FILE', and wait or end with '--resume FILE' or '--rotate BYTES'\n\nFor more information, try '--help'.\n"
ALONE = "error: '--rotate' needs '--resume FILE' or '--trace FILE', '--keep' needs '--rotate BYTES', and '--allow-gap' needs '--resume FILE'\n\nFor more information, try '--help'.\n"
MANY = ("error: '--rotate' and '--whole' take one worker: with several, a new piece's head, or a list of files, would be told while others take orders\n\n"
        "For more information, try '--help'.\n")
TWO = ("error: '--trace-full refuse' takes two workers or more: while one waits to write, another refuses orders\n\n"
       "For more information, try '--help'.\n")
RULES = {"--fair": [], "--whole": [], "--runs": ["1"], "--parked": ["1"], "--files": ["1"], "--open": ["1"]}
RULED = {(): [], ("script",): [], ("bytes",): [], ("check",): [], ("locks",): [], ("serve",): [NOWHERE]}


def asks(*ops):
    """A script: a file is made, and these orders of its node follow, with the uniques 2, 3, .."""
    return CREATED + b"".join(f"ask 0 {unique} 2 0 0 0 {op}\n".encode() for unique, op in enumerate(ops, 2))


def are_refused(*lines, by=None):
    """Says how many there were."""
    for words in lines:
        ran = run(*words)
        told = ran.stderr.decode()
        assert (ran.returncode, ran.stdout) == (2, b"") and told, (words, ran)
        assert told == by if by else not told.startswith("cannot"), (words, told)
    return f"{len(lines)} refused"


def try_commands():
    return are_refused([""], ["", ""], [LONG], ["no-such"], ["Script"], ["-"], ["-x"], ["--no-such"], ["script", "script"])


def try_commands_that_take_no_word():
    lines = [[command, word] for command in ("script", "bytes", "check") for word in ("x", "", LONG, "--workers", "--no-such")]
    return are_refused(*lines)


def try_quiet():
    values = ["--quiet=", "--quiet=x", f"--quiet={LONG}", "--quie"]
    return are_refused(["check", "--quiet", "--quiet"], *(["check", it] for it in values), ["script", "--quiet"], ["bytes", "--quiet"])


def try_cut():
    values = ["--cut=", "--cut=x", f"--cut={LONG}", "--cu"]
    return are_refused(["check", "--cut", "--cut"], *(["check", it] for it in values), *([it, "--cut"] for it in ("script", "bytes", "serve")))


def try_options_of_locks():
    values = ["--at="], ["--at", "-1"], ["--at", "1.5"], ["--at", "4294967296"], ["--at"], ["--at", "1", "--at", "1"], ["--file"], ["--file="], ["--json=x"]
    return are_refused(*(["locks", *it] for it in values), ["locks", "--json", "--json"], *([it, "--json"] for it in ("script", "bytes", "check")))


def try_both_options_of_check():
    """A legal trace, and the same up to a byte of its last line. The line of `--quiet` stands behind `legal` alone."""
    trace = run("script", text=CREATED).stdout
    assert trace.count(b"\n") == 2, trace
    assert run("check", "--cut", "--quiet", text=trace).stdout == b"legal\nquiet\n"
    assert run("check", "--quiet", "--cut", text=trace[:-1]).stdout == b"begins\n"


def try_sockets():
    lines = [[], ["a", "b"], [NOWHERE, NOWHERE]]
    return are_refused(*([command, *words] for command in ("serve", "drive") for words in lines))


def try_sockets_that_cannot_be():
    for command, told in ("serve", "cannot listen\n"), ("drive", "cannot connect\n"):
        are_refused(*([command, path] for path in ("", LONG, TOO_LONG_FOR_A_SOCKET, NOWHERE)), by=told)


def try_options_of_a_server():
    lines = []
    for option, value in OPTIONS.items():
        twice = [option, value, option, value], [f"{option}={value}"] * 2, [option, value, option]
        lines += [[NOWHERE, *words] for words in (*twice, [option], [option, ""], [f"{option}="])]
        lines += [[option, value], [option]]
    lines += [[NOWHERE, option, LONG] for option in ("--workers", "--trace-full")]
    return are_refused(*(["serve", *words] for words in lines))


def try_resume_alone():
    """No other trace and no number of workers stands beside it, in either order."""
    others = ["--trace", NOWHERE], ["--trace", "none"], ["--workers", "1"], ["--workers", "4"]
    both = [(["--resume", NOWHERE], other) for other in others]
    return are_refused(*(["serve", NOWHERE, *first, *last] for it in both for first, last in (it, it[::-1])))


def try_words_of_a_full_file():
    """Two are taken of a new file, and two of one that goes on, or is in pieces. Each other is refused before that file is opened."""
    new, goes_on = ["go-on", "refuse"], ["wait", "end"]
    taken = (([], []), (["--trace", "none"], []), (["--trace", NOWHERE], new), (["--resume", NOWHERE], goes_on),
             (["--trace", NOWHERE, "--rotate", "1"], goes_on), (["--rotate", "1", "--workers", "1", "--trace", NOWHERE], goes_on))
    lines = [(word in words, ["serve", NOWHERE, *to, "--trace-full", word]) for to, words in taken for word in new + goes_on]
    are_refused(*(line for fits, line in lines if fits), by="cannot trace\n")
    return are_refused(*(line for fits, line in lines if not fits), by=MISFIT)


def try_options_of_pieces():
    """`--rotate` is refused without a file, and `--keep` without `--rotate`, in each order and whatever else is said."""
    resume, trace, rotate, keep = ["--resume", NOWHERE], ["--trace", NOWHERE], ["--rotate", "1"], ["--keep", "2"]
    others = [], ["--workers", "2"], ["--trace", "none"], ["--trace", "none", "--trace-full", "wait"]
    taken = [[*first, *last, *more] for it in (resume, trace) for first, last in ((it, rotate), (rotate, it))
             for more in ([], keep, [*keep, "--trace-full", "end"])]
    are_refused(*(["serve", NOWHERE, *it] for it in taken), by="cannot trace\n")
    lines = [[*it, *other] for it in (rotate, keep, rotate + keep, keep + rotate) for other in others]
    lines += [resume + keep, keep + resume, [*keep, *resume, "--trace-full", "end"]]
    lines += [trace + keep, keep + trace, [*keep, *trace, "--trace-full", "refuse"]]
    return are_refused(*(["serve", NOWHERE, *it] for it in lines), by=ALONE)


def try_a_gap():
    """--allow-gap is a flag that goes with --resume, in each order and whatever else is said."""
    gap, resume, trace, rotate = ["--allow-gap"], ["--resume", NOWHERE], ["--trace", NOWHERE], ["--rotate", "1"]
    taken = [[*first, *last, *more] for first, last in ((gap, resume), (resume, gap)) for more in ([], rotate, [*rotate, "--keep", "2"], ["--fair"])]
    are_refused(*(["serve", NOWHERE, *it] for it in taken), by="cannot trace\n")
    lines = [[*gap, *it] for it in ([], trace, [*trace, *rotate], rotate, ["--workers", "1"], ["--trace", "none"])]
    are_refused(*(["serve", NOWHERE, *it] for line in lines for it in (line, line[1:] + gap)), by=ALONE)
    return are_refused(*(["serve", NOWHERE, *resume, *it] for it in (gap * 2, ["--allow-gap=1"], ["--allow-gaps"])),
                       *([command, *gap] for command in ("script", "bytes", "check", "locks", "state")), ["drive", NOWHERE, *gap])


def try_workers_of_a_new_trace_in_pieces():
    """One is taken, and more are refused before the file is made, in each order and whatever else is said."""
    words = ["--trace", NOWHERE], ["--rotate", "1"], ["--keep", "2"]
    lines = [[number, ["--workers", number], it] for number in ("1", "2", "4", "16") for it in (words, words[::-1], words[:2], words[1::-1])]
    lines = [(number == "1", ["serve", NOWHERE, *sum([*it[:at], said, *it[at:]], [])]) for number, said, it in lines for at in range(len(it) + 1)]
    are_refused(*(line for one, line in lines if one), by="cannot trace\n")
    return are_refused(*(line + more for one, line in lines if not one for more in ([], ["--trace-full", "go-on"])), by=MANY)


def try_workers_of_a_whole_session():
    """One is taken, also if none are said, and more are refused before any file is made, in each order and whatever else is said."""
    others = [], ["--trace", "none"], ["--fair"], ["--trace", NOWHERE, "--rotate", "1"], ["--trace", NOWHERE, "--trace-full", "go-on"]
    lines = [(number, ["serve", NOWHERE, *first, *more, *last]) for number in ("1", "2", "4", "16") for more in others
             for first, last in ((["--whole"], ["--workers", number]), (["--workers", number], ["--whole"]))]
    for number, words in lines:
        fault = "cannot trace\n" if words.count(NOWHERE) > 1 else "cannot listen\n"
        are_refused(words, by=fault if number == "1" else MANY)
    are_refused(["serve", NOWHERE, "--resume", NOWHERE, "--whole"], by="cannot trace\n")
    return are_refused(["serve", NOWHERE, "--whole", "--trace", NOWHERE, "--trace-full", "refuse"], by=TWO)


def try_numbers_of_pieces():
    """The least and the greatest are taken, and no other text."""
    bad = "", "-1", "0", "1.5", "0x1", " 1", "1 ", "1K", "4294967296", "18446744073709551617", "9" * 400, "one"
    for option, least in ("--rotate", 1), ("--keep", 2):
        words = ["serve", NOWHERE, "--resume", NOWHERE, *(["--rotate", "1"] if option == "--keep" else []), option]
        are_refused(*([*words, it] for it in (*bad, str(least - 1))))
        are_refused(*([*words, str(it)] for it in (least, 4_294_967_295)), by="cannot trace\n")


def try_options_of_no_other_command():
    lines = [[command, *words, option, value] for command, words in (("drive", [NOWHERE]), ("script", []), ("bytes", []), ("check", []))
             for option, value in OPTIONS.items()]
    return are_refused(*lines)


def try_rules():
    """Each of the options twice, with another value than it takes, and with none."""
    lines = []
    for option, values in RULES.items():
        lines += [[option, *values] * 2, [f"{option}="], [f"{option}=x"], [option, LONG], [option[:-2], *values]]
    for option, over in ("--runs", 65_537), ("--parked", 1_025), ("--files", 65_537), ("--open", 65_537):
        numbers = "", "0", str(over), "-1", "1.5", "0x1", " 1", "1 ", "4294967297", "18446744073709551617", "9" * 400, "one"
        lines += [[option, it] for it in numbers] + [[option]]
    return are_refused(*([*command, *words, *line] for command, words in RULED.items() for line in lines))


def try_rules_of_no_other_command():
    return are_refused(*(["drive", NOWHERE, option, *values] for option, values in RULES.items()))


def try_options_before_a_command():
    """Those that `script` has stand behind its name, or alone. Those of other commands stand behind theirs."""
    commands = ["script"], ["bytes"], ["check"], ["locks"], ["serve", NOWHERE], ["drive", NOWHERE], ["help"], ["x"], [""]
    lines = [[option, *values, *command] for command in commands for option, values in RULES.items()]
    return are_refused(*lines, ["--quiet"], ["--cut"], ["--fair", "--quiet"], *([option, value] for option, value in OPTIONS.items()))


def try_the_greatest_rules():
    """The least and the greatest numbers are taken, and the order of the options is free."""
    least, most = "--runs 1 --parked 1 --files 1 --open 1", "--parked 1024 --open 65536 --fair --runs 65536 --whole --files 65536"
    for words in least.split(), most.split():
        trace = run("script", *words, text=CREATED)
        assert trace.stdout.count(b"\n") == 2 and not trace.returncode, trace
        assert run("check", *words, "--quiet", text=trace.stdout).stdout == b"legal\nquiet\n"
        assert run("bytes", *words, text=INIT.hex().encode() + b"\n").stdout.count(b"\n") == 1
        assert run("serve", NOWHERE, *words).stderr == b"cannot listen\n"


def tells(script, *words):
    """The lines of the trace of a script under these rules, with the word `script` and without."""
    ran = run("script", *words, text=script)
    assert (ran.stderr, ran.returncode) == (b"", 0), (words, ran)
    assert run(*words, text=script).stdout == ran.stdout, words
    return ran.stdout.splitlines()


def try_what_fair_does():
    """A writer waits for a reader. A second reader passes it, or waits behind it."""
    script = asks("setlk 1 7 0 0 0 11 0", "setlkw 1 8 0 0 1 12 0", "setlkw 1 9 0 0 0 13 0")
    assert tells(script)[-1] == b"tell 4 ok"
    assert tells(script, "--fair")[-1] == b"ask 0 4 2 0 0 0 setlkw 1 9 0 0 0 13 0"


def try_what_limits_do():
    """Room for one run and for one request that waits: each limit is asked with scripts that have more of either."""
    runs = asks("setlk 1 7 0 0 1 11 0", "setlk 1 7 9 9 1 11 0")
    assert tells(runs, "--runs", "1")[-1] == b"tell 3 err 37"
    assert tells(runs, "--runs", "2")[-1] == tells(runs, "--parked", "1")[-1] == b"tell 3 ok"
    waits = asks("setlk 1 7 0 0 1 11 0", "setlkw 1 8 0 0 1 12 0", "setlkw 1 9 0 0 1 13 0")
    assert tells(waits, "--parked", "1")[-1] == b"tell 4 err 37"
    for words in ["--parked", "2"], ["--runs", "1"]:
        assert tells(waits, *words)[-1] == b"ask 0 4 2 0 0 0 setlkw 1 9 0 0 1 13 0", words


def creates(first, names):
    """Ask lines that make a file of each name, with the uniques from the first on."""
    return b"".join(f"ask 0 {unique} 1 0 0 0 create 0 420 {name.encode().hex()}\n".encode() for unique, name in enumerate(names, first))


def try_what_limits_of_files_do():
    """Room for one file, and for one open file: each limit is asked with scripts that have more of either."""
    files, opens = creates(1, "ab"), asks("open")
    assert tells(files, "--files", "1")[-1] == b"tell 2 err 28"
    assert tells(files, "--files", "2")[-1] == b"tell 2 made 3 33188 1 0 0 2"
    assert tells(files, "--files", "1", "--open", "1")[-1] == b"tell 2 err 28"
    assert tells(files, "--open", "1")[-1] == tells(opens, "--open", "1")[-1] == b"tell 2 err 23"
    assert tells(opens, "--open", "2")[-1] == tells(opens, "--files", "1")[-1] == b"tell 2 open 2"


def try_what_no_rules_do_to_files():
    """There may be 256 files, and 1,024 open ones; one more may not. Under the greatest rules there may be 65,536 of each."""
    for files, opens, words in (256, 1_024, []), (257, 1_025, ["--files", "257", "--open", "1025"]), (65_536, 65_536, ["--files", "65536", "--open", "65536"]):
        for script, most, error in (creates(1, map(str, range(files + 1))), files, 28), (asks(*["open"] * opens), opens, 23):
            told = tells(script, *words)
            assert [it for it in told if b" err " in it] == [told[-1]] == [b"tell %d err %d" % (most + 1, error)], told[-4:]


def try_what_no_rules_do():
    """256 requests may wait, and 4,096 runs may be locked; one more isn't."""
    waits = asks("setlk 1 7 0 0 1 11 0", *(f"setlkw 1 {owner} 0 0 1 12 0" for owner in range(1_000, 1_257)))
    runs = asks(*(f"setlk 1 7 {byte} {byte} 1 11 0" for byte in range(0, 2 * 4_097, 2)))
    for script, last in (waits, 259), (runs, 4_098):
        told = tells(script)
        assert [it for it in told if b" err " in it] == [b"tell %d err 37" % last], told[-4:]
    assert b"tell 258 " not in b"\n".join(tells(waits)) and b" err " not in b"\n".join(tells(waits, "--parked", "257"))
    assert b" err " not in b"\n".join(tells(runs, "--runs", "4097"))


def try_what_rules_do_in_bytes():
    """The script of `try_what_fair_does`, and the one of the limits, as messages: a reply is missing, or is ENOLCK."""
    fair = INIT + CREATE + lock(SETLK, 3, 7, 0, 0) + lock(SETLKW, 4, 8, 0, 1) + lock(SETLKW, 5, 9, 0, 0)
    runs = INIT + CREATE + lock(SETLK, 3, 7, 0, 1) + lock(SETLK, 4, 7, 9, 1)
    waits = INIT + CREATE + lock(SETLK, 3, 7, 0, 1) + lock(SETLKW, 4, 8, 0, 1) + lock(SETLKW, 5, 9, 0, 1)
    files = INIT + CREATE + CREATE.replace(b"a\0", b"b\0") + lock(SETLK, 3, 7, 0, 1)
    no_lock, ok, no_space, no_file = (f"10000000{error}" + "{:02x}00000000000000" for error in ("dbffffff", "00000000", "e4ffffff", "e9ffffff"))
    for stream, words, count, last in ((fair, [], 4, ok.format(5)), (fair, ["--fair"], 3, ok.format(3)),
                                       (runs, ["--runs", "1"], 4, no_lock.format(4)), (runs, ["--parked", "1"], 4, ok.format(4)),
                                       (waits, ["--parked", "1"], 4, no_lock.format(5)), (waits, ["--runs", "1"], 3, ok.format(3)),
                                       (files[:-len(lock(SETLK, 3, 7, 0, 1))], ["--files", "1"], 3, no_space.format(2)),
                                       (files[:-len(lock(SETLK, 3, 7, 0, 1))], ["--open", "1"], 3, no_file.format(2)), (files, [], 4, ok.format(3))):
        replies = run("bytes", *words, text=stream.hex().encode() + b"\n").stdout.decode().splitlines()
        assert (len(replies), replies[-1]) == (count, last), (words, replies)


def try_what_rules_do_in_check():
    """A trace is legal under the rules that it was made by, and under no others that tell another reply."""
    fair = asks("setlk 1 7 0 0 0 11 0", "setlkw 1 8 0 0 1 12 0", "setlkw 1 9 0 0 0 13 0")
    limits = asks("setlk 1 7 0 0 1 11 0", "setlk 1 7 9 9 1 11 0", "setlkw 1 8 0 0 1 12 0", "setlkw 1 9 0 0 1 13 0")
    files = creates(1, "ab") + b"ask 0 3 2 0 0 0 open\n"
    for script, words, line in ((fair, ["--fair"], 7), (limits, ["--runs", "1"], 6), (limits, ["--parked", "1"], 9),
                                (files, ["--files", "1"], 4), (files, ["--open", "1"], 4), (files, ["--open", "2"], 6)):
        trace = run("script", *words, text=script).stdout
        assert run("check", *words, text=trace).stdout == b"legal\n", words
        for others in [], ["--runs", "2", "--parked", "2", "--files", "2", "--open", "3"]:
            assert run("check", *others, text=trace).stdout == b"differs %d\n" % line, (words, others)


def try_version():
    for words in ["--version"], ["-V"]:
        ran = run(*words)
        assert (ran.stdout, ran.stderr, ran.returncode) == (b"lockd 0.1.0\n", b"", 0), ran


def try_values():
    workers = "0", "17", "-1", "1.5", "0x1", " 1", "1 ", "4294967297", "18446744073709551617", "9" * 400, "four"
    lines = [["--workers", it] for it in workers]
    lines += [[option, NOWHERE, "--trace-full", it] for option in ("--trace", "--resume") for it in ("never", "go-on ", "Refuse", "go", "End", "wai")]
    return are_refused(*(["serve", NOWHERE, *words] for words in lines))


def try_verbose():
    """Each command takes it, once. What it says is tried in `tests/commands/texts.py`."""
    for words in RULED:
        for option in "-v", "--verbose":
            ran = run(*words, *RULED[words], option)
            assert (ran.returncode, ran.stdout) == ((2, b"") if "serve" in words else (0, run(*words).stdout)), (words, ran)
    lines = [[*words, *more, *twice] for words, more in (*RULED.items(), (("drive",), [NOWHERE]))
             for twice in (["-v", "-v"], ["-vv"], ["-v", "--verbose"], ["--verbose="], ["--verbos"])]
    return are_refused(*lines, *([option, *words, *more] for option in ("-v", "--verbose") for words, more in RULED.items() if words))


def explained(*words):
    """The lines that a command adds, with `--verbose`, behind the one that it tells without."""
    brief, full = run(*words), run(*words, "--verbose")
    assert (brief.returncode, full.returncode, full.stdout) == (2, 2, b"") and brief.stderr.count(b"\n") == 1, (words, brief, full)
    assert full.stderr.startswith(brief.stderr), (words, full)
    return full.stderr[len(brief.stderr):].decode()


def try_why_no_socket_can_be():
    """Each path that `cannot listen` is told of, in words of its own."""
    with tempfile.TemporaryDirectory(prefix="try-lockd-") as folder:
        stale, listened, file, long = (f"{folder}/{name}" for name in ("stale", "listened", "file", "x" * (107 - len(folder))))
        for path in stale, listened:
            server = socket.socket(socket.AF_UNIX)
            server.bind(path)
            if path == stale:
                server.close()
        server.listen()
        with open(file, "wb"):
            pass
        for path, why, advice in ((stale, "Address already in use (os error 98)", "a socket's file is there: if no server listens at it, remove it"),
                                  (listened, "Address already in use (os error 98)", "a socket's file is there"),
                                  (file, "Address already in use (os error 98)", "a file is there that is no socket"),
                                  (folder, "Address already in use (os error 98)", "a folder is there"),
                                  (f"{folder}/no/socket", "No such file or directory (os error 2)", "there is no such folder"),
                                  (f"{file}/socket", "Not a directory (os error 20)", "a part of the path is no folder"),
                                  (long, "", "a socket's path has at most 107 bytes")):
            told = explained("serve", path)
            assert told.startswith(f"{path}: {why}") and told.split("\n")[1].startswith(advice) and told.count("\n") == 2, told
            if path == long:
                assert explained("drive", path) == told
            elif path != listened:
                found = {stale: ("Connection refused (os error 111)", "no server listens at the socket there"),
                         file: ("Connection refused (os error 111)", "what is there is no socket"), folder: ("Connection refused (os error 111)", "what is there is no socket"),
                         f"{folder}/no/socket": (why, "no file is there"), f"{file}/socket": (why, advice)}[path]
                told = explained("drive", path)
                assert told.startswith(f"{path}: {found[0]}\n{found[1]}") and told.count("\n") == 2, told
        assert explained("serve", "") == explained("drive", "") == "the path of the socket is empty: name a file\n"
        server.close()
        assert os.path.exists(stale) and os.path.exists(file)


def try_why_no_trace_can_be():
    """The same of `cannot trace`, with a new file and with one that goes on."""
    with tempfile.TemporaryDirectory(prefix="try-lockd-") as folder:
        file, missing, inside = f"{folder}/file", f"{folder}/no/file", f"{folder}/file/file"
        with open(file, "wb"):
            pass
        for option, path, why, advice in (("--trace", file, "File exists (os error 17)", "something is there"),
                                          ("--trace", folder, "File exists (os error 17)", "something is there"),
                                          ("--trace", missing, "No such file or directory (os error 2)", "there is no such folder"),
                                          ("--resume", missing, "No such file or directory (os error 2)", "there is no such folder"),
                                          ("--resume", inside, "Not a directory (os error 20)", "a part of the path is no folder"),
                                          ("--resume", folder, "Is a directory (os error 21)", "a folder is there")):
            told = explained("serve", NOWHERE, option, path)
            assert told.startswith(f"{path}: {why}\n{advice}") and told.count("\n") == 2, told
        assert explained("serve", NOWHERE, "--resume", "/dev/null") == "/dev/null: it is no regular file: name another\n"
        with open(file, "rb") as locked:
            fcntl.flock(locked, fcntl.LOCK_EX)
            assert explained("serve", NOWHERE, "--resume", file) == f"{file}: another program has it locked, as a server does: end that one first\n"


def try_why_no_trace_can_be_cut_off():
    """Root may forbid all changes of a file but what is written behind its end. One that ends with its last line isn't cut off."""
    with tempfile.NamedTemporaryFile(prefix="try-lockd-") as file:
        def appended_to(text):
            file.write(text)
            file.flush()
            if subprocess.run(["chattr", "+a", file.name], capture_output=True, check=False).returncode:
                return None
            try:
                return run("serve", NOWHERE, "--resume", file.name, "--verbose").stderr.decode()
            finally:
                subprocess.run(["chattr", "-a", file.name], check=True)

        whole = appended_to(b"")
        if whole is None:
            return "not tried: chattr isn't there, or can't do it"
        assert whole.startswith(f"going on behind the lines of {file.name}\ncannot listen\n"), whole
        told = appended_to(b"ask")
        why = "what follows its last newline can't be cut off: Operation not permitted (os error 1)"
        assert told == f"cannot trace\n{file.name}: {why}\ngo on behind a copy of it\n", told


NO_LOCKS = """
#include <errno.h>
int flock(int file, int how) { errno = ENOLCK; return -1; }
"""


def try_why_no_trace_can_be_locked():
    """The system has no locks for files. A new one is served, and that is said; one that goes on isn't."""
    if not shutil.which("cc"):
        return "not tried: there is no C compiler"
    with tempfile.TemporaryDirectory(prefix="try-lockd-") as folder:
        file, library, env = f"{folder}/file", f"{folder}/locks.so", os.environ.copy()
        subprocess.run(["cc", "-shared", "-fPIC", "-x", "c", "-", "-o", library], input=NO_LOCKS.encode(), check=True)
        env["LD_PRELOAD"] = library
        why = f"{file}: it can't be locked: No locks available (os error 37)"
        for option, begun, end in (("--trace", f"the trace goes to {file}\n", "let no other server go on in it by --resume"), ("--resume", "", "choose a file that can be locked")):
            for words in [], ["-v"]:
                fault = "cannot listen\n" if begun else "cannot trace\n"
                said = f"{begun}{why}\n{end}\n" if words else ""
                told = run("serve", NOWHERE, option, file, *words, env=env).stderr.decode()
                rest = told.replace(said, "", 1)
                assert said in told and rest.startswith(fault) and (words or rest == fault), told


def try_a_trace_that_cannot_be():
    are_refused(*(["serve", NOWHERE, "--trace", it] for it in (LONG, NOWHERE, sys.argv[0])), by="cannot trace\n")
    are_refused(*(["serve", NOWHERE, "--resume", it] for it in (LONG, NOWHERE, tries.TOP)), by="cannot trace\n")


def try_help():
    commands = "script", "bytes", "check", "locks", "serve", "drive"
    return are_refused(["--help"], ["-h"], ["help"], ["help", "x"], *([it, "--help"] for it in commands), *(["help", it] for it in commands))


if __name__ == "__main__":
    sys.exit(tries.main("commands/words", globals()))
