"""Tries locks and waiting by the built `lockd`: random orders beside the model of tests/model.py, which says all their replies. `script` has to
give the same ones.

Random histories of fewer orders are judged too: whether they are quiet, a plain function says by their lines alone. Seeds are fixed.
`tries.py` says how it ends.
"""
import collections
import itertools
import random
import sys

from tests import tries
from tests.model import LAST, READ, RECORD, UNLOCK, WRITE, Model
from tests.tries import run

TURNS = 3_000
# Locks begin and end within the first ten bytes, or end at the last byte.
FIRSTS = range(11)


def random_lock(numbers, owners, kind=None):
    """Few bytes, or those from one on. Seldom it is malformed."""
    if kind is None:
        kind = READ if numbers.randrange(5) < 2 else WRITE
    start = numbers.randrange(10)
    end = LAST if numbers.randrange(6) == 0 else min(start + numbers.randrange(4), 9)
    owner, pid, flags = numbers.randrange(owners), numbers.randrange(2), int(numbers.randrange(4) == 0)
    it = {"owner": owner, "start": start, "end": end, "kind": kind, "pid": pid, "flags": flags}
    if kind != UNLOCK:
        it |= {0: {"flags": 2}, 1: {"kind": 3}, 2: {"end": LAST + 1}, 3: {"start": 5, "end": 4}}.get(numbers.randrange(100), {})
    return it.values()


def unique_of_parked(numbers, model, other):
    """The unique of a parked request, if there is one at a place that is drawn."""
    place = numbers.randrange(64)
    return model.parked[place].unique if place < len(model.parked) else other


def random_file_op(numbers, model, owners, fh):
    """What is asked of an open file other than to lock or unlock."""
    draw, owner = numbers.randrange(13), numbers.randrange(owners)
    if draw < 3:
        return "flush", fh, owner
    if draw == 3:
        return "release", fh, numbers.randrange(2), owner
    if draw < 9:
        return "interrupt", unique_of_parked(numbers, model, 7)
    return ("getattr",) if draw == 9 else ("getlk", fh, *random_lock(numbers, owners))


def random_op(numbers, model, owners):
    """A node, and what is asked of it. Seldom the open file is another node's, or was closed, or isn't there yet."""
    draw, opened = numbers.randrange(100), list(model.files.items())
    if draw < 4 or not opened:
        node = 2 + numbers.randrange(len(model.names))
        return node, *(["open"] if list(model.files.values()).count(node) < 3 else ["forget", 1])
    fh, node = numbers.choice(opened)
    if numbers.randrange(20) == 0:
        fh, node = numbers.choice([(1, 2), (fh, 5 - node), (model.next_fh, node)])
    if draw < 18:
        return node, *random_file_op(numbers, model, owners, fh)
    if draw < 23:
        return node, "setlk", fh, *random_lock(numbers, owners)
    if draw < 50:
        return node, numbers.choice(["setlk", "setlkw"]), fh, *random_lock(numbers, owners, UNLOCK)
    return node, "setlkw", fh, *random_lock(numbers, owners)


def of_user(model, *order):
    """The lines of an order of user 5 and group 6."""
    return model.lines(*order, who=(5, 6))


def random_lines(model, seed, owners, files):
    """The lines of random orders. After each comes a GETATTR with the unique of one that waits, or was just answered; after each twentieth one
    with each of these, and at last with all. It is refused as long as a request of the unique waits. Then all is closed."""
    numbers = random.Random(seed)
    for number in range(files):
        yield from of_user(model, 1, 1, "create", 1, 0o644, f"{0x61 + number:x}")
    for turn in range(TURNS):
        unique = unique_of_parked(numbers, model, turn) if numbers.randrange(40) == 0 else turn
        node, *op = random_op(numbers, model, owners)
        model.counts["uniques refused"] += model.is_parked(unique)
        yield from of_user(model, unique, node, *op)
        others = [unique, *(other for other, _ in model.told), *(it.unique for it in model.parked)]
        for other in others if turn % 20 == 0 else [numbers.choice(others)]:
            yield from of_user(model, other, 1, "getattr")
    for unique in range(TURNS):
        yield from of_user(model, unique, 1, "getattr")
    for fh, node in [*model.files.items()]:
        yield from of_user(model, LAST, node, "release", fh, 0, 0)
    assert not model.parked


def options_of(model):
    return [*["--fair"][:model.fair], "--runs", str(model.most_runs), "--parked", str(model.most_parked)]


def answers(model, seed, owners, files):
    """`script` gives the replies of the model, whose trace is legal. Says how many lines it has."""
    lines = [*random_lines(model, seed, owners, files)]
    ran = run("script", *options_of(model), text="".join(it for it in lines if it.startswith("ask ")).encode())
    assert (ran.stderr, ran.returncode) == (b"", 0), ran.stderr
    for at, (said, wanted) in enumerate(itertools.zip_longest(ran.stdout.decode().splitlines(True), lines), 1):
        assert said == wanted, (seed, at, said, wanted)
    assert run("check", *options_of(model), text="".join(lines).encode()).stdout == b"legal\n", seed
    return len(lines)


def are_answered(seeds, least, owners=4, files=2, **rules):
    """So are the random orders of so many seeds. Each thing happens at least so often for each of them, counted together."""
    lines, counts = 0, collections.Counter()
    for seed in range(seeds):
        model = Model(FIRSTS, **rules)
        lines += answers(model, seed, owners, files)
        counts += model.counts
    few = {what: counts[what] for what, count in least.items() if counts[what] < count * seeds}
    assert not few, few
    assert rules.get("fair") or not counts["parked behind others alone"] + counts["freed by interrupts"], counts
    return f"{lines} lines, {counts['granted']} granted"


# What happens at least so often for a seed.
OFTEN = {"most parked": 31, "parked": 401, "granted": 201, "freed by grants": 1, "closed": 41, "interrupted": 41, "uniques refused": 16,
         "circles": 301}
FAIRLY = {"parked behind others alone": 11, "freed by interrupts": 1}
LITTLE = {"no room for a run": 21, "no place to wait": 21, "granted": 21}
OF_MORE = {"most parked": 51, "parked": 401, "granted": 101, "circles": 401, "long circles": 16}


def try_standard_rules():
    return are_answered(8, {**OFTEN, "long circles": 9})


def try_fair_rules():
    return are_answered(8, {**OFTEN, **FAIRLY, "long circles": 4}, fair=True)


def try_where_little_is_allowed():
    """Few runs and few parked requests, so that many find no room."""
    return are_answered(3, LITTLE, runs=8, parked=3)


def try_where_little_is_allowed_by_fair_rules():
    return are_answered(3, LITTLE, runs=8, parked=3, fair=True)


def try_more_owners_and_files():
    return are_answered(2, OF_MORE, owners=6, files=3)


def try_more_owners_and_files_by_fair_rules():
    return are_answered(2, {**OF_MORE, **FAIRLY}, owners=6, files=3, fair=True)


def is_quiet(lines):
    """Whether a legal history is quiet: no owner asks for a record lock while one of its requests for a record lock has no reply. It reads
    the lines alone. A reply directly behind an order of its unique is the order's own."""
    waiting, before = {}, None
    for line, after in zip(lines, [*lines[1:], ""]):
        word, *it = line.split()
        if word == "tell":
            if it[0] != before:
                waiting.pop(it[0], None)
            before = None
            continue
        unique, op, words = it[1], it[6], it[7:]
        before = unique if after.startswith(f"tell {unique} ") else None
        if op in ("setlk", "setlkw") and int(words[4]) < UNLOCK and words[6] == "0":
            if words[1] in waiting.values():
                return False
            if op == "setlkw" and before is None:
                waiting[unique] = words[1]
    return True


def short_lock(numbers):
    """A lock of few bytes or of the whole file, sometimes through an fh that isn't open, or of a type that isn't one."""
    fh, owner, start, draw = 1 + (numbers.randrange(12) == 0), numbers.randrange(6), numbers.randrange(6), numbers.randrange(12)
    kind = 3 if draw == 0 else READ if draw < 5 else WRITE
    return fh, owner, start, start + numbers.randrange(3), kind, 0, int(numbers.randrange(6) == 0)


def unlock(numbers):
    """All locks of an owner go."""
    fh, owner, _, _, _, pid, flags = short_lock(numbers)
    return fh, owner, 0, LAST, UNLOCK, pid, flags


def short_op(numbers, turn):
    draw = numbers.randrange(12)
    if draw == 0:
        return "interrupt", turn - numbers.randrange(min(turn, 8))
    if draw < 5:
        return ("getlk", *short_lock(numbers)) if draw == 1 else ("setlkw" if draw == 4 else "setlk", *unlock(numbers))
    return "setlk" if draw < 7 else "setlkw", *short_lock(numbers)


def short_history(seed, model):
    """The lines of a file made, and of 10 to 39 random orders. With an even seed no owner asks for a record lock while it waits for one."""
    numbers = random.Random(seed)
    lines = of_user(model, 1, 1, "create", 1, 0o644, "61")
    for turn in range(2, 12 + numbers.randrange(30)):
        unique = turn - numbers.randrange(min(turn, 8)) if numbers.randrange(30) == 0 else turn
        op = short_op(numbers, turn)
        is_record = op[0] in ("setlk", "setlkw") and op[5] < UNLOCK and op[7] == RECORD
        if seed % 2 == 0 and is_record and any((it.owner, it.flags) == (op[2], RECORD) for it in model.parked):
            op = "setlk", *unlock(numbers)
        lines += of_user(model, unique, 2, *op)
    return lines


def are_judged(fair, seeds):
    """`check --quiet` says what the model does. A careful client's histories are all quiet, and most others aren't."""
    quiet = [0, 0]
    for seed in range(seeds):
        model = Model(FIRSTS, fair)
        lines = short_history(seed, model)
        wanted = is_quiet(lines)
        ran = run("check", "--quiet", *options_of(model), text="".join(lines).encode())
        assert ran.stdout == (b"legal\nquiet\n" if wanted else b"legal\nnot quiet\n"), (seed, wanted, ran)
        quiet[seed % 2] += wanted
    assert quiet[0] == seeds // 2 and 0 < quiet[1] < seeds // 2 * 3 // 5, quiet
    return f"{quiet[1]} of the {seeds // 2} histories of a careless client are quiet"


def try_which_histories_are_quiet():
    return are_judged(False, 1_000)


def try_which_histories_are_quiet_by_fair_rules():
    return are_judged(True, 400)


if __name__ == "__main__":
    sys.exit(tries.main("locks/random", globals()))
