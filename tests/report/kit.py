"""What the tries of programs/lockd_report share: traces, what its model finds in them, and the program itself."""
import random
import subprocess
import sys

from tests import tries
from report.session import follow
from report.tables import Place, tables
from report.trace import read_trace
from tests.tries import TOP, run

REPORT = f"{TOP}/programs/lockd_report"
CREATED = "ask 0 1 1 0 0 0 create 0 420 61\n"


def same(found, wanted):
    assert found == wanted, f"{found!r}, and not {wanted!r}"


def traced(script, *rules):
    """The trace of a script."""
    ran = run("script", *rules, text=script.encode())
    assert not ran.returncode, ran
    return ran.stdout


def followed(script, *rules):
    trace = read_trace(traced(script, *rules))
    return trace, follow(trace)


def held(session):
    """The owner, class, range, kind, and first and last order, counted from 1, of each lock that was held."""
    return sorted((it.key.owner, "flock" if it.key.flock else f"{it.run.start}-{it.run.end}", "rw"[it.run.kind], it.first + 1, it.last + 1)
                  for it in session.held)


def waits(session):
    return [(it.wish.key.owner, it.first + 1, it.last + 1, it.ended, it.blockers) for it in session.waits]


def locks(*rows):
    """A script: file `a` is made under fh 1, and then each row is an order on it, from unique 2 on."""
    return CREATED + "".join(f"ask 0 {at} 2 0 0 0 {row}\n" for at, row in enumerate(rows, 2))


def table(session, title, clock=None):
    found = next(it for it in tables(session, clock) if it.title == title)
    return [[it.text if isinstance(it, Place) else it for it in row] for row in found.rows]


def reported(*words, text=b""):
    return subprocess.run([sys.executable, REPORT, *words], input=text, capture_output=True, timeout=10 * tries.PATIENCE, check=False)


def times_of(trace, step=1000):
    """A line for each request and reply, a step apart, as a carrier would write them."""
    lines, at = [], 5_000_000
    for order in trace.orders:
        for kind, unique in [("ask", order.unique)] + [("tell", it.unique) for it in order.replies]:
            at += step
            lines.append(f"{kind} {unique} {at}\n")
    return "".join(lines).encode()


def random_script(seed, count):
    """Locks of all kinds on three files, and GETLKs."""
    draw = random.Random(seed)
    rows = [f"1 0 0 0 create 0 420 {it}" for it in ("61", "62", "63")]
    for _ in range(count):
        node, owner, start = draw.randrange(2, 5), draw.randrange(6), draw.randrange(12)
        ask = f"{node - 1} {owner} {start} {start + draw.randrange(6)} {draw.choice((0, 1, 1, 2))} {owner + 100} {int(draw.random() < 0.2)}"
        kind = draw.choices(("setlk", "setlkw", "getlk", "flush", "interrupt"), (4, 3, 4, 1, 1))[0]
        if kind == "flush":
            ask = f"{node - 1} {owner}"
        elif kind == "interrupt":
            ask = str(draw.randrange(1, count))
        elif kind == "getlk":
            ask = f"{node - 1} {owner} {start} {start + 3} {draw.randrange(2)} 1 0"
        rows.append(f"{node} 0 0 0 {kind} {ask}")
    return "".join(f"ask 0 {at} {row}\n" for at, row in enumerate(rows, 1))


def busy_trace(count):
    """A trace of so many orders: owners take a write lock on one of 40 files, wait for it in turn, try it, and unlock it."""
    draw, lines, unique = random.Random(7), [], 0
    holders, queues, held = {}, {it: [] for it in range(2, 42)}, {}
    for node in queues:
        unique += 1
        lines += [f"ask 0 {unique} 1 0 0 0 create 0 420 {f'lock{node}'.encode().hex()}", f"tell {unique} made {node} 33188 1 0 0 {node - 1}"]
    while unique < count:
        owner = draw.randrange(80)
        if held.get(owner) == "waits":
            continue
        unique += 1
        node = held.get(owner) or min(draw.randrange(2, 42), draw.randrange(2, 42))
        kind = "setlk" if owner in held or draw.random() < 0.3 else "setlkw"
        lines.append(f"ask 0 {unique} {node} 0 0 {1000 + owner} {kind} {node - 1} {owner} 0 0 {2 if owner in held else 1} {1000 + owner} 0")
        if owner in held:
            lines.append(f"tell {unique} ok")
            del holders[node], held[owner]
            if queues[node]:
                holders[node], waiter = queues[node].pop(0)
                held[holders[node]] = node
                lines.append(f"tell {waiter} ok")
        elif node not in holders:
            holders[node], held[owner] = owner, node
            lines.append(f"tell {unique} ok")
        elif kind == "setlk":
            lines.append(f"tell {unique} err 11")
        else:
            queues[node].append((owner, unique))
            held[owner] = "waits"
    return "".join(f"{it}\n" for it in lines).encode()
