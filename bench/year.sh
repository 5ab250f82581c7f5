#!/bin/sh
# What `lockd serve --resume FILE --rotate 4194304 --keep 2` takes of so many orders (30,000,000 without an argument: a year of one job runner),
# in ten sessions, one after another. After each it prints the number of the last piece, how many bytes its pieces have on the disk, the most memory that
# the server had (VmHWM of /proc), and how long the next one takes from its start to its first reply. At the end it prints the ratios of the
# greatest to those after the first session. `tests/resume/year.py` runs the sessions, and wants a C compiler.
#
#     bench/year.sh [ORDERS]
set -eu
. "$(dirname "$0")/../dev/built_lockd.sh"
LOCKD=$(realpath "$program") python3 - "$work" "${1:-30000000}" <<'END'
import sys
import time

sys.dont_write_bytecode = True
sys.path.insert(0, ".")
from tests.resume.year import SESSIONS, Year

orders = int(sys.argv[2])
year, rows, begun = Year(sys.argv[1], orders), [], time.perf_counter()
for session, it in enumerate(year.sessions(), 1):
    rows.append(it[1:])
    print(f"{orders * session // SESSIONS} orders: piece {it.number}, at most {it.disk / 1e6:.1f} MB on the disk, {it.memory / 1e6:.1f} MB of memory, a restart in {it.restart:.3f} s",
          flush=True)
disk, memory, again = (max(it) / it[0] for it in zip(*rows))
print(f"the most, to that of the first tenth: disk {disk:.2f}, memory {memory:.2f}, restart {again:.2f}; {time.perf_counter() - begun:.0f} s; the last pieces: {year.judged()}", end="")
END
