#!/bin/sh
# Times a million inserts, steps and removes on one chain of 1,000 items, by the arena and by a plain
# array-backed list in Rust, and prints both times in seconds and their ratio. It proves and builds
# bench/programs/arena_bench first, with `rt`, and needs `rustc` for the other.
set -eu
top=$(cd "$(dirname "$0")/.." && pwd)
work=$(mktemp -d)
trap 'rm -rf "$work"' EXIT
program=$("$top/bench/build" arena_bench)
rustc -O -o "$work/list" "$top/bench/arena_list.rs"
seconds() {
    python3 -c 'import subprocess, sys, time
best = min((lambda t: (subprocess.run(sys.argv[1:], stdout=subprocess.DEVNULL, check=True), time.perf_counter() - t)[1])(time.perf_counter()) for _ in range(5))
print(f"{best:.4f}")' "$@"
}
arena=$(seconds "$program")
list=$(seconds "$work/list")
echo "arena $arena s"
echo "list  $list s"
python3 -c "print(f'ratio {$arena / $list:.2f} (arena / list)')"
