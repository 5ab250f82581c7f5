# For the scripts that run the built program, which source this file: goes to the top of the repository and gives the program's path as
# `program`, and an empty folder, gone at the end, as `work`. The program is the one that LOCKD names, or else `lockd`, which is proved
# and built if that isn't done yet.
cd "$(dirname "$0")"
while [ ! -f crates.txt ]; do cd ..; done
program=${LOCKD:-crates/lockd/out/lockd}
[ -n "${LOCKD:-}" ] || (cd crates/lockd && rt run < stdin > /dev/null)
[ -x "$program" ] || { echo "not tried: there is no program at $program" >&2; exit 77; }
work=$(mktemp -d)
trap 'rm -rf "$work"' EXIT
trap 'exit 1' INT TERM
