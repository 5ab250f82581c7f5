#!/bin/sh
# Programs that others wrote take their locks on a mount and on a file system in memory, several at
# a time; that no two are inside at once is seen outside of the mount. Prints each that goes
# otherwise than tests/mount/programs.py says, those that aren't installed (tests/mount/install_programs
# installs them), and `N as expected, M not, K not installed`. Status: 0, 1 where M isn't 0, and 77
# where what it wants itself is missing: root, /dev/fuse, a right to mount, a C compiler and Python
# 3.9. It takes half a minute on two processors.
#
#     tests/run mount/programs [--table] [--user] [NAME ..]
#
# --table prints how each goes, for docs/MOUNT.md. With --user nobody mounts, by fusermount3, and runs the programs.
#
# LOCKD and LOCKD_MOUNT name other programs, as for tests/mount/mount.sh.
set -eu
cd "$(dirname "$0")/../.."
skip() {
    echo "mount/programs: not tried: $1" >&2
    exit 77
}
[ "$(id -u)" -eq 0 ] || skip 'it wants root'
[ -c /dev/fuse ] || skip 'there is no /dev/fuse'
for it in cc python3 unshare timeout; do
    command -v "$it" > /dev/null || skip "there is no $it"
done
apart='unshare --mount --propagation private --pid --fork --kill-child --mount-proc'
$apart true 2> /dev/null || skip 'there can be no mount namespace here'
LOCKD=${LOCKD:-$PWD/crates/lockd/out/lockd}
export LOCKD
[ -x "$LOCKD" ] || skip "there is no program at $LOCKD"
if [ -z "${LOCKD_MOUNT:-}" ]; then
    programs/mount/build
fi
status=0
timeout -s KILL 900 $apart python3 -B -m tests.mount.programs "$@" || status=$?
[ "$status" -ne 137 ] || echo 'mount/programs: killed after 900 seconds'
exit "$status"
